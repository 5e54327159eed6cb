
// The map of a frame: its picture, its structures with their reasons, and its certificate.
import { at, count, make, number } from "./dom.js";
import { CLASSES } from "./allocs.js";
import { certificateText, checkFileOf, memberColumns, problemOf, stepList } from "./certified.js";
import { objectsOf } from "./json.js";
import { pictureOf } from "./pictures.js";
import { reasonSentences, reasonsOf, wholeSurplus } from "./reasons.js";
import { EACH_ALLOC, FORM, NotFound } from "./recording.js";
import { SortedTable, columnHelp, numberColumn, wordColumn } from "./sorted.js";

const CERTIFIED = `Level and saturated Alloc-IDs of a class determine each surplus rate, and a map has only one certificate.
Each step below has its numbers filled in, and the script of this page computes it anew.`;

// Asks for the reasons of a map, or the sentence about why there are none.
async function askReasons(recording, port, frame) {
    try {
        const { text } = await recording.ask("pon_web_why", [port, frame, EACH_ALLOC, FORM.json]);
        return { map: reasonsOf(objectsOf(text)), missing: null };
    } catch (error) {
        if (error instanceof NotFound) return { map: null, missing: error.message };
        throw error;
    }
}

/** Asks for a map: its reasons, and its picture. Where the reasons are missing, the picture of another place may be there. */
export async function mapAt(recording, port, frame, otherwise) {
    const { map, missing } = await askReasons(recording, port, frame);
    const place = map ?? otherwise;
    if (place === null) throw new NotFound(missing);
    try {
        const { bytes } = await recording.ask("pon_web_picture", [place.port, BigInt(place.frame)]);
        return { port: place.port, frame: BigInt(place.frame), map, missing, svg: bytes };
    } catch (error) {
        throw missing && error instanceof NotFound ? new NotFound(missing) : error;
    }
}

/** What a map grants, in a sentence. */
export function mapText({ port, frame, chapter, entry, allocs }) {
    const words = allocs.reduce((whole, it) => whole + it.structure.grant, 0);
    const bursts = allocs.filter(it => it.structure.start !== null).length;
    const parts = `${count(allocs.length, "structure")} and ${count(bursts, "burst")}`;
    const where = `The map of frame ${number(frame)} at port ${port} is entry ${number(entry)} of chapter ${number(chapter)}`;
    return `${where}. It grants ${count(words, "word")} of 9,720 in ${parts}.`;
}

/** The columns of the structures of a map. */
export const STRUCTURE_COLUMNS = [
    { ...numberColumn("Alloc-ID", "", it => it.alloc), shown: it => String(it.alloc), label: it => `Alloc-ID ${it.alloc}` },
    numberColumn("ONU", "", it => it.onu),
    wordColumn("Class", it => CLASSES[it.descriptor.class]),
    { ...numberColumn("Burst starts", "word", it => it.structure.start), shown: it => (it.structure.start === null ? "goes on" : number(it.structure.start)) },
    numberColumn("GrantSize", "words", it => it.structure.grant, "The words of the grant and one for a report"),
    numberColumn("Payload", "words", it => it.rates.words, "The words of the grant: what is owed, divided by 256 and rounded down"),
    numberColumn("Left", "words", it => it.report?.left ?? null, "The words of the counted report that were not granted before this map"),
    numberColumn("Load", "kbit/s", it => it.rates.load, "256 kbit/s for each word that is left"),
    numberColumn("Guaranteed", "kbit/s", it => it.rates.guaranteed, "The load, but at least the fixed rate and at most the sold rate"),
    numberColumn("Weight", "", it => it.share?.weight ?? null, "The number in proportion to which it shares surplus"),
    numberColumn("Cap", "kbit/s", it => it.share?.cap ?? null, "The most surplus that it can use"),
    numberColumn("Surplus", "kbit/s, rounded down", it => wholeSurplus(it.share), "Its part of the surplus of its class"),
    numberColumn("Carry", "kbit/s", it => it.rates.carry, "What whole words left of its rates in the map before"),
    numberColumn("Owed", "kbit/s", it => it.rates.owed, "Carry, guaranteed rate and whole surplus together"),
];

/** The reasons of an Alloc-ID as a list. */
export const reasonList = it => make("ol", {}, ...reasonSentences(it).map(text => make("li", {}, text)));

// The structures of a map; one that is opened shows its reasons below them.
function structures(map) {
    const place = make("div", { class: "opened", "aria-live": "polite" });
    const show = it => place.replaceChildren(make("h4", {}, `Why Alloc-ID ${it.alloc} was granted ${count(it.rates.words, "word")}`), reasonList(it));
    const table = new SortedTable("The structures of the map. Choose an Alloc-ID to see from what its words follow.", STRUCTURE_COLUMNS, show);
    table.show(map.allocs);
    if (map.allocs.length > 0) table.open(map.allocs[0]);
    return [table.element, columnHelp(STRUCTURE_COLUMNS), place];
}

// Takes the problem of a class to the part of the page that answers check files.
function checkButton(problem) {
    const button = make("button", { type: "button" }, "Have it checked as a check file");
    button.onclick = () => {
        at("problem").value = checkFileOf(problem);
        at("problem").dispatchEvent(new Event("input"));
        at("problem").focus();
    };
    return button;
}

function certificate(map, kind) {
    const problem = problemOf(map, kind);
    const head = make("h4", {}, kind === "na" ? "Non-assured class" : "Best-effort class");
    const steps = [head, make("p", {}, certificateText(problem)), stepList(map, problem)];
    if (problem.members.length === 0) return steps;
    const table = new SortedTable(`The members of the ${kind === "na" ? "non-assured" : "best-effort"} class`, memberColumns(problem));
    table.show(problem.members);
    return [...steps, table.element, checkButton(problem)];
}

/** Shows a map. */
export function mapView({ port, frame, map, missing, svg }) {
    const alt = `The time line of the map of frame ${number(frame)} at port ${port}`;
    const picture = make("div", { class: "wide" }, pictureOf(svg, alt));
    if (map === null) return [make("p", {}, missing), picture];
    const head = text => make("h3", {}, text);
    return [
        make("p", {}, mapText(map)), picture,
        head("Structures and reasons"), ...structures(map),
        head("The certificate, checked by hand"), make("p", {}, CERTIFIED), ...certificate(map, "na"), ...certificate(map, "be"),
    ];
}
