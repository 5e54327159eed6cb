
// The Alloc-IDs of a recording: what each was sold, asked for and got.
import { count, number } from "./dom.js";
import { numberColumn, wordColumn } from "./sorted.js";

const KBITS_A_WORD = 256;

/** Milliseconds of a frame. */
export const MS_A_FRAME = 0.125;

/** The names of the classes. */
export const CLASSES = { none: "none", na: "non-assured", be: "best effort" };

// The mean of a sum in frames, to a tenth.
const mean = (sum, frames) => Math.round((10 * Number(sum)) / Number(frames)) / 10;

/** The Alloc-IDs of the rows of an answer: the sums of each, its means, and its descriptors. */
export function allocsOf(rows) {
    const found = [];
    let descriptors = [];
    for (const row of rows) {
        if (row.descriptor) descriptors.push(row);
        if (row.frames === undefined) continue;
        found.push({ ...row, ...meansOf(row), descriptors, ...lastOf(descriptors) });
        descriptors = [];
    }
    return found;
}

function meansOf({ frames, load_sum, owed_sum, granted_words, surplus_sum }) {
    const granted = BigInt(granted_words) * BigInt(KBITS_A_WORD);
    return { load: mean(load_sum, frames), owed: mean(owed_sum, frames), granted: mean(granted, frames), surplus: mean(surplus_sum, frames) };
}

// What the last descriptor sells.
function lastOf(descriptors) {
    const { fixed, assured, max, class: kind } = descriptors[descriptors.length - 1].descriptor;
    return { kind, promised: fixed + assured, most: max };
}

/** The entries that may not follow, each with its chapter and port. */
export const refusedOf = rows => rows.filter(it => it.refused !== undefined);

const orNull = value => value ?? null;

/** The columns of Alloc-IDs. */
export const ALLOC_COLUMNS = [
    { ...numberColumn("Alloc-ID", "", it => it.alloc), shown: it => String(it.alloc), label: it => `Alloc-ID ${it.alloc} at port ${it.port}` },
    numberColumn("Port", "", it => it.port),
    numberColumn("ONU", "", it => it.onu, "The ONU of the last of these maps"),
    wordColumn("Class", it => CLASSES[it.kind], "How it shares surplus, by its last descriptor"),
    numberColumn("Sold", "kbit/s", it => it.promised, "Fixed and assured rate together, by its last descriptor"),
    numberColumn("Maximum", "kbit/s", it => it.most, "The most that is granted, by its last descriptor"),
    numberColumn("Maps", "", it => it.frames, "The maps in which it is"),
    numberColumn("Requested", "kbit/s, mean", it => it.load, "The load: what its ONU had reported and was not yet granted"),
    numberColumn("Guaranteed", "kbit/s, mean", it => it.owed, "The load, but at least the fixed rate and at most the sold rate"),
    numberColumn("Granted", "kbit/s, mean", it => it.granted, "The granted rate"),
    numberColumn("Surplus", "kbit/s, mean", it => it.surplus, "The part of the granted rate that is surplus"),
    numberColumn("Below", "maps", it => it.below, "Maps that granted fewer words than the guaranteed rate makes"),
    numberColumn("Idle", "frames", it => it.idle, "The longest run of frames without a grant"),
    numberColumn("Sold maps: sold", "words", it => it.sold.words, "Words sold in the maps before which at least the sold rate was reported"),
    numberColumn("Sold maps: granted", "words", it => it.sold.granted, "Words granted in the maps before which at least the sold rate was reported"),
    numberColumn("Worst window", "words short", it => it.sold.short, "The most words by which any maps in a row fell short of their guaranteed rates"),
    numberColumn("Longest wait", "maps", it => orNull(it.sold.wait), "The most sold maps that it took to get a word"),
    numberColumn("Bound of it", "maps", it => orNull(it.sold.bound), "The sold maps that it may take to get a word"),
    numberColumn("Sure: guaranteed", "kbit/s", it => orNull(it.sure?.guaranteed), "What is certain at the end, whatever others report"),
    numberColumn("Sure: surplus", "kbit/s", it => orNull(it.sure?.surplus), "The surplus that is certain at the end, whatever others report"),
    numberColumn("Sure: wait", "maps", it => orNull(it.sure?.wait), "The maps in which a word is certain at the end"),
];

const isBelow = it => it.below > 0 || it.sold.short > 0;

/** The filters that a person chooses. */
export const FILTERS = {
    all: () => true,
    below: isBelow,
    late: it => it.sold.bound !== null && it.sold.wait > it.sold.bound,
    idle: it => it.idle > 0,
    nothing: it => Number(it.granted_words) === 0,
};

/** Whether an Alloc-ID passes the filters. */
export function passes(it, { port, text, kind, only }) {
    const named = `${it.alloc}`.includes(text) || `onu ${it.onu}`.includes(text.toLowerCase());
    return (port === "" || it.port === Number(port)) && named && (kind === "" || it.kind === kind) && FILTERS[only](it);
}

const time = (frames, thing) => `${count(frames, thing)} (${number(frames * MS_A_FRAME)} ms)`;

function descriptorText({ from, onu, weight, descriptor: { fixed, assured, max, class: kind } }) {
    const share = kind === "none" ? "It shares no surplus" : `It shares the ${CLASSES[kind].replace(" ", "-")} surplus with the weight ${number(weight)}`;
    const rates = `fixed rate ${number(fixed)}, assured rate ${number(assured)}, maximum ${number(max)} kbit/s`;
    return `From frame ${number(from)} on, at ONU ${onu}: ${rates}. ${share}.`;
}

function waitText({ wait, bound }) {
    const took = wait === null ? "In them it got no word" : `It took at most ${number(wait)} of these maps to get a word`;
    return `${took}, and may take ${number(bound)}.`;
}

function soldText({ sold }) {
    if (sold.bound === null) return "The sold rate was reported before none of these maps, so no wait is counted.";
    const words = `${number(sold.words)} words were sold and ${number(sold.granted)} granted`;
    return `In the maps before which at least the sold rate was reported, ${words}. ${waitText(sold)}`;
}

function sureText({ sure }) {
    if (!sure) return "It is removed at the end, so nothing is certain for it then.";
    const wait = sure.wait === null ? "no word is certain" : `it waits at most ${time(sure.wait, "map")} for a word`;
    const rates = `${number(sure.guaranteed)} kbit/s guaranteed, ${number(sure.surplus)} kbit/s of surplus`;
    return `Whatever others report, this is certain for it at the end while it reports enough: ${rates}, and ${wait}.`;
}

function meansText({ frames, load, owed, granted, surplus }) {
    const asked = `In ${count(frames, "map")} it requested ${number(load)} kbit/s on average and was guaranteed ${number(owed)}.`;
    return `${asked} It was granted ${number(granted)} kbit/s. Its surplus rate was ${number(surplus)} kbit/s on average.`;
}

function windowText({ short }) {
    if (short === 0) return "No maps in a row fell short of their guaranteed rates by a word.";
    return `In the worst window, maps in a row fell short of their guaranteed rates by ${count(short, "word")}.`;
}

/** What the numbers of an Alloc-ID say, in sentences. */
export function allocSentences(it) {
    return [
        ...it.descriptors.map(descriptorText),
        meansText(it),
        it.below > 0 ? `${number(it.below)} of these maps granted fewer words than the guaranteed rate makes.` : "No map granted fewer words than the guaranteed rate makes.",
        windowText(it.sold),
        it.idle > 0 ? `The longest run without a grant is ${time(it.idle, "frame")}.` : "Each map granted it a word.",
        soldText(it),
        sureText(it),
    ];
}
