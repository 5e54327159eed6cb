
// The part of the page that lists Alloc-IDs.
import { at, count, make, number } from "./dom.js";
import { ALLOC_COLUMNS, allocsOf, passes, refusedOf } from "./allocs.js";
import { objectsOf } from "./json.js";
import { Part } from "./parts.js";
import { ANY_PORT, EACH_ALLOC, FORM, LAST_MAP, wholeIn } from "./recording.js";
import { SortedTable, columnHelp } from "./sorted.js";

const ALLOC_CAPTION = "A head sorts the table. An Alloc-ID shows its curves and reasons.";
const FILTER_FIELDS = ["allocs-port", "allocs-text", "allocs-class", "allocs-only"];

/** Says which maps the sums of Alloc-IDs leave out, if any. */
export function partialText({ allocs, refused }) {
    const stops = refused.map(it => `at port ${it.port} in chapter ${number(it.chapter)} at entry ${number(it.refused)}`);
    if (stops.length > 0) return `The sums stop at the first entry that may not follow: ${stops.join("; ")}.`;
    return allocs.some(it => it.partial) ? "The recording is not good, so these are sums of what could be read." : "";
}

// Asks for the Alloc-IDs of the frames that the fields name.
async function askAllocs(recording) {
    const range = { from: wholeIn("allocs-from", 0n), to: wholeIn("allocs-to", LAST_MAP) };
    const { text } = await recording.ask("pon_web_rates", [ANY_PORT, EACH_ALLOC, range.from, range.to, FORM.json]);
    const rows = objectsOf(text);
    return { ...range, allocs: allocsOf(rows), refused: refusedOf(rows) };
}

/** The frames of a question, in words. */
export function framesText({ from, to }) {
    if (to === LAST_MAP) return from === 0n ? "all frames" : `frame ${number(from)} and all later ones`;
    return `frames ${number(from)} to ${number(to)}`;
}

/** The list of Alloc-IDs. One that is opened is handed to a function. */
export class AllocView {
    constructor(opened) {
        this.part = new Part("allocs");
        this.table = new SortedTable(ALLOC_CAPTION, ALLOC_COLUMNS, opened);
        this.found = null;
        at("allocs-frames").onsubmit = event => {
            event.preventDefault();
            this.ask();
        };
        for (const id of FILTER_FIELDS) at(id).oninput = () => this.filter();
    }

    /** Lists the Alloc-IDs of a recording. */
    begin(recording) {
        this.recording = recording;
        for (const id of ["allocs-from", "allocs-to", "allocs-text", "allocs-class"]) at(id).value = "";
        at("allocs-only").value = "all";
        at("allocs-port").replaceChildren(make("option", { value: "" }, "each"));
        return this.ask();
    }

    end() {
        this.part.clear();
        this.found = null;
    }

    ask() {
        this.found = null;
        return this.part.ask(this.recording, "Summing up the maps:", askAllocs, it => this.answer(it));
    }

    answer(found) {
        this.found = found;
        this.offerPorts();
        this.summary = make("p", { role: "status" });
        const partial = partialText(found);
        this.part.show(this.summary, ...(partial ? [make("p", {}, partial)] : []), this.table.element, columnHelp(ALLOC_COLUMNS));
        this.filter();
    }

    offerPorts() {
        const was = at("allocs-port").value;
        const ports = [...new Set(this.found.allocs.map(it => it.port))];
        at("allocs-port").replaceChildren(make("option", { value: "" }, "each"), ...ports.map(it => make("option", { value: String(it) }, String(it))));
        at("allocs-port").value = ports.includes(Number(was)) ? was : "";
    }

    // Shows the Alloc-IDs that pass the filters.
    filter() {
        if (this.found === null) return;
        const [port, text, kind, only] = FILTER_FIELDS.map(it => at(it).value.trim());
        const rows = this.found.allocs.filter(it => passes(it, { port, text, kind, only }));
        const all = count(this.found.allocs.length, "Alloc-ID");
        this.summary.textContent = `${rows.length === this.found.allocs.length ? all : `${number(rows.length)} of ${all}`}, over ${framesText(this.found)}.`;
        this.table.show(rows);
    }
}
