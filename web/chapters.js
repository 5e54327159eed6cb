
// The chapters of a recording: a time line for each port, and a table.
import { count, make, number } from "./dom.js";
import { SortedTable, numberColumn, wordColumn } from "./sorted.js";
import { missingText, timelineOf } from "./timeline.js";

const CAUSES = { 1: "operator", 2: "read", 3: "write", 4: "bad record", 5: "input ended" };

/** The chapters, and the totals, of the rows of an answer. */
export function chaptersOf(rows) {
    return { chapters: rows.filter(it => it.port !== undefined), total: rows.find(it => it.chapters !== undefined) };
}

/** The ports of chapters. */
export const portsOf = chapters => [...new Set(chapters.map(it => it.port))].sort((a, b) => a - b);

const timeText = seconds => (seconds < 1 ? `${number(1000 * seconds)} ms` : `${number(seconds)} s`);

/** The sentence about all chapters. */
export function totalText(total) {
    if (!total?.chapters) return "No whole chapter can be read.";
    const { chapters, maps, reports, failures, seconds, bytes } = total;
    return `${count(chapters, "chapter")} with ${count(maps, "map")}, ${count(reports, "report")} and ${count(failures, "line failure")}: ${timeText(seconds)} of the line in ${count(bytes, "byte")}.`;
}

function causesText(causes) {
    const named = ([cause, times]) => `${number(times)} of cause ${cause}${CAUSES[cause] ? ` (${CAUSES[cause]})` : ""}`;
    return Object.entries(causes ?? {}).map(named).join(", ") || "-";
}

// A column of frames, each a button that opens its map.
function frameColumn(head, key, openMap) {
    const shown = row => {
        if ((row[key] ?? null) === null) return "-";
        const button = make("button", { type: "button", class: "row", title: "Show this map", "aria-label": `Map of frame ${number(row[key])} at port ${row.port}` }, number(row[key]));
        button.onclick = () => openMap(row.port, row[key]);
        return button;
    };
    return { head, value: row => row[key] ?? null, shown };
}

const chapterText = row => (row.missing ? missingText(row.missing) : number(row.chapter));

/** The columns of chapters; a first or last frame is a button if there is a function that opens its map. */
export function chapterColumns(openMap) {
    const plain = (head, unit, key) => numberColumn(head, unit, row => row[key] ?? null);
    const frame = (head, key) => (openMap ? frameColumn(head, key, openMap) : plain(head, "", key));
    return [
        plain("Port", "", "port"),
        { head: "Chapter", word: true, value: row => row.chapter ?? row.missing[0], shown: chapterText },
        frame("First frame", "first"),
        frame("Last frame", "last"),
        plain("Maps", "", "maps"),
        plain("Reports", "", "reports"),
        plain("Failures", "", "failures"),
        wordColumn("Causes", row => causesText(row.causes)),
        plain("Alloc-IDs", "at its opening", "allocs"),
        plain("Alloc-IDs", "at its end", "allocs_end"),
        plain("ONUs", "at its end", "onus_end"),
        plain("Length", "bytes", "bytes"),
        numberColumn("Time", "ms", row => (row.seconds === undefined ? null : 1000 * row.seconds)),
    ];
}

/** The time lines of all ports. */
export const timelinesOf = chapters => portsOf(chapters).map(port => timelineOf(port, chapters.filter(it => it.port === port)));

const KEYS = "A block is a chapter, or several that are too short to be drawn apart. A dashed place stands for missing chapters, and a mark above a block for line failures somewhere in it.";

/** Shows chapters; a frame of the table opens its map. */
export function chapterView({ chapters, total }, openMap) {
    if (chapters.length === 0) return [make("p", {}, totalText(total))];
    const table = new SortedTable("The chapters, in the order of the recording. A frame opens its map.", chapterColumns(openMap));
    table.show(chapters);
    return [make("p", {}, totalText(total)), ...timelinesOf(chapters), make("p", { class: "help" }, KEYS), table.element];
}
