
// A report to save: one file with all that is seen, which runs nothing and prints on paper.
import { at, count, make, number, table } from "./dom.js";
import { ALLOC_COLUMNS, allocSentences } from "./allocs.js";
import { framesText, partialText } from "./allocview.js";
import { certificateText, memberColumns, problemOf, stepList } from "./certified.js";
import { chapterColumns, timelinesOf, totalText } from "./chapters.js";
import { curvesText } from "./curves.js";
import { STRUCTURE_COLUMNS, mapText } from "./mapview.js";
import { MEANS, MEANS_NOT, verdictOf } from "./verdicts.js";

const MOST_ROWS = 1000;
const REPORT_POLICY = "default-src 'none'; style-src 'unsafe-inline'; img-src data:";
const REPORT_STYLE = `
:root { color-scheme: light dark; --ink: #18212b; --soft: #4a5766; --line: #c9d2dc; --ground: #ffffff; --blue: #1c5d99; --bad: #a8231b; --warn: #7a4b00 }
@media (prefers-color-scheme: dark) { :root { --ink: #e8edf2; --soft: #a9b5c2; --line: #3a4653; --ground: #10151b; --blue: #7db8ee; --bad: #f3948c; --warn: #e4b95e } }
body { max-width: 76rem; margin: 0 auto; padding: 1rem; background: var(--ground); color: var(--ink); font: 1rem/1.5 system-ui, sans-serif }
h1 { font-size: 1.6rem } h2 { font-size: 1.2rem; margin-top: 2rem } h3, h4 { font-size: 1rem }
p, li { max-width: 46rem } code { overflow-wrap: anywhere } figure { margin: 1rem 0 }
table { border-collapse: collapse; font-size: .85rem } caption { text-align: left; color: var(--soft) } thead { display: table-header-group }
th, td { padding: .2rem .6rem .2rem 0; text-align: right; vertical-align: bottom; border-bottom: 1px solid var(--line); font-variant-numeric: tabular-nums }
td { white-space: nowrap } th:first-child, td:first-child { text-align: left } .wide { overflow-x: auto } img, svg { display: block; width: 100%; max-width: 68rem; height: auto }
img { background: #ffffff } svg { height: 3.2rem; border: 1px solid var(--line) } .ends { display: flex; justify-content: space-between; max-width: 68rem; color: var(--soft) }
.chapter { fill: var(--blue) } .missing { fill: none; stroke: var(--bad); stroke-width: 2; stroke-dasharray: 5 3 } .failure { stroke: var(--bad); stroke-width: 4 }
.missing, .failure { vector-effect: non-scaling-stroke }
@page { margin: 12mm }
@media print { body { padding: 0; max-width: none } table { font-size: 6.5pt } th, td { padding-right: .35rem } tr, figure { break-inside: avoid } .wide { overflow: visible } }
`;

const GOOD_IS_NOT = "It does not say that reports were true, that ONUs obeyed, or that no chapter is missing.";
const MADE_BY = "A page in a browser made this report from the answers of a module with the SHA-256 ";
const IN_SOURCE = "The auditor is proved in its source.";
const NOT_PROVED = "The way from there into the browser is not proved";
const WAY = ": LLVM's compiler for WebAssembly, a heap of about 100 lines of C, the JavaScript of the page, and the browser.";

// A table of rows without buttons; a very long one is cut, with a sentence.
function plainTable(caption, columns, rows) {
    const heads = columns.map(it => (it.unit ? `${it.head} (${it.unit})` : it.head));
    const made = table(caption, heads, rows.slice(0, MOST_ROWS).map(row => columns.map(it => it.shown(row))));
    if (rows.length <= MOST_ROWS) return [made];
    return [made, make("p", {}, `These are the first ${number(MOST_ROWS)} of ${count(rows.length, "row")}. The program lists them all.`)];
}

// A picture inside the file.
function inside(bytes, alt) {
    let text = "";
    for (const it of bytes) text += String.fromCharCode(it);
    return make("div", { class: "wide" }, make("img", { alt, src: `data:image/svg+xml;base64,${btoa(text)}` }));
}

const say = (tag, text) => make(tag, {}, text);
const listOf = texts => make("ul", {}, ...texts.map(it => say("li", it)));

// The verdict, and what it means in two sentences.
function verdictPart(line) {
    const { good, word, says } = verdictOf(line);
    const second = good ? GOOD_IS_NOT : "What follows is what could be read, up to the first fault of the format.";
    const means = good ? [say("h3", "What good means"), listOf(MEANS), say("h3", "What it does not mean"), listOf(MEANS_NOT)] : [];
    return [say("h1", `Verdict: ${word}`), make("p", {}, say("code", line.trim())), say("p", `${says} ${second}`), ...means];
}

function filesPart({ files }) {
    const rows = files.map(it => [it.name, number(it.size), it.sum ?? "not computed"]);
    return [say("h2", files.length > 1 ? "The segments, in this order" : "The file"), table("Names, sizes and SHA-256", ["Name", "Bytes", "SHA-256"], rows)];
}

// A name as one word of a command.
const shellWord = name => (/^[\w.][\w.-]*$/.test(name) ? name : `'${name.replaceAll("'", "'\\''")}'`);

// How anyone checks the files again, and what the page does not prove.
function checkPart({ files }) {
    const names = files.map(it => shellWord(it.name)).join(" ");
    const command = files.length > 1 ? `olt audit --joined ${names}` : `olt audit ${names}`;
    return [
        say("h2", "How to check it again"),
        make("p", {}, "Anyone who has the program judges the same bytes with ", say("code", command), ". Its first line is the one above."),
        make("p", {}, "Whether they are the same bytes is seen from ", say("code", `sha256sum ${names}`), "."),
        make("p", {}, MADE_BY, say("code", at("sum").textContent), `, version ${at("version").textContent}. ${IN_SOURCE} `, say("b", NOT_PROVED), WAY),
    ];
}

function chaptersPart(chapters) {
    if (chapters === null) return [];
    const rows = plainTable("The chapters, in the order of the recording", chapterColumns(null), chapters.chapters);
    return [say("h2", "Chapters"), say("p", totalText(chapters.total)), ...timelinesOf(chapters.chapters), ...(chapters.chapters.length > 0 ? rows : [])];
}

// The table of Alloc-IDs in two parts, each narrow enough for paper.
function allocsPart(found) {
    if (found === null) return [];
    const [rates, laws] = [ALLOC_COLUMNS.slice(0, 11), [...ALLOC_COLUMNS.slice(0, 2), ...ALLOC_COLUMNS.slice(11)]];
    const tables = [plainTable("Rates", rates, found.allocs), plainTable("Windows, waits and what is sure at the end", laws, found.allocs)];
    return [say("h2", "Alloc-IDs"), say("p", `Over ${framesText(found)}. ${partialText(found)}`), ...tables.flat()];
}

function onePart({ one, frames, curves }) {
    if (one === null) return [];
    const drawn = curves === null ? [] : [say("p", curvesText(curves)), inside(curves.svg, curvesText(curves))];
    return [say("h2", `Alloc-ID ${one.alloc} at port ${one.port}`), say("p", `Its numbers are those over ${frames}.`), listOf(allocSentences(one)), ...drawn];
}

function classPart(map, kind) {
    const problem = problemOf(map, kind);
    const head = [say("h3", certificateText(problem)), stepList(map, problem)];
    return problem.members.length === 0 ? head : [...head, ...plainTable("Its members", memberColumns(problem), problem.members)];
}

function mapPart(shown) {
    if (shown === null) return [];
    const { port, frame, map, missing, svg } = shown;
    const head = [say("h2", `The map of frame ${number(frame)} at port ${port}`), say("p", map === null ? missing : mapText(map)), inside(svg, "The time line of the map")];
    if (map === null) return head;
    return [...head, ...plainTable("Its structures", STRUCTURE_COLUMNS, map.allocs), ...classPart(map, "na"), ...classPart(map, "be")];
}

/** The report as the text of an HTML file. */
export function reportOf(seen) {
    const { recording, verdict, chapters, found, map } = seen;
    const made = document.implementation.createHTMLDocument("Sezhimow: a recording that was judged");
    made.documentElement.lang = "en";
    const metas = [{ charset: "utf-8" }, { name: "viewport", content: "width=device-width, initial-scale=1" }, { "http-equiv": "Content-Security-Policy", content: REPORT_POLICY }];
    made.head.prepend(...metas.map(it => make("meta", it)));
    made.body.append(...verdictPart(verdict), ...filesPart(recording), ...checkPart(recording));
    made.body.append(...chaptersPart(chapters), ...allocsPart(found), ...onePart(seen), ...mapPart(map));
    return `<!doctype html>\n${made.documentElement.outerHTML.replace("</head>", () => `<style>${REPORT_STYLE}</style>\n</head>`)}\n`;
}

/** Saves the report of what is seen. */
export function saveReport(seen) {
    const blob = new Blob([reportOf(seen)], { type: "text/html" });
    const link = make("a", { download: "judged.html", href: URL.createObjectURL(blob) });
    document.body.append(link);
    link.click();
    link.remove();
    at("kept").textContent = `Saved as judged.html, ${count(blob.size, "byte")}.`;
}
