
// The time line of a port: its chapters along its frames.
import { count, draw, make, number } from "./dom.js";

const LEFT = 10;
const WIDTH = 980;
const LEAST_WIDTH = 3;

const isGap = it => it.missing !== undefined;
const isDrawn = it => isGap(it) || it.first !== null;

/** The words for missing chapters. */
export function missingText([first, last]) {
    return first === last ? `chapter ${number(first)} is missing` : `chapters ${number(first)} to ${number(last)} are missing`;
}

// The first and the last frame of a port's chapters; null without a map.
function rangeOf(rows) {
    const mapped = rows.filter(it => !isGap(it) && it.first !== null);
    if (mapped.length === 0) return null;
    return { first: mapped[0].first, last: mapped[mapped.length - 1].last };
}

// Returns the place of a frame in the drawing. Frames may have more digits than a Number.
function placing({ first, last }) {
    const whole = Number(BigInt(last) - BigInt(first)) + 1;
    return frame => LEFT + (WIDTH * Math.min(Math.max(Number(BigInt(frame) - BigInt(first)) / whole, 0), 1));
}

// The blocks of a port: a chapter each, or several that are too narrow to be drawn apart.
function blocksOf(rows, place) {
    const blocks = [];
    let end = LEFT;
    for (const row of rows.filter(isDrawn)) {
        const begin = isGap(row) ? end : place(row.first);
        const block = { begin, end: isGap(row) ? null : place(BigInt(row.last) + 1n), rows: [row] };
        const before = blocks[blocks.length - 1];
        if (before && canJoin(before, block)) Object.assign(before, { end: Math.max(before.end, block.end), rows: [...before.rows, row] });
        else blocks.push(block);
        end = block.end ?? end;
    }
    return blocks;
}

// Chapters are drawn as one while the first of them is narrow.
function canJoin(before, block) {
    return before.end !== null && block.end !== null && block.end - before.begin < LEAST_WIDTH;
}

function blockText({ rows }) {
    if (isGap(rows[0])) return missingText(rows[0].missing);
    const [one, last] = [rows[0], rows[rows.length - 1]];
    const chapters = rows.length === 1 ? `chapter ${number(one.chapter)}` : `chapters ${number(one.chapter)} to ${number(last.chapter)}`;
    return `${chapters}: frames ${number(one.first)} to ${number(last.last)}${failureText(rows)}`;
}

const failuresOf = rows => rows.reduce((sum, it) => sum + (it.failures ?? 0), 0);
const failureText = rows => (failuresOf(rows) === 0 ? "" : `, ${count(failuresOf(rows), "line failure")}`);

// Draws a chapter, or the place at which some are missing, which ends where the next chapter begins.
function drawBlock(block, next) {
    const isMissing = block.end === null;
    const end = isMissing ? Math.max(next?.begin ?? LEFT + WIDTH, block.begin + LEAST_WIDTH) : block.end;
    const title = draw("title", {}, blockText(block));
    const width = Math.max(end - block.begin - 0.8, 0.8);
    const drawn = [draw("rect", { x: block.begin, y: 16, width, height: 30, class: isMissing ? "missing" : "chapter" }, title)];
    if (failuresOf(block.rows) > 0) drawn.push(failureMark(block.begin + width / 2, blockText(block)));
    return drawn;
}

const failureMark = (x, text) => draw("line", { x1: x, y1: 2, x2: x, y2: 13, class: "failure" }, draw("title", {}, text));

// The words for a port, which stand above its drawing.
function portText(port, rows, { first, last }) {
    const gaps = rows.filter(isGap);
    const chapters = count(rows.length - gaps.length, "chapter");
    const missing = gaps.length === 0 ? "no chapter is missing between them" : `${count(gaps.length, "gap")} where chapters are missing`;
    return `Port ${port}: frames ${number(first)} to ${number(last)} in ${chapters}, ${missing}, ${count(failuresOf(rows), "line failure")}.`;
}

/** Draws the chapters of a port, with the words for it. */
export function timelineOf(port, rows) {
    const range = rangeOf(rows);
    if (range === null) return make("p", {}, `Port ${port} has no map in its ${count(rows.length, "chapter")}.`);
    const words = portText(port, rows, range);
    const blocks = blocksOf(rows, placing(range));
    const drawn = blocks.flatMap((it, place) => drawBlock(it, blocks[place + 1]));
    const ends = make("div", { class: "ends", "aria-hidden": "true" }, ...[range.first, range.last].map(it => make("span", {}, number(it))));
    const whole = draw("svg", { class: "line", viewBox: "0 0 1000 50", preserveAspectRatio: "none", role: "img", "aria-label": words }, ...drawn);
    return make("figure", {}, make("figcaption", {}, words), whole, ends);
}
