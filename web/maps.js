
// Bandwidth maps of the upstream frame.
import { count, draw, make, number, table } from "./dom.js";

const FRAME_WORDS = 9720;
const WORD_RATE = 256;
const NO_START = 0xffff;
const COLOURS = ["#3b82c4", "#e08a1e", "#3f9b5f", "#a05bc0", "#c8503f", "#1f9aa0", "#a88a12", "#d0609a"];

// Reads a structure of 8 bytes.
function structureOf(view, at) {
    const id = view.getUint16(at);
    return { id: id >> 2, asks: (id >> 1) & 1, start: view.getUint16(at + 2), grant: view.getUint16(at + 4) };
}

/** Reads a map: its structures, each with its burst and its first word. */
export function mapOf(hex) {
    const bytes = Uint8Array.from(hex.match(/../g), it => parseInt(it, 16));
    const view = new DataView(bytes.buffer);
    const structures = [];
    let next = 0;
    let burst = -1;
    for (let at = 4; at + 8 <= bytes.length; at += 8) {
        const read = structureOf(view, at);
        if (read.start !== NO_START) {
            burst += 1;
            next = read.start + 1;
        }
        structures.push({ ...read, burst, first: next });
        next += read.grant;
    }
    return structures;
}

/** The map lines among replies: each with its frame and its structures. */
export function mapsIn(replies) {
    const found = replies.matchAll(/^map (\d+) ([0-9a-f]+)$/gm);
    return Array.from(found, it => ({ frame: it[1], structures: mapOf(it[2]) }));
}

/** The ONU of each Alloc-ID that is admitted in lines. */
export function onusIn(lines) {
    const onus = new Map();
    for (const it of lines.matchAll(/^\s*\d+\s+admit\s+(\d+)\s+(\d+)\s/gm)) onus.set(Number(it[2]), Number(it[1]));
    return onus;
}

const colourOf = place => COLOURS[place % COLOURS.length];

// Draws the words of the frame below its bursts, with their times.
function ticks() {
    const drawn = [];
    for (let part = 0; part <= 6; part += 1) {
        const words = (FRAME_WORDS / 6) * part;
        const x = 20 + words / 10;
        const anchor = part === 0 ? "start" : part === 6 ? "end" : "middle";
        drawn.push(draw("line", { x1: x, y1: 8, x2: x, y2: 66, class: "tick" }));
        drawn.push(draw("text", { x, y: 80, "text-anchor": anchor }, `${words}`));
        drawn.push(draw("text", { x, y: 94, "text-anchor": anchor }, `${((words * 125) / FRAME_WORDS).toFixed(1)} µs`));
    }
    return drawn;
}

// Draws a structure in the frame, with its name if that has room.
function block(it, place) {
    const width = Math.max(it.grant / 10, 1.5);
    const x = 20 + it.first / 10;
    const title = draw("title", {}, `Alloc-ID ${it.id}: ${count(it.grant, "word")} from word ${it.first} on`);
    const drawn = [draw("rect", { x, y: 18, width, height: 40, fill: colourOf(place) }, title)];
    if (width > 40) drawn.push(draw("text", { x: x + width / 2, y: 42, "text-anchor": "middle" }, `${it.id}`));
    return drawn;
}

/** Draws the frame of a map. */
export function frameOf(map) {
    const words = map.structures.reduce((sum, it) => sum + it.grant, 0);
    const name = `Frame ${map.frame}: ${count(map.structures.length, "grant")}, ${count(words, "word")} of ${number(FRAME_WORDS)}`;
    return draw("svg", { class: "frame", viewBox: "0 0 1012 100", role: "img", "aria-label": name }, ...ticks(), ...map.structures.flatMap(block));
}

/** The structures of a map as a table. */
export function structureTable(map, onus) {
    const rows = map.structures.map((it, place) => {
        const key = make("span", { class: "key" });
        key.style.background = colourOf(place);
        const rate = WORD_RATE * (it.grant - it.asks);
        const start = it.start === NO_START ? "goes on" : number(it.start);
        const onu = `${onus.get(it.id) ?? "-"}`;
        return [make("span", {}, key, `${it.id}`), onu, start, number(it.first), number(it.grant), it.asks ? "yes" : "no", number(rate)];
    });
    return table(`The map of frame ${map.frame}, structure by structure. A word has 4 bytes.`, ["Alloc-ID", "ONU", "burst starts", "first word", "words", "one for a report", "kbit/s granted"], rows);
}
