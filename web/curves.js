
// The curves of an Alloc-ID along the frames.
import { make, number } from "./dom.js";
import { pictureOf } from "./pictures.js";
import { FORM } from "./recording.js";

// Where the curves begin and end in the drawing, as parts of its width.
const PLOT_BEGIN = 120 / 960;
const PLOT_END = 900 / 960;
const LEAST_DRAG = 5;
const TITLE = /<title>port (\d+) alloc (\d+) frames (\d+) to (\d+) /;

/** Asks for the curves of an Alloc-ID. */
export async function curvesOf(recording, port, alloc, from, to) {
    const { bytes, text } = await recording.ask("pon_web_loads", [port, alloc, from, to, FORM.svg]);
    const found = TITLE.exec(text);
    return { port, alloc, first: BigInt(found?.[3] ?? from), last: BigInt(found?.[4] ?? to), svg: bytes };
}

/** What curves show, in a sentence. */
export function curvesText({ port, alloc, first, last }) {
    const frames = `from frame ${number(first)} to frame ${number(last)}`;
    return `What Alloc-ID ${alloc} at port ${port} was guaranteed and granted, and the words that waited, ${frames}.`;
}

// The frame at a place of the drawing.
function frameAt({ first, last }, box, x) {
    const part = ((x - box.left) / box.width - PLOT_BEGIN) / (PLOT_END - PLOT_BEGIN);
    const parts = BigInt(Math.round(1e6 * Math.min(Math.max(part, 0), 1)));
    return first + ((last - first) * parts) / 1000000n;
}

// A range of frames that is dragged over curves.
class Drag {
    constructor(place, curves, chosen) {
        Object.assign(this, { place, curves, chosen, begin: null, band: make("div", { class: "band", hidden: "" }) });
        place.append(this.band);
        place.onpointerdown = event => this.press(event);
        place.onpointermove = event => this.stretch(event.clientX);
        place.onpointerup = event => this.release(event.clientX);
        place.onpointercancel = () => this.release(this.begin);
    }

    press(event) {
        event.preventDefault();
        this.begin = event.clientX;
        this.place.setPointerCapture(event.pointerId);
    }

    stretch(x) {
        if (this.begin === null) return;
        const { left } = this.place.getBoundingClientRect();
        Object.assign(this.band.style, { left: `${Math.min(this.begin, x) - left}px`, width: `${Math.abs(x - this.begin)}px` });
        this.band.hidden = false;
    }

    // Hands on the frames, unless the pointer has hardly moved.
    release(x) {
        const { begin } = this;
        this.begin = null;
        this.band.hidden = true;
        if (begin === null || Math.abs(x - begin) < LEAST_DRAG) return;
        const box = this.place.getBoundingClientRect();
        this.chosen(...[Math.min(begin, x), Math.max(begin, x)].map(it => frameAt(this.curves, box, it)));
    }
}

/** Shows curves; frames that are dragged over are handed to a function. */
export function curvesView(curves, chosen) {
    const place = make("div", { class: "drag" }, pictureOf(curves.svg, curvesText(curves)));
    new Drag(place, curves, chosen);
    return [make("p", {}, curvesText(curves)), make("div", { class: "wide" }, place)];
}
