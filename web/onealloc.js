
// The part of the page that shows one Alloc-ID.
import { at, make, number } from "./dom.js";
import { allocSentences } from "./allocs.js";
import { framesText } from "./allocview.js";
import { curvesOf, curvesView } from "./curves.js";
import { objectsOf } from "./json.js";
import { reasonList } from "./mapview.js";
import { Part } from "./parts.js";
import { reasonsOf } from "./reasons.js";
import { FORM, LAST_MAP, wholeIn } from "./recording.js";

/** One Alloc-ID: what its numbers say, its curves, and the reasons of its last map. */
export class OneAlloc {
    constructor() {
        this.curvesPart = new Part("curves");
        this.reasonsPart = new Part("one-reasons");
        this.it = null;
        this.curves = null;
        at("curves-frames").onsubmit = event => {
            event.preventDefault();
            this.askCurves();
        };
        at("curves-all").onclick = () => this.choose("", "");
    }

    /** Shows an Alloc-ID of a recording, over the frames from one to another. */
    open(recording, it, { from, to }) {
        Object.assign(this, { recording, it, frames: framesText({ from, to }) });
        at("one-head").textContent = `Alloc-ID ${it.alloc} at port ${it.port}`;
        at("one-frames").textContent = `Its numbers are those over ${this.frames}.`;
        at("one-facts").replaceChildren(...allocSentences(it).map(text => make("li", {}, text)));
        at("one").hidden = false;
        at("one-head").focus();
        this.choose(from === 0n ? "" : String(from), to === LAST_MAP ? "" : String(to));
        this.askReasons();
    }

    end() {
        this.curvesPart.clear();
        this.reasonsPart.clear();
        Object.assign(this, { it: null, curves: null });
        at("one").hidden = true;
    }

    // Shows the curves of a range of frames.
    choose(from, to) {
        at("curves-from").value = from;
        at("curves-to").value = to;
        return this.askCurves();
    }

    askCurves() {
        const { port, alloc } = this.it;
        this.curves = null;
        const question = async recording => curvesOf(recording, port, alloc, wholeIn("curves-from", 0n), wholeIn("curves-to", LAST_MAP));
        return this.curvesPart.ask(this.recording, "Drawing the curves:", question, it => this.showCurves(it));
    }

    showCurves(curves) {
        this.curves = curves;
        this.curvesPart.show(...curvesView(curves, (from, to) => this.choose(String(from), String(to))));
    }

    askReasons() {
        const { port, alloc } = this.it;
        const question = recording => recording.ask("pon_web_why", [port, LAST_MAP, alloc, FORM.json]);
        return this.reasonsPart.ask(this.recording, "Looking for its last map:", question, ({ text }) => this.showReasons(text));
    }

    showReasons(text) {
        const { frame, allocs } = reasonsOf(objectsOf(text));
        this.reasonsPart.show(make("p", {}, `Its last map in the recording is of frame ${number(frame)}.`), ...allocs.map(reasonList));
    }
}
