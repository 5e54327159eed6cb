
// The part of the page that shows the map of a frame that is chosen.
import { at, make } from "./dom.js";
import { portsOf } from "./chapters.js";
import { mapAt, mapView } from "./mapview.js";
import { Part } from "./parts.js";
import { ANY_PORT, LAST_MAP, wholeIn } from "./recording.js";

/** The map that is chosen by port and frame. */
export class ChosenMap {
    constructor() {
        this.part = new Part("map-shown");
        this.shown = null;
        at("map-frames").onsubmit = event => {
            event.preventDefault();
            this.ask();
        };
        at("map-port").onchange = () => this.go("");
        at("map-last").onclick = () => this.go("");
        at("map-before").onclick = () => this.step(-1n);
        at("map-after").onclick = () => this.step(1n);
    }

    /** Offers the ports of the chapters of a recording, and shows the last map of the lowest one. */
    begin(recording, chapters) {
        this.recording = recording;
        this.lasts = new Map(chapters.filter(it => (it.last ?? null) !== null).map(it => [it.port, it.last]));
        at("map-port").replaceChildren(...portsOf(chapters).map(it => make("option", { value: String(it) }, String(it))));
        return this.go("");
    }

    end() {
        this.part.clear();
        this.shown = null;
    }

    // The place of the last map of a port, by the chapters; null if they have none.
    lastOf(port) {
        return this.lasts.has(port) ? { port, frame: this.lasts.get(port) } : null;
    }

    /** Opens the map of a frame, for a person who chose it elsewhere on the page. */
    open(port, frame) {
        at("map-port").value = String(port);
        at("map-head").focus();
        return this.go(String(frame));
    }

    // Shows the map of a frame; the last one if it is empty.
    go(frame) {
        at("map-frame").value = frame;
        return this.ask();
    }

    step(by) {
        const text = at("map-frame").value.trim();
        const frame = /^\d+$/.test(text) ? BigInt(text) + by : -1n;
        if (frame >= 0n) this.go(String(frame));
    }

    ask() {
        this.shown = null;
        const port = at("map-port").value === "" ? ANY_PORT : Number(at("map-port").value);
        const question = async recording => {
            const frame = wholeIn("map-frame", LAST_MAP);
            return mapAt(recording, port, frame, frame === LAST_MAP ? this.lastOf(port) : { port, frame });
        };
        return this.part.ask(this.recording, "Looking for the map:", question, it => this.show(it));
    }

    show(found) {
        this.shown = found;
        at("map-frame").value = String(found.frame);
        at("map-port").value = String(found.port);
        this.part.show(...mapView(found));
    }
}
