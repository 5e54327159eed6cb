
// The views of a recording that was judged.
import { at } from "./dom.js";
import { AllocView } from "./allocview.js";
import { chapterView, chaptersOf } from "./chapters.js";
import { ChosenMap } from "./chosenmap.js";
import { objectsOf } from "./json.js";
import { OneAlloc } from "./onealloc.js";
import { Part } from "./parts.js";
import { FORM } from "./recording.js";
import { saveReport } from "./saving.js";

/** All views of a recording. */
export class Views {
    constructor() {
        this.recording = null;
        this.chaptersPart = new Part("chapters");
        this.map = new ChosenMap();
        this.one = new OneAlloc();
        this.allocs = new AllocView(it => this.one.open(this.recording, it, this.allocs.found));
        at("keep").onclick = () => saveReport(this.seen());
    }

    /** Shows a recording with this verdict. */
    async show(recording, verdict) {
        Object.assign(this, { recording, verdict, chapters: null });
        at("views").hidden = false;
        const map = () => (this.recording === recording ? this.map.begin(recording, this.chapters?.chapters ?? []) : null);
        await Promise.all([this.askChapters().then(map), this.allocs.begin(recording)]);
    }

    /** Shows nothing. */
    end() {
        at("views").hidden = true;
        this.recording = null;
        this.chaptersPart.clear();
        for (const it of [this.map, this.one, this.allocs]) it.end();
    }

    askChapters() {
        const question = recording => recording.ask("pon_web_info", [FORM.json]);
        return this.chaptersPart.ask(this.recording, "Listing the chapters:", question, ({ text }) => this.showChapters(text));
    }

    showChapters(text) {
        this.chapters = chaptersOf(objectsOf(text));
        this.chaptersPart.show(...chapterView(this.chapters, (port, frame) => this.map.open(port, frame)));
    }

    // What is seen at present, for a report.
    seen() {
        const { recording, verdict, chapters } = this;
        return { recording, verdict, chapters, found: this.allocs.found, one: this.one.it, frames: this.one.frames, curves: this.one.curves, map: this.map.shown };
    }
}
