
// Parts of the page that show answers to questions about a recording.
import { at, make } from "./dom.js";
import { whyNone } from "./recording.js";

const PATIENCE_MS = 300;

/** A part of the page. Only its last question counts; while that is asked, the part says so and the question can be cancelled. */
export class Part {
    constructor(id) {
        this.place = at(id);
        this.asking = make("div", { class: "asking", role: "status" });
        this.place.before(this.asking);
        this.last = 0;
    }

    /** Shows elements. */
    show(...elements) {
        this.place.replaceChildren(...elements);
    }

    /** Shows nothing, and forgets a question. */
    clear() {
        this.last += 1;
        this.end();
        this.show();
    }

    /** Asks a recording by a function, and shows the answer by another. */
    async ask(recording, words, question, shown) {
        const mine = ++this.last;
        this.begin(recording, words);
        try {
            const answer = await question(recording);
            if (mine === this.last) shown(answer);
        } catch (error) {
            if (mine === this.last) this.refuse(error, () => this.ask(recording, words, question, shown));
        }
        if (mine === this.last) this.end();
    }

    begin(recording, words) {
        this.end();
        this.place.setAttribute("aria-busy", "true");
        const began = Date.now();
        const say = () => this.progress(recording, `${words} ${Math.round((Date.now() - began) / 1000)} s`);
        this.patience = setTimeout(() => {
            say();
            this.timer = setInterval(say, 1000);
        }, PATIENCE_MS);
    }

    // Says how long a question takes, and offers to cancel it.
    progress(recording, words) {
        if (this.words) {
            this.words.textContent = words;
            return;
        }
        this.words = make("span", { "aria-live": "off" }, words);
        const cancelled = make("button", { type: "button" }, "Cancel");
        cancelled.onclick = () => recording.cancel();
        this.asking.replaceChildren(make("progress", { "aria-label": "The answer is computed" }), this.words, cancelled);
    }

    end() {
        clearTimeout(this.patience);
        clearInterval(this.timer);
        this.words = null;
        this.asking.replaceChildren();
        this.place.removeAttribute("aria-busy");
    }

    // Says why there is no answer; one that was cancelled can be asked for again.
    refuse(error, again) {
        const sentence = make("p", { class: "none", role: "status" }, whyNone(error));
        this.show(sentence);
        if (error !== "cancelled") return;
        const button = make("button", { type: "button" }, "Ask again");
        button.onclick = again;
        sentence.append(" ", button);
    }
}
