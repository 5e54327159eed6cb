
// Questions to the module, which a worker answers.
import { at } from "./dom.js";

/** Says why there is no answer. */
export function why(error) {
    if (error === "memory") return "There is not enough memory in this browser for an answer. Close other pages, or use the program olt, which reads a recording in pieces.";
    if (error === "cancelled") return "Cancelled.";
    return `The module stopped, which should not happen (${error}).`;
}

/** One that answers questions, one after another. */
export class Asker {
    constructor(module) {
        this.module = module;
        this.waiting = new Map();
        this.last = 0;
        this.begin();
    }

    begin() {
        this.worker = new Worker(URL.createObjectURL(new Blob([at("worker").textContent], { type: "text/javascript" })));
        this.worker.onmessage = ({ data }) => this.hear(data);
        this.worker.onerror = event => this.end(event.message);
        this.send({ module: this.module }).catch(() => {});
    }

    hear(data) {
        const { done, failed } = this.waiting.get(data.id);
        this.waiting.delete(data.id);
        if (data.error) failed(data.error);
        else done(data);
    }

    send(message, transfer = []) {
        return new Promise((done, failed) => {
            this.waiting.set(++this.last, { done, failed });
            this.worker.postMessage({ id: this.last, ...message }, transfer);
        });
    }

    /** Ends all questions with a reason. */
    end(reason) {
        for (const { failed } of this.waiting.values()) failed(reason);
        this.waiting.clear();
    }

    /** Ends all questions, and begins anew without a recording. */
    cancel() {
        this.worker.terminate();
        this.end("cancelled");
        this.begin();
    }

    /** Gives the bytes of a recording, which are gone from the page then. */
    give(bytes) {
        return this.send({ recording: bytes }, [bytes.buffer]);
    }

    /** Asks about a text, or about the recording if there is none. */
    async ask(name, text, numbers = []) {
        const given = await this.send({ name, text, numbers });
        return { ...given, text: new TextDecoder().decode(given.bytes) };
    }
}
