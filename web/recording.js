
// A recording that was judged, and the questions about it.
import { at } from "./dom.js";
import { why } from "./asking.js";
import { join, readFiles } from "./files.js";

const MISSING = 2;
const NO_ALLOC = 4;

/** The port for the lowest one, or for each. */
export const ANY_PORT = 255;

/** The Alloc-ID for each. */
export const EACH_ALLOC = 0;

/** The frame for the last map, and the greatest number of a field. */
export const LAST_MAP = 18446744073709551615n;

/** The forms of an answer. */
export const FORM = { text: 0, json: 1, svg: 2 };

/** Says in a sentence what is missing, or which field is wrong. */
export class NotFound extends Error {}

/** A line of the module as a sentence. */
export const sentenceOf = line => `${line.charAt(0).toUpperCase()}${line.slice(1).trim()}.`;

/** Says in a sentence why a question has no answer. */
export function whyNone(error) {
    if (error instanceof NotFound) return error.message;
    if (error instanceof DOMException) return "The file can no longer be read. Choose it again.";
    return why(error instanceof RangeError ? "memory" : error);
}

/** The whole number in a field, or another one if the field is empty. */
export function wholeIn(id, empty, most = LAST_MAP) {
    const text = at(id).value.trim();
    const isWhole = /^\d{1,20}$/.test(text) && BigInt(text) <= most;
    at(id).setAttribute("aria-invalid", String(text !== "" && !isWhole));
    if (text === "") return empty;
    if (!isWhole) throw new NotFound(`“${text}” is not a whole number from 0 to ${most}.`);
    return BigInt(text);
}

/** A recording, with the files that it was read from and their facts. */
export class Recording {
    constructor(asker, found, files) {
        this.asker = asker;
        this.found = found;
        this.files = files.map(({ name, size, version, sum }) => ({ name, size, version, sum }));
        this.given = Promise.resolve();
    }

    /** Asks about the recording. Throws NotFound if it has not what is asked for. */
    async ask(name, numbers) {
        this.given ??= this.giveAgain().catch(error => {
            this.given = null;
            throw error;
        });
        await this.given;
        const answer = await this.asker.ask(name, undefined, numbers);
        if (answer.status === NO_ALLOC) throw new NotFound("No Alloc-ID has this number: they are 1024 to 16383.");
        if (answer.status === MISSING) throw new NotFound(answer.text === "" ? "The recording has no such map." : sentenceOf(answer.text));
        return answer;
    }

    /** Ends all questions. The next one reads the files again, since their bytes went with the worker. */
    cancel() {
        this.asker.cancel();
        this.given = null;
    }

    async giveAgain() {
        const files = await readFiles(this.found);
        if (files.some((it, place) => it.sum !== this.files[place].sum)) throw new NotFound("The file has changed since it was judged. Choose it again.");
        await this.asker.give(join(files));
    }
}
