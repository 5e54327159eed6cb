
// A verdict in words.
import { count, number } from "./dom.js";

const FAULTS = {
    Opening: "the chapter opens in a state that no port can have",
    Chain: "the chapter does not open in the state in which the one before it ended",
    Number: "the number of the chapter is not above those before it at its port",
    Event: "the entry is one that the port had to refuse",
    Certificate: "the certificate of the map does not show the fairest shares",
    Words: "a grant of the map has the wrong size",
    Bursts: "something else in the map is wrong: a burst, an Alloc-ID, a flag, the profile or the frame",
};

/** What a verdict line says: whether it is good, a word for it, and a sentence. */
export function verdictOf(line) {
    const [word, ...rest] = line.trim().split(" ");
    if (word === "good") return { good: true, word: "good", says: `Each rule below holds for ${count(Number(rest[1]), "map")} and for every event between them.` };
    if (word === "bad") return { good: false, word: "bad", says: badText(rest) };
    const byte = number(Number(rest[0]));
    if (word === "truncated") return { good: false, word: "cut short", says: `The file ends inside the chapter that begins at byte ${byte}. Everything before that chapter is good.` };
    return { good: false, word: "no recording", says: `At byte ${byte} is no chapter, so this is no recording, or its bytes were changed.` };
}

function badText([, port, , chapter, , entry, why]) {
    return `The first thing that is wrong is at port ${port}, in chapter ${chapter}, at entry ${number(Number(entry))} (counted from 0): ${FAULTS[why] ?? why}. Nothing after it was judged.`;
}

/** What good means. */
export const MEANS = [
    "Each chapter opens in a state that a port can have, and where the chapter before it ended, if that is in the file.",
    "No event is one that the port had to refuse.",
    "Each map grants the guaranteed rate of every Alloc-ID, by its contract and its reports.",
    "Each map shares the rest by weighted max-min fairness.",
    "Over any maps since an admission, the granted words are the summed rates, rounded down once (in chapters of version 2).",
    "All bursts lie in the frame behind their gaps, and no two overlap.",
];

/** What good does not mean. */
export const MEANS_NOT = [
    "That reports were true, that ONUs obeyed, or that frames were on time.",
    "That a port is what its settings say, or that nothing happened before the first chapter or after the last.",
    "That nothing is missing: chapters may have been dropped, and the one after a gap is judged without the one before it.",
];

/** What the answer to a check file means. */
export function answerMeans(line) {
    if (line.startsWith("yes")) return "The certificate shows that these shares are the fairest: no other assignment within surplus and caps is fairer.";
    if (line.startsWith("no Syntax")) return "The line of this number does not fit the form of a check file.";
    return "The certificate is refused, for the reason that stands there.";
}
