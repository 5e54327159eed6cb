
// Answers in JSON, an object a line.

const LONG = /([:[,])(\d{16,})(?=[,\]}])/g;
const exactly = (_, it) => (typeof it === "string" && /^\d{16,}n$/.test(it) ? BigInt(it.slice(0, -1)) : it);

/** The objects of an answer. Integers of 16 and more digits are BigInts, so that none is rounded. */
export function objectsOf(text) {
    const lines = text.split("\n").filter(it => it !== "");
    return lines.map(it => JSON.parse(it.replace(LONG, '$1"$2n"'), exactly));
}
