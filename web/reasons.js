
// The reasons for the words of a map, as sentences with their numbers.
import { count, number } from "./dom.js";

const KBITS = n => `${number(n)} kbit/s`;

/** The map of an answer: what its classes share, and its Alloc-IDs. */
export function reasonsOf(rows) {
    const [map, ...allocs] = rows;
    return { ...map, allocs };
}

/** Whether an Alloc-ID is saturated: whether its surplus rate is its cap. */
export const isSaturated = ({ num, den, cap }) => BigInt(num) === BigInt(cap) * BigInt(den);

/** A surplus rate in kbit/s, rounded down. */
export const wholeSurplus = share => (share === null ? 0n : BigInt(share.num) / BigInt(share.den));

function reportText({ report, rates }) {
    if (report === null) return "No report counts, so its load is 0 kbit/s.";
    const { frame, occupancy, granted, left } = report;
    const said = occupancy === null
        ? `The report for frame ${number(frame)}, which is in an earlier chapter, counts. Of its words, ${number(left)} are not granted yet.`
        : `Its ONU reported ${count(occupancy, "waiting word")} for frame ${number(frame)}. The maps from that one on granted ${count(granted, "word")}, so ${number(left)} are left.`;
    return `${said} The load is 256 kbit/s for each of these: ${KBITS(rates.load)}.`;
}

function guaranteedText({ descriptor: { fixed, assured }, rates }) {
    return `The guaranteed rate is the load, but at least the fixed rate, ${number(fixed)}, and at most fixed and assured rate together, ${number(fixed + assured)}: ${KBITS(rates.guaranteed)}.`;
}

function weightText({ descriptor: { fixed, assured, max, class: kind }, share }) {
    if (kind === "na") return `Its weight in the non-assured class is fixed ${number(fixed)} + assured ${number(assured)} = ${number(share.weight)}.`;
    return `Its weight in the best-effort class is maximum ${number(max)} − fixed ${number(fixed)} − assured ${number(assured)} = ${number(share.weight)}.`;
}

function capText({ descriptor: { fixed, max }, rates, share }) {
    return `Its cap is the smaller of the maximum, ${number(max)}, and the greater of load and fixed rate, ${number(Math.max(rates.load, fixed))}, less the guaranteed rate: ${KBITS(share.cap)}.`;
}

function shareText({ share }) {
    const { level, weight, cap, num, den } = share;
    if (level === "all") return `The surplus of its class covers all caps (level “all”), so its surplus rate is its cap: ${KBITS(cap)}.`;
    const part = `level ${level} × weight ${number(weight)}`;
    if (isSaturated(share)) return `Its cap, ${number(cap)}, is at most ${part}, so it is saturated and its surplus rate is its cap: ${KBITS(cap)}.`;
    return `Its cap, ${number(cap)}, is above ${part}, so its surplus rate is ${part} = ${number(num)}/${number(den)}: ${KBITS(wholeSurplus(share))}, rounded down.`;
}

function wordsText({ rates, share }) {
    const rest = rates.owed - 256 * rates.words;
    const owed = `Owed are carry ${number(rates.carry)} + guaranteed ${number(rates.guaranteed)} + surplus ${number(wholeSurplus(share))} = ${KBITS(rates.owed)}.`;
    const left = rest === 0 ? "Nothing is left over." : `${KBITS(rest)} are left over; a recording of version 2 carries them to the next map.`;
    return `${owed} A word in each frame is 256 kbit/s, so the map grants ${number(rates.owed)} / 256 = ${count(rates.words, "word")}, rounded down. ${left}`;
}

function structureText({ structure: { alloc, start, grant, dbru, ploam, fwi, profile } }) {
    const begins = start === null ? "continues the burst before it" : `begins a burst at word ${number(start)}`;
    const flags = `DBRu ${Number(dbru)}, PLOAMu ${Number(ploam)}, FWI ${Number(fwi)}, burst profile ${profile}`;
    return `In the map its structure has Alloc-ID ${alloc}, ${begins}, and has the GrantSize ${number(grant)}, with the word for a report. Its flags are ${flags}.`;
}

/** From what the words of an Alloc-ID follow, step by step. */
export function reasonSentences(it) {
    const surplus = it.share === null ? ["Its class is none, so it gets no surplus."] : [weightText(it), capText(it), shareText(it)];
    return [reportText(it), guaranteedText(it), ...surplus, wordsText(it), structureText(it)];
}
