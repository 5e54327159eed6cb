
// The certificate of a class of a map, and the check by hand.
import { count, make, number } from "./dom.js";
import { isSaturated } from "./reasons.js";

const CLASS_NAMES = { na: "non-assured", be: "best-effort" };
const MOST_LISTED = 24;
const sum = numbers => numbers.reduce((whole, it) => whole + BigInt(it), 0n);

/** The problem of a class of a map: its surplus, its members, its level, and what follows from it. */
export function problemOf(map, kind) {
    const members = map.allocs.filter(it => it.descriptor.class === kind).map(({ alloc, share }) => ({ alloc, ...share, saturated: isSaturated(share) }));
    const [p, q] = map[kind].level === "all" ? [null, null] : map[kind].level.split("/").map(BigInt);
    return { kind, surplus: BigInt(map[kind].surplus), level: map[kind].level, p, q, members };
}

// Whether a member is on the side of the level on which its certificate puts it.
function isRight({ p, q }, { cap, weight, saturated }) {
    if (p === null) return saturated;
    return (BigInt(cap) * q <= BigInt(weight) * p) === saturated;
}

const holds = is => (is ? "This holds." : "This does not hold.");
const spelled = (numbers, none) => (numbers.length === 0 ? none : numbers.length <= 6 ? numbers.map(number).join(" + ") : `the sum of ${count(numbers.length, "number")}`);

function memberStep(problem) {
    const wrong = problem.members.filter(it => !isRight(problem, it)).length;
    if (problem.p === null) return `The level is “all”: all members are saturated, and each gets its cap. ${holds(wrong === 0)}`;
    const rule = "A saturated one gets its cap, which is at most that; each other one gets weight × level, which is below its cap";
    return `Compare the cap of each member with weight × ${problem.level}, as in the table. ${rule}. ${holds(wrong === 0)}`;
}

function denominatorStep({ q, members }) {
    const weights = members.filter(it => !it.saturated).map(it => it.weight);
    return `The denominator of the level is the weight that is not saturated: ${spelled(weights, "none")} = ${number(sum(weights))}. ${holds(sum(weights) === q)}`;
}

function numeratorStep({ p, surplus, members }) {
    const caps = members.filter(it => it.saturated).map(it => it.cap);
    const left = surplus - sum(caps);
    const sums = `${number(surplus)} − (${spelled(caps, "0")}) = ${number(left)}`;
    return `The numerator is the surplus that the saturated ones leave: ${sums}. So all shares together are the whole surplus. ${holds(left === p)}`;
}

function allStep({ surplus, members }) {
    const caps = members.map(it => it.cap);
    return `All caps together are ${spelled(caps, "0")} = ${number(sum(caps))}, and the surplus is ${number(surplus)}, so it covers them. ${holds(sum(caps) <= surplus)}`;
}

/** The steps of the check by hand. */
export function stepsOf(problem) {
    if (problem.members.length === 0) return ["The class has no member, so there is nothing to share."];
    return [memberStep(problem), ...(problem.p === null ? [allStep(problem)] : [denominatorStep(problem), numeratorStep(problem)])];
}

// The capacity of a map: its first burst starts at the gap. Rule 2 keeps two words for each Alloc-ID, and rule 1 keeps one.
function capacityOf({ allocs }, kept) {
    const gap = allocs[0].structure.start;
    const onus = new Set(allocs.map(it => it.onu)).size;
    const words = 9720 - (gap + 2) * onus - kept * allocs.length;
    const sums = `9,720 − (gap ${number(gap)} + 2) × ${count(onus, "ONU")} − ${kept} × ${count(allocs.length, "Alloc-ID")}`;
    return { rate: 256n * BigInt(words), text: `${sums} = ${count(words, "word")} of 256 kbit/s, which is ${number(256 * words)} kbit/s` };
}

// The step that gives the surplus of the non-assured class, by the rule that fits.
function naStep(map) {
    if (map.allocs.length === 0) return "The map has no Alloc-ID, so nothing is shared.";
    const guaranteed = sum(map.allocs.map(it => it.rates.guaranteed));
    const tried = [2, 1].map(kept => capacityOf(map, kept));
    const place = Math.max(tried.findIndex(it => it.rate - guaranteed === BigInt(map.na.surplus)), 0);
    const surplus = tried[place].rate - guaranteed;
    const rule = place === 1 ? " by rule 1, which carries no remainders" : "";
    return `The capacity${rule} is ${tried[place].text}. Less all guaranteed rates, ${number(guaranteed)}, the surplus is ${number(surplus)}. ${holds(surplus === BigInt(map.na.surplus))}`;
}

// The step that gives the surplus of the best-effort class.
function beStep(map) {
    const na = problemOf(map, "na");
    if (na.p !== null) return `The non-assured class still has demand (its level is ${na.level}), so best effort has the surplus 0. ${holds(map.be.surplus === 0)}`;
    const caps = sum(na.members.map(it => it.cap));
    const left = na.surplus - caps;
    const sums = `${number(na.surplus)} − ${number(caps)} = ${number(left)}`;
    return `Best effort shares what the caps of the non-assured class leave: ${sums}. ${holds(left === BigInt(map.be.surplus))}`;
}

/** The step that gives the surplus of a class. */
export const surplusStep = (map, kind) => (kind === "na" ? naStep(map) : beStep(map));

/** The problem of a class as a check file; null if it has no member. */
export function checkFileOf({ surplus, members, level }) {
    if (members.length === 0) return null;
    const saturated = members.flatMap((it, place) => (it.saturated ? [place] : []));
    return [`surplus ${surplus}`, ...members.map(it => `item ${it.weight} ${it.cap}`), `level ${level}`, `saturated ${saturated.join(",") || "-"}`, ""].join("\n");
}

// Says which members are saturated.
function saturatedText(members) {
    const saturated = members.filter(it => it.saturated).map(it => it.alloc);
    if (saturated.length === members.length) return "All of them are saturated.";
    if (saturated.length === 0) return "None of them is saturated.";
    return saturated.length > MOST_LISTED ? `${number(saturated.length)} of them are saturated, as the table says.` : `Saturated: ${saturated.join(", ")}.`;
}

/** Words for the certificate of a class. */
export function certificateText({ kind, surplus, level, members }) {
    const shares = `The ${CLASS_NAMES[kind]} class shares ${number(surplus)} kbit/s`;
    if (members.length === 0) return `${shares}, but has no member.`;
    return `${shares} among ${count(members.length, "member")}. Its level is ${level === "all" ? "“all”" : level}. ${saturatedText(members)}`;
}

/** The columns of the members of a class. */
export function memberColumns({ p, q }) {
    const part = it => (p === null ? null : (BigInt(it.weight) * p) / q);
    const whole = (head, unit, value) => ({ head, unit, value, shown: it => (value(it) === null ? "-" : number(value(it))) });
    return [
        { ...whole("Alloc-ID", "", it => it.alloc), shown: it => String(it.alloc) },
        whole("Weight", "", it => it.weight),
        whole("Cap", "kbit/s", it => it.cap),
        whole("Weight × level", p === null ? "" : "kbit/s, rounded down", part),
        { head: "Saturated", word: true, value: it => Number(it.saturated), shown: it => (it.saturated ? "yes" : "no") },
        whole("Gets", "kbit/s, rounded down", it => BigInt(it.num) / BigInt(it.den)),
    ];
}

/** The steps of a class as a list. */
export function stepList(map, problem) {
    return make("ol", {}, ...[surplusStep(map, problem.kind), ...stepsOf(problem)].map(it => make("li", {}, it)));
}
