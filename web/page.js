
// The page: what is dropped or typed is asked, and answers are shown.
import { at, count, make, number } from "./dom.js";
import { Asker, why } from "./asking.js";
import { dropped, join, readFiles, sha256 } from "./files.js";
import { MEANS, MEANS_NOT, answerMeans, verdictOf } from "./verdicts.js";
import { frameOf, mapsIn, onusIn, structureTable } from "./maps.js";
import { Recording } from "./recording.js";
import { Views } from "./views.js";

const LINES = `# ONU 5 buys 2,560 kbit/s, and ONU 6 a share of the rest
0 admit 5 1024 2560 0 2560 none
0 admit 6 1025 0 256000 512000 na
0 map
# What waits at ONU 6 in frame 0, in words of 4 bytes
0 report 0 6 4000
0 map
0 why 1025
`;
const PROBLEM = `surplus 30
item 1 10
item 1 10
item 1 20
level 10/1
saturated 0,1
`;
const NO_MEMORY_64 = "This browser cannot run the auditor: it has no WebAssembly with a 64-bit memory. Present versions of Chromium and Firefox have one.";
const PAUSE_MS = 120;
let recordings;
let texts;
let views;
let chosen = [];

function refuse(text) {
    at("refused").textContent = text;
    at("refused").hidden = false;
}

let timer = 0;

function hideBusy() {
    clearInterval(timer);
    at("busy").hidden = true;
}

// Shows how long a recording is judged.
function showBusy(text) {
    hideBusy();
    const began = Date.now();
    const say = () => { at("busy-text").textContent = `${text} ${Math.round((Date.now() - began) / 1000)} s`; };
    say();
    at("busy").hidden = false;
    timer = setInterval(say, 1000);
}

const list = items => make("ul", {}, ...items.map(it => make("li", {}, it)));

function fileFacts(files) {
    const facts = files.map(it => {
        const version = it.version ? `version ${it.version}` : "no recording by its first bytes";
        const sum = it.sum ?? "not computed: this browser has no SHA-256 for a page from a disk";
        return make("div", {}, make("dt", {}, it.name), make("dd", {}, `${count(it.size, "byte")}, ${version}, SHA-256 `, make("code", {}, sum)));
    });
    return make("dl", { class: "facts" }, ...facts);
}

// What good means and does not; of another verdict what good would mean.
function meanings(good) {
    const means = make("div", {}, make("h3", {}, good ? "What good means" : "What good would mean"), list(MEANS));
    const not = make("div", {}, make("h3", {}, good ? "What it does not mean" : "What it would not mean"), list(MEANS_NOT));
    return make("div", { class: "two" }, means, not);
}

// The findings as a text to keep.
function findings(files, line) {
    const facts = files.map(it => `file ${it.name}, ${it.size} bytes, SHA-256 ${it.sum ?? "not computed"}`);
    const by = `by a page in a browser, module with SHA-256 ${at("sum").textContent}; the way of the proved auditor into the browser is not proved`;
    const blob = new Blob([[line.trim(), ...facts, by].join("\n"), "\n"], { type: "text/plain" });
    return make("a", { id: "save", download: "verdict.txt", href: URL.createObjectURL(blob) }, "Save these findings as a text");
}

function showVerdict(files, { text, ms, memory }) {
    const verdict = verdictOf(text);
    const card = make("div", { class: `verdict ${verdict.good ? "good" : "bad"}` }, make("b", { id: "word" }, verdict.word), make("code", { id: "line" }, text.trim()));
    const parts = [card, make("p", { id: "says" }, verdict.says)];
    parts.push(meanings(verdict.good));
    parts.push(make("h3", {}, files.length > 1 ? "The segments, in this order" : "The file"), fileFacts(files));
    parts.push(make("p", { class: "help" }, `Judged in ${(ms / 1000).toFixed(2)} s with ${number(Math.ceil(memory / 1e6))} MB of memory. `, findings(files, text)));
    at("judged").replaceChildren(...parts);
}

function showSentence(text, files = []) {
    at("judged").replaceChildren(make("p", { class: "refused" }, text), ...files.length ? [fileFacts(files)] : []);
}

// Judges files that were chosen, and begins to show what is in them.
async function judge(found, files) {
    const bytes = join(files);
    if (bytes === null) return showSentence("These files do not begin with the same eight bytes, so they are not segments of one recording. Judge each alone.", files);
    await recordings.give(bytes);
    const verdict = await recordings.ask("pon_web_verdict");
    showVerdict(files, verdict);
    views.show(new Recording(recordings, found, files), verdict.text).then(() => {
        if (chosen === found) document.body.dataset.viewed = "yes";
    });
    return undefined;
}

// Why files were not judged.
function whyNot(error) {
    if (error instanceof DOMException) return "The file cannot be read, or is larger than this browser can hold. The program olt reads it in pieces.";
    return why(error instanceof RangeError ? "memory" : error);
}

// Judges files; a later choice ends an earlier one.
async function take(found) {
    if (found.length === 0) return;
    chosen = found;
    views.end();
    if (recordings.waiting.size > 0) recordings.cancel();
    at("judged").replaceChildren();
    delete document.body.dataset.judged;
    delete document.body.dataset.viewed;
    showBusy(`Judging ${count(found.length, "file")}, ${count(found.reduce((sum, it) => sum + it.size, 0), "byte")}:`);
    try {
        const files = await readFiles(found);
        if (chosen === found) await judge(found, files);
    } catch (error) {
        if (chosen === found) showSentence(whyNot(error));
    }
    if (chosen !== found) return;
    hideBusy();
    document.body.dataset.judged = "yes";
}

function cancel() {
    chosen = [];
    recordings.cancel();
    hideBusy();
    showSentence("Cancelled: the recording was not judged.");
}

// Asks about a text as it is typed: only the last answer counts.
function live(id, ask, shows) {
    let pause = 0;
    let last = 0;
    const run = async () => {
        const mine = ++last;
        try {
            const show = await ask(at(id).value);
            if (mine === last) show();
        } catch (error) {
            if (mine === last) at(shows).textContent = why(error);
        }
        document.body.dataset[id] = String(last);
    };
    at(id).oninput = () => {
        clearTimeout(pause);
        pause = setTimeout(run, PAUSE_MS);
    };
    return run();
}

let shownMap = null;

function showMaps(maps, onus) {
    const map = maps[Math.min(shownMap ?? maps.length - 1, maps.length - 1)];
    if (!map) return at("line-map").replaceChildren(make("p", { class: "help" }, "No map yet: the line 0 map makes one."));
    const parts = [make("div", { class: "wide" }, frameOf(map)), structureTable(map, onus)];
    if (maps.length > 1) parts.unshift(mapChoice(maps, onus, map));
    return at("line-map").replaceChildren(...parts);
}

function mapChoice(maps, onus, map) {
    const choice = make("select", { id: "which" }, ...maps.map((it, place) => make("option", { value: String(place) }, `frame ${it.frame}`)));
    choice.value = String(maps.indexOf(map));
    choice.onchange = () => {
        shownMap = Number(choice.value) === maps.length - 1 ? null : Number(choice.value);
        showMaps(maps, onus);
        at("which").focus();
    };
    return make("div", { class: "choose" }, make("label", {}, "Map", choice));
}

async function askLines(text) {
    const { text: replies } = await texts.ask("pon_web_plan", text);
    return () => {
        at("replies").textContent = replies;
        showMaps(mapsIn(replies), onusIn(text));
    };
}

async function askCheck(text) {
    const { text: answer } = await texts.ask("pon_web_check", text);
    return () => {
        at("answer").textContent = answer;
        at("answer-means").textContent = answerMeans(answer);
    };
}

function listen() {
    at("files").onchange = event => take([...event.target.files]);
    at("cancel").onclick = cancel;
    const over = on => at("drop").classList.toggle("over", on);
    addEventListener("dragover", event => { event.preventDefault(); over(true); });
    addEventListener("dragleave", () => over(false));
    addEventListener("drop", async event => {
        event.preventDefault();
        over(false);
        take(await dropped(event.dataTransfer));
    });
}

async function begin() {
    const module = Uint8Array.from(atob(at("module").textContent), it => it.charCodeAt(0));
    at("sum").textContent = await sha256(module) ?? "this browser has no SHA-256 for a page from a disk";
    if (!globalThis.WebAssembly || !WebAssembly.validate(module)) return refuse(NO_MEMORY_64);
    recordings = new Asker(module);
    texts = new Asker(module);
    views = new Views();
    at("lines").value = LINES;
    at("problem").value = PROBLEM;
    listen();
    await Promise.all([live("lines", askLines, "replies"), live("problem", askCheck, "answer")]);
    document.body.dataset.ready = "yes";
    return undefined;
}

begin().catch(error => refuse(`The page stopped: ${error}`));
