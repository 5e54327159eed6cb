
// Answers questions about a recording or a text, each in an instance of its own: the module keeps nothing between two calls, and no trap leaves memory behind.
"use strict";
const MEMORY = 3;
let module;
let recording = new Uint8Array(0);

// Takes room in the memory of an instance.
function room(exports, count) {
    const at = exports.room(BigInt(count));
    if (at === 0n) throw new RangeError("memory was refused");
    return at;
}

function copyIn(exports, bytes) {
    const at = room(exports, bytes.length);
    new Uint8Array(exports.memory.buffer, Number(at), bytes.length).set(bytes);
    return at;
}

// The number of bytes that a call handed out.
const lengthAt = (exports, count) => new DataView(exports.memory.buffer, Number(count), 8);

// Calls an export with its input, further numbers, and room for its answer: a second time with more if that is too little.
// A call without an answer leaves its length at 0.
function call(exports, name, input, numbers) {
    const at = copyIn(exports, input);
    const count = room(exports, 8);
    for (let size = 1 << 16; ;) {
        const answer = room(exports, size);
        lengthAt(exports, count).setBigUint64(0, 0n, true);
        const status = exports[name](at, BigInt(input.length), ...numbers, answer, BigInt(size), count);
        if (status === MEMORY) throw new RangeError("memory was refused");
        const length = Number(lengthAt(exports, count).getBigUint64(0, true));
        if (length <= size) return { status, bytes: new Uint8Array(exports.memory.buffer, Number(answer), length).slice(), memory: exports.memory.buffer.byteLength };
        exports.give_back(answer);
        size = length;
    }
}

function answer({ name, text, numbers }) {
    const { exports } = new WebAssembly.Instance(module, {});
    return call(exports, name, text === undefined ? recording : new TextEncoder().encode(text), numbers);
}

async function take(asked) {
    if (asked.module) module = await WebAssembly.compile(asked.module);
    else if (asked.recording) recording = asked.recording;
    else return answer(asked);
    return {};
}

async function reply(data) {
    const began = performance.now();
    try {
        const given = await take(data);
        postMessage({ id: data.id, ms: performance.now() - began, ...given });
    } catch (error) {
        postMessage({ id: data.id, error: error instanceof RangeError ? "memory" : String(error) });
    }
}

// One after another, also while the module is compiled.
let last = Promise.resolve();
onmessage = ({ data }) => { last = last.then(() => reply(data)); };
