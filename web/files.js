
// Files that are recordings, or segments of one.

const MAGIC_BYTES = 8;
const VERSIONS = { PONREC01: 1, PONREC02: 2 };

/** The SHA-256 of bytes in hexadecimal, or null if this browser does not compute it here. */
export async function sha256(bytes) {
    try {
        const sum = await crypto.subtle.digest("SHA-256", bytes);
        return [...new Uint8Array(sum)].map(it => it.toString(16).padStart(2, "0")).join("");
    } catch {
        return null;
    }
}

const magicOf = bytes => String.fromCharCode(...bytes.subarray(0, MAGIC_BYTES));

/** The version of a recording by its first bytes; null if it has none. */
export const versionOf = bytes => VERSIONS[magicOf(bytes)] ?? null;

/** Reads files in the order of their names: each with its name, its bytes and their SHA-256. */
export async function readFiles(files) {
    const named = [...files].sort((a, b) => a.name.localeCompare(b.name, "en", { numeric: true }));
    const read = [];
    for (const file of named) {
        const bytes = new Uint8Array(await file.arrayBuffer());
        read.push({ name: file.name, bytes, size: bytes.length, version: versionOf(bytes), sum: await sha256(bytes) });
    }
    return read;
}

/** Joins segments, as olt does with --joined: each further one without its first eight bytes. Null if these differ. */
export function join(files) {
    const [first, ...further] = files;
    if (further.length === 0) return first.bytes;
    if (further.some(it => magicOf(it.bytes) !== magicOf(first.bytes) || it.size < MAGIC_BYTES)) return null;
    const whole = new Uint8Array(files.reduce((sum, it) => sum + it.size, -MAGIC_BYTES * further.length));
    whole.set(first.bytes);
    let end = first.size;
    for (const it of further) {
        whole.set(it.bytes.subarray(MAGIC_BYTES), end);
        end += it.size - MAGIC_BYTES;
    }
    return whole;
}

// The files of a folder that was dropped, and of those in it.
async function filesIn(entry) {
    if (entry.isFile) return [await new Promise((done, failed) => entry.file(done, failed))];
    const reader = entry.createReader();
    const found = [];
    for (;;) {
        const some = await new Promise((done, failed) => reader.readEntries(done, failed));
        if (some.length === 0) return found;
        for (const it of some) found.push(...await filesIn(it));
    }
}

/** The files that were dropped, those of folders too. */
export async function dropped(transfer) {
    const entries = [...transfer.items].map(it => it.webkitGetAsEntry?.()).filter(Boolean);
    const files = [...transfer.files];
    if (entries.every(it => it.isFile)) return files;
    return (await Promise.all(entries.map(filesIn))).flat();
}
