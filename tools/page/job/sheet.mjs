// The bytes of a job sheet, written and read: docs/RULES.md, The job sheet. In step with tools/dustsheet/job.py.
import { PLACE_LISTS, emptyJob, LIMITS, sheetSize, versionOf } from "./job.mjs";
import { said } from "./said.mjs";

// Bytes that mean no job: number 1, with what is wrong in words.
export class Refused extends Error {
    constructor(words) {
        super(words);
        this.number = 1;
    }
}

// ---- a job's bytes

// The job's version; the last one where a position, good or not, takes more than a byte.
function spelling(job) {
    const places = [job.source, ...job.blocks, ...job.sinks].map(({ at }) => at).concat(...PLACE_LISTS.map((name) => job[name]));
    return places.some((at) => Math.max(...at) > 255) ? LIMITS.versions.at(-1) : versionOf(job);
}

export function sheetOf(job) {
    const version = spelling(job);
    const sheet = new Uint8Array(sheetSize(job, version));
    const view = new DataView(sheet.buffer);
    let at = 0;
    const bytes = (...values) => {
        for (const value of values) view.setUint8(at++, value);
    };
    const value = (size, number) => {
        if (size === 2) view.setUint16(at, number);
        else view.setUint32(at, number);
        at += size;
    };
    const place = (places) => {
        for (const one of places) version.coordinate === 1 ? bytes(one) : value(2, one);
    };
    const end = ({ at: where, port, facing }) => {
        place(where);
        bytes(port, facing);
    };
    const limit = (steps) => version.limits && bytes(steps);
    bytes(version.number);
    value(4, sheet.length - 5);
    place(job.sides);
    for (const number of [job.limit, ...job.costs]) value(4, number);
    limit(job.run);
    value(2, job.blocks.length);
    for (const block of job.blocks) {
        value(2, block.node);
        place(block.at);
        bytes(block.kind, block.facing);
    }
    for (const name of PLACE_LISTS) {
        value(2, job[name].length);
        for (const one of job[name]) place(one);
    }
    end(job.source);
    bytes(job.sinks.length);
    for (const sink of job.sinks) {
        end(sink);
        limit(sink.tail);
    }
    return sheet;
}

// ---- a list: whole sheets one behind the other

const HEAD_BYTES = 5; // a sheet's version, and the length of all that follows

export function joined(sheets) {
    const list = new Uint8Array(sheets.reduce((sum, sheet) => sum + sheet.length, 0));
    let at = 0;
    for (const sheet of sheets) {
        list.set(sheet, at);
        at += sheet.length;
    }
    return list;
}

// The sheets of a list: each ends where its own length says, or where the list ends.
export function sheetsOf(content) {
    const found = [];
    for (let rest = content; ; ) {
        const length = rest.length < HEAD_BYTES ? rest.length : saidLength(rest);
        found.push(rest.subarray(0, length));
        rest = rest.subarray(length);
        if (!rest.length) return found;
    }
}

function saidLength(sheet) {
    return HEAD_BYTES + sheet.subarray(1, HEAD_BYTES).reduce((sum, byte) => sum * 256 + byte, 0);
}

// Whether these bytes are several whole sheets, and not one with something left over.
export function isList(content) {
    const isKnown = (version) => LIMITS.versions.some(({ number }) => number === version);
    const isWhole = (sheet) => sheet.length >= HEAD_BYTES && sheet.length === saidLength(sheet) && isKnown(sheet[0]);
    const sheets = sheetsOf(content);
    return sheets.length > 1 && sheets.every(isWhole);
}

// ---- bytes to a job

// The sheet's bytes and the place of the next one. They are read as the version of the first byte has them; of one that isn't known, as
// version 1 has them.
class Reader {
    constructor(sheet) {
        this.sheet = sheet;
        this.at = 0;
        this.version = LIMITS.versions.find((known) => known.number === sheet[0]) ?? LIMITS.versions[0];
    }

    take(count, what) {
        if (this.at + count > this.sheet.length)
            throw new Refused(said("the sheet ends at byte %d, in the middle of %s", this.sheet.length, what));
        this.at += count;
        return this.sheet.subarray(this.at - count, this.at);
    }

    value(count, what) {
        return this.take(count, what).reduce((sum, byte) => sum * 256 + byte, 0);
    }

    place(what) {
        const size = this.version.coordinate;
        const taken = this.take(3 * size, what);
        return [0, 1, 2].map((axis) => taken.subarray(axis * size, (axis + 1) * size).reduce((sum, byte) => sum * 256 + byte, 0));
    }

    end(what) {
        const at = this.place(what);
        const [port, facing] = this.take(2, what);
        return { at, port, facing };
    }

    // The limit that stands here; the usual one where the version carries none.
    limit(usual, what) {
        return this.version.limits ? this.value(1, what) : usual;
    }

    sink(what) {
        return { ...this.end(what), tail: this.limit(LIMITS.usualTail, what) };
    }

    block(what) {
        const [node, at] = [this.value(2, what), this.place(what)];
        const [kind, facing] = this.take(2, what);
        return { node, at, kind, facing };
    }

    head() {
        const job = emptyJob(this.place("the sides"));
        const [limit, ...costs] = [0, 1, 2, 3].map(() => this.value(4, "the limit and the costs"));
        return Object.assign(job, { limit, costs });
    }
}

function times(count, make) {
    return Array.from({ length: count }, make);
}

// Sides, node limit and costs, which a sheet names first, good or not; Refused where its bytes don't go so far.
export function headOf(sheet) {
    const read = new Reader(sheet);
    read.take(5, "the version and the length");
    return read.head();
}

// Whether these bytes are to be read as a sheet and not as a text: by the first one, which is a sheet's version.
export function isSheet(content) {
    const first = content[0];
    return !(content.length && ([9, 10, 13, 0xef].includes(first) || (first >= 32 && first <= 126)));
}

// The job that the bytes spell, good or not; Refused where they spell none.
export function jobOfSheet(sheet) {
    const read = new Reader(sheet);
    const number = read.value(1, "the version");
    if (number !== read.version.number) {
        const known = LIMITS.versions.map((one) => one.number);
        throw new Refused(said("the version byte is %d; a sheet begins with %s or %s", number, known.slice(0, -1).join(", "), known.at(-1)));
    }
    const length = read.value(4, "the length");
    if (length !== sheet.length - read.at)
        throw new Refused(said("the length says that %d bytes follow, but %d do", length, sheet.length - read.at));
    const job = Object.assign(read.head(), { readAs: read.version });
    job.run = read.limit(LIMITS.usualRun, "the run limit");
    job.blocks = times(read.value(2, "the count of blocks"), () => read.block("the blocks"));
    for (const name of PLACE_LISTS) job[name] = times(read.value(2, "the count of " + name), () => read.place("the " + name));
    job.source = read.end("the source");
    job.sinks = times(read.value(1, "the count of sinks"), () => read.sink("the sinks"));
    if (read.at < sheet.length) throw new Refused(said("bytes are left over behind the last sink: %d", sheet.length - read.at));
    return job;
}
