// The oracle's stored cases, read as oracle/STORED.md has them: big-endian, numbers of four bytes, cells of two.
import { readFileSync } from "node:fs";

class Cursor {
    constructor(file, letters) {
        this.bytes = readFileSync(file);
        this.place = 4;
        if (this.bytes.subarray(0, 4).toString() !== letters) throw new Error(`${file} doesn't begin with ${letters}`);
    }

    number(size = 4) {
        this.place += size;
        return this.bytes.readUIntBE(this.place - size, size);
    }

    numbers(count, size = 4) {
        return Array.from({ length: count }, () => this.number(size));
    }

    take(count) {
        this.place += count;
        return new Uint8Array(this.bytes.subarray(this.place - count, this.place));
    }
}

function* records(file, letters, read) {
    const cursor = new Cursor(file, letters);
    const count = cursor.number();
    for (let index = 0; index < count; index++) yield read(cursor);
    if (cursor.place !== cursor.bytes.length) throw new Error(`${file} does not end behind its last record`);
}

function searchInput(cursor) {
    const sides = cursor.numbers(3, 1);
    const [limit, horizontal, stair, support, start, goal, queue, lent] = cursor.numbers(8);
    return { sides, limit, horizontal, stair, support, start, goal, queue, lent, kinds: cursor.take(cursor.number()) };
}

function searchAnswer(cursor) {
    const number = cursor.number(1);
    const [detail, cost, expanded, length] = cursor.numbers(4);
    return { number, detail, cost, expanded, path: cursor.numbers(length, 2) };
}

export function searches(file) {
    return records(file, "DRS1", (cursor) => ({ ...searchInput(cursor), ...searchAnswer(cursor) }));
}

export function whys(file) {
    return records(file, "DRW1", (cursor) => {
        const asked = { ...searchInput(cursor), reachedLength: cursor.number(), wallsLength: cursor.number() };
        const answer = searchAnswer(cursor);
        const told = Array.from({ length: cursor.number() }, () => ({ cell: cursor.number(2), reasons: cursor.numbers(12, 1) }));
        return { ...asked, ...answer, told };
    });
}

function sheetInput(cursor) {
    const [queue, branch, lent] = cursor.numbers(3);
    return { queue, branch, lent, sheet: cursor.take(cursor.number()) };
}

function sheetAnswer(cursor) {
    const [number, detail] = [cursor.number(1), cursor.number()];
    const answer = { number, detail, branches: [], occupied: 0, repeaters: [] };
    if (number) return answer;
    answer.branches = Array.from({ length: cursor.number(1) }, () => cursor.numbers(cursor.number(), 2));
    answer.occupied = cursor.number();
    answer.repeaters = cursor.numbers(cursor.number(), 2);
    return answer;
}

export function sheets(file, letters) {
    return records(file, letters, (cursor) => ({ ...sheetInput(cursor), ...sheetAnswer(cursor) }));
}

export function treeWhys(file) {
    return records(file, "DRY1", (cursor) => {
        const strict = cursor.number(1);
        const asked = { strict, ...sheetInput(cursor), reachedLength: cursor.number(), wallsLength: cursor.number(), causesLength: cursor.number() };
        const answer = sheetAnswer(cursor);
        if (answer.number !== 13 && answer.number !== 14) return { ...asked, ...answer };
        const [place, verdict] = cursor.numbers(2, 1);
        const told = Array.from({ length: cursor.number() }, () => ({ cell: cursor.number(2), reasons: cursor.numbers(12, 1) }));
        const causes = Array.from({ length: cursor.number() }, () => ({ cell: cursor.number(2), bits: cursor.number(1) }));
        return { ...asked, ...answer, place, verdict, told, causes };
    });
}
