// node replay.mjs SCRIPTS.mjs MODULE.wasm ROOT: every stored search and sheet of the oracle through the module, with rubbish in all lent
// memory before the call and every byte of it compared afterwards, and every byte between the buffers.
import { readFileSync } from "node:fs";
import { pathToFileURL } from "node:url";
import { searches, sheets, treeWhys, whys } from "./stored.mjs";

const [, , scripts, moduleFile, root] = process.argv;
const page = await import(pathToFileURL(scripts).href);
const router = await page.Router.load(readFileSync(moduleFile), page.TABLES.FUNCTIONS);
const RUBBISH = 0xa5;
const GAP = 64;

// Calls over lent memory full of rubbish; what each slice must hold afterwards is then looked at, and that nothing else was touched.
function called(name, numbers, inputs, lengths) {
    const places = router.places(name, { ...lengths, ...Object.fromEntries(Object.entries(inputs).map(([key, value]) => [key, value.length])) }, GAP);
    const start = router.exports.__heap_base.value;
    const last = Math.max(...Object.values(places).map(({ at, size, length }) => at + size * length));
    const all = new Uint8Array(router.exports.memory.buffer, start, last + GAP - start);
    all.fill(RUBBISH);
    for (const [key, value] of Object.entries(inputs)) router.lent(places[key]).set(value);
    const number = router.callAt(name, numbers, places);
    const bytes = new Uint8Array(router.exports.memory.buffer, start, last + GAP - start);
    const troubles = [];
    const slices = Object.values(places).sort((one, other) => one.at - other.at);
    let behind = 0;
    for (const { at, size, length } of [...slices, { at: start + bytes.length, size: 1, length: 0 }]) {
        if (bytes.subarray(behind, at - start).some((byte) => byte !== RUBBISH)) troubles.push("a byte between the buffers");
        behind = at - start + size * length;
    }
    for (const [key, value] of Object.entries(inputs)) {
        if (router.lent(places[key]).some((byte, index) => byte !== value[index])) troubles.push(`the input ${key}`);
    }
    return { number, troubles, holds: (key, due) => holds(places[key], due) || troubles.push(key), untouched: (key) => isUntouched(places[key]) || troubles.push(key) };
}

// Whether a slice begins with these numbers and is zero behind them.
function holds(place, due) {
    const isLong = place.size === 8;
    return router.lent(place).every((value, index) => (isLong ? Number(value) : value) === (due[index] ?? 0));
}

function isUntouched({ at, size, length }) {
    return new Uint8Array(router.exports.memory.buffer, at, size * length).every((byte) => byte === RUBBISH);
}

function marks(cells) {
    const found = [];
    for (const cell of cells) found[cell] = 1;
    return found;
}

// What the steps of a path come to, its new supports, and how many these are.
function totals({ sides, horizontal, stair, support, kinds, path }) {
    let [steps, laid] = [0, 0];
    for (let index = 1; index < path.length; index++) {
        const [one, other] = [page.placeOf(sides, path[index - 1]), page.placeOf(sides, path[index])];
        steps += one[1] === other[1] ? horizontal : stair;
        if (other[1] > 0 && kinds[path[index] - sides[2]] === 0) laid++;
    }
    return [steps, laid * support, laid];
}

function searched(name, one, outputs) {
    const [wide, high, deep] = one.sides;
    const lent = { path: one.lent, known: one.lent, previous: one.lent, classes: one.lent, queue: 2 * one.queue, values: 9, ...outputs };
    const call = called(name, { ...one, wide, high, deep }, { kinds: one.kinds }, lent);
    if (call.number !== one.number) return [`number ${call.number}, not ${one.number}`];
    if (one.number >= 1 && one.number <= 6) Object.keys(lent).forEach(call.untouched);
    else {
        call.holds("path", one.path);
        call.holds("values", one.number ? [one.detail] : [0, one.path.length, one.cost, one.expanded, ...totals(one)]);
        for (const key of ["known", "previous", "classes", "queue"]) call.holds(key, []);
        const told = one.told ?? [];
        if ("reached" in outputs) call.holds("reached", marks(told.map(({ cell }) => cell)));
        if ("walls" in outputs) call.holds("walls", wallsOf(told));
    }
    return call.troubles;
}

function treed(name, one, strict, outputs = {}) {
    const same = ["occupied", "repeaters", "kinds", "blocked", "classes", "joinable", "known", "previous", "path", "best"];
    const lent = { branches: one.branch, queue: 2 * one.queue, values: 20, ...Object.fromEntries(same.map((key) => [key, one.lent])), ...outputs };
    const call = called(name, { strict }, { sheet: one.sheet }, lent);
    if (call.number !== one.number) return [`number ${call.number}, not ${one.number}`];
    if (one.number >= 1 && one.number <= 6) Object.keys(lent).forEach(call.untouched);
    else {
        const lengths = one.branches.map((branch) => branch.length);
        const values = one.number ? [one.detail] : [0, lengths.length, one.occupied, one.repeaters.length, ...lengths];
        if (one.place) [values[20], values[21]] = [one.place, one.verdict];
        call.holds("branches", one.branches.flat());
        call.holds("repeaters", marks(one.repeaters));
        call.holds("occupied", one.number ? [] : marks([...one.branches.flat(), sourceCell(one.sheet)]));
        call.holds("values", values);
        for (const key of [...same.slice(2), "queue"]) call.holds(key, []);
        if ("walls" in outputs) holdsReason(call, one);
    }
    return call.troubles;
}

// The writer of the sheets that read, in the lowest version that holds the job: where that is the sheet's own, its bytes come back. Of a job
// that no version holds, the fault's number.
function* jobs(cases) {
    for (const { sheet } of cases) {
        let job;
        try {
            job = page.jobOfSheet(sheet);
        } catch {
            continue;
        }
        const isOwn = page.versionOf(job) === job.readAs;
        yield { sheet: isOwn ? sheet : page.sheetOf(job), job, number: page.firstFault({ ...job, readAs: undefined })?.number ?? 0 };
    }
}

function written({ sheet, job, number }) {
    const { wide, high, deep, limit, horizontal, stair, support, run, ...lists } = page.writerParts(job);
    const lent = { sheet: sheet.length + GAP, values: 3 };
    const call = called("dustroute_write_sheet", { wide, high, deep, limit, horizontal, stair, support, run }, lists, lent);
    if (call.number !== number) return [`number ${call.number}, not ${number}`];
    if (number) Object.keys(lent).forEach(call.untouched);
    else {
        call.holds("sheet", sheet);
        call.holds("values", [0, sheet.length]);
    }
    return call.troubles;
}

function holdsReason(call, { told = [], causes = [] }) {
    const bits = [];
    for (const { cell, bits: why } of causes) bits[cell] = why;
    call.holds("reached", marks(told.map(({ cell }) => cell)));
    call.holds("walls", wallsOf(told));
    call.holds("causes", bits);
}

function wallsOf(told) {
    const walls = [];
    for (const { cell, reasons } of told) reasons.forEach((reason, move) => (walls[12 * cell + move] = reason));
    return walls;
}

function sourceCell(sheet) {
    const job = page.jobOfSheet(sheet);
    return page.numberOf(job, page.terminal(job.source));
}

let failures = 0;
const EVERY = 25; // of so many cases one is changed, to see that the change is seen

// An answer with one thing changed, each time another.
function changed(one, turn) {
    const parts = ["number", ...(one.number > 6 ? ["detail"] : []), ...(one.path?.length ? ["path", "cost", "expanded"] : []),
        ...(one.repeaters?.length ? ["repeaters"] : []), ...(one.branches?.length ? ["branches", "occupied"] : []), ...(one.told?.length ? ["told"] : []),
        ...(one.job && !one.number ? ["sheet"] : []), ...(one.causes?.length ? ["causes"] : []), ...(one.verdict ? ["place", "verdict"] : [])];
    const part = parts[turn % parts.length];
    const value = one[part];
    const other = { branches: () => value.map((branch) => [...branch].reverse().map((cell) => cell + 1)), path: () => [...value.slice(0, -1), value.at(-1) + 1],
        repeaters: () => value.slice(1), told: () => value.slice(1), causes: () => value.slice(1), sheet: () => value.map((byte, place) => byte + (place === value.length - 1)) };
    return { part, answer: { ...one, [part]: part in other ? other[part]() : value + 1 } };
}

function replay(what, cases, troublesOf) {
    let [count, slips] = [0, 0];
    for (const one of cases) {
        const troubles = troublesOf(one);
        if (count % EVERY === 0) {
            const { part, answer } = changed(one, slips++);
            if (!troublesOf(answer).length) troubles.push(`its ${part} was changed, and nothing said so`);
        }
        if (troubles.length) {
            failures++;
            console.log(`page: ${what} ${count}: ${troubles.join(", ")}`);
        }
        count++;
    }
    console.log(`page: ${count} stored ${what} through the module, all lent memory compared; ${slips} changed answers seen`);
}

const stored = `${root}/crates/replay_sheets/data/sheets.bin`;
replay("searches", searches(`${root}/crates/replay/data/searches.bin`), (one) => searched("dustroute_search", one, {}));
replay("searches with their reason", whys(`${root}/tests/bindings/whys.bin`), (one) =>
    searched("dustroute_why", one, { reached: one.reachedLength, walls: one.wallsLength }));
replay("sheets", sheets(stored, "DRT1"), (one) => treed("dustroute_tree", one, null));
replay("sheets of both versions", sheets(`${root}/tests/bindings/limits.bin`, "DRT1"), (one) => treed("dustroute_tree", one, null));
replay("sheets, the mode named", sheets(stored, "DRT1"), (one) => treed("dustroute_tree_mode", one, 0));
replay("sheets in strict mode", sheets(`${root}/tests/bindings/strict.bin`, "DRM1"), (one) => treed("dustroute_tree_mode", one, 1));
replay("sheets with their reason", treeWhys(`${root}/tests/bindings/treewhys.bin`), (one) =>
    treed("dustroute_tree_why", one, one.strict, { values: 22, reached: one.reachedLength, walls: one.wallsLength, causes: one.causesLength }));
replay("sheets written from their parts", jobs(sheets(stored, "DRT1")), written);
process.exit(failures ? 1 : 0);
