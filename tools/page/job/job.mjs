// A job, its cells, and numbers 1 to 5: docs/RULES.md, The job sheet. In step with tools/dustsheet/job.py.
import { TABLES } from "./tables.mjs";
import { said } from "./said.mjs";

export const { KINDS, FACINGS, PORTS, PLACE_LISTS, LIMITS } = TABLES;
export const KIND = Object.fromEntries(KINDS.map((name, code) => [name, code]));
export const AIR = 0;
export const SOLID = 1;
export const BLOCK_POWER = 1;
// the flat steps of the horizontal facings
export const AHEAD = { 1: [0, 0, -1], 2: [1, 0, 0], 3: [0, 0, 1], 4: [-1, 0, 0] };
export const FLAT_STEPS = Object.values(AHEAD);

export function emptyJob(sides) {
    const { defaultLimit: limit, defaultCosts, usualRun: run } = LIMITS;
    const job = { sides, limit, costs: [...defaultCosts], run, source: null, sinks: [], blocks: [] };
    for (const name of PLACE_LISTS) job[name] = [];
    return job;
}

// The lowest version of a sheet that holds the job: limits other than 12 and 8 take version 2; a larger room, dearer costs or a higher node
// limit than a sheet of version 2 may have take version 3.
export function versionOf(job) {
    const [first, second, last] = LIMITS.versions;
    const { side, cells, cost, nodes } = first.ranges;
    const isSmall = job.sides.every((length) => length >= 1 && length <= side) && cellCount(job) <= cells;
    if (!isSmall || job.limit > nodes || Math.max(...job.costs) > cost) return last;
    return hasUsualLimits(job) ? first : second;
}

export function hasUsualLimits(job) {
    return job.run === LIMITS.usualRun && job.sinks.every(({ tail }) => tail === LIMITS.usualTail);
}

// What a single step costs at most: the dearer step, onto a new support.
function dearest({ costs: [flat, stair, support] }) {
    return Math.max(flat, stair) + support;
}

export function cellCount(job) {
    return job.sides[0] * job.sides[1] * job.sides[2];
}

export function holds(job, at) {
    return at.every((place, axis) => place >= 0 && place < job.sides[axis]);
}

export function numberOf(job, at) {
    return (at[0] * job.sides[1] + at[1]) * job.sides[2] + at[2];
}

export function placeOf(sides, number) {
    const z = number % sides[2];
    const rest = (number - z) / sides[2];
    const y = rest % sides[1];
    return [(rest - y) / sides[1], y, z];
}

export function step(at, by) {
    return [at[0] + by[0], at[1] + by[1], at[2] + by[2]];
}

export function same(one, other) {
    return one[0] === other[0] && one[1] === other[1] && one[2] === other[2];
}

export function spell(at) {
    return `(${at[0]}, ${at[1]}, ${at[2]})`;
}

// What each cell of the room holds, in number order.
export function kindsOf(job) {
    const kinds = new Uint8Array(cellCount(job));
    for (const block of job.blocks) kinds[numberOf(job, block.at)] = block.kind;
    return kinds;
}

// ---- numbers 1 to 5, in the router's order; the first fault decides

export function* faults(job) {
    yield* sheetFaults(job);
    yield* headFaults(job);
    for (const [index, block] of job.blocks.entries()) yield* recordFaults(job, "blocks", index, block.at, blockCode(block));
    for (const name of PLACE_LISTS) {
        for (const [index, at] of job[name].entries()) yield* recordFaults(job, name, index, at, null);
    }
    yield* recordFaults(job, "source", 0, job.source.at, endCode(job.source));
    for (const [index, sink] of job.sinks.entries()) {
        yield* recordFaults(job, "sinks", index, sink.at, endCode(sink));
        yield* limitFaults("sinks", index, "tail", sink.tail);
    }
}

export function firstFault(job) {
    return faults(job).next().value ?? null;
}

export function fault(number, part, index, words) {
    return { number, part, index, words };
}

// The length of the job's sheet, in its own version or in this one.
export function sheetSize(job, version = versionOf(job)) {
    const places = PLACE_LISTS.reduce((sum, name) => sum + job[name].length, 0);
    const [place, limit] = [3 * version.coordinate, version.limits ? 1 : 0];
    const head = 5 + place + 16 + limit + 10;
    return head + (4 + place) * job.blocks.length + place * places + place + 2 + 1 + (place + 2 + limit) * job.sinks.length;
}

function* sheetFaults(job) {
    if (job.sinks.length > LIMITS.sinks)
        yield fault(1, "sinks", LIMITS.sinks, said("%d sinks; a net has at most %d", job.sinks.length, LIMITS.sinks));
    const length = sheetSize(job, job.readAs ?? versionOf(job));
    if (length > LIMITS.bytes) yield fault(1, "sheet", 0, said("the sheet would have %d bytes; at most %d are allowed", length, LIMITS.bytes));
}

// `readAs` is the version of the sheet that a job was read from, in whose ranges it is judged.
function* headFaults(job) {
    const version = job.readAs ?? versionOf(job);
    const ranges = version.ranges;
    const where = ranges.side === LIMITS.side ? "" : said(" in a sheet of version %d", version.number);
    if (!job.sides.every((side) => side >= 1 && side <= ranges.side))
        yield fault(2, "room", 0, said("a room of %dx%dx%d; each side is 1 to %d%s", ...job.sides, ranges.side, where));
    else if (cellCount(job) > ranges.cells)
        yield fault(2, "room", 0, said("a room of %d cells; at most %d are allowed%s", cellCount(job), ranges.cells, where));
    if (job.limit > ranges.nodes)
        yield fault(3, "limit", 0, said("a node limit of %d; at most %d is allowed%s", job.limit, ranges.nodes, where));
    for (const cost of job.costs) {
        if (cost > ranges.cost) yield fault(3, "costs", 0, said("a cost of %d; at most %d is allowed%s", cost, ranges.cost, where));
    }
    const product = cellCount(job) * dearest(job);
    if (product > ranges.product)
        yield fault(3, "costs", 0, said("%d cells times %d, the dearer step and a new support, are %d; at most %d are allowed",
            cellCount(job), dearest(job), product, ranges.product));
    yield* limitFaults("run", 0, "run", job.run);
}

function* limitFaults(part, index, word, limit) {
    if (limit < 1 || limit > LIMITS.mostSteps)
        yield fault(3, part, index, said("a %s limit of %d; it is 1 to %d", word, limit, LIMITS.mostSteps));
}

function* recordFaults(job, part, index, at, code) {
    if (!holds(job, at)) {
        const last = job.sides.map((side) => Math.max(side - 1, 0));
        yield fault(4, part, index, said("position %s is outside the room; the last cell is %s", spell(at), spell(last)));
    }
    if (code !== null) yield fault(5, part, index, code);
}

function blockCode(block) {
    if (block.kind >= KINDS.length) return said("unknown kind, code %d; kinds are 1 to %d", block.kind, KINDS.length - 1);
    if (block.kind === AIR) return said("a block of air; leave the cell out, it is air then");
    return facingCode(block.facing);
}

function endCode(end) {
    if (end.port >= PORTS.length) return said("unknown port kind, code %d; it is 0 (wire) or 1 (block-power)", end.port);
    return facingCode(end.facing);
}

function facingCode(facing) {
    return facing >= FACINGS.length ? said("unknown facing, code %d; facings are 0 to %d", facing, FACINGS.length - 1) : null;
}

// ---- a name for each record, for messages

export function recordName(part, index) {
    return part in TABLES.PART_NAMES ? said("%s %d", TABLES.PART_NAMES[part], index + 1) : "the " + part;
}
