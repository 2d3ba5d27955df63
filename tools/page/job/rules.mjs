// What the router makes of a good job before its first search: ends, numbers 7 to 9, and what is blocked at the outset: docs/RULES.md,
// The tree of one net. In step with tools/dustsheet/rules.py.
import { AHEAD, BLOCK_POWER, FLAT_STEPS, KIND, SOLID, cellCount, fault, holds, numberOf, same, spell, step } from "./job.mjs";
import { said } from "./said.mjs";

export const BELOW = [0, -1, 0];
const LIVE = [KIND["redstone-torch"], KIND["redstone-block"], KIND.lever];

// Where the wire of this end lies. Of a block-power end that faces up, down or nowhere there is none: number 8 comes first.
export function terminal(end) {
    return end.port === BLOCK_POWER ? step(end.at, AHEAD[end.facing]) : end.at;
}

// The cell from which a sink's terminal is reached.
export function approach(sink) {
    return sink.facing in AHEAD ? step(terminal(sink), AHEAD[sink.facing]) : terminal(sink);
}

// The least node limit that is known to suffice for each search of this job: five for each cell but one, and one more. At a flat step
// below 10 or a stair below 20 none is known: null.
export function ampleLimit(job) {
    return job.costs[0] >= 10 && job.costs[1] >= 20 ? 5 * (cellCount(job) - 1) + 1 : null;
}

// An end by its number in a refusal's detail: 0 the source, k the k-th sink.
export function endName(place) {
    return place ? said("sink %d", place) : said("the source");
}

// ---- numbers 7, 8 and 9

// Of a job without a fault 1 to 5: each repeated block, and each end that numbers 8 and 9 refuse, in the router's order.
export function* lateFaults(job) {
    yield* repeats(job);
    const ends = [job.source, ...job.sinks];
    const isPowerless = (end) => end.port === BLOCK_POWER && !(end.facing in AHEAD);
    for (const [place, end] of ends.entries()) {
        if (isPowerless(end)) yield endFault(8, place, said("block-power needs a facing: north, east, south or west"));
    }
    for (const [place, end] of ends.entries()) {
        if (!isPowerless(end)) yield* outside(job, place, end);
    }
}

// Whether no number up to 9 refuses the job, which has no fault 1 to 5.
export function isSound(job) {
    return lateFaults(job).next().done;
}

function* repeats(job) {
    const held = new Set();
    const found = [];
    const order = job.blocks.map((_, index) => index).sort((a, b) => job.blocks[a].node - job.blocks[b].node || a - b);
    for (const index of order) {
        const cell = numberOf(job, job.blocks[index].at);
        if (held.has(cell)) found.push({ node: job.blocks[index].node, cell, index });
        held.add(cell);
    }
    found.sort((a, b) => a.node - b.node || a.cell - b.cell || a.index - b.index);
    for (const { cell, index } of found) {
        const words = said("a second block in cell %s, number %d; a cell holds one block", spell(job.blocks[index].at), cell);
        yield fault(7, "blocks", index, words);
    }
}

function* outside(job, place, end) {
    if (!holds(job, terminal(end)))
        yield endFault(9, place, said("its terminal %s, the cell it faces, is outside the room", spell(terminal(end))));
    else if (place && !holds(job, approach(end)))
        yield endFault(9, place, said("its approach %s, the cell that its terminal faces, is outside the room", spell(approach(end))));
}

function endFault(number, place, words) {
    return fault(number, place ? "sinks" : "source", Math.max(place - 1, 0), words);
}

// ---- what is blocked at the outset

// The four neighbours, each also one up and one down.
export function keepout(at) {
    return FLAT_STEPS.flatMap((by) => [-1, 0, 1].map((up) => step(step(at, by), [0, up, 0])));
}

// The numbers of the cells that are blocked at the outset, of a sound job.
export function blocked(job) {
    const cells = new Set();
    const mark = (at) => holds(job, at) && cells.add(numberOf(job, at));
    for (const name of ["conductors", "clearances", "terminals", "reserved"]) job[name].forEach(mark);
    for (const at of job.conductors) keepout(at).forEach(mark);
    for (const [, live] of liveCells(job)) keepout(live).forEach(mark);
    for (const at of ownCells(job)) {
        cells.delete(numberOf(job, at));
        if (at[1] > 0) cells.delete(numberOf(job, step(at, BELOW)));
    }
    return cells;
}

// Each block that makes a cell live, round which no wire may lie, with that cell.
export function liveCells(job) {
    return job.blocks.map((block) => [block, liveCell(block, job)]).filter(([, cell]) => cell !== null);
}

// The cell that this block makes live, round which no wire may lie: its own, or the Solid of its node that a Repeater feeds.
function liveCell(block, job) {
    if (LIVE.includes(block.kind)) return block.at;
    if (block.kind === KIND.repeater && block.facing in AHEAD) {
        const output = step(block.at, AHEAD[block.facing]);
        const isFed = ({ node, kind, at }) => kind === SOLID && node === block.node && same(at, output);
        return job.blocks.some(isFed) ? output : null;
    }
    return null;
}

function ownCells(job) {
    return [terminal(job.source), ...job.sinks.flatMap((sink) => [terminal(sink), approach(sink)])];
}
