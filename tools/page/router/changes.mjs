// What is worth a try where a sink wasn't reached, one change at a time: {sort, words, at, job, strict}, which is of which sort it is, words that
// begin with a verb, the cell that it is about, or null, and the job and the mode with it. In step with tools/dustsheet/tries.py, which says why.
// What is told of the sink is what unreached.mjs has of it, and the net so far.
import { AHEAD, AIR, FACINGS, FLAT_STEPS, KIND, KINDS, LIMITS, SOLID, cellCount, holds, kindsOf, numberOf, placeOf, same, spell,
    step } from "../job/job.mjs";
import { BELOW, ampleLimit, approach, isSound, keepout, liveCells, terminal } from "../job/rules.mjs";
import { said } from "../job/said.mjs";
import { TABLES } from "../job/tables.mjs";
import { listed, roundOf } from "./round.mjs";
import { joinable } from "./so-far.mjs";
import { APPROACH_TAKEN, CONFLICTS, KEPT_FREE, SHUT_IN } from "./unreached.mjs";

const [STANDS, BEARS_NOT] = [2, 3]; // a block stands there, or nothing beneath bears
const BEARS = [AIR, SOLID, KIND.transparent, KIND["redstone-block"]];
const OPENS_MORE = [KIND["redstone-torch"], KIND.lever, KIND["redstone-block"]];
const BITS = { clearances: 4, terminals: 8, reserved: 16 };
const OWN = 64;
const NEAR_BLOCKS = 12;

export function changes(told) {
    if (told.verdict === SHUT_IN) return openings(told);
    if (told.verdict === APPROACH_TAKEN) return clearings(told);
    return told.verdict === CONFLICTS ? roomier(told) : raised(told);
}

// A change of the job's parts, unless the job is refused by it.
function* changeOf({ job, strict }, sort, words, at, parts) {
    const changed = { ...job, readAs: null, ...parts };
    if (isSound(changed)) yield { sort, words, at, job: changed, strict };
}

// ---- a sink that is shut in: a block taken away, or a cell freed

function* openings(told) {
    const { job, place, reached, walls } = told;
    const { round } = roundOf(job, approach(job.sinks[place - 1]), reached, walls);
    const room = { kinds: kindsOf(job), net: joinable(job, told.soFar), reached: new Set(reached), round };
    const seen = new Set();
    for (const cell of nearestFirst(job, round, room.net)) {
        const at = placeOf(job.sides, cell);
        const reason = round.get(cell);
        const culprit = reason === STANDS || reason === KEPT_FREE ? at : step(at, BELOW);
        for (const change of reason === STANDS || reason === BEARS_NOT ? blockTaken(told, culprit) : freed(told, culprit)) {
            if (seen.has(change.words) || !leadsOn(told, room, at, culprit)) continue;
            seen.add(change.words);
            yield change;
        }
    }
}

function nearestFirst(job, round, net) {
    const joints = [...net].map((cell) => placeOf(job.sides, cell));
    const away = new Map([...round.keys()].map((cell) => {
        const at = placeOf(job.sides, cell);
        return [cell, joints.reduce((least, joint) => Math.min(least, distance(at, joint)), Infinity)];
    }));
    return [...away.keys()].sort((one, other) => away.get(one) - away.get(other) || one - other);
}

// Whether from a cell that is opened a step may lead on. What makes live, or keeps several cells free, opens more than one cell.
function leadsOn({ job, causes }, { kinds, net, reached, round }, at, culprit) {
    const kindAt = (cell) => (holds(job, cell) ? kinds[numberOf(job, cell)] : AIR);
    if (![STANDS, BEARS_NOT].includes(round.get(numberOf(job, at))) || OPENS_MORE.includes(kindAt(culprit))) return true;
    const isFree = (cell) => {
        if (!holds(job, cell)) return false;
        const number = numberOf(job, cell);
        if (net.has(number)) return true;
        return kinds[number] === AIR && !causes[number] && BEARS.includes(kindAt(step(cell, BELOW)));
    };
    const around = FLAT_STEPS.flatMap((by) => [-1, 0, 1].map((up) => step(step(at, by), [0, up, 0])));
    return around.some((cell) => isFree(cell) && !reached.has(numberOf(job, cell)));
}

function distance(one, other) {
    return one.reduce((sum, place, axis) => sum + Math.abs(place - other[axis]), 0);
}

// The block of a cell taken away, unless an end of the net stands there.
function* blockTaken(told, at) {
    const { job } = told;
    const block = job.blocks.find((one) => same(one.at, at));
    if (!block || [job.source, ...job.sinks].some((end) => same(end.at, at))) return;
    yield* changeOf(told, blockName(block), said("take away the %s at %s", blockName(block), spell(at)), at,
        { blocks: job.blocks.filter((other) => other !== block) });
}

function blockName(block) {
    return TABLES.KIND_NAMES[KINDS[block.kind]];
}

// A cell no longer kept free: whatever keeps it so is taken away; of another net's wire then a gap as well through which wire fits. The
// headroom of this net's own stairs can't be taken away.
function* freed(told, at) {
    const { job, causes } = told;
    const bits = causes[numberOf(job, at)];
    if (!bits || bits & OWN) return;
    const conductors = distinct(job.conductors);
    const near = conductors.filter((other) => same(other, at) || isBeside(other, at));
    yield* freedOf(told, at, bits, near);
    const gap = conductors.filter((other) => near.some((one) => same(one, other) || isBeside(other, one)));
    if (gap.length !== near.length) yield* freedOf(told, at, bits, gap);
}

// Whether another cell is in the keepout of one.
function isBeside(one, other) {
    return keepout(one).some((cell) => same(cell, other));
}

// Each place once, in ascending order.
function distinct(places) {
    const ascending = [...places].sort((one, other) => one[0] - other[0] || one[1] - other[1] || one[2] - other[2]);
    return ascending.filter((at, index) => !index || !same(at, ascending[index - 1]));
}

// Without these conductors, and whatever else keeps the cell free.
function* freedOf(told, at, bits, near) {
    const { job } = told;
    const parts = {};
    const words = [];
    const less = (name, isGone) => (parts[name] = job[name].filter((one) => !isGone(one)));
    if (near.length) {
        less("conductors", (other) => near.some((one) => same(one, other)));
        words.push(said("move the other net's wire at %s", listed(near.map(spell))));
    }
    const others = { clearances: said("free the other net's headroom at %s", spell(at)),
        terminals: said("move the other net's terminal at %s", spell(at)), reserved: said("free the reserved cell %s", spell(at)) };
    for (const [name, does] of Object.entries(others)) {
        if (!(bits & BITS[name])) continue;
        less(name, (other) => same(other, at));
        words.push(does);
    }
    const live = liveCells(job).filter(([, cell]) => isBeside(cell, at)).map(([block]) => block);
    if (live.length) {
        less("blocks", (block) => live.includes(block));
        words.push(said("move %s", listed(live.map((block) => said("the %s at %s", blockName(block), spell(block.at))))));
    }
    if (words.length) yield* changeOf(told, Object.keys(parts).sort().join(" "), listed(words), at, parts);
}

// ---- another facing, another cell, more room

function* clearings(told) {
    yield* blockTaken(told, approach(told.job.sinks[told.place - 1]));
    yield* turned(told);
}

// The sink facing another way, so that it is approached from another cell.
function* turned(told) {
    const sink = told.job.sinks[told.place - 1];
    for (const facing of Object.keys(AHEAD).map(Number)) {
        const words = said("let sink %d face %s", told.place, FACINGS[facing]);
        if (facing !== sink.facing) yield* sinkOtherwise(told, "facing", words, { ...sink, facing });
    }
}

function* sinkOtherwise(told, sort, words, sink) {
    const sinks = told.job.sinks.map((other, index) => (index === told.place - 1 ? sink : other));
    yield* changeOf(told, sort, words, sink.at, { sinks });
}

// The other mode, a room that is larger by a cell, another facing, a block near the sink taken away, and the sink a cell further.
function* roomier(told) {
    const { job, strict, place } = told;
    const other = strict ? said("route without --strict") : said("route with --strict");
    yield { sort: "mode", words: other, at: null, job, strict: !strict };
    for (const [axis, name] of ["x", "y", "z"].entries()) {
        const sides = job.sides.map((side, index) => side + (index === axis ? 1 : 0));
        if (Math.max(...sides) <= LIMITS.side && cellCount({ sides }) <= LIMITS.cells)
            yield* changeOf(told, "room", said("make the room a cell larger along %s", name), null, { sides });
    }
    yield* turned(told);
    const from = approach(job.sinks[place - 1]);
    const blocks = [...job.blocks].sort((one, another) => distance(one.at, from) - distance(another.at, from));
    for (const block of blocks.slice(0, NEAR_BLOCKS)) yield* blockTaken(told, block.at);
    yield* moves(told);
}

function* moves(told) {
    const { job, place } = told;
    const kinds = kindsOf(job);
    const sink = job.sinks[place - 1];
    const taken = [...[job.source, ...job.sinks].map((end) => end.at), terminal(job.source)];
    const isAir = (at) => holds(job, at) && kinds[numberOf(job, at)] === AIR;
    for (const by of [...FLAT_STEPS, [0, 1, 0], BELOW]) {
        const at = step(sink.at, by);
        if (isAir(at) && isAir(sink.at) && !taken.some((one) => same(one, at)))
            yield* sinkOtherwise(told, "place", said("move sink %d to %s", place, spell(at)), { ...sink, at });
    }
}

// ---- limits

// A node limit that suffices; at low costs the highest there is, and costs at which one is known.
function* raised(told) {
    const { job } = told;
    const enough = ampleLimit(job);
    const higher = enough ?? LIMITS.nodes;
    if (job.limit < higher)
        yield* changeOf(told, "limit", said("raise the node limit from %d to %d", job.limit, higher), null, { limit: higher });
    if (enough !== null) return;
    const [flat, stair, support] = job.costs;
    const costs = [Math.max(flat, 10), Math.max(stair, 20), support];
    const limit = Math.max(job.limit, 5 * (cellCount(job) - 1) + 1);
    yield* changeOf(told, "costs", said("let a flat step cost %d and a stair %d, at a node limit of %d", costs[0], costs[1], limit), null,
        { costs, limit });
}
