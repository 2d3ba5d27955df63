// All that is drawn, sorted by cells once for each change: both views look things up here.
import { AHEAD, AIR, KIND, FLAT_STEPS, BLOCK_POWER, holds, kindsOf, numberOf, placeOf, step } from "../job/job.mjs";
import { supports } from "../job/net.mjs";
import { BELOW, approach, blocked, isSound, terminal } from "../job/rules.mjs";
import { MOVES } from "../router/reasons.mjs";
import { INK, branchColour } from "./signs.mjs";

// Of a room and its answer, a net or the net so far, with what a reason has to draw.
export function sceneOf({ job, answer, net, soFar, remarks, tries }, reason) {
    const cells = (places) => new Set(places.map((at) => numberOf(job, at)));
    const isSoundJob = isSound(job);
    const kinds = kindsOf(job);
    const branches = net ? answer.branches : soFar?.branches ?? [];
    const scene = {
        job, net, isSound: isSoundJob,
        kinds,
        facings: new Map(job.blocks.map((block) => [numberOf(job, block.at), block.facing])),
        conductors: cells(job.conductors), clearances: cells(job.clearances), terminals: cells(job.terminals), reserved: cells(job.reserved),
        blocked: isSoundJob ? blocked(job) : new Set(),
        branches: branches.map((branch) => branch.map((cell) => placeOf(job.sides, cell))),
        supports: net?.supports ?? new Set(supports({ branches }, job).flat()),
        lines: branches.map((_, index) => index), // the number of each branch's colour and dashes
        repeaters: net ? answer.repeaters : [],
        turned: net?.facing ?? new Map(), // the way that a repeater faces
        strength: net?.strength ?? new Map(),
        laid: null, // of several nets: supports by cell, as they are laid
        warned: new Map(),
        refused: new Set(refusedCells(job, answer)),
        reached: new Set(reason?.reached ?? []),
        reachedLevels: new Set((reason?.reached ?? []).map((cell) => placeOf(job.sides, cell)[1])),
        edges: reason?.walls ? edgesOf(job, reason) : [],
        causes: reason?.causes?.map((bits, cell) => (kinds[cell] === AIR ? bits : 0)) ?? null,
        kept: new Map(reason?.kept ?? []),
        way: (reason?.way ?? []).map((cell) => placeOf(job.sides, cell)), // that was asked for
        tries: triesByCell(job, tries?.found ?? []),
        ends: endsOf(job),
        runs: net ? [{ net, lamps: lampsOf(job) }] : [], // what a lever lights, net by net
    };
    remarks.forEach(({ at }, index) => {
        const cell = numberOf(job, at);
        scene.warned.set(cell, [...(scene.warned.get(cell) ?? []), index + 1]);
    });
    return scene;
}

// The places in their list of the changes to try that are about a cell, from 1.
export function triesByCell(job, found) {
    const cells = new Map();
    found.forEach(({ at }, index) => {
        if (at) cells.set(numberOf(job, at), [...(cells.get(numberOf(job, at)) ?? []), index + 1]);
    });
    return cells;
}

export function endsOf(job) {
    return [job.source, ...job.sinks].map((end, place) => {
        const hasWire = end.port !== BLOCK_POWER || end.facing in AHEAD;
        const look = { label: place ? String(place) : "S", colour: place ? branchColour(place - 1) : INK };
        const near = hasWire && place ? approach(end) : end.at;
        return { ...look, place, at: end.at, facing: end.facing, wire: hasWire ? terminal(end) : end.at, near };
    });
}

// The cells that a refusal speaks of.
function refusedCells(job, answer) {
    if (!answer || !answer.number) return [];
    if (answer.number === 7 || answer.number === 14) return [answer.detail];
    const ends = [job.source, ...job.sinks];
    return [8, 9, 15].includes(answer.number) ? [numberOf(job, ends[answer.detail].at)] : [];
}

// The lamps beside each sink's wire, with the cell of the wire that lights them.
export function lampsOf(job) {
    const kinds = kindsOf(job);
    const found = [];
    for (const sink of job.sinks) {
        const wire = terminal(sink);
        const live = sink.port === BLOCK_POWER ? [wire, sink.at] : [wire];
        for (const at of live.flatMap((one) => [one, ...[...FLAT_STEPS, BELOW].map((by) => step(one, by))])) {
            const isLamp = holds(job, at) && kinds[numberOf(job, at)] === KIND["redstone-lamp"];
            if (isLamp) found.push({ cell: numberOf(job, at), wire: numberOf(job, wire) });
        }
    }
    return found;
}

// The walls round the cells that are reached: the cell beside, the cell that can't be entered, and why.
function edgesOf(job, { reached, walls }) {
    const isReached = new Set(reached);
    const found = new Map();
    for (const [cell, move, why] of walls) {
        const at = placeOf(job.sides, cell);
        const to = step(at, MOVES[move]);
        if (holds(job, to) && isReached.has(numberOf(job, to))) continue;
        const beside = [at[0], to[1], at[2]];
        if (to[1] < 0 || to[1] >= job.sides[1]) continue;
        found.set(`${beside} ${to}`, { beside, to, why, isThick: isReached.has(numberOf(job, beside)) });
    }
    return [...found.values()];
}
