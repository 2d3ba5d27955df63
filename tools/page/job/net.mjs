// An answered net in numbers: the signal at each cell, the supports to be laid, what each branch comes to. Cells are numbers. In step
// with tools/dustsheet/net.py, answer.py and supports.py.
import { AHEAD, AIR, holds, kindsOf, numberOf, placeOf, same, step } from "./job.mjs";
import { BELOW, terminal } from "./rules.mjs";

export const FULL = 15; // the signal at the source and behind each repeater; it falls by one a step

// For each cell of the branches those that a step of a branch joins it to, in number order.
function neighbours(answer) {
    const beside = new Map();
    const join = (one, other) => {
        if (!beside.has(one)) beside.set(one, new Set());
        beside.get(one).add(other);
    };
    for (const branch of answer.branches) {
        for (let place = 1; place < branch.length; place++) {
            join(branch[place - 1], branch[place]);
            join(branch[place], branch[place - 1]);
        }
    }
    return new Map([...beside].map(([cell, cells]) => [cell, [...cells].sort((a, b) => a - b)]));
}

// For each cell that the source reaches, the cell that the signal comes from (null at the source): breadth first from the source.
function parents(job, beside) {
    const source = numberOf(job, terminal(job.source));
    const found = new Map([[source, null]]);
    for (const cell of found.keys()) {
        for (const following of beside.get(cell) ?? []) if (!found.has(following)) found.set(following, cell);
    }
    return found;
}

// For each cell that the source reaches, the facing in which the signal comes in: 0 at the source and on stairs.
function directions(job, before) {
    const found = new Map();
    for (const [cell, parent] of before) {
        const from = parent === null ? null : placeOf(job.sides, parent);
        const at = placeOf(job.sides, cell);
        found.set(cell, from === null ? 0 : [1, 2, 3, 4].find((facing) => same(step(from, AHEAD[facing]), at)) ?? 0);
    }
    return found;
}

// The signal at each cell of the net, 0 where it is dark. A repeater takes what comes from behind, is at full strength itself if
// anything comes, and gives full strength to the cell ahead and nothing to the sides.
function signals(answer, job, beside, before, facing) {
    const ahead = new Map(answer.repeaters.map((cell) => [cell, numberOf(job, step(placeOf(job.sides, cell), AHEAD[facing.get(cell)]))]));
    const source = numberOf(job, terminal(job.source));
    const found = new Map([[source, FULL]]);
    const waiting = [source];
    for (let place = 0; place < waiting.length; place++) {
        const cell = waiting[place];
        for (const following of beside.get(cell) ?? []) {
            let given = found.get(cell) - 1;
            if (ahead.has(cell)) given = ahead.get(cell) === following ? FULL : 0;
            else if (ahead.has(following)) given = before.get(following) === cell ? FULL : 0;
            if (given > (found.get(following) ?? 0)) {
                found.set(following, given);
                waiting.push(following);
            }
        }
    }
    for (const cell of beside.keys()) if (!found.has(cell)) found.set(cell, 0);
    return found;
}

// How many steps behind the source the signal comes to each cell of the net.
function stepsFromSource(before) {
    const steps = new Map();
    for (const [cell, parent] of before) steps.set(cell, parent === null ? 0 : steps.get(parent) + 1);
    return steps;
}

// For each branch the air under its wires where a support is to be laid, less what an earlier branch has: in all, what is to be fetched.
export function supports(answer, job) {
    const kinds = kindsOf(job);
    const held = new Set(answer.branches.flat());
    return answer.branches.map((branch) => {
        const own = [];
        for (const cell of branch) {
            const at = step(placeOf(job.sides, cell), BELOW);
            if (!holds(job, at)) continue;
            const under = numberOf(job, at);
            if (kinds[under] === AIR && !held.has(under)) {
                held.add(under);
                own.push(under);
            }
        }
        return own;
    });
}

// Each branch in numbers. Its repeaters are those on its own cells; the signal is that at the sink's wire.
function branchNumbers(answer, job, strength, laid) {
    const repeaters = new Set(answer.repeaters);
    return answer.branches.map((cells, index) => {
        const levels = cells.map((cell) => placeOf(job.sides, cell)[1]);
        return {
            sink: job.sinks[index],
            steps: cells.length - 1,
            stairs: levels.filter((level, place) => place > 0 && level !== levels[place - 1]).length,
            supports: laid[index].length,
            repeaters: new Set(cells.filter((cell) => repeaters.has(cell))).size,
            signal: strength.get(cells[cells.length - 1]) ?? FULL,
        };
    });
}

// All that is drawn and told of an answered net.
export function netOf(answer, job) {
    const beside = neighbours(answer);
    const before = parents(job, beside);
    const facing = directions(job, before);
    const strength = signals(answer, job, beside, before, facing);
    const laid = supports(answer, job);
    return {
        strength,
        before,
        facing,
        steps: stepsFromSource(before),
        supports: new Set(laid.flat()),
        branches: branchNumbers(answer, job, strength, laid),
    };
}
