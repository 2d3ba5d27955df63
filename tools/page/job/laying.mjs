// A routed net laid into its room: supports, wire and repeaters where they are to stand. In step with tools/dustsheet/laying.py.
import { AHEAD, AIR, BLOCK_POWER, KIND, SOLID, cellCount, holds, numberOf, placeOf, same, step } from "./job.mjs";
import { netOf } from "./net.mjs";
import { BELOW, terminal } from "./rules.mjs";

// The facing that looks the other way, of a horizontal one.
function opposite(facing) {
    const back = AHEAD[facing].map((by) => 0 - by);
    return [1, 2, 3, 4].find((other) => same(AHEAD[other], back));
}

function powered(job) {
    return job.sinks.filter((sink) => sink.port === BLOCK_POWER);
}

// The cells whose support must carry more than wire: it is solid.
function structural(job, answer) {
    const cells = new Set([...answer.repeaters, ...powered(job).map((sink) => numberOf(job, terminal(sink)))]);
    const level = (cell) => placeOf(job.sides, cell)[1];
    for (const branch of answer.branches) {
        for (let place = 1; place < branch.length; place++) {
            const [one, other] = [branch[place - 1], branch[place]];
            if (level(one) !== level(other)) cells.add(one).add(other);
        }
    }
    return cells;
}

// The room with its net, of a job that was routed: a kind and a facing for each cell.
export function lay(job, answer) {
    const [kinds, facings] = [new Uint8Array(cellCount(job)), new Uint8Array(cellCount(job))];
    const put = (cell, kind, facing = 0) => {
        kinds[cell] = kind;
        facings[cell] = facing;
    };
    for (const block of job.blocks) put(numberOf(job, block.at), block.kind, block.facing);
    const solid = structural(job, answer);
    const repeaters = new Set(answer.repeaters);
    const occupied = new Set([numberOf(job, terminal(job.source)), ...answer.branches.flat()]);
    for (const cell of [...occupied].sort((one, other) => one - other)) {
        const below = step(placeOf(job.sides, cell), BELOW);
        const under = numberOf(job, below);
        if (holds(job, below) && kinds[under] === AIR) put(under, solid.has(cell) ? SOLID : KIND.transparent);
        if (kinds[cell] === AIR && !repeaters.has(cell)) put(cell, KIND["redstone-wire"]);
    }
    const { facing } = netOf(answer, job);
    for (const cell of repeaters) put(cell, KIND.repeater, facing.get(cell));
    for (const sink of powered(job)) put(numberOf(job, terminal(sink)), KIND.repeater, opposite(sink.facing));
    return { kinds, facings };
}
