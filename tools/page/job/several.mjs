// Several nets over one room: what a builder would find out too late of all of them together, and what is laid. In step with
// tools/dustsheet/several.py. A net is {job, name, answer, net}.
import { AIR, KIND, KINDS, SOLID, cellCount, holds, kindsOf, numberOf, placeOf, spell, step } from "./job.mjs";
import { remarks } from "./check.mjs";
import { BELOW, terminal } from "./rules.mjs";
import { said } from "./said.mjs";
import { netName } from "./text.mjs";

const BEARS_WIRE = [SOLID, KIND.transparent, KIND["redstone-block"]];

function cellsOfNet({ job, answer }) {
    return [...new Set([numberOf(job, terminal(job.source)), ...answer.branches.flat()])].sort((one, other) => one - other);
}

// What the check remarks of each net among the others, and of the room as it is laid, each with its net.
export function remarksOfAll(nets, laid) {
    const found = nets.flatMap((one, place) => {
        const others = nets.filter((other) => other !== one).flatMap((other) => cellsOfNet(other).map((cell) => placeOf(one.job.sides, cell)));
        const among = { ...one.job, readAs: null, conductors: [...one.job.conductors, ...others] };
        const own = remarks(among, one.answer, one.net);
        return own.map(({ at, words }) => ({ at, words: said("%s: %s", netName(place, one.name), words) }));
    });
    const all = [...found, ...laidOtherwise(nets, laid)];
    return [...new Map(all.map((remark) => [`${remark.at} ${remark.words}`, remark])).values()];
}

// Where a net has no wire, or wire without ground, since another net's support or wire is there.
function* laidOtherwise(nets, { kinds }) {
    const room = kindsOf(nets[0].job);
    for (const [place, one] of nets.entries()) {
        const { job } = one;
        const cells = cellsOfNet(one);
        const own = new Set(cells);
        for (const cell of cells) {
            const at = placeOf(job.sides, cell);
            const below = step(at, BELOW);
            const under = holds(job, below) ? numberOf(job, below) : -1;
            const name = netName(place, one.name);
            if (![KIND["redstone-wire"], KIND.repeater].includes(kinds[cell]) && room[cell] === AIR)
                yield { at, words: said("%s: no wire is laid at %s: another net's support, %s, stands there", name, spell(at), KINDS[kinds[cell]]) };
            else if (under >= 0 && room[under] === AIR && !own.has(under) && !BEARS_WIRE.includes(kinds[under]))
                yield { at, words: said("%s: the wire at %s has no ground: another net's wire lies right beneath", name, spell(at)) };
        }
    }
}

// The cells in which something is laid beside the room's own blocks, ascending.
export function putCells(job, { kinds, facings }) {
    const stands = new Map(job.blocks.map((block) => [numberOf(job, block.at), block]));
    const isNew = (cell) => {
        const block = stands.get(cell);
        return kinds[cell] !== AIR && !(block && block.kind === kinds[cell] && block.facing === facings[cell]);
    };
    return Array.from({ length: cellCount(job) }, (_, cell) => cell).filter(isNew);
}
