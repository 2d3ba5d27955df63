// What stands round the cells that wire gets to from a start, and a sentence of it. In step with tools/dustsheet/reason.py.
import { KINDS, holds, kindsOf, numberOf, placeOf, spell, step } from "../job/job.mjs";
import { counted, said } from "../job/said.mjs";
import { TABLES } from "../job/tables.mjs";
import { MOVES } from "./reasons.mjs";

const OUTSIDE = 1;
const TAKEN = 2;
const BAD_SUPPORT = 3;

// Each cell of the room that can't be entered with its reason, and whether the room's edge is there, too.
export function roundOf(job, start, reached, walls) {
    const isReached = new Set(reached);
    const round = new Map();
    let atEdge = false;
    for (const [cell, move, reason] of walls) {
        const to = step(placeOf(job.sides, cell), MOVES[move]);
        if (!holds(job, to)) atEdge ||= reason === OUTSIDE;
        else if (!isReached.has(numberOf(job, to))) round.set(numberOf(job, to), reason);
    }
    return { job, start, reached, round, atEdge };
}

export function cellsRound(round, due) {
    return [...round].filter(([, reason]) => reason === due).map(([cell]) => cell);
}

// How many of each kind stand round the cells, most first.
function standing(job, round) {
    const kinds = kindsOf(job);
    const counts = new Map();
    for (const cell of cellsRound(round, TAKEN)) counts.set(kinds[cell], (counts.get(kinds[cell]) ?? 0) + 1);
    const found = [...counts].sort((one, other) => other[1] - one[1] || one[0] - other[0]);
    return found.map(([kind, number]) => said("%d %s", number, TABLES.KIND_NAMES[KINDS[kind]]));
}

// How many cells were reached, and what stands round them, with more of it behind: cells are counted, not moves.
export function roundWords({ job, start, reached, round, atEdge }, more = []) {
    const things = [...standing(job, round), ...(atEdge ? [said("the room's edge")] : [])];
    const isAlone = reached.length === 1;
    const gets = isAlone ? said("gets to no other cell") : said("gets to %s and no further", counted(reached.length, "cell"));
    const isOne = things.length === 1 && (atEdge || things[0].startsWith("1 "));
    const parts = things.length ? [said("%s stand%s %s", isAlone ? said("round it") : said("round them"), isOne ? "s" : "", listed(things))] : [];
    const unborne = cellsRound(round, BAD_SUPPORT).length;
    if (unborne) parts.push(said("%s nothing beneath that bears", unborne === 1 ? said("1 cell has") : said("%d cells have", unborne)));
    const rest = [...parts, ...more].join("; ");
    return said("From %s wire %s. %s%s.", spell(start), gets, rest.slice(0, 1).toUpperCase(), rest.slice(1));
}

export function listed(things) {
    return things.length < 3 ? things.join(" and ") : things.slice(0, -1).join(", ") + " and " + things[things.length - 1];
}
