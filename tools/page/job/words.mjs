// Refusals in plain words, without a capital and a full stop: docs/RULES.md, Numbers that come back. In step with tools/dustsheet/words.py.
import { BLOCK_POWER, KINDS, LIMITS, cellCount, firstFault, hasUsualLimits, numberOf, placeOf, recordName, spell } from "./job.mjs";
import { approach, endName, lateFaults } from "./rules.mjs";
import { TABLES } from "./tables.mjs";
import { said } from "./said.mjs";

// Why the library refuses a job.
export function refusalWords(number, detail, job) {
    if (number <= 6) return faultWords(number, firstFault(job), job);
    if (number === 7) return said("two blocks stand in one cell: %s, number %d", spell(placeOf(job.sides, detail)), detail);
    if (number === 8) return said("%s is block-power and must face north, east, south or west", endName(detail));
    if (number === 9) {
        const late = lateFaults(job).next().value;
        return said("the wire of %s would lie outside the room%s", endName(detail), late ? ": " + late.words : "");
    }
    if (number === 13) return said("the search ran out of memory: its queue was full after %d cells", detail);
    if (number === 14) return noWay(detail, job);
    return said("the branches up to %s have more cells than the branch buffer holds", endName(detail));
}

// Why a net of a list can't be laid: it meets one before it.
export function overlapWords(cell, sides) {
    return said("its wire would lie in a cell that a net before it occupies: %s, number %d", spell(placeOf(sides, cell)), cell);
}

function faultWords(number, fault, job) {
    if (fault !== null && fault.number === number) return said("%s: %s", recordName(fault.part, fault.index), fault.words);
    if (number === 2 && cellCount(job) > LIMITS.routeCells && cellCount(job) <= LIMITS.cells)
        return said("the room has %d cells; program route takes at most %d", cellCount(job), LIMITS.routeCells);
    return TABLES.GENERAL[number];
}

// Not that there is none: a tree's searches can miss one.
function noWay(cell, job) {
    const { place, sink } = sinkOf(cell, job);
    const words = said("no way was found to %s at %s", endName(place), spell(sink.at));
    if (numberOf(job, sink.at) === cell) return words;
    return words + said(", looked for from cell %s, number %d", spell(placeOf(job.sides, cell)), cell);
}

// The first sink that is approached from a cell: its place from 1.
export function sinkOf(cell, job) {
    const index = job.sinks.findIndex((sink) => numberOf(job, approach(sink)) === cell);
    return { place: index + 1, sink: job.sinks[index] };
}

// How many steps the net may have without a repeater; nothing where it is as in every sheet of version 1.
export function stepLimitWords(job) {
    if (hasUsualLimits(job)) return "";
    const tails = job.sinks.flatMap((sink, index) => (sink.port === BLOCK_POWER ? [] : [said("%s to %s", stepsOf(sink.tail), endName(index + 1))]));
    const words = said("a repeater is due after %s", stepsOf(job.run));
    return tails.length ? words + said("; behind the last one at most ") + tails.join(", ") : words;
}

function stepsOf(limit) {
    return said("%d step%s", limit, limit === 1 ? "" : "s");
}

// Why the library refuses a search in a room of these sides.
export function searchWords(number, detail, sides, limit) {
    const place = spell(placeOf(sides, detail));
    const words = {
        4: () => said("the start or the goal is outside the room"),
        5: () => said("an unknown kind; kinds are 0 to %d", KINDS.length - 1),
        6: () => said("there are not as many kinds as the room has cells, or a lent buffer is too short"),
        10: () => said("cell %s, number %d, holds neither air nor redstone wire: no wire can begin or end there", place, detail),
        11: () => said("there is no way: none of the %d cells that can be reached leads on", detail),
        12: () => said("the node limit %d was passed", limit),
        13: () => said("the search ran out of memory: its queue was full after %d cells", detail),
    };
    return number in words ? words[number]() : TABLES.GENERAL[number];
}
