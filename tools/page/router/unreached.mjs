// Why a sink wasn't reached, in words. What is told is {job, strict, number, detail, place, verdict, reached, walls, causes}: the mode, the
// answer, the sink's place from 1, and, of a sink that is shut in, the rest. In step with tools/dustsheet/sinks.py.
import { KINDS, cellCount, kindsOf, numberOf, placeOf, same, spell, step } from "../job/job.mjs";
import { BELOW, ampleLimit, approach, endName, terminal } from "../job/rules.mjs";
import { counted, said } from "../job/said.mjs";
import { TABLES } from "../job/tables.mjs";
import { cellsRound, listed, roundOf, roundWords } from "./round.mjs";

export const [APPROACH_TAKEN, SHUT_IN, CONFLICTS, CUT_SHORT] = [1, 2, 3, 4]; // what may be said of the sink
export const QUEUE_FULL = 13;
export const [KEPT_FREE, SUPPORT_KEPT_FREE] = [4, 5]; // what may stand against a move, besides what stands against one of a search

// All that is known, a sentence or two each.
export function unreachedWords(told) {
    const before = turnsBefore(told.job, told.place);
    const words = { [APPROACH_TAKEN]: takenWords, [SHUT_IN]: shutInWords, [CONFLICTS]: conflictWords, [CUT_SHORT]: cutShortWords };
    return [headline(told, before), words[told.verdict](told), ...turnWords(before, turnsBehind(told.job, told.place))];
}

// The cells that are kept free and so in the way, each with its first cause: wire would lie in them, or rest on them.
export function keptFree(told) {
    const { free, under } = keptCells(told);
    return [...new Set([...free, ...under])].map((cell) => [cell, firstCause(told.causes[cell])]);
}

function keptCells({ job, place, reached, walls }) {
    const { round } = roundOf(job, approach(job.sinks[place - 1]), reached, walls);
    const beneath = (cell) => numberOf(job, step(placeOf(job.sides, cell), BELOW));
    return { free: cellsRound(round, KEPT_FREE), under: cellsRound(round, SUPPORT_KEPT_FREE).map(beneath) };
}

// The cause by which a cell that has several is counted and drawn.
function firstCause(bits) {
    return TABLES.CAUSES.find(({ bit }) => bits & bit);
}

// The places of the sinks in the order of their turns: by the distance from the source's wire to the approach, ties in sheet order.
export function turnsOf(job) {
    const source = terminal(job.source);
    const far = (place) => approach(job.sinks[place - 1]).reduce((sum, at, axis) => sum + Math.abs(at - source[axis]), 0);
    return job.sinks.map((_, index) => index + 1).sort((one, other) => far(one) - far(other));
}

// The places of the sinks whose turn comes before that of this one, and behind it, ascending.
export function turnsBefore(job, place) {
    const turns = turnsOf(job);
    return turns.slice(0, turns.indexOf(place)).sort((one, other) => one - other);
}

function turnsBehind(job, place) {
    const turns = turnsOf(job);
    return turns.slice(turns.indexOf(place) + 1).sort((one, other) => one - other);
}

function headline({ job, place, verdict }, before) {
    const sink = said("Sink %d at %s", place, spell(job.sinks[place - 1].at));
    if (verdict === APPROACH_TAKEN || verdict === SHUT_IN) {
        // the branches that came before might lie otherwise at other costs; a block stays where it is
        const soFar = verdict === SHUT_IN && before.length ? said(" from the net so far") : "";
        return said("%s can't be reached%s, at any costs.", sink, soFar);
    }
    return said("%s was not reached%s.", sink, verdict === CONFLICTS ? "" : said(": its search was cut short"));
}

function takenWords({ job, place }) {
    const sink = job.sinks[place - 1];
    const at = approach(sink);
    const where = same(at, terminal(sink)) ? said("where its wire is to lie") : said("from which it is approached");
    return said("The cell %s, %s, holds a %s.", where, spell(at), TABLES.KIND_NAMES[KINDS[kindsOf(job)[numberOf(job, at)]]]);
}

function shutInWords(told) {
    const { free, under } = keptCells(told);
    const more = [];
    if (free.length) {
        const are = said("%s %s", counted(free.length, "cell"), free.length === 1 ? said("is") : said("are"));
        more.push(said("%s kept free: %s", are, causesCounted(free, told.causes)));
    }
    if (under.length) {
        const are = under.length === 1 ? said("1 cell is") : said("%d cells are", under.length);
        more.push(said("%s over one that is kept free, on which no wire may rest: %s", are, causesCounted(under, told.causes)));
    }
    return roundWords(roundOf(told.job, approach(told.job.sinks[told.place - 1]), told.reached, told.walls), more);
}

// How many cells there are of each cause, each cell counted once.
function causesCounted(cells, causes) {
    const found = TABLES.CAUSES.map((cause) => [cells.filter((cell) => firstCause(causes[cell]) === cause).length, cause.counted]);
    return listed(found.filter(([number]) => number).map(([number, words]) => said("%d %s", number, words)));
}

function conflictWords({ job, strict, place }) {
    const tried = said("each route tried lay right above or beneath wire of this net, or had a stair without headroom");
    const from = spell(approach(job.sinks[place - 1]));
    if (strict) {
        return said("Nothing shuts it in, but where it could join the net there was no way from %s, or %s. There may be another way.",
            from, tried);
    }
    return said("Wire from %s can get to the net, but %s. There may be another way.", from, tried);
}

function cutShortWords({ job, number, detail }) {
    const enough = ampleLimit(job);
    if (number === QUEUE_FULL) {
        if (enough === null) return said("The queue was full after %s.", counted(detail, "cell"));
        return said("The queue was full after %s. A queue of %d places is never full.", counted(detail, "cell"), 5 * cellCount(job));
    }
    if (enough === null) {
        return said("At a flat step under 10 or a stair under 20 it isn't known which node limit suffices; this one is %d. There may be a way.",
            job.limit);
    }
    return said("The node limit is %d; a limit of %d always suffices in this room. There may be a way.", job.limit, enough);
}

// Who was before it, and who has had no turn yet.
function turnWords(before, behind) {
    const parts = [];
    if (before.length) parts.push(said("%s %s reached before it", sinksNamed(before), before.length === 1 ? said("was") : said("were")));
    if (behind.length) parts.push(said("%s had no turn yet", sinksNamed(behind)));
    const words = parts.join("; ");
    return parts.length ? [words.slice(0, 1).toUpperCase() + words.slice(1) + "."] : [];
}

function sinksNamed(places) {
    return places.length === 1 ? endName(places[0]) : said("sinks ") + listed(places.map(String));
}
