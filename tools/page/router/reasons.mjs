// Why a net was refused, as far as the worker can find out. Each part of parts/ that the module's functions allow adds its reasons; here is
// the one that needs the tree alone. A reason is {words, soFar, reached, walls, causes, kept}: sentences, and what is drawn beside them, if
// anything is. Of one that has the net so far the page asks then what to try (`tries` of QUESTIONS), whenever nothing else is asked.
import { LIMITS } from "../job/job.mjs";
import { ampleLimit } from "../job/rules.mjs";
import { refusalWords } from "../job/words.mjs";
import { said, sentence } from "../job/said.mjs";
import { jobOfSheet, sheetOf } from "../job/sheet.mjs";
import { treeOf } from "./answers.mjs";

export const NO_WAY = 14;

// The twelve moves in their order: to x + 1, x - 1, z + 1 and z - 1, each one down, level and one up.
export const MOVES = [[1, 0], [-1, 0], [0, 1], [0, -1]].flatMap(([x, z]) => [-1, 0, 1].map((up) => [x, up, z]));

export const REASONS = [limitReason];

// What else the worker can be asked, by name: a part adds to it, and the tool that asks.
export const QUESTIONS = {};

// What else the page can save: a part adds {id, label, tip, asks, end}. What it asks comes back as {words} or {file, saveAs}.
export const OFFERS = [];

// Of a search that was cut short, as is told where the module tells it of a sink (parts/why-tree.mjs); else of each net without a way.
function limitReason(router, { sheet, strict }, answer) {
    if (answer.number !== NO_WAY || router.has("dustroute_tree_why")) return null;
    return limitTold(router, jobOfSheet(sheet), strict, answer);
}

// Whether the node limit is to blame: that is so just if another limit, which suffices, changes the answer. Nothing of one that suffices.
export function limitTold(router, job, strict, answer) {
    const ample = ampleLimit(job);
    if (ample !== null && job.limit >= ample) return null;
    return { words: [sentence(limitWords(router, job, strict, answer, ample ?? LIMITS.nodes))] };
}

// In step with tools/dustsheet/commands/route.py.
function limitWords(router, job, strict, answer, enough) {
    if (job.limit >= enough) return said("the node limit %d is the highest there is", job.limit);
    const again = treeOf(router, sheetOf({ ...job, limit: enough }), strict);
    const passed = said("the node limit %d was passed; a limit of %d suffices", job.limit, enough);
    if (again.number === 0) return passed;
    if (again.number === answer.number && again.detail === answer.detail) return said("a node limit of %d doesn't help", enough);
    return said("%s for it, and then %s", passed, refusalWords(again.number, again.detail, job));
}

// The moves out of the cells that are reached that are not allowed: cell, move and reason, one behind another.
export function wallsTold(reached, walls) {
    const found = [];
    for (const cell of reached) {
        for (let move = 0; move < MOVES.length; move++) {
            const reason = walls[MOVES.length * cell + move];
            if (reason) found.push([cell, move, reason]);
        }
    }
    return found;
}
