// needs: dustroute_tree_why
// Why a sink wasn't reached: the verdict in words, the net as it was then, and of one that is shut in the cells that wire gets to from its
// approach, what stands against each move out of them, and why cells are kept free. Then what to try, which takes many trees to find out.
import { LIMITS } from "../job/job.mjs";
import { jobOfSheet, sheetOf } from "../job/sheet.mjs";
import { headToLend, marked, roomCells, treeLengths } from "../router/answers.mjs";
import { MOVES, NO_WAY, QUESTIONS, REASONS, limitTold, wallsTold } from "../router/reasons.mjs";
import { netSoFar } from "../router/so-far.mjs";
import { helpful, trying } from "../router/tries.mjs";
import { CUT_SHORT, QUEUE_FULL, SHUT_IN, keptFree, turnsOf, unreachedWords } from "../router/unreached.mjs";

const TURN = 40; // milliseconds after which the worker hears whether something else is asked

REASONS.push(treeReasons);
QUESTIONS.tries = triesTold;

// What is known of the sink and, where a search of its was cut short, whether the node limit is to blame.
export function treeReasons(router, { sheet, strict }, answer) {
    if (answer.number !== QUEUE_FULL && answer.number !== NO_WAY) return null;
    const told = unreachedTold(router, sheet, strict);
    const isCut = told.number === NO_WAY && told.verdict === CUT_SHORT;
    const limit = isCut ? limitTold(router, told.job, strict, answer) : null;
    return [treeReason(told), ...(limit ? [limit] : [])];
}

export function unreachedTold(router, sheet, strict) {
    const { number, detail, lent } = treeWhy(router, sheet, strict);
    const [place, verdict] = Array.from(lent.values.subarray(LIMITS.treeValues), Number);
    const reached = marked(lent.reached);
    const walls = wallsTold(reached, lent.walls);
    const told = { job: jobOfSheet(sheet), strict, number, detail, place, verdict, reached, walls, causes: Array.from(lent.causes) };
    return { ...told, soFar: netSoFar(router, told) };
}

function treeWhy(router, sheet, strict) {
    const head = headToLend(sheet);
    const cells = roomCells(head.sides);
    const lengths = { ...treeLengths(head, cells), walls: MOVES.length * cells, values: LIMITS.treeWhyValues };
    return router.call("dustroute_tree_why", { sheet, strict: strict ? 1 : 0 }, cells, lengths);
}

// The words and the net so far, with what is drawn of a sink that is shut in.
export function treeReason(told) {
    const words = unreachedWords(told);
    const { reached, walls, causes, soFar } = told;
    return told.verdict === SHUT_IN ? { words, soFar, reached, walls, causes, kept: keptFree(told) } : { words, soFar };
}

// ---- what to try

let trial = null; // what is being tried, from one question of the page to the next: {id, told, steps, last}

// What helps as far as it is known by now, as {found, words, isDone}. The page asks again, with the same id, until it is done.
function triesTold(router, { id, sheet, strict }) {
    if (trial?.id !== id) {
        const told = unreachedTold(router, sheet, strict);
        trial = { id, told, steps: trying(told, (...change) => reaches(router, ...change)), last: { done: false } };
    }
    const end = performance.now() + TURN;
    while (!trial.last.done) {
        trial.last = trial.steps.next();
        if (performance.now() > end) break;
    }
    return triesWords(trial.told, trial.last.value, trial.last.done);
}

// Before it is done only what helps is told, and of no change that it doesn't. Where it is ended early, as where not all were tried.
export function triesWords(told, tried, isDone) {
    const { found } = tried;
    return { tries: { found, words: found.length || isDone ? helpful(told, tried) : [], ended: helpful(told, { ...tried, isAll: false }), isDone } };
}

// Whether the router reaches a sink of a job.
export function reaches(router, job, strict, place) {
    const { number, lent } = treeWhy(router, sheetOf(job), strict);
    if (number !== 0 && number !== QUEUE_FULL && number !== NO_WAY) return false;
    return number === 0 || isReached(job, place, Number(lent.values[LIMITS.treeValues]));
}

// Whether a sink is reached by a tree that stops at another one's turn.
function isReached(job, place, stopped) {
    const turns = turnsOf(job);
    return turns.indexOf(place) < turns.indexOf(stopped);
}
