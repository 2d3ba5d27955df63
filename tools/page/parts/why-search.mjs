// needs: dustroute_why
// Why no wire gets from a sink to the source past the blocks: the reason of one search, proved. In step with tools/dustsheet/reason.py.
import { LIMITS, cellCount, kindsOf, numberOf, placeOf, spell } from "../job/job.mjs";
import { approach, terminal } from "../job/rules.mjs";
import { counted, said } from "../job/said.mjs";
import { jobOfSheet } from "../job/sheet.mjs";
import { searchWords, sinkOf } from "../job/words.mjs";
import { marked, queueLength } from "../router/answers.mjs";
import { MOVES, NO_WAY, REASONS, wallsTold } from "../router/reasons.mjs";
import { roundOf, roundWords } from "../router/round.mjs";

const NO_ROUTE = 11;

REASONS.push(searchReason);

function searchReason(router, { sheet }, answer) {
    // the reason of the tree itself, where the module has it, says more
    if (answer.number !== NO_WAY || router.has("dustroute_tree_why")) return null;
    const job = jobOfSheet(sheet);
    const start = approach(sinkOf(answer.detail, job).sink);
    return searchTold(router, job, start, terminal(job.source));
}

// What the search from a cell to another tells.
export function searchTold(router, job, start, goal) {
    const cells = cellCount(job);
    const [wide, high, deep] = job.sides;
    const [horizontal, stair, support] = job.costs;
    const kinds = kindsOf(job);
    const given = { wide, high, deep, limit: job.limit, horizontal, stair, support, kinds, start: numberOf(job, start),
        goal: numberOf(job, goal) };
    const lengths = { walls: MOVES.length * cells, queue: queueLength(cells, job), values: LIMITS.searchTotals };
    const { number, detail, lent } = router.call("dustroute_why", given, cells, lengths);
    if (number === 0) {
        const way = Array.from(lent.path.subarray(0, Number(lent.values[1])));
        return { words: [wayWords(job, start, goal, way)], way };
    }
    if (number !== NO_ROUTE) return { words: [searchWords(number, detail, job.sides, job.limit)] };
    const reached = marked(lent.reached);
    const walls = wallsTold(reached, lent.walls);
    const noWay = said("No wire can get from %s to %s, at any costs.", spell(start), spell(goal));
    return { words: [noWay, roundWords(roundOf(job, start, reached, walls))], reached, walls };
}

function wayWords(job, start, goal, path) {
    const levels = path.map((cell) => placeOf(job.sides, cell)[1]);
    const stairs = levels.filter((level, place) => place && level !== levels[place - 1]).length;
    return said("Wire can get from %s to %s past the blocks: %s, %d of them stairs. What is kept free for other nets and beside live " +
        "blocks was left aside.", spell(start), spell(goal), counted(path.length - 1, "step"), stairs);
}
