// The tree of a sheet, as the module answers it: plain arrays that can be handed from a worker to the page.
import { headOf } from "../job/sheet.mjs";
import { LIMITS } from "../job/job.mjs";

// How many cells the room has; 0 for a room that is refused.
export function roomCells(sides) {
    const cells = sides[0] * sides[1] * sides[2];
    return sides.every((side) => side >= 1 && side <= LIMITS.side) && cells <= LIMITS.cells ? cells : 0;
}

// A queue so long is never full (bindings/README.md says why); a place of it takes two numbers.
export function queueLength(cells, { limit, costs }) {
    return 2 * (costs[0] >= 10 && costs[1] >= 20 ? 5 * cells : 11 * Math.min(limit, LIMITS.nodes) + 1);
}

// The head of a sheet that the lent lengths go by. Of one that ends too early nothing is needed: it is refused.
export function headToLend(sheet) {
    try {
        return headOf(sheet);
    } catch {
        return { sides: [0, 0, 0], limit: 0, costs: [10, 25, 15] };
    }
}

export function marked(marks) {
    const cells = [];
    marks.forEach((mark, cell) => mark && cells.push(cell));
    return cells;
}

export function treeLengths(head, cells) {
    return { branches: LIMITS.sinks * (cells + 1), queue: queueLength(cells, head), values: LIMITS.treeValues };
}

// The tree in the published mode or, where the module has it, in strict mode.
export function treeOf(router, sheet, isStrict) {
    const head = headToLend(sheet);
    const cells = roomCells(head.sides);
    const name = router.has("dustroute_tree_mode") ? "dustroute_tree_mode" : "dustroute_tree";
    const called = router.call(name, { sheet, strict: isStrict ? 1 : 0 }, cells, treeLengths(head, cells));
    return treeTold(called);
}

function treeTold({ number, detail, lent }) {
    if (number) return { number, detail, branches: [], repeaters: [], occupied: 0 };
    const values = Array.from(lent.values, Number);
    const branches = [];
    let place = 0;
    for (const length of values.slice(4, 4 + values[1])) {
        branches.push(Array.from(lent.branches.subarray(place, place + length)));
        place += length;
    }
    return { number, detail, branches, repeaters: marked(lent.repeaters), occupied: values[2] };
}

// What program `route` prints for it.
export function printed(answer) {
    if (answer.number) return `refused ${answer.number} ${answer.detail}\n`;
    const lines = [["net", answer.branches.length, answer.occupied], ...answer.branches.map((branch) => ["branch", ...branch])];
    return [...lines, ["repeaters", ...answer.repeaters]].map((line) => line.join(" ") + "\n").join("");
}
