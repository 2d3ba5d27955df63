// The net as it was when a sink wasn't reached: the branches of the sinks whose turn came before. In step with tools/dustsheet/sinks.py and
// tools/dustsheet/commands/unreached.py.
import { numberOf } from "../job/job.mjs";
import { blocked, terminal } from "../job/rules.mjs";
import { sheetOf } from "../job/sheet.mjs";
import { treeOf } from "./answers.mjs";
import { turnsBefore } from "./unreached.mjs";

// The branch of each sink in sheet order, empty for those that had none yet, and whether they are just those that the router had then. They
// are found by routing without the other sinks: it is the same net unless one of these has its wire where a cell would be kept free else.
export function netSoFar(router, { job, strict, place }) {
    const before = turnsBefore(job, place);
    const branches = job.sinks.map(() => []);
    if (!before.length) return { branches, isExact: true };
    const smaller = { ...job, sinks: before.map((other) => job.sinks[other - 1]) };
    const answer = treeOf(router, sheetOf(smaller), strict);
    if (answer.number) return { branches, isExact: false };
    before.forEach((other, index) => (branches[other - 1] = answer.branches[index]));
    return { branches, isExact: areEqual(blocked(smaller), blocked(job)) };
}

// The cells where a sink could join the net.
export function joinable(job, { branches }) {
    return new Set([numberOf(job, terminal(job.source)), ...branches.flatMap((branch) => branch.slice(0, -1))]);
}

function areEqual(one, other) {
    return one.size === other.size && [...one].every((cell) => other.has(cell));
}
