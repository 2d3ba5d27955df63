// Several nets over one room, as the module answers them; what each sees of the others, why one was refused, and which order helps. In step with
// tools/dustsheet/several.py and commands/nets.py.
import { LIMITS, holds, numberOf, placeOf, same } from "../job/job.mjs";
import { approach, keepout, terminal } from "../job/rules.mjs";
import { said, sentence } from "../job/said.mjs";
import { jobOfSheet, joined, sheetOf } from "../job/sheet.mjs";
import { netName } from "../job/text.mjs";
import { overlapWords, refusalWords } from "../job/words.mjs";
import { headToLend, marked, queueLength, roomCells, treeOf } from "./answers.mjs";
import { NO_WAY, QUESTIONS, REASONS } from "./reasons.mjs";

const OVERLAP = 16;

QUESTIONS.order = ordersTold;

// The nets of some sheets, in their order: {number, detail, net, nets, owners, kinds, facings}. Each of nets is as a tree's answer.
export function netsOf(router, sheets, isStrict) {
    const heads = sheets.map(headToLend);
    const cells = roomCells(heads[0].sides);
    const sinks = sheets.reduce((sum, sheet) => sum + jobOfSheet(sheet).sinks.length, 0);
    const lengths = { lengths: LIMITS.sinks * sheets.length, branches: sinks * (cells + 1), // a branch has at most one cell more than the room
        queue: Math.max(...heads.map((head) => queueLength(cells, head))), values: LIMITS.netsValues };
    const { number, lent } = router.call("dustroute_nets", { list: joined(sheets), strict: isStrict ? 1 : 0 }, cells, lengths);
    const [detail, net, count] = Array.from(lent.values, Number);
    if (number) return { number, detail, net, nets: [] };
    const [owners, kinds, facings] = [lent.owners.slice(), lent.kinds.slice(), lent.facings.slice()];
    return { number, detail, net, nets: netsTold(lent, count), owners, kinds, facings };
}

function netsTold({ lengths, branches, owners, repeaters }, count) {
    const planned = marked(repeaters);
    let place = 0;
    return Array.from({ length: count }, (_, net) => {
        const own = Array.from(lengths.subarray(LIMITS.sinks * net, LIMITS.sinks * (net + 1))).filter((length) => length);
        const told = own.map((length) => Array.from(branches.subarray(place, (place += length))));
        const occupied = owners.reduce((sum, owner) => sum + (owner === net + 1 ? 1 : 0), 0);
        return { number: 0, detail: 0, branches: told, repeaters: planned.filter((cell) => owners[cell] === net + 1), occupied };
    });
}

// What `./dustroute nets` prints.
export function printedNets({ number, detail, net, nets }, names) {
    if (number) return `refused ${net} ${number} ${detail}\n`;
    const lines = nets.flatMap(({ branches, repeaters, occupied }, place) => [
        ["net", place, branches.length, occupied, ...(names[place] ? [names[place]] : [])],
        ...branches.map((branch) => ["branch", ...branch]), ["repeaters", ...repeaters]]);
    return [["nets", nets.length], ...lines].map((line) => line.join(" ") + "\n").join("");
}

// ---- what a net sees of the others

// The cells of a job that other nets keep clear of: the ends' own and what is beside them.
function protectedCells(job) {
    const own = [terminal(job.source), ...job.sinks.flatMap((sink) => [terminal(sink), approach(sink)])];
    const cells = new Set(own.flatMap((end) => [end, ...keepout(end)]).filter((at) => holds(job, at)).map((at) => numberOf(job, at)));
    return [...cells].sort((one, other) => one - other).map((cell) => placeOf(job.sides, cell));
}

// The cells that a net's wire takes, ascending.
export function wireOf(job, { branches }) {
    const cells = new Set([numberOf(job, terminal(job.source)), ...branches.flat()]);
    return [...cells].sort((one, other) => one - other).map((cell) => placeOf(job.sides, cell));
}

// A net's job as a single one: the wire of the nets before it as another net's, the ends of those behind it as terminals.
export function seenBy(job, before, later) {
    const wire = before.flatMap(({ job: other, answer }) => wireOf(other, answer));
    return { ...job, readAs: null, conductors: [...job.conductors, ...wire], terminals: [...job.terminals, ...later.flatMap(protectedCells)] };
}

// ---- why it was refused

// The nets before the one that was refused, and of a sink of its that wasn't reached what is known: {before, reasons}.
export function netReasons(router, { sheets, names, strict }, answer) {
    if (answer.number !== NO_WAY && answer.number !== OVERLAP) return { before: [], reasons: [] };
    const jobs = sheets.map(jobOfSheet);
    const before = [];
    for (const [place, job] of jobs.slice(0, answer.net).entries()) {
        const tree = treeOf(router, sheetOf(seenBy(job, before, jobs.slice(place + 1))), strict);
        if (tree.number) return { before: [], reasons: [] };
        before.push({ job, answer: tree });
    }
    const reasons = answer.number === OVERLAP ? overlapReasons(jobs[0], names, before, answer)
        : treeReasonsOf(router, sheetOf(seenBy(jobs[answer.net], before, jobs.slice(answer.net + 1))), strict, answer);
    return { before: before.map(({ answer: { branches } }) => branches), reasons };
}

function treeReasonsOf(router, sheet, strict, { number, detail }) {
    return REASONS.flatMap((reason) => reason(router, { sheet, strict }, { number, detail }) ?? []);
}

function overlapReasons(job, names, before, { detail }) {
    const at = placeOf(job.sides, detail);
    const lower = before.findIndex((net) => wireOf(net.job, net.answer).some((cell) => same(cell, at)));
    if (lower < 0) return [];
    return [{ words: [said("It is %s that lies there. The router never moves a net that it has laid.", netName(lower, names[lower]))] }];
}

// Why a net of these is refused, in words, without its name.
export function netRefusalWords({ number, detail }, job) {
    return number === OVERLAP ? overlapWords(detail, job.sides) : refusalWords(number, detail, job);
}

// Whether another order helps, or the other mode: found by trying. The refused net comes as late as it may.
function ordersTold(router, { sheets, names, strict, net }) {
    for (let place = net - 1; place >= 0; place--) {
        const order = sheets.map((_, index) => index).filter((index) => index !== net);
        order.splice(place, 0, net);
        if (netsOf(router, order.map((index) => sheets[index]), strict).number) continue;
        return oneTry(said("put %s before %s; then all nets are routed", netName(net, names[net]), netName(place, names[place])), { order });
    }
    if (!netsOf(router, sheets, !strict).number)
        return oneTry(said("route %s --strict; then all nets are routed", strict ? "without" : "with"), { strict: !strict });
    const none = net ? [said("Putting it further to the front doesn't help.")] : [];
    return { tries: { found: [], words: none, ended: none, isDone: true } };
}

function oneTry(words, change) {
    return { tries: { found: [{ words, at: null, ...change }], words: [sentence(words)], ended: [], isDone: true } };
}
