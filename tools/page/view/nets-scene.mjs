// What is drawn of several nets: the room with the ends of all, each in its net's colour, and the wires of those that are routed.
import { KIND, SOLID, placeOf } from "../job/job.mjs";
import { putCells } from "../job/several.mjs";
import { endsOf, lampsOf, sceneOf } from "./scene.mjs";
import { branchColour } from "./signs.mjs";

// Of the app's nets; of a list that was refused the nets before that one are drawn, and of its own the branches so far.
export function netsSceneOf(app, reason) {
    const { jobs, active, answer, nets, before, soFar } = app;
    const scene = sceneOf({ ...app, job: jobs[active], answer: null, net: null, soFar: null }, reason);
    const wires = nets ? nets.map((one) => one.answer.branches) : [...before];
    if (!nets && soFar) wires[answer.net] = soFar.branches;
    const placed = (branch) => branch.map((cell) => placeOf(jobs[0].sides, cell));
    const listed = wires.flatMap((branches, net) => (branches ?? []).map((branch) => ({ net, cells: placed(branch) })));
    const refused = answer?.number === 14 || answer?.number === 16 || answer?.number === 7 ? [answer.detail] : [];
    return Object.assign(scene, {
        branches: listed.map(({ cells }) => cells),
        lines: listed.map(({ net }) => net),
        ends: jobs.flatMap((job, net) => endsOf(job).map((end) => endOfNet(end, net, net === active))),
        refused: new Set(refused),
        runs: nets ? nets.map(({ net, job }) => ({ net, lamps: lampsOf(job) })) : [],
        ...(nets ? laidParts(jobs[0], nets, answer) : { supports: new Set() }),
    });
}

function endOfNet(end, net, isActive) {
    return { ...end, net, isActive, colour: branchColour(net), label: end.place ? `${net}.${end.place}` : String(net) };
}

// The laid room, from the module's own kinds and facings: supports of stone and of glass, and repeaters as they face.
function laidParts(job, nets, { kinds, facings }) {
    const put = putCells(job, { kinds, facings });
    const repeaters = put.filter((cell) => kinds[cell] === KIND.repeater);
    return {
        laid: new Map(put.filter((cell) => kinds[cell] === SOLID || kinds[cell] === KIND.transparent).map((cell) => [cell, kinds[cell]])),
        supports: new Set(put.filter((cell) => kinds[cell] === SOLID || kinds[cell] === KIND.transparent)),
        repeaters,
        turned: new Map(repeaters.map((cell) => [cell, facings[cell]])),
        strength: new Map(nets.flatMap(({ net }) => [...net.strength])),
    };
}
