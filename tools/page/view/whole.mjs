// The whole room on a canvas, from any side: blocks as boxes, then the wires over them; what stands before a wire is drawn as glass.
import { AHEAD, AIR, KIND, KINDS, SOLID, holds, numberOf, placeOf, step } from "../job/job.mjs";
import { TABLES } from "../job/tables.mjs";
import { Eye } from "./turn.mjs";
import { litPart, paintTag } from "./floor.mjs";
import { INK, branchColour, branchDashes, circle, letters, line, shape } from "./signs.mjs";

// a box's share of its cell: from the sides, and its height
const BOXES = { lever: [0.3, 0.45], button: [0.3, 0.2], "pressure-plate": [0.08, 0.1], "redstone-torch": [0.36, 0.6], repeater: [0.06, 0.18],
    comparator: [0.06, 0.18], "redstone-wire": [0.2, 0.06] };
const STONE = "#e9e9e9";
const LIFT = 0.05; // what lies on a floor is this much above it
const ARROW = [[-0.4, 0.08], [0.02, 0.08], [0.02, 0.26], [0.42, 0], [0.02, -0.26], [0.02, -0.08], [-0.4, -0.08]]; // along, across

export function paintWhole(canvas, scene, lit, { turn, tilt }, width, height) {
    const ratio = globalThis.devicePixelRatio || 1;
    if (canvas.width !== Math.round(width * ratio) || canvas.height !== Math.round(height * ratio)) {
        canvas.width = Math.round(width * ratio);
        canvas.height = Math.round(height * ratio);
    }
    const pen = canvas.getContext("2d");
    pen.setTransform(ratio, 0, 0, ratio, 0, 0);
    pen.clearRect(0, 0, width, height);
    pen.lineJoin = "round";
    const view = { pen, scene, lit, eye: new Eye(scene.job.sides, turn, tilt, width, height) };
    view.glass = glassCells(view);
    paintFrame(view);
    for (const at of view.eye.cells()) paintBlock(view, at, numberOf(scene.job, at));
    scene.branches.forEach((branch, index) => paintWire(view, branch, scene.lines[index]));
    line(pen, wayOf(scene.way).map((point) => view.eye.on(point)), INK, 2.5, [3, 4]);
    for (const cell of scene.repeaters) paintRepeater(view, cell);
    for (const end of scene.ends) paintEnd(view, end);
    paintFlagged(view);
    paintNorth(view, height);
}

function shaded(colour, share) {
    const parts = [1, 3, 5].map((at) => Math.floor(parseInt(colour.slice(at, at + 2), 16) * share));
    return `rgb(${parts.join(",")})`;
}

// The cells through which the eye sees a wire: on the way from it towards the eye.
function glassCells({ scene, eye }) {
    const found = new Set();
    const by = eye.towards().map((part) => part * 0.34);
    for (const branch of scene.branches) {
        for (const at of branch) {
            let point = [at[0] + 0.5, at[1] + 0.4, at[2] + 0.5];
            for (let inside = true; inside; ) {
                point = step(point, by);
                const cell = point.map(Math.floor);
                inside = holds(scene.job, cell);
                if (inside && String(cell) !== String(at)) found.add(numberOf(scene.job, cell));
            }
        }
    }
    return found;
}

function paintFrame({ pen, eye }) {
    const [x, y, z] = eye.sides;
    const edges = [[[0, 0, 0], [x, 0, 0]], [[x, 0, 0], [x, 0, z]], [[x, 0, z], [0, 0, z]], [[0, 0, z], [0, 0, 0]],
        ...[[0, 0], [x, 0], [0, z], [x, z]].map(([a, b]) => [[a, 0, b], [a, y, b]])];
    for (const [one, other] of edges) line(pen, [eye.on(one), eye.on(other)], "#aaa", 1, [1, 4]);
}

function box({ pen, eye }, low, high, colour, stroke, alpha, isHidden = () => false) {
    pen.globalAlpha = alpha;
    for (const { side, shade, points } of eye.faces(low, high)) {
        if (!isHidden(side)) shape(pen, points.map((point) => eye.on(point)), shaded(colour, shade), stroke, 0.8);
    }
    pen.globalAlpha = 1;
}

function small(view, at, margin, height, colour, stroke, alpha) {
    const low = [at[0] + margin, at[1], at[2] + margin];
    box(view, low, [at[0] + 1 - margin, at[1] + height, at[2] + 1 - margin], colour, stroke, alpha);
}

function paintBlock(view, at, cell) {
    const { scene, glass, lit, pen, eye } = view;
    const kind = scene.kinds[cell];
    const name = KINDS[kind];
    if (kind === SOLID) {
        const hides = (side) => {
            const beside = step(at, side);
            return holds(scene.job, beside) && scene.kinds[numberOf(scene.job, beside)] === SOLID && !glass.has(numberOf(scene.job, beside));
        };
        box(view, at, step(at, [1, 1, 1]), STONE, glass.has(cell) ? "#777" : "#999", glass.has(cell) ? 0.13 : 1, hides);
    } else if (kind !== AIR) {
        const [fill, word] = TABLES.KIND_SIGNS[name];
        const isLit = kind === KIND["redstone-lamp"] && lit.lamps.has(cell);
        const [margin, height] = BOXES[name] ?? [0, 1];
        small(view, at, margin, height, isLit ? "#ffd21f" : fill, isLit ? INK : "#555", glass.has(cell) || kind === KIND.transparent ? 0.6 : 1);
        const [x, y] = eye.on([at[0] + 0.5, at[1] + height, at[2] + 0.5]);
        if (isLit) circle(pen, x, y, eye.unit * 0.36, null, INK, 2);
        letters(pen, word, x, y, Math.max(8, eye.unit * 0.34));
    }
    if (scene.laid?.has(cell)) paintLaid(view, at, scene.laid.get(cell));
    else if (scene.supports.has(cell)) small(view, at, 0, 1, "#fbf6dc", "#9b8a3a", 0.6);
    if (scene.conductors.has(cell)) small(view, at, 0.22, 0.08, "#8a6238", "#2b1a0a", 1);
    if (scene.reserved.has(cell)) small(view, at, 0.1, 0.05, "#dddddd", "#444", 0.8);
    if (scene.reached.has(cell)) small(view, at, 0.12, 0.04, "#8fc4e8", "#1b4965", 0.85);
}

// A support as it is laid: stone, or glass.
function paintLaid(view, at, kind) {
    if (kind === SOLID) small(view, at, 0, 1, "#d8cfae", "#6b5f2a", view.glass.has(numberOf(view.scene.job, at)) ? 0.45 : 0.85);
    else small(view, at, 0, 1, "#e3f4fc", "#3a8fc4", 0.5);
}

function onFloor(at) {
    return [at[0] + 0.5, at[1] + LIFT, at[2] + 0.5];
}

// The way of a step: a stair goes to the edge between its cells, and climbs or falls there.
function stepPoints(one, other) {
    const [a, b] = [onFloor(one), onFloor(other)];
    if (one[1] === other[1]) return [a, b];
    const [x, z] = [(a[0] + b[0]) / 2, (a[2] + b[2]) / 2];
    return [a, [x, a[1], z], [x, b[1], z], b];
}

function wayOf(branch) {
    return branch.slice(1).flatMap((at, place) => stepPoints(branch[place], at));
}

function paintWire({ pen, eye, scene, lit }, branch, index) {
    const width = Math.max(2.5, eye.unit * 0.17);
    const on = (cells) => wayOf(cells).map((point) => eye.on(point));
    line(pen, on(branch), "#fff", width * 1.8);
    line(pen, on(litPart(scene, branch, lit)), "#e0201a", width * 2.4);
    line(pen, on(branch), branchColour(index), width, branchDashes(index).map((dash) => (dash * width) / 5));
}

function paintRepeater(view, cell) {
    const { pen, eye, scene, lit } = view;
    const at = placeOf(scene.job.sides, cell);
    const ahead = AHEAD[scene.turned.get(cell)] ?? [1, 0, 0];
    small(view, at, 0.06, 0.16, lit.cells.has(cell) ? "#ffb3ad" : "#ffffff", INK, 1);
    const tip = ARROW.map(([along, across]) => eye.on([at[0] + 0.5 + along * ahead[0] + across * ahead[2], at[1] + 0.17,
        at[2] + 0.5 + along * ahead[2] - across * ahead[0]]));
    shape(pen, tip, INK);
}

function paintEnd({ pen, eye }, { place, at, colour, label, net }) {
    const [x, y] = eye.on(onFloor(at));
    const radius = Math.max(net === undefined ? 7 : 9, eye.unit * 0.34);
    if (place || net === undefined) circle(pen, x, y, radius, place ? "#fff" : colour, colour, 2.5);
    else shape(pen, [[x - radius, y - radius], [x + radius, y - radius], [x + radius, y + radius], [x - radius, y + radius]], colour, INK, 1.5);
    letters(pen, label, x, y + 0.5, label.length > 1 ? radius : radius * 1.3, place ? INK : "#fff");
}

// Where north is, in a corner.
function paintNorth({ pen, eye }, height) {
    const [x, y] = [34, height - 30];
    const [zero, north] = [eye.on([0, 0, 0]), eye.on([0, 0, -1])];
    const [across, down] = [(north[0] - zero[0]) / eye.unit, (north[1] - zero[1]) / eye.unit];
    line(pen, [[x - 12 * across, y - 12 * down], [x + 12 * across, y + 12 * down]], "#555", 2);
    circle(pen, x - 12 * across, y - 12 * down, 3, "#555");
    letters(pen, "N", x + 21 * across, y + 21 * down, 13, "#333");
}

function paintFlagged({ pen, eye, scene }) {
    const flag = (cell, words) => {
        const at = placeOf(scene.job.sides, cell);
        const [x, y] = eye.on([at[0] + 0.5, at[1] + 1.1, at[2] + 0.5]);
        shape(pen, [[x, y - 12], [x + 10, y + 6], [x - 10, y + 6]], "#ffd43b", "#a8201a", 1.8);
        letters(pen, words, x, y + 1, 10);
    };
    for (const [cell, numbers] of scene.warned) flag(cell, numbers.join(" "));
    for (const cell of scene.refused) flag(cell, "!");
    for (const [cell, numbers] of scene.tries) {
        const at = placeOf(scene.job.sides, cell);
        const [x, y] = eye.on([at[0] + 0.5, at[1] + 0.6, at[2] + 0.5]);
        paintTag(pen, x - 12, y + 8, numbers);
    }
}
