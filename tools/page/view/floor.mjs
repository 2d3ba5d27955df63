// One floor of the room: x to the right, z downward, so north is up. Drawn in cells of 40 by 40; the pen is scaled before.
import { KINDS, AIR, KIND, numberOf, placeOf } from "../job/job.mjs";
import { CELL, INK, branchColour, branchDashes, circle, letters, line, paintFacing, paintLit, paintSign, shape } from "./signs.mjs";

const TURNS = { 1: -Math.PI / 2, 2: 0, 3: Math.PI / 2, 4: Math.PI };
const GLOW = "#e0201a";
// each reason has dashes of its own; the names are in the legend
export const WALL_LINES = { 1: ["#444", [13, 7]], 2: ["#a8201a", []], 3: ["#0072b2", [3, 7]], 4: ["#8a5a00", [5, 5]], 5: ["#6a3d9a", [14, 4, 3, 4]] };

export function paintFloor(pen, scene, level, lit) {
    const [wide, , deep] = scene.job.sides;
    pen.lineCap = "butt";
    pen.lineJoin = "round";
    pen.fillStyle = "#fff";
    pen.fillRect(0, 0, wide * CELL, deep * CELL);
    paintGrid(pen, wide, deep);
    eachCell(scene, level, (cell, x, z) => {
        pen.save();
        pen.translate(x * CELL, z * CELL);
        paintCell(pen, scene, cell, lit);
        pen.restore();
    });
    scene.branches.forEach((branch, index) => paintBranch(pen, scene, branch, scene.lines[index], level, lit));
    for (const piece of piecesOf(scene.way, level)) line(pen, piece, INK, 4, [3, 5]);
    paintStairs(pen, scene, level);
    paintRepeaters(pen, scene, level, lit);
    paintSignals(pen, scene, level);
    paintEnds(pen, scene, level);
    paintWalls(pen, scene, level);
    paintFlags(pen, scene, level);
    paintTries(pen, scene, level);
    pen.strokeStyle = "#333";
    pen.lineWidth = 2;
    pen.strokeRect(0, 0, wide * CELL, deep * CELL);
}

function eachCell(scene, level, does) {
    const [wide, , deep] = scene.job.sides;
    for (let x = 0; x < wide; x++) for (let z = 0; z < deep; z++) does(numberOf(scene.job, [x, level, z]), x, z);
}

function paintGrid(pen, wide, deep) {
    pen.beginPath();
    for (let x = 1; x < wide; x++) {
        pen.moveTo(x * CELL, 0);
        pen.lineTo(x * CELL, deep * CELL);
    }
    for (let z = 1; z < deep; z++) {
        pen.moveTo(0, z * CELL);
        pen.lineTo(wide * CELL, z * CELL);
    }
    pen.strokeStyle = "#c4c4c4";
    pen.lineWidth = 1;
    pen.stroke();
}

function paintCell(pen, scene, cell, lit) {
    if (scene.reached.has(cell)) {
        pen.fillStyle = "#cfe6f5";
        pen.fillRect(0.5, 0.5, CELL - 1, CELL - 1);
    }
    const kind = scene.kinds[cell];
    if (kind !== AIR) {
        if (kind === KIND["redstone-lamp"] && lit.lamps.has(cell)) paintLit(pen);
        else paintSign(pen, KINDS[kind]);
        paintFacing(pen, scene.facings.get(cell));
    } else if (scene.blocked.has(cell) && !scene.conductors.has(cell)) paintSign(pen, "blocked");
    if (scene.supports.has(cell)) paintSign(pen, "support");
    if (scene.clearances.has(cell)) paintSign(pen, "clearance");
    if (scene.terminals.has(cell)) paintSign(pen, "terminal");
    if (scene.reserved.has(cell)) paintSign(pen, "reserved");
    if (scene.conductors.has(cell)) paintSign(pen, "conductor");
    if (scene.kept.has(cell)) paintKept(pen, scene.kept.get(cell).letter);
    if (scene.reached.has(cell)) circle(pen, 20, 20, 3.5, "#1b4965");
}

// A cell that is kept free and so in the way: the letter of its cause over its signs.
function paintKept(pen, letter) {
    shape(pen, [[9, 8], [31, 8], [31, 32], [9, 32]], "#fff", "#8a5a00", 2);
    letters(pen, letter, 20, 21, 18);
}

export function centre(at) {
    return [at[0] * CELL + CELL / 2, at[2] * CELL + CELL / 2];
}

// The pieces of a branch on this floor, as lines that go on as far as they can. A stair is cut at the edge between its two cells.
function piecesOf(branch, level) {
    const pieces = [];
    for (let place = 1; place < branch.length; place++) {
        const [one, other] = [branch[place - 1], branch[place]];
        if (one[1] !== level && other[1] !== level) continue;
        const edge = [(centre(one)[0] + centre(other)[0]) / 2, (centre(one)[1] + centre(other)[1]) / 2];
        const [from, to] = [one[1] === level ? centre(one) : edge, other[1] === level ? centre(other) : edge];
        const last = pieces[pieces.length - 1];
        if (last && String(last[last.length - 1]) === String(from)) last.push(to);
        else pieces.push([from, to]);
    }
    return pieces;
}

// The wire's cells up to which the signal has come, as pieces of their own.
export function litPart(scene, branch, lit) {
    const end = branch.findIndex((at) => !lit.cells.has(numberOf(scene.job, at)));
    return end < 0 ? branch : branch.slice(0, end);
}

function paintBranch(pen, scene, branch, index, level, lit) {
    for (const piece of piecesOf(branch, level)) line(pen, piece, "#fff", 9);
    for (const piece of piecesOf(litPart(scene, branch, lit), level)) line(pen, piece, GLOW, 13);
    for (const piece of piecesOf(branch, level)) line(pen, piece, branchColour(index), 5, branchDashes(index));
}

function paintStairs(pen, scene, level) {
    for (const branch of scene.branches) {
        for (let place = 1; place < branch.length; place++) {
            const [one, other] = [branch[place - 1], branch[place]];
            if (one[1] === other[1] || (one[1] !== level && other[1] !== level)) continue;
            const x = (centre(one)[0] + centre(other)[0]) / 2;
            const y = (centre(one)[1] + centre(other)[1]) / 2;
            const goesUp = Math.min(one[1], other[1]) === level;
            circle(pen, x, y, 9, goesUp ? "#fff" : INK, INK);
            const tip = goesUp ? -1 : 1;
            shape(pen, [[x, y + 6 * tip], [x + 5.5, y - 4 * tip], [x - 5.5, y - 4 * tip]], goesUp ? INK : "#fff");
        }
    }
}

function paintRepeaters(pen, scene, level, lit) {
    for (const cell of scene.repeaters) {
        const at = placeOf(scene.job.sides, cell);
        if (at[1] !== level) continue;
        pen.save();
        pen.translate(...centre(at));
        pen.rotate(TURNS[scene.turned.get(cell)] ?? 0);
        shape(pen, [[-14, -10], [14, -10], [14, 10], [-14, 10]], lit.cells.has(cell) ? "#ffd1ce" : "#fff", INK, 2.5);
        shape(pen, [[-7, -6], [9, 0], [-7, 6]], INK);
        pen.restore();
    }
}

function paintEnds(pen, scene, level) {
    for (const end of scene.ends) {
        if (end.wire[1] === level && String(end.wire) !== String(end.at))
            line(pen, [centre(end.at), centre(end.wire)], INK, 2.5, [3, 3]);
        if (end.at[1] !== level) continue;
        const [x, y] = centre(end.at);
        const radius = end.label.length > 1 ? 13 : 11;
        if (end.isActive) paintActive(pen, end, x, y);
        if (end.place) circle(pen, x, y, radius, "#fff", end.colour, 4);
        else shape(pen, [[x - 11, y - 11], [x + 11, y - 11], [x + 11, y + 11], [x - 11, y + 11]], end.colour);
        letters(pen, end.label, x, y + 1, end.label.length > 1 ? 13 : 16, end.place ? INK : "#fff");
    }
}

// The ends of the net that is drawn on stand out among those of others.
function paintActive(pen, end, x, y) {
    if (end.place) circle(pen, x, y, 16, null, INK, 2);
    else shape(pen, [[x - 15, y - 15], [x + 15, y - 15], [x + 15, y + 15], [x - 15, y + 15]], "#fff", INK, 2);
}

// A small number in the corner: the signal there. At the source it is always full.
function paintSignals(pen, scene, level) {
    const sources = scene.ends.filter(({ place }) => !place).map(({ at }) => String(at));
    for (const [cell, strength] of scene.strength) {
        const at = placeOf(scene.job.sides, cell);
        if (at[1] !== level || sources.includes(String(at))) continue;
        const [x, y] = [at[0] * CELL + 32, at[2] * CELL + 34.5];
        pen.fillStyle = "#fff";
        pen.fillRect(x - 8, y - 4.5, 16, 9.5);
        letters(pen, String(strength), x, y + 0.5, 12, strength ? "#333" : "#a8201a");
    }
}

function paintWalls(pen, scene, level) {
    for (const { beside, to, why, isThick } of scene.edges) {
        if (to[1] !== level || !scene.reachedLevels.has(level)) continue;
        const x = Math.max(beside[0], to[0]) * CELL;
        const y = Math.max(beside[2], to[2]) * CELL;
        const [colour, dashes] = WALL_LINES[why];
        line(pen, beside[0] !== to[0] ? [[x, y], [x, y + CELL]] : [[x, y], [x + CELL, y]], colour, isThick ? 6 : 3, dashes);
    }
}

// A tag with its number in the list on each cell that a change to try is about.
function paintTries(pen, scene, level) {
    for (const [cell, numbers] of scene.tries) {
        const at = placeOf(scene.job.sides, cell);
        if (at[1] === level) paintTag(pen, at[0] * CELL + 1, at[2] * CELL + 41, numbers);
    }
}

// Its lower left corner is at this place.
export function paintTag(pen, x, y, numbers) {
    const words = `?${numbers.join(" ")}`;
    const width = 7 + 7 * words.length;
    shape(pen, [[x, y - 14], [x + width, y - 14], [x + width, y], [x, y]], INK, "#fff", 1.5);
    letters(pen, words, x + width / 2, y - 6.5, 12, "#fff");
}

// A flag with its number on each cell that is warned of, a frame on each that a refusal speaks of.
function paintFlags(pen, scene, level) {
    for (const cell of scene.refused) {
        const at = placeOf(scene.job.sides, cell);
        if (at[1] !== level) continue;
        pen.strokeStyle = "#a8201a";
        pen.lineWidth = 5;
        pen.strokeRect(at[0] * CELL, at[2] * CELL, CELL, CELL);
        circle(pen, at[0] * CELL + 38, at[2] * CELL + 2, 9, "#a8201a");
        letters(pen, "!", at[0] * CELL + 38, at[2] * CELL + 3, 14, "#fff");
    }
    for (const [cell, numbers] of scene.warned) {
        const at = placeOf(scene.job.sides, cell);
        if (at[1] !== level) continue;
        const [x, y] = [at[0] * CELL + 8, at[2] * CELL + 7];
        shape(pen, [[x, y - 11], [x + 11, y + 8], [x - 11, y + 8]], "#ffd43b", "#a8201a", 2);
        letters(pen, numbers.join(" "), x, y + 3, 10);
    }
}
