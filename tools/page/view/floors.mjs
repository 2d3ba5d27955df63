// The canvas with the floors: one at a time, or all side by side. Where each is, and which cell is under a pointer.
import { CELL, letters, INK } from "./signs.mjs";
import { centre, paintFloor } from "./floor.mjs";

const GAP = 12;
const SMALLEST = 0.4; // times 40 pixels a cell
const LARGEST = 1.9;

export class Floors {
    constructor(canvas) {
        this.canvas = canvas;
        this.places = [];
        this.zoom = 1;
    }

    // Where each floor is, for a space of this size in pixels.
    layOut(sides, level, isAll, width, height) {
        const [wide, high, deep] = sides;
        this.type = 0.78 * parseFloat(getComputedStyle(document.documentElement).fontSize); // of the numbers at the sides of a grid
        const [left, top] = [2.4 * this.type, 2.1 * this.type]; // their room
        const levels = isAll ? Array.from({ length: high }, (_, index) => index) : [level];
        let best = null;
        for (let columns = 1; columns <= levels.length; columns++) {
            const rows = Math.ceil(levels.length / columns);
            const zoom = Math.min((width / columns - left - GAP) / wide, (height / rows - top - GAP) / deep) / CELL;
            if (best === null || zoom > best.zoom) best = { columns, zoom };
        }
        this.zoom = Math.min(Math.max(best.zoom, SMALLEST), LARGEST); // what is too small to be read is scrolled instead
        const [boxWide, boxHigh] = [wide * CELL * this.zoom + left + GAP, deep * CELL * this.zoom + top + GAP];
        const columns = best.zoom < SMALLEST ? Math.max(1, Math.floor(width / boxWide)) : best.columns;
        const rows = Math.ceil(levels.length / columns);
        this.places = levels.map((one, index) => ({ level: one, left: left + (index % columns) * boxWide,
            top: top + Math.floor(index / columns) * boxHigh }));
        this.size(Math.max(width, columns * boxWide), Math.max(height, rows * boxHigh));
    }

    size(width, height) {
        const ratio = globalThis.devicePixelRatio || 1;
        const [across, down] = [Math.round(width * ratio), Math.round(height * ratio)];
        if (this.canvas.width !== across || this.canvas.height !== down) {
            this.canvas.width = across;
            this.canvas.height = down;
            this.canvas.style.width = `${width}px`;
            this.canvas.style.height = `${height}px`;
        }
        this.ratio = ratio;
    }

    paint(scene, lit, marks) {
        const pen = this.canvas.getContext("2d");
        pen.setTransform(this.ratio, 0, 0, this.ratio, 0, 0);
        pen.clearRect(0, 0, this.canvas.width, this.canvas.height);
        for (const place of this.places) {
            pen.save();
            pen.translate(place.left, place.top);
            this.paintNumbers(pen, scene, place);
            pen.scale(this.zoom, this.zoom);
            paintFloor(pen, scene, place.level, lit);
            paintMarks(pen, marks, place.level);
            pen.restore();
        }
    }

    // The numbers along the top (x) and at the left (z); with many cells not every one.
    paintNumbers(pen, scene, { level }) {
        const [wide, , deep] = scene.job.sides;
        const side = CELL * this.zoom;
        const every = Math.ceil((1.7 * this.type) / side);
        for (let x = 0; x < wide; x += every) letters(pen, String(x), (x + 0.5) * side, -0.7 * this.type, this.type, "#444", "normal");
        for (let z = 0; z < deep; z += every) letters(pen, String(z), -1.1 * this.type, (z + 0.5) * side, this.type, "#444", "normal");
        if (this.places.length > 1) letters(pen, `y ${level}`, -1.1 * this.type, -0.9 * this.type, this.type, INK);
    }

    // Where a cell is on the canvas, and how large it is; null where its floor isn't shown.
    placeOfCell(at) {
        const place = this.places.find(({ level }) => level === at[1]);
        const side = CELL * this.zoom;
        return place ? { left: place.left + at[0] * side, top: place.top + at[2] * side, side } : null;
    }

    // The cell at a place of the canvas, in pixels of the page; null beside the floors.
    cellAt(sides, left, top) {
        const side = CELL * this.zoom;
        for (const place of this.places) {
            const x = Math.floor((left - place.left) / side);
            const z = Math.floor((top - place.top) / side);
            if (x >= 0 && x < sides[0] && z >= 0 && z < sides[2]) return [x, place.level, z];
        }
        return null;
    }
}

// The cursor, and the cells that a box would fill.
function paintMarks(pen, { cursor, box, hasFocus }, level) {
    for (const at of box) {
        if (at[1] !== level) continue;
        pen.fillStyle = "rgba(11, 83, 148, .25)";
        pen.fillRect(at[0] * CELL, at[2] * CELL, CELL, CELL);
    }
    if (!cursor || cursor[1] !== level) return;
    const [x, y] = centre(cursor);
    pen.lineWidth = hasFocus ? 5 : 2.5;
    pen.strokeStyle = "#fff";
    pen.strokeRect(x - 21, y - 21, 42, 42);
    pen.strokeStyle = "#0b5394";
    pen.lineWidth = hasFocus ? 4 : 1.5;
    pen.strokeRect(x - 18.5, y - 18.5, 37, 37);
}
