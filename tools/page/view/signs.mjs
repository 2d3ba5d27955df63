// The signs of a floor, each drawn in a cell of 40 by 40, as tools/dustsheet/symbols.py has them: every sign differs from the others in
// shape or letters, not in colour alone, so that it can be read in black and white.
import { TABLES } from "../job/tables.mjs";

export const CELL = 40;
export const INK = "#111";
const FONT = '"DejaVu Sans", Verdana, Arial, sans-serif';

export function letters(pen, words, x, y, size, colour = INK, weight = "bold") {
    pen.font = `${weight} ${size}px ${FONT}`;
    pen.fillStyle = colour;
    pen.textAlign = "center";
    pen.textBaseline = "middle";
    pen.fillText(words, x, y);
}

export function shape(pen, points, fill, stroke = null, width = 1.5) {
    pen.beginPath();
    points.forEach(([x, y], index) => (index ? pen.lineTo(x, y) : pen.moveTo(x, y)));
    pen.closePath();
    if (fill) {
        pen.fillStyle = fill;
        pen.fill();
    }
    if (stroke) {
        pen.strokeStyle = stroke;
        pen.lineWidth = width;
        pen.stroke();
    }
}

export function line(pen, points, stroke, width, dashes = []) {
    pen.beginPath();
    points.forEach(([x, y], index) => (index ? pen.lineTo(x, y) : pen.moveTo(x, y)));
    pen.strokeStyle = stroke;
    pen.lineWidth = width;
    pen.setLineDash(dashes);
    pen.stroke();
    pen.setLineDash([]);
}

function square(pen, margin, fill, stroke, width = 1.5, dashes = []) {
    const side = CELL - 2 * margin;
    if (fill) {
        pen.fillStyle = fill;
        pen.fillRect(margin, margin, side, side);
    }
    if (stroke) {
        pen.strokeStyle = stroke;
        pen.lineWidth = width;
        pen.setLineDash(dashes);
        pen.strokeRect(margin, margin, side, side);
        pen.setLineDash([]);
    }
}

export function circle(pen, x, y, radius, fill, stroke = null, width = 2) {
    pen.beginPath();
    pen.arc(x, y, radius, 0, 2 * Math.PI);
    if (fill) {
        pen.fillStyle = fill;
        pen.fill();
    }
    if (stroke) {
        pen.strokeStyle = stroke;
        pen.lineWidth = width;
        pen.stroke();
    }
}

const DIAMOND = [[20, 6], [34, 20], [20, 34], [6, 20]];

const OTHER_SIGNS = {
    solid(pen) {
        square(pen, 0, "#b9b9b9", null);
        pen.beginPath();
        for (const [x, y, a, b] of [[0, 14, 14, 0], [0, 34, 34, 0], [8, 40, 40, 8], [28, 40, 40, 28]]) {
            pen.moveTo(x, y);
            pen.lineTo(a, b);
        }
        pen.strokeStyle = "#8b8b8b";
        pen.lineWidth = 1.6;
        pen.stroke();
    },
    conductor(pen) {
        shape(pen, [[20, 5], [35, 20], [20, 35], [5, 20]], "#6b4a2b", "#2b1a0a");
        line(pen, [[14, 14], [26, 26]], "#fff", 2.5);
        line(pen, [[26, 14], [14, 26]], "#fff", 2.5);
    },
    clearance(pen) {
        shape(pen, DIAMOND, "#fff", "#6b4a2b", 2.5);
    },
    terminal(pen) {
        shape(pen, DIAMOND, "#fff", "#6b4a2b", 2.5);
        circle(pen, 20, 20, 5, "#6b4a2b");
    },
    reserved(pen) {
        square(pen, 4, "#fff", "#444", 2, [5, 4]);
        letters(pen, "R", 20, 21, 16);
    },
    blocked(pen) {
        line(pen, [[15, 15], [25, 25]], "#8a8a8a", 2);
        line(pen, [[25, 15], [15, 25]], "#8a8a8a", 2);
    },
    support(pen) {
        square(pen, 8, "#fbf6dc", "#9b8a3a", 1.5, [4, 3]);
        letters(pen, "sup", 20, 21, 10, "#5d5014", "normal");
    },
    source(pen) {
        square(pen, 6, INK, null);
        letters(pen, "S", 20, 21, 20, "#fff");
    },
    sink(pen) {
        circle(pen, 20, 20, 13, "#fff", TABLES.COLOURS[0], 4);
        letters(pen, "1", 20, 21, 16);
    },
    hand(pen) {
        circle(pen, 20, 27, 9, "#efe0c8", "#555", 2);
        line(pen, [[20, 27], [30, 8]], INK, 5);
    },
    why(pen) {
        circle(pen, 20, 20, 15, "#fff", INK, 2.5);
        letters(pen, "?", 20, 21, 22);
    },
    erase(pen) {
        line(pen, [[9, 9], [31, 31]], "#a8201a", 5);
        line(pen, [[31, 9], [9, 31]], "#a8201a", 5);
    },
};

const FACING_TIPS = {
    1: [[15, 8], [20, 1], [25, 8]], 2: [[32.5, 15], [39, 20], [32.5, 25]], 3: [[15, 32], [20, 39], [25, 32]], 4: [[7.5, 15], [1, 20], [7.5, 25]],
};

// The sign of a name, drawn at the pen's place.
export function paintSign(pen, name) {
    if (name in OTHER_SIGNS) return OTHER_SIGNS[name](pen);
    const [fill, word] = TABLES.KIND_SIGNS[name];
    square(pen, 0.75, fill, "#555");
    return letters(pen, word, 20, 21, 16);
}

export function paintFacing(pen, facing) {
    if (facing in FACING_TIPS) shape(pen, FACING_TIPS[facing], INK);
    else if (facing) letters(pen, facing === 5 ? "up" : "down", 20, 34, 10);
}

// A lamp that is lit: rays and a rim, so that it shows without colour.
export function paintLit(pen) {
    square(pen, 2, "#ffd21f", INK, 3);
    for (let turn = 0; turn < 8; turn++) {
        const [x, y] = [Math.cos((turn * Math.PI) / 4), Math.sin((turn * Math.PI) / 4)];
        line(pen, [[20 + 11 * x, 20 + 11 * y], [20 + 16 * x, 20 + 16 * y]], INK, 2);
    }
    letters(pen, "La", 20, 21, 13);
}

export function branchColour(branch) {
    return TABLES.COLOURS[branch % TABLES.COLOURS.length];
}

export function branchDashes(branch) {
    const { COLOURS, DASHES } = TABLES;
    const dash = DASHES[(branch + Math.floor(branch / COLOURS.length)) % DASHES.length];
    return dash ? dash.split(" ").map(Number) : [];
}
