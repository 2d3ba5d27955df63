// Drawing without a mouse: arrow keys move the cursor, letters put blocks, Page Up and Page Down change the floor.
import { toolOfKey } from "../room/tools.mjs";
import { boxBetween } from "./pointer.mjs";

const ARROWS = { ArrowLeft: [-1, 0, 0], ArrowRight: [1, 0, 0], ArrowUp: [0, 0, -1], ArrowDown: [0, 0, 1], PageUp: [0, 1, 0], PageDown: [0, -1, 0] };

export function listenToKeys(canvas, app) {
    let corner = null; // where a box began
    canvas.addEventListener("keydown", (event) => {
        if (event.ctrlKey || event.metaKey || event.altKey) return;
        const { key } = event;
        if (key in ARROWS) {
            if (event.shiftKey && !key.startsWith("Page")) corner ??= app.cursor;
            else corner = null;
            app.moveCursorBy(ARROWS[key]);
            app.markBox(corner ? boxBetween(corner, app.cursor) : []);
        } else if (key === " " || key === "Enter") {
            put(app.tool);
        } else if (key === "Delete" || key === "Backspace") {
            put({ does: "erase" });
        } else if (/^[0-9]$/.test(key) && app.isSeveral) {
            app.chooseNet(Number(key));
        } else if (key.length === 1 && toolOfKey(key.toLowerCase())) {
            const tool = toolOfKey(key.toLowerCase());
            app.choose(tool);
            if (tool.does !== "hand" && tool.does !== "ask") put(tool);
        } else return;
        event.preventDefault();
    });
    const put = (tool) => {
        if (tool.does === "ask") {
            app.between(tool, corner ?? app.cursor, app.cursor);
            return;
        }
        const cells = corner ? boxBetween(corner, app.cursor) : [app.cursor];
        corner = null;
        app.markBox([]);
        app.beginStroke();
        if (tool.does === "hand") app.press(app.cursor);
        else app.draw(cells, tool);
        app.endStroke();
    };
}

// Keys of the whole page: a step back and forth, wherever no text is being written.
export function listenToPageKeys(app) {
    document.addEventListener("keydown", (event) => {
        if (!(event.ctrlKey || event.metaKey) || /^(TEXTAREA|INPUT|SELECT)$/.test(event.target.tagName)) return;
        const key = event.key.toLowerCase();
        if (key === "z" && !event.shiftKey) app.undo();
        else if (key === "y" || (key === "z" && event.shiftKey)) app.redo();
        else return;
        event.preventDefault();
    });
}

export function listenToTurnKeys(canvas, turnBy, reset) {
    const turns = { ArrowLeft: [0.2, 0], ArrowRight: [-0.2, 0], ArrowUp: [0, -0.08], ArrowDown: [0, 0.08] };
    canvas.addEventListener("keydown", (event) => {
        if (event.key in turns) turnBy(...turns[event.key]);
        else if (event.key === "Home") reset();
        else return;
        event.preventDefault();
    });
}
