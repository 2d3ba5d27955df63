// Drawing by mouse, pen or finger: a press draws, a drag goes on, with Shift a box is filled at the end. The hand moves what it holds; a tool
// that asks has two ends.
import { same } from "../job/job.mjs";
import { heldAt, moved } from "../room/edit.mjs";

// The cells on the straight way from a cell to another of the same floor, so that a quick drag leaves no gap.
function wayBetween(from, to) {
    const count = Math.max(Math.abs(to[0] - from[0]), Math.abs(to[2] - from[2]), 1);
    return Array.from({ length: count }, (_, index) => {
        const share = (index + 1) / count;
        return [Math.round(from[0] + (to[0] - from[0]) * share), to[1], Math.round(from[2] + (to[2] - from[2]) * share)];
    });
}

// All cells of a floor between two corners.
export function boxBetween(one, other) {
    const cells = [];
    for (let x = Math.min(one[0], other[0]); x <= Math.max(one[0], other[0]); x++) {
        for (let z = Math.min(one[2], other[2]); z <= Math.max(one[2], other[2]); z++) cells.push([x, other[1], z]);
    }
    return cells;
}

export function listenToPointer(canvas, app) {
    let from = null; // where the press was
    let last = null;
    let held = null;
    let isMoved = false;
    const cellOf = (event) => app.cellAt(event.offsetX, event.offsetY);

    canvas.addEventListener("pointerdown", (event) => {
        const at = cellOf(event);
        if (!at || event.button > 0) return;
        canvas.focus({ preventScroll: true });
        canvas.setPointerCapture(event.pointerId);
        [from, last, isMoved] = [at, at, false];
        app.moveCursor(at);
        app.beginStroke();
        if (app.tool.does === "hand") {
            app.chooseNet(app.netAt(at), at);
            held = heldAt(app.job, at);
        }
        else if (!event.shiftKey && app.tool.does !== "ask") app.draw([at]);
    });
    canvas.addEventListener("pointermove", (event) => {
        const at = cellOf(event);
        if (at) app.tell(at);
        if (!from || !at || at[1] !== from[1] || same(at, last)) return;
        isMoved = true;
        app.moveCursor(at);
        if (held) app.change(moved(app.job, held, at));
        else if (app.tool.does === "ask") app.markBox([from, at]);
        else if (event.shiftKey) app.markBox(boxBetween(from, at));
        else if (app.tool.does !== "hand") app.draw(wayBetween(last, at));
        last = at;
    });
    const end = (event) => {
        if (!from) return;
        if (app.tool.does === "hand" && !isMoved) app.press(from);
        else if (app.tool.does === "ask") app.between(app.tool, from, last);
        else if (event.shiftKey && app.tool.does !== "hand") app.draw(boxBetween(from, last));
        app.markBox([]);
        app.endStroke();
        [from, held] = [null, null];
    };
    canvas.addEventListener("pointerup", end);
    canvas.addEventListener("pointercancel", end);
}

// The whole room is turned by dragging it.
export function listenToTurning(canvas, turnBy) {
    let from = null;
    canvas.addEventListener("pointerdown", (event) => {
        canvas.setPointerCapture(event.pointerId);
        from = [event.clientX, event.clientY];
    });
    canvas.addEventListener("pointermove", (event) => {
        if (!from) return;
        turnBy((from[0] - event.clientX) / 120, (event.clientY - from[1]) / 200);
        from = [event.clientX, event.clientY];
    });
    const end = () => (from = null);
    canvas.addEventListener("pointerup", end);
    canvas.addEventListener("pointercancel", end);
}
