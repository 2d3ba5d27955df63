// What to try, on the page: shown as far as it is known by now, and done by a press.
import { triesParts } from "../view/told.mjs";

export class Offered {
    constructor(app, screen, floors) {
        Object.assign(this, { app, screen, floors, shown: "" });
    }

    // What has the keys keeps them while more is found.
    show(box, tries) {
        const shown = JSON.stringify([this.app.asked, tries.words, tries.isDone]);
        if (!box || (shown === this.shown && box.childElementCount)) return;
        this.shown = shown;
        const held = [...box.querySelectorAll("button")].indexOf(document.activeElement);
        box.replaceChildren(...triesParts(tries, (change) => this.take(change), (cell) => this.lookAt(cell)));
        if (held >= 0) box.querySelectorAll("button")[held]?.focus();
        box.dataset.done = String(tries.isDone);
        this.screen.paint();
    }

    // The button goes with the answer: the keys go on at the floor.
    take(change) {
        this.floors.focus({ preventScroll: true });
        this.app.take(change);
    }

    lookAt(cell) {
        this.app.moveCursor(cell);
        this.screen.keepInSight(cell);
    }
}
