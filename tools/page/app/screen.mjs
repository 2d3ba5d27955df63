// Both views of the room: when they are drawn, from where they are seen, what is scrolled.
import { Floors } from "../view/floors.mjs";
import { paintWhole } from "../view/whole.mjs";

const START = { turn: Math.PI / 4, tilt: Math.PI / 6 };

export class Screen {
    // `canvases` are {floors, space, whole}: the floors' canvas, what it is scrolled in, and that of the whole room.
    constructor(app, signal, canvases) {
        Object.assign(this, { app, signal, ...canvases, view: { ...START }, isAll: false, isDue: false });
        this.grids = new Floors(canvases.floors);
    }

    // Both views at the next frame.
    paint() {
        if (this.isDue) return;
        this.isDue = true;
        requestAnimationFrame(() => {
            this.isDue = false;
            this.paintNow();
        });
    }

    paintNow() {
        const { app, grids, space, whole } = this;
        const lit = this.signal.lit();
        const { sides } = app.scene.job; // until the answer comes, the room of the last one
        grids.layOut(sides, Math.min(app.cursor[1], sides[1] - 1), this.isAll, space.clientWidth - 4, space.clientHeight - 4);
        grids.paint(app.scene, lit, { cursor: app.cursor, box: app.box, hasFocus: document.activeElement === this.floors });
        paintWhole(whole, app.scene, lit, this.view, whole.clientWidth, whole.clientHeight);
    }

    // Where the floors are scrolled, the cursor's cell stays to be seen.
    keepInSight(cell) {
        requestAnimationFrame(() => {
            const place = this.grids.placeOfCell(cell);
            if (!place) return;
            const { space } = this;
            const kept = (now, low, size) => Math.min(Math.max(now, low + place.side - size + 8), Math.max(0, low - 24));
            space.scrollTo(kept(space.scrollLeft, place.left, space.clientWidth), kept(space.scrollTop, place.top, space.clientHeight));
        });
    }

    turnBy(turn, tilt) {
        this.view.turn += turn;
        this.view.tilt = Math.min(Math.max(this.view.tilt + tilt, 0.15), 1.4);
        this.paint();
    }

    turnBack() {
        Object.assign(this.view, START);
        this.paint();
    }

    // One floor at a time, or all of them; whether it is all now.
    switchFloors() {
        this.isAll = !this.isAll;
        this.paint();
        return this.isAll;
    }
}
