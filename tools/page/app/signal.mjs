// The lever: when it is on, the signal runs along the wire, a step at a time, and lights the lamps that it gets to.

const STEP = 70; // milliseconds a step
const NOTHING_LIT = { cells: new Set(), lamps: new Set() };

export class Signal {
    constructor(paint) {
        Object.assign(this, { paint, on: new Map(), timer: null, runs: [] });
    }

    // Another room or another wire: all levers are off again.
    reset(scene) {
        clearInterval(this.timer);
        Object.assign(this, { runs: scene?.runs ?? [], on: new Map() }); // of each net that is on, the steps that its signal has made
    }

    isOn(net) {
        return this.on.has(net);
    }

    // The lever of a net; whether it is on now.
    switchOver(net = 0) {
        if (this.on.has(net)) this.on.delete(net);
        else if (this.runs[net]) this.on.set(net, 0);
        clearInterval(this.timer);
        if (this.on.size) this.timer = setInterval(() => this.step(), STEP);
        this.paint();
        return this.on.has(net);
    }

    step() {
        for (const [net, steps] of this.on) this.on.set(net, steps + 1);
        const isDone = ([net, steps]) => steps > Math.max(0, ...this.runs[net].net.steps.values()) + 1;
        if ([...this.on].every(isDone)) clearInterval(this.timer);
        this.paint();
    }

    // What is lit by now: the wires that the signal has come to, and lamps a step behind their wire.
    lit() {
        if (!this.on.size) return NOTHING_LIT;
        const [cells, lit] = [new Set(), new Set()];
        for (const [which, made] of this.on) {
            const { net, lamps } = this.runs[which];
            const comes = (cell, by) => (net.strength.get(cell) ?? 0) > 0 && net.steps.get(cell) + by <= made;
            for (const cell of net.steps.keys()) if (comes(cell, 0)) cells.add(cell);
            for (const { wire, cell } of lamps) if (comes(wire, 1)) lit.add(cell);
        }
        return { cells, lamps: lit };
    }
}
