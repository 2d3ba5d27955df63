// Steps that can be taken back and made again. A state is a text; each says all that the room holds.

const MOST = 200;

export class History {
    constructor(first) {
        this.states = [first];
        this.place = 0;
    }

    now() {
        return this.states[this.place];
    }

    // A further state. One that goes on with the last one, as the letters of a word do, takes its place.
    put(state, goesOn = false) {
        if (state === this.now()) return;
        const kept = this.states.slice(0, this.place + (goesOn && this.place > 0 ? 0 : 1));
        this.states = [...kept, state].slice(-MOST);
        this.place = this.states.length - 1;
    }

    canUndo() {
        return this.place > 0;
    }

    canRedo() {
        return this.place < this.states.length - 1;
    }

    undo() {
        if (this.canUndo()) this.place--;
        return this.now();
    }

    redo() {
        if (this.canRedo()) this.place++;
        return this.now();
    }
}
