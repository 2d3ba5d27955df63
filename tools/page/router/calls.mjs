// The functions of the proved module, each called by the names of its parameters in bindings/c/dustroute.h, as bindings/python does it.
// A slice is a pointer of 32 bits and a length of 64; the module's memory behind __heap_base is the caller's.

const PAGE = 65536;
const APART = 16; // a multiple of every element's size
const ARRAYS = { 1: Uint8Array, 2: Uint16Array, 4: Uint32Array, 8: BigUint64Array };

export class Router {
    // `functions` are the header's: for each name its parameters, {name, size, isSlice, isLong}.
    constructor(instance, functions) {
        this.exports = instance.exports;
        this.functions = functions;
    }

    static async load(bytes, functions) {
        const { instance } = await WebAssembly.instantiate(bytes, {});
        return new Router(instance, functions);
    }

    has(name) {
        return name in this.functions && name in this.exports;
    }

    // The names of the header's functions that this module has.
    names() {
        return Object.keys(this.functions).filter((name) => this.has(name));
    }

    // A place in the module's memory for each slice of a function, one behind another, with a gap between.
    places(name, lengths, gap = 0) {
        let next = this.exports.__heap_base.value;
        const found = {};
        for (const { name: slice, size, isSlice } of this.functions[name]) {
            if (!isSlice) continue;
            next = Math.ceil((next + gap) / APART) * APART;
            found[slice] = { at: next, size, length: lengths[slice] };
            next += size * lengths[slice];
        }
        const missing = next + gap - this.exports.memory.buffer.byteLength;
        if (missing > 0) this.exports.memory.grow(Math.ceil(missing / PAGE));
        return found;
    }

    // What lies at a place, as an array over the module's memory: good until the next call.
    lent({ at, size, length }) {
        return new ARRAYS[size](this.exports.memory.buffer, at, length);
    }

    // Calls a function over slices at these places. Its number comes back.
    callAt(name, numbers, places) {
        const words = [];
        for (const { name: parameter, isSlice, isLong } of this.functions[name]) {
            if (isSlice) words.push(places[parameter].at, BigInt(places[parameter].length));
            else words.push(isLong ? BigInt(numbers[parameter]) : numbers[parameter]);
        }
        return this.exports[name](...words) >>> 0;
    }

    // Calls a function. Numbers and inputs are given by name; every other slice is lent, as long as `lengths` says, or `cells`.
    call(name, given, cells, lengths) {
        const wanted = {};
        for (const { name: slice, isSlice } of this.functions[name]) {
            if (isSlice) wanted[slice] = slice in given ? given[slice].length : lengths[slice] ?? cells;
        }
        const places = this.places(name, wanted);
        for (const slice of Object.keys(wanted)) if (slice in given) this.lent(places[slice]).set(given[slice]);
        const number = this.callAt(name, given, places);
        const lent = Object.fromEntries(Object.keys(places).map((slice) => [slice, this.lent(places[slice])]));
        // numbers 1 to 6 touch nothing: no detail is to be read
        return { number, detail: number > 6 ? Number(lent.values[0]) : 0, lent };
    }
}
