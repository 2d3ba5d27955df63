// A check of the answer, as remarks: what a builder would find out too late. The router's rules don't speak of these; its answers stay.
// In step with tools/dustsheet/check.py.
import { AHEAD, AIR, BLOCK_POWER, FLAT_STEPS, KIND, KINDS, SOLID, holds, kindsOf, numberOf, placeOf, spell, step } from "./job.mjs";
import { BELOW, endName, isSound, keepout, terminal } from "./rules.mjs";
import { FULL } from "./net.mjs";
import { said } from "./said.mjs";

const ROUND = [...FLAT_STEPS, BELOW, [0, 1, 0]];
const SLOPES = FLAT_STEPS.flatMap(([x, , z]) => [[x, -1, z], [x, 1, z]]);
const DRIVERS = ["redstone-torch", "lever", "button", "pressure-plate", "redstone-block"].map((name) => KIND[name]);
const DRIVEN = ["redstone-lamp", "piston", "redstone-torch"].map((name) => KIND[name]);
const GIVERS = [KIND.repeater, KIND.comparator];
const WIRES = [KIND["redstone-wire"]];
const MACHINES = [KIND["redstone-lamp"], KIND.piston];
const GROUND = [SOLID, KIND.transparent, KIND["redstone-block"]];

// All that is to be remarked, of a job that no number 1 to 5 refuses. Without a net the ends alone are looked at.
export function remarks(job, answer, net) {
    if (!isSound(job)) return [];
    const room = new CheckedRoom(job);
    const found = [...room.source(), ...room.sinks()];
    if (net) found.push(...dark(job, answer, net), ...beside(job, answer, net), ...room.ground(net));
    return [...new Map(found.map((remark) => [`${remark.at} ${remark.words}`, remark])).values()];
}

// ---- the signal

function* dark(job, answer, net) {
    for (const [index, sink] of job.sinks.entries()) {
        const wire = terminal(sink);
        if ((net.strength.get(numberOf(job, wire)) ?? FULL) === 0) {
            const run = longRun(numberOf(job, wire), answer, net.before, job);
            yield { at: wire, words: said("%s at %s stays dark: %s", endName(index + 1), spell(sink.at), run) };
        }
    }
}

// The first run on the way to a dark wire that is too long, between two resets or behind the last one.
function longRun(wire, answer, before, job) {
    const way = [];
    for (let cell = wire; cell !== null; cell = before.get(cell)) way.unshift(cell);
    const resets = [0, ...way.flatMap((cell, place) => (answer.repeaters.includes(cell) ? [place] : []))];
    const ends = [...resets.slice(1), way.length - 1];
    for (const [index, start] of resets.entries()) {
        const goal = ends[index];
        // a repeater takes the last of the signal; behind one it is full a step later than at the source
        if (goal - start > FULL - 1 + (start > 0 ? 1 : 0) + (resets.includes(goal) ? 1 : 0)) {
            const name = start ? said("the repeater at %s", spell(placeOf(job.sides, way[start]))) : said("the source");
            const until = resets.includes(goal) ? said(" up to the repeater at %s", spell(placeOf(job.sides, way[goal]))) : "";
            return said("%d steps behind %s%s, and no repeater fits", goal - start, name, until);
        }
    }
    return said("the signal doesn't come through");
}

// ---- other nets

function wiresOf(job, net) {
    return [...new Set([numberOf(job, terminal(job.source)), ...net.strength.keys()])].sort((a, b) => a - b);
}

// The net's ends are never blocked, so there its wire may touch another net's.
function* beside(job, answer, net) {
    const others = new Set(job.conductors.map((at) => numberOf(job, at)));
    for (const cell of wiresOf(job, net)) {
        const at = placeOf(job.sides, cell);
        if (others.has(cell)) yield { at, words: said("the wire at %s lies in another net's conductor", spell(at)) };
        const near = keepout(at).filter((place) => holds(job, place) && others.has(numberOf(job, place)));
        for (const other of near.sort((a, b) => numberOf(job, a) - numberOf(job, b)))
            yield { at, words: said("the wire at %s lies beside another net's conductor at %s: the two would join", spell(at), spell(other)) };
    }
}

// ---- what stands round the ends and under the wires

class CheckedRoom {
    constructor(job) {
        this.job = job;
        this.kinds = kindsOf(job);
        this.facings = new Map(job.blocks.map((block) => [numberOf(job, block.at), block.facing]));
    }

    kind(at) {
        return holds(this.job, at) ? this.kinds[numberOf(this.job, at)] : AIR;
    }

    has(at, places, kinds) {
        return places.some((by) => kinds.includes(this.kind(step(at, by))));
    }

    // Whether the repeater or comparator in a cell gives to another; one that faces up, down or nowhere may.
    feeds(at, to) {
        if (!GIVERS.includes(this.kind(at))) return false;
        const facing = this.facings.get(numberOf(this.job, at));
        return !(facing in AHEAD) || String(step(at, AHEAD[facing])) === String(to);
    }

    // Whether the repeater or comparator in a cell may take from another: it doesn't from the cell it gives to.
    takes(at, beside) {
        return GIVERS.includes(this.kind(at)) && (!(this.facings.get(numberOf(this.job, at)) in AHEAD) || !this.feeds(at, beside));
    }

    *source() {
        const { source } = this.job;
        if (source.port === BLOCK_POWER ? !this.isLiveBlock(source.at) : !this.isDriven(source.at))
            yield { at: source.at, words: said("nothing beside the source at %s could drive it: no lever, button, pressure plate, torch, " +
                "redstone block, repeater, comparator or wire", spell(source.at)) };
    }

    isDriven(wire) {
        if (this.has(wire, [[0, 0, 0], ...ROUND], DRIVERS) || this.has(wire, [...FLAT_STEPS, ...SLOPES], WIRES)) return true;
        return ROUND.some((by) => this.feeds(step(wire, by), wire) || this.isPoweredSolid(step(wire, by)));
    }

    // Whether a block could give power to the wire before it.
    isLiveBlock(at) {
        return [...DRIVERS, ...WIRES, ...GIVERS].includes(this.kind(at)) || this.isPoweredSolid(at);
    }

    isPoweredSolid(at) {
        return this.kind(at) === SOLID && (this.has(at, ROUND, DRIVERS) || ROUND.some((by) => this.feeds(step(at, by), at)));
    }

    *sinks() {
        for (const [index, sink] of this.job.sinks.entries()) {
            if (!this.drives(sink))
                yield { at: sink.at, words: said("%s at %s has nothing to drive: no lamp, piston, torch, repeater, comparator or wire is beside it",
                    endName(index + 1), spell(sink.at)) };
        }
    }

    drives(sink) {
        if (sink.port === BLOCK_POWER)
            return [...MACHINES, ...WIRES, ...GIVERS].includes(this.kind(sink.at)) || this.isDrivingSolid(sink.at);
        const places = [...FLAT_STEPS, BELOW];
        if (this.has(sink.at, places, MACHINES) || this.has(sink.at, [...FLAT_STEPS, ...SLOPES], WIRES)) return true;
        return places.some((by) => this.takes(step(sink.at, by), sink.at) || this.isDrivingSolid(step(sink.at, by)));
    }

    isDrivingSolid(at) {
        return this.kind(at) === SOLID && (this.has(at, ROUND, DRIVEN) || ROUND.some((by) => this.takes(step(at, by), at)));
    }

    *ground(net) {
        const wires = new Set(wiresOf(this.job, net));
        for (const cell of wiresOf(this.job, net)) {
            const at = placeOf(this.job.sides, cell);
            const standing = this.kind(at);
            if (standing !== AIR && !WIRES.includes(standing))
                yield { at, words: said("no wire can be laid at %s: a %s stands there", spell(at), KINDS[standing]) };
            const under = step(at, BELOW);
            if (!holds(this.job, under)) continue;
            const number = numberOf(this.job, under);
            const held = net.supports.has(number) ? this.keptFree(under) : null;
            if (held) yield { at, words: said("the wire at %s needs a support at %s, which %s", spell(at), spell(under), held) };
            else if (wires.has(number)) yield { at, words: said("the wire at %s has no ground: the net's own wire lies right beneath", spell(at)) };
            else if (![AIR, ...GROUND].includes(this.kind(under)))
                yield { at, words: said("the wire at %s has no ground: a %s stands beneath", spell(at), KINDS[this.kind(under)]) };
        }
    }

    keptFree(at) {
        const lies = (name) => this.job[name].some((place) => String(place) === String(at));
        if (lies("conductors")) return said("is another net's conductor");
        if (lies("clearances")) return said("another net keeps clear");
        if (lies("terminals")) return said("is another net's terminal");
        return lies("reserved") ? said("is reserved") : null;
    }
}
