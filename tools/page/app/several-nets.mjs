// The nets of the room that is drawn: one of them is drawn on; each has its name and its turn, and all share the room and its blocks.
import { KINDS, LIMITS, PLACE_LISTS, holds, numberOf } from "../job/job.mjs";
import { netOf } from "../job/net.mjs";
import { remarksOfAll } from "../job/several.mjs";
import { TABLES } from "../job/tables.mjs";
import { netName } from "../job/text.mjs";
import { writeAll, writeText } from "../job/write.mjs";
import { cellWords } from "../room/edit.mjs";
import { netWords } from "../view/told.mjs";

export const KIND_NAMES = KINDS.map((name) => TABLES.KIND_NAMES[name]);

export class SeveralNets {
    constructor() {
        Object.assign(this, { active: 0, jobs: [], names: [], nets: null, before: [] });
    }

    // The job of the net that is drawn on.
    get job() {
        return this.jobs[this.active];
    }

    get isSeveral() {
        return this.jobs.length > 1;
    }

    // ---- changes

    // The job of the net that is drawn on, changed. Room and blocks are one for all nets, and so are costs and limits that are set here.
    change(job) {
        if (job === this.job) return;
        const isSet = (name) => String(job[name]) !== String(this.job[name]);
        const set = Object.fromEntries(["costs", "limit", "run"].filter(isSet).map((name) => [name, job[name]]));
        const shared = { sides: job.sides, blocks: job.blocks, ...set };
        this.changeNets(this.jobs.map((other, index) => (index === this.active ? job : { ...other, ...shared })));
    }

    changeNets(jobs, names = this.names, active = this.active) {
        this.changedAt = performance.now();
        const head = this.headOfText();
        const written = jobs.length > 1 || names[0] ? writeAll(jobs, names) : writeText(jobs[0]);
        const text = (head ? head + "\n" : "") + written;
        this.active = active;
        if (text === this.text) return;
        this.typedAt = 0;
        this.shows.text(text);
        this.show(text, this.strokeText !== null && this.history.now() !== this.strokeText);
    }

    // The hand on a cell: the lever, or what else drives a source, is switched.
    press(at) {
        const kind = KINDS[this.scene.kinds[numberOf(this.job, at)]];
        const near = (end) => end.reduce((sum, place, axis) => sum + Math.abs(place - at[axis]), 0);
        const driven = this.jobs.map(({ source }) => near(source.at));
        const isDriver = ["lever", "button", "pressure-plate"].includes(kind);
        const own = driven[this.active] <= (isDriver ? 1 : 0) ? this.active : driven.findIndex((away) => away <= (isDriver ? 1 : 0));
        if (own >= 0 || isDriver) this.shows.switched(own >= 0 ? own : this.active);
    }

    // ---- which net is drawn on, and in what order they are routed

    // The net whose source or sink stands in a cell, the one that is drawn on first; -1 where none does.
    netAt(at) {
        const holdsEnd = ({ source, sinks }) => [source, ...sinks].some((end) => String(end.at) === String(at));
        return this.job && holdsEnd(this.job) ? this.active : this.jobs.findIndex(holdsEnd);
    }

    // Draws on a net from now on; the cursor goes to its source, or stays in a cell that is given.
    chooseNet(index, at = this.jobs[index]?.source.at) {
        if (index === this.active || !this.jobs[index]) return;
        this.active = index;
        if (this.scene) this.rescene();
        this.shows.nets();
        this.moveCursor([...at]);
    }

    // A further net, whose source is at the cursor, or where no other net's end stands.
    addNet() {
        const free = (at) => holds(this.job, at) && this.netAt(at) < 0 && !this.job.blocks.some((block) => String(block.at) === String(at));
        const [x, y, z] = this.cursor;
        const near = [[0, 0], [0, 1], [1, 0], [0, -1], [-1, 0], [0, 2], [2, 0], [0, -2], [-2, 0], [0, 3], [3, 0], [0, -3], [-3, 0]];
        const at = near.map(([by, along]) => [x + by, y, z + along]).find(free) ?? this.cursor;
        const { sides, limit, costs, run, blocks } = this.jobs[0];
        const lists = Object.fromEntries(PLACE_LISTS.map((part) => [part, this.sharedList(part)]));
        const net = { sides, limit, costs, run, blocks, ...lists, source: { at: [...at], port: 0, facing: 0 }, sinks: [] };
        this.changeNets([...this.jobs, net], [...this.names, ""], this.jobs.length);
        this.moveCursor([...at]);
    }

    // What all nets have in a list: that much is kept of it by a further one.
    sharedList(part) {
        const [first, ...rest] = this.jobs.map((job) => job[part]);
        return first.filter((at) => rest.every((other) => other.some((one) => String(one) === String(at))));
    }

    removeNet() {
        if (!this.isSeveral) return;
        const left = (list) => list.filter((_, index) => index !== this.active);
        this.changeNets(left(this.jobs), left(this.names), Math.max(0, this.active - 1));
    }

    // One word, which no other net has; a number is no name.
    renameNet(words) {
        const word = words.trim().replace(/[\s#,()]+/g, "-").slice(0, LIMITS.netName - 3);
        const isTaken = this.names.some((other, index) => index !== this.active && other === word);
        const name = /^[0-9]+$/.test(word) ? "" : isTaken && word ? `${word}-${this.active}` : word;
        this.changeNets(this.jobs, this.names.map((other, index) => (index === this.active ? name : other)));
        this.shows.nets();
    }

    // The net that is drawn on, routed a place earlier or later.
    moveNet(by) {
        const to = this.active + by;
        if (to < 0 || to >= this.jobs.length) return;
        const order = this.jobs.map((_, index) => index);
        [order[this.active], order[to]] = [order[to], order[this.active]];
        this.reorder(order);
    }

    reorder(order) {
        this.changeNets(order.map((index) => this.jobs[index]), order.map((index) => this.names[index]), order.indexOf(this.active));
    }

    // ---- what is answered

    answeredNets() {
        const { answer } = this;
        const netAt = (job, index) => ({ job, name: this.names[index], answer: answer.nets[index], net: netOf(answer.nets[index], job) });
        this.nets = answer.number ? null : this.jobs.map(netAt);
        this.net = this.nets ? this.nets[this.active].net : null;
        this.remarks = this.nets ? remarksOfAll(this.nets, answer) : [];
    }

    // What a cell's wire tells: of several nets, whose it is.
    wireWords(cell, at) {
        if (!this.isSeveral) return netWords(this.answer, this.net, cell);
        const isEnd = (words) => words === "the source" || words.startsWith("sink ");
        const ends = this.jobs.flatMap((job, index) => (index === this.active ? [] : cellWords(job, at, KIND_NAMES).filter(isEnd)
            .map((words) => `${words} of ${netName(index, this.names[index])}`)));
        const wires = (this.nets ?? []).flatMap(({ answer, net, name }, index) =>
            netWords(answer, net, cell).map((words, place) => (place ? words : `${netName(index, name)}: ${words}`)));
        return [...ends, ...wires];
    }
}
