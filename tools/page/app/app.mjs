// The room that is drawn and its answer: what changes it, and what is told of each change. The page's parts hang on here.
import { LIMITS, firstFault, holds, numberOf, step } from "../job/job.mjs";
import { draftsOf, jobsOf, problemsOfAll, readText } from "../job/text.mjs";
import { netOf } from "../job/net.mjs";
import { remarks } from "../job/check.mjs";
import { sheetOf } from "../job/sheet.mjs";
import { cellWords, drawn, resized } from "../room/edit.mjs";
import { History } from "../room/history.mjs";
import { TOOLS } from "../room/tools.mjs";
import { sceneOf, triesByCell } from "../view/scene.mjs";
import { netsSceneOf } from "../view/nets-scene.mjs";
import { causeWords, soFarWords } from "../view/told.mjs";
import { KIND_NAMES, SeveralNets } from "./several-nets.mjs";

const TYPING = 1500; // milliseconds within which typed letters are one step back

export class App extends SeveralNets {
    // `shows` has what is called when something is to be shown or asked (main.mjs).
    constructor(text, shows) {
        super();
        Object.assign(this, { shows, tool: TOOLS[0], how: { facing: 0, node: 0, port: 0, high: 1, tail: LIMITS.usualTail }, isStrict: false });
        Object.assign(this, { asked: 0, answer: null, net: null, soFar: null, reasons: [], remarks: [], box: [], strokeText: null, typedAt: 0 });
        this.history = new History(text);
        this.read(text);
        this.cursor = [...this.job.source.at];
    }

    // ---- the text

    // Takes a text over; false where it is none of a room that can be drawn.
    read(text) {
        const draft = readText(text);
        this.text = text;
        this.problems = draft.problems;
        if (draft.problems.length) return false;
        const jobs = jobsOf(draft);
        this.problems = problemsOfAll(draft);
        if (jobs.some((job) => firstFault(job) !== null)) return false;
        Object.assign(this, { jobs, names: draftsOf(draft).map(({ name }) => name) });
        this.active = Math.min(this.active, jobs.length - 1);
        return true;
    }

    show(text, goesOn = false) {
        this.changedAt ??= performance.now();
        const isRead = this.read(text);
        this.history.put(text, goesOn);
        this.told(isRead);
        this.changedAt = null;
        return isRead;
    }

    typed(text) {
        const now = performance.now();
        this.show(text, now - this.typedAt < TYPING);
        this.typedAt = now;
    }

    opened(text) {
        this.typedAt = 0;
        this.active = 0;
        this.shows.text(text);
        if (!this.show(text)) return;
        this.moveCursor([...this.job.source.at]);
    }

    undo() {
        this.restore(this.history.undo());
    }

    redo() {
        this.restore(this.history.redo());
    }

    restore(text) {
        this.shows.text(text);
        this.told(this.read(text));
    }

    told(isRead) {
        this.shows.problems(this.problems, isRead);
        this.shows.history();
        if (isRead) this.ask();
    }

    // ---- drawing

    // The comment at the head of a text stays when the room is drawn on.
    headOfText() {
        const lines = this.text.split(/\r\n|\n|\r/);
        const end = lines.findIndex((line) => line.trim() && !line.trim().startsWith("#"));
        return lines.slice(0, Math.max(end, 0)).join("\n").trimEnd();
    }

    // All changes from a press to its release are one step back.
    beginStroke() {
        this.strokeText = this.history.now();
    }

    endStroke() {
        this.strokeText = null;
    }

    draw(cells, tool = this.tool) {
        const floors = tool.does === "block" || tool.does === "place" || tool.does === "erase" ? this.how.high : 1;
        const all = cells.flatMap((at) => Array.from({ length: floors }, (_, up) => step(at, [0, up, 0])));
        if (tool.does === "erase") this.changeNets(this.jobs.map((job) => drawn(job, tool, all, this.how)));
        else this.change(drawn(this.job, tool, all, this.how));
    }

    resize(sides) {
        this.changeNets(this.jobs.map((job) => resized(job, sides)));
        this.moveCursor(this.cursor.map((place, axis) => Math.min(place, sides[axis] - 1)));
    }

    choose(tool) {
        this.tool = tool;
        this.shows.tool();
    }

    // ---- the cursor

    moveCursor(at) {
        this.cursor = at;
        this.tell(at);
        this.shows.room();
    }

    moveCursorBy(by) {
        const at = step(this.cursor, by);
        if (!holds(this.job, at)) return;
        this.moveCursor(at);
        this.shows.inSight(at);
    }

    markBox(cells) {
        this.box = cells;
        this.shows.room();
    }

    tell(at) {
        const cell = numberOf(this.job, at);
        const words = [...cellWords(this.job, at, KIND_NAMES), ...this.wireWords(cell, at), ...soFarWords(this.soFar, cell),
            ...causeWords(this.scene?.causes, cell)];
        if (this.scene?.supports.has(cell)) words.push("a support is laid here");
        if (this.scene?.blocked.has(cell)) words.push("kept free at the outset");
        this.shows.status(words.join(" · "));
    }

    // ---- the answer

    // What the worker is asked about: the sheet of one net, or those of several.
    question() {
        const asked = { id: this.asked, sheet: sheetOf(this.job), strict: this.isStrict };
        return this.isSeveral ? { ...asked, sheets: this.jobs.map(sheetOf), names: this.names } : asked;
    }

    ask() {
        this.asked++;
        this.begunAt = this.changedAt ?? performance.now();
        this.shows.ask(this.question());
    }

    answered({ id, answer, reasons, took, before = [] }) {
        if (id !== this.asked) return;
        Object.assign(this, { answer, reasons, took, before, tries: null });
        if (this.isSeveral) this.answeredNets();
        else {
            this.nets = null;
            this.net = answer.number ? null : netOf(answer, this.job);
            this.remarks = remarks(this.job, answer, this.net);
        }
        this.soFar = reasons.find((reason) => reason.soFar)?.soFar ?? null;
        this.rescene();
        this.shows.answer();
        if (this.isSeveral ? answer.number >= 13 : this.soFar) this.askTries();
    }

    rescene(reason = this.reasons.find((one) => one.reached)) {
        this.scene = this.isSeveral ? netsSceneOf(this, reason) : sceneOf(this, reason);
    }

    // What to try: the worker tries a few changes each time it is asked; of several nets, other orders.
    askTries() {
        const asks = this.isSeveral ? { asks: "order", net: this.answer.net } : { asks: "tries" };
        this.shows.askIdly({ ...this.question(), ...asks });
    }

    triedOf({ id, tries }) {
        if (id !== this.asked) return;
        this.tries = tries;
        this.scene.tries = triesByCell(this.job, tries.found);
        this.shows.tries(tries);
        if (!tries.isDone) this.askTries();
    }

    // One of them took too long: then what is known by now is all.
    triesEnded(id) {
        if (id === this.asked && this.tries) this.triedOf({ id, tries: { ...this.tries, words: this.tries.ended, isDone: true } });
    }

    // Does what was offered to be tried. The room can be taken back as any step.
    take({ job, strict, at, order }) {
        if (order) this.reorder(order);
        else if (strict !== this.isStrict) {
            this.isStrict = strict;
            this.shows.mode();
            this.ask();
        } else this.change(job);
        if (at) this.moveCursor(at);
    }

    // A tool that asks, drawn from a cell to another.
    between(tool, from, to) {
        this.askFor({ asks: tool.asks, from, to });
    }

    askFor(question) {
        this.shows.askAlso({ ...this.question(), ...question });
    }

    toldOf(reason) {
        this.rescene(reason);
        this.shows.reason(reason);
    }

    // No answer came: the room is shown as it was drawn.
    unanswered() {
        Object.assign(this, { answer: null, net: null, nets: null, before: [], soFar: null, tries: null, reasons: [], remarks: [] });
        this.rescene(null);
    }
}
