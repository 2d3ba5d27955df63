// The page: finds its elements, hangs them on the app, and draws.
import { FACINGS, LIMITS, PORTS } from "../job/job.mjs";
import { TABLES } from "../job/tables.mjs";
import { netName } from "../job/text.mjs";
import { Background } from "../router/background.mjs";
import { answerParts, element, reasonParts } from "../view/told.mjs";
import { App } from "./app.mjs";
import { Nets } from "./nets-bar.mjs";
import { buildPalette } from "./palette.mjs";
import { listenToKeys, listenToPageKeys, listenToTurnKeys } from "./keyboard.mjs";
import { listenToPointer, listenToTurning } from "./pointer.mjs";
import { Kept } from "./kept.mjs";
import { save } from "./files.mjs";
import { Offered } from "./offered.mjs";
import { Screen } from "./screen.mjs";
import { Signal } from "./signal.mjs";

const at = (id) => document.getElementById(id);
const EXAMPLES = JSON.parse(at("examples").textContent);

// what the app calls when something is to be shown or asked
const shows = {
    room: showCursor,
    answer: showAnswer,
    reason: showReason,
    tries: (tries) => offered.show(document.getElementById("tries"), tries),
    mode: () => (at("strict").checked = app.isStrict),
    problems: showProblems,
    history: showHistory,
    switched: switchLever,
    nets: showNets,
    ask,
    askAlso: (question) => background.askAlso(question),
    askIdly: (question) => background.askIdly(question),
    text: (text) => (at("text").value = text),
    status: (words) => (at("status").textContent = words),
    tool: () => showTool(app.tool),
    inSight: (cell) => screen.keepInSight(cell),
};
const app = new App(EXAMPLES[0].text, shows);
app.unanswered();
const netsBar = new Nets(app, at);
const signal = new Signal(() => screen.paint());
const screen = new Screen(app, signal, { floors: at("floors"), space: at("floors-space"), whole: at("whole") });
const offered = new Offered(app, screen, at("floors"));
const bytes = Uint8Array.from(atob(at("module").textContent.trim()), (letter) => letter.charCodeAt(0));
const background = new Background(at("worker").textContent, { module: bytes, functions: TABLES.FUNCTIONS }, heard);
const kept = new Kept(app, background, EXAMPLES[0].name);
const showTool = buildPalette(at("tools"), (tool) => app.choose(tool));
app.cellAt = (left, top) => screen.grids.cellAt(app.job.sides, left, top);

// ---- the room

function showCursor() {
    showLevel();
    screen.paint();
}

function showLevel() {
    at("level").textContent = `y = ${app.cursor[1]}`;
}

function showRoom() {
    app.job.sides.forEach((side, axis) => (at(`side-${axis}`).value = side));
    app.job.costs.forEach((cost, index) => (at(`cost-${index}`).value = cost));
    at("limit").value = app.job.limit;
    at("run").value = app.job.run;
    netsBar.show();
    if (!app.cursor.every((place, axis) => place < app.job.sides[axis])) app.cursor = [...app.job.source.at];
    showLevel();
}

// Another net is drawn on.
function showNets() {
    netsBar.show();
    app.net = app.nets?.[app.active]?.net ?? app.net;
    showLever();
}

// ---- answers

let slow = null;

// An answer that isn't there at once isn't waited for: the room is shown as it is drawn.
function ask(question) {
    clearTimeout(slow);
    slow = setTimeout(() => showNothing("Routing ..", "", ""), 250);
    background.ask(question);
}

function showNothing(title, words, look) {
    app.unanswered();
    signal.reset(app.scene);
    showRoom();
    at("answer").replaceChildren(element("h2", title, { class: look }), element("p", words, { id: "refusal" }));
    at("lever").disabled = true;
    screen.paint();
}

function heard(data) {
    if (data.names) {
        at("strict-choice").hidden = !data.names.includes("dustroute_tree_mode");
        netsBar.allow(data.names.includes("dustroute_nets"));
        return undefined;
    }
    if (data.told?.file) return save(data.told.saveAs, data.told.file);
    if (data.told?.tries) return app.triedOf({ id: data.id, tries: data.told.tries });
    if (data.late && data.asks === "tries") return app.triesEnded(data.id);
    clearTimeout(slow);
    if (data.told) return app.toldOf(data.told);
    if (data.answer) return app.answered(data);
    if (data.late)
        return showNothing("It took too long", `No answer after ${data.late} seconds, so the search was ended. A smaller room, fewer ` +
            "sinks, a lower node limit, or costs of at least 10 and 20 make it quicker.", "bad");
    return showNothing("No router", `The router could not be run here: ${data.failed}`, "bad");
}

function showAnswer() {
    signal.reset(app.scene);
    showRoom();
    at("answer").replaceChildren(...answerParts(app));
    showLever();
    screen.paintNow();
    const drawn = performance.now() - app.begunAt;
    at("times").textContent = `routed in ${app.took.toFixed(1)} ms, on the screen after ${drawn.toFixed(0)} ms`;
    Object.assign(document.body.dataset, { answered: app.asked, drawn: drawn.toFixed(1) });
}

// What a tool or a button asked: its words stand before the answer that is there.
function showReason(reason) {
    document.getElementById("asked")?.remove();
    at("answer").prepend(element("section", [element("h2", "Asked"), ...reasonParts(reason)], { id: "asked" }));
    at("answer").scrollTop = 0;
    screen.paint();
}

// What is wrong with the text; where it is no room that can be drawn, the last one stays, and pales.
function showProblems(problems, isRead = true) {
    document.body.classList.toggle("stale", !isRead);
    at("problems").replaceChildren(...problems.slice(0, 20).map(({ line, words }) => element("li", `line ${line}: ${words}`)));
    at("problems").hidden = !problems.length;
}

function showHistory() {
    at("undo").disabled = !app.history.canUndo();
    at("redo").disabled = !app.history.canRedo();
}

// The lever of a net; the button is that of the net which is drawn on.
function switchLever(net = app.active) {
    signal.switchOver(net);
    showLever();
}

function showLever() {
    at("lever").setAttribute("aria-pressed", String(signal.isOn(app.active)));
    at("lever").disabled = !app.net?.branches.length;
    at("lever").textContent = app.isSeveral ? `Switch the lever of ${netName(app.active, app.names[app.active])}` : "Switch the lever";
}

// ---- what is pressed

function listenToButtons() {
    const press = (id, does) => at(id).addEventListener("click", does);
    press("undo", () => app.undo());
    press("redo", () => app.redo());
    press("lever", () => switchLever());
    press("up", () => app.moveCursorBy([0, 1, 0]));
    press("down", () => app.moveCursorBy([0, -1, 0]));
    press("turn-left", () => screen.turnBy(Math.PI / 4, 0));
    press("turn-right", () => screen.turnBy(-Math.PI / 4, 0));
    press("save-text", () => kept.saveText());
    press("save-sheet", () => kept.saveSheet());
    press("open", () => at("file").click());
    press("help", () => at("help-words").showModal());
    press("large", () => {
        const isLarge = document.documentElement.classList.toggle("large");
        at("large").setAttribute("aria-pressed", String(isLarge));
        at("as-text").open = !isLarge; // the room needs the space
        screen.paint();
    });
    press("all-floors", () => at("all-floors").setAttribute("aria-pressed", String(screen.switchFloors())));
}

function listenToFields() {
    const changes = (id, does) => at(id).addEventListener("change", does);
    changes("example", ({ target }) => {
        const example = EXAMPLES[Number(target.value)];
        kept.name = example.name;
        app.opened(example.text);
    });
    changes("strict", ({ target }) => {
        app.isStrict = target.checked;
        app.ask();
    });
    changes("file", ({ target }) => kept.open(target, (words) => {
        shows.status(words);
        showProblems([{ line: 0, words }]);
    }));
    at("text").addEventListener("input", ({ target }) => app.typed(target.value));
    const number = (id, most) => Math.min(Math.max(Math.floor(Number(at(id).value)) || 0, 0), most);
    for (const axis of [0, 1, 2]) changes(`side-${axis}`, () => resize([0, 1, 2].map((one) => Math.max(1, number(`side-${one}`, LIMITS.side)))));
    const costs = () => app.change({ ...app.job, costs: [0, 1, 2].map((one) => number(`cost-${one}`, LIMITS.cost)),
        limit: number("limit", LIMITS.nodes), run: Math.max(1, number("run", LIMITS.mostSteps)) });
    for (const id of ["cost-0", "cost-1", "cost-2", "limit", "run"]) changes(id, costs);
    for (const [id, name] of [["facing", "facing"], ["port", "port"], ["node", "node"], ["high", "high"]]) {
        changes(id, ({ target }) => (app.how[name] = Number(target.value)));
    }
    changes("tail", ({ target }) => (target.value = app.how.tail = Math.max(1, number("tail", LIMITS.mostSteps))));
}

function resize(sides) {
    if (sides[0] * sides[1] * sides[2] <= LIMITS.cells) return app.resize(sides);
    showRoom();
    return shows.status(TABLES.GENERAL[2]);
}

function begin() {
    const option = (name, value) => element("option", name, { value });
    at("example").append(...EXAMPLES.map(({ name }, index) => option(name, index)));
    at("facing").append(...FACINGS.map(option));
    at("port").append(...PORTS.map(option));
    at("text").value = app.text;
    kept.showOffers(at("files"));
    listenToButtons();
    listenToFields();
    listenToPointer(at("floors"), app);
    listenToKeys(at("floors"), app);
    listenToPageKeys(app);
    const turnBy = (turn, tilt) => screen.turnBy(turn, tilt);
    listenToTurning(at("whole"), turnBy);
    listenToTurnKeys(at("whole"), turnBy, () => screen.turnBack());
    for (const name of ["focus", "blur"]) at("floors").addEventListener(name, () => screen.paint());
    for (const id of ["floors-space", "whole"]) new ResizeObserver(() => screen.paint()).observe(at(id));
    showTool(app.tool);
    showHistory();
    showProblems(app.problems);
    app.ask();
}

begin();
