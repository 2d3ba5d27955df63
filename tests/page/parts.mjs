// node parts.mjs SCRIPTS.mjs MODULE.wasm: parts that need a function which a module may lack, with it and without it, and what they ask of it.
import { readFileSync } from "node:fs";
import { pathToFileURL } from "node:url";

const [, , scripts, moduleFile] = process.argv;
const page = await import(pathToFileURL(scripts).href);
const router = await page.Router.load(readFileSync(moduleFile), page.TABLES.FUNCTIONS);
let failures = 0;

function expect(what, found, due) {
    if (JSON.stringify(found) === JSON.stringify(due)) return;
    failures++;
    console.log(`page: ${what}: ${JSON.stringify(found)}, and not ${JSON.stringify(due)}`);
}

// ---- dustroute_tree_why

const without = { has: (name) => name !== "dustroute_tree_why", call: (...words) => router.call(...words) };
const sheetOfText = (text) => page.sheetOf(page.jobOf(page.readText(text)));

// All reasons that the worker would tell of a text.
function reasonsOf(asked, text, strict = false) {
    const sheet = sheetOfText(text);
    const answer = page.treeOf(asked, sheet, strict);
    return page.REASONS.flatMap((reason) => reason(asked, { sheet, strict }, answer) ?? []);
}

const ROW = "room 5 1 1\nsource 0 0 0\nsink 4 0 0\n";
const [shut, ...rest] = reasonsOf(router, ROW + "block solid 1 0 0\nreserved 3 0 0\n", true);
expect("one reason", rest, []);
expect("the words of a sink that is shut in", shut.words, ["Sink 1 at (4, 0, 0) can't be reached, at any costs.",
    "From (4, 0, 0) wire gets to no other cell. Round it stands the room's edge; 1 cell is kept free: 1 reserved."]);
expect("the cells", shut.reached, [4]);
expect("the walls within the room", shut.walls.filter(([, , why]) => why !== 1), [[4, 4, 4]]);
expect("the causes", shut.causes, [0, 0, 0, 16, 0]);
expect("the letters", shut.kept.map(([cell, { letter }]) => [cell, letter]), [[3, "R"]]);
expect("no reason of a net", reasonsOf(router, ROW), []);

const [cut, limit] = reasonsOf(router, ROW + "limit 3\n");
expect("the words of a search cut short", cut.words, ["Sink 1 at (4, 0, 0) was not reached: its search was cut short.",
    "The node limit is 3; a limit of 21 always suffices in this room. There may be a way."]);
expect("nothing is drawn of it but the net so far", [Object.keys(cut), cut.soFar], [["words", "soFar"], { branches: [[]], isExact: true }]);
expect("the limit's words", limit.words, ["The node limit 3 was passed; a limit of 21 suffices."]);

// a module without it: the limit, and the search past the blocks
const WALLED = ROW + "block solid 1 0 0\n";
expect("the limit's words alone", reasonsOf(without, ROW + "limit 3\n")[0].words, limit.words);
expect("the search's reason", reasonsOf(without, WALLED)[0].words[0], "No wire can get from (4, 0, 0) to (0, 0, 0), at any costs.");
expect("the search's reason gives way", reasonsOf(router, WALLED).length, 1);

// the net so far: sink 2 is nearer, and has its branch. Its wire is kept free without it, beside the lever: so the net may have lain otherwise
const FORK = "room 7 2 3\nsource 0 0 0\nsink 6 0 2\nsink 2 0 0\nblock solid 5 0 0 to 5 1 2\n";
const [walled] = reasonsOf(router, FORK);
expect("the branch of the sink before", walled.soFar, { branches: [[], [0, 6, 12]], isExact: true });
expect("who was before", walled.words[2], "Sink 2 was reached before it.");
const [near] = reasonsOf(router, "room 7 2 3\nsource 0 0 0\nsink 2 0 0\nsink 6 0 2\nblock lever 6 0 1\nblock solid 5 0 0 to 5 1 2\n");
expect("a net that may have lain otherwise", [near.soFar.isExact, near.soFar.branches[1]], [false, []]);

// what to try, a few at a time, until it is done; another id begins anew
function triesOf(id, text, strict = false) {
    for (;;) {
        const { tries } = page.QUESTIONS.tries(router, { id, sheet: sheetOfText(text), strict });
        if (tries.isDone) return tries;
    }
}
const tried = triesOf(1, FORK);
expect("what helps", tried.words, ["Take away the Solid at (5, 0, 0); then sink 1 is reached."]);
expect("what is done then", page.treeOf(router, page.sheetOf(tried.found[0].job), false).number, 0);
expect("the same once more", page.QUESTIONS.tries(router, { id: 1, sheet: sheetOfText(FORK), strict: false }).tries.isDone, true);
expect("where no single change helps", triesOf(2, ROW + "block solid 1 0 0\nblock solid 2 0 0\n").words,
    ["Taking away one block round it, or freeing one cell, doesn't help: more than one is in the way."]);
expect("a limit that is raised", triesOf(3, ROW + "limit 3\n").words, ["Raise the node limit from 3 to 21; then sink 1 is reached."]);

// ---- what stands behind the page: a worker and a clock of the test's own

function behind() {
    const sent = [];
    const told = [];
    const timers = new Map();
    let clock = 0;
    Object.assign(globalThis, {
        Worker: class {
            postMessage(question) {
                sent.push(question.module ? "load" : question.asks ?? `route ${question.id}`);
            }
            terminate() {
                sent.push("ended");
            }
        },
        setTimeout: (does, wait) => timers.set(timers.size, { does, at: clock + wait }).size - 1,
        clearTimeout: (timer) => timers.delete(timer),
    });
    performance.now = () => clock;
    URL.createObjectURL = () => "";
    URL.revokeObjectURL = () => {};
    const asked = new page.Background("", { module: true }, (data) => told.push(data));
    const passes = (time) => {
        clock += time;
        for (const [timer, { does, at }] of [...timers]) if (at <= clock && timers.delete(timer)) does();
    };
    return { asked, sent, told, passes, hears: (data) => asked.heard(data) };
}

{
    const real = { Worker: globalThis.Worker, setTimeout, clearTimeout };
    const { asked, sent, told, passes, hears } = behind();
    asked.ask({ id: 1 });
    hears({ names: [] });
    asked.askIdly({ id: 1, asks: "tries" });
    asked.askAlso({ id: 1, asks: "sheetFile", saveAs: "a" });
    expect("nothing beside a route", sent, ["load", "route 1"]);
    hears({ id: 1, answer: {} });
    hears({ id: 1, told: { file: "a" } });
    expect("a file before what may wait", sent.slice(2), ["sheetFile", "tries"]);
    asked.ask({ id: 2 });
    passes(399);
    expect("what may wait has a little time", sent.slice(4), []);
    passes(1);
    hears({ names: [] });
    expect("and gives way then", sent.slice(4), ["ended", "load", "route 2"]);
    asked.askIdly({ id: 2, asks: "tries" });
    asked.ask({ id: 3 });
    hears({ id: 2, answer: {} });
    hears({ id: 3, answer: {} });
    expect("what was to be tried of a room that changed is not asked", sent.slice(7), ["route 3"]);
    asked.askIdly({ id: 3, asks: "tries" });
    passes(4000);
    expect("what takes too long is told of", told.at(-1), { id: 3, asks: "tries", late: 4 });
    expect("and is ended", sent.slice(8), ["tries", "ended", "load"]);
    Object.assign(globalThis, real);
}

// ---- dustroute_write_function, of the smallest example: nine wires and a repeater that points east

const row = sheetOfText("room 10 1 1\nsource 0 0 0\nsink 9 0 0\n");
const writer = {
    has: () => true,
    call(name, given, cells, lengths) {
        if (name !== "dustroute_write_function") return router.call(name, given, cells, lengths);
        expect("the room", [given.wide, given.high, given.deep, cells], [10, 1, 1, 10]);
        expect("the kinds", [...given.kinds], [3, 5, 3, 3, 3, 3, 3, 3, 3, 3]);
        expect("the facings", [...given.facings], [0, 2, 0, 0, 0, 0, 0, 0, 0, 0]);
        return { number: 0, detail: 0, lent: { text: new TextEncoder().encode("setblock\n rest"), values: BigUint64Array.of(0n, 9n) } };
    },
};
expect("the file", page.functionFile(writer, { sheet: row, strict: false }).file, "setblock\n");

const lines = page.functionFile(router, { sheet: row, strict: false }).file.trim().split("\n");
expect("a command for each cell", lines.filter((line) => line.startsWith("setblock ~")).length, 10);

// ---- dustroute_nets: two nets that cross, the room laid, which net is refused and why, and another order

const sheetsOfText = (text) => page.jobsOf(page.readText(text)).map((job) => page.sheetOf(job));
const CROSS = "room 5 4 5\nnet along\nsource 0 0 2\nsink 4 0 2\nnet across\nsource 2 0 0\nsink 2 0 4\n";
const crossed = page.netsOf(router, sheetsOfText(CROSS), false);
expect("two nets", [crossed.number, crossed.nets.length, crossed.nets[0].branches], [0, 2, [[2, 22, 42, 62, 82]]]);
expect("whose cells they are", [crossed.owners[2], crossed.owners[40], crossed.owners[4]], [1, 2, 0]);
expect("wire is laid", crossed.kinds[2], 3);
expect("what is printed", page.printedNets(crossed, ["along", ""]).split("\n").slice(0, 2), ["nets 2", "net 0 1 5 along"]);
const builtRoom = page.functionFile(router, { sheets: sheetsOfText(CROSS), strict: false }).file;
expect("a command for each block that is laid", builtRoom.trim().split("\n").length, crossed.kinds.filter((kind) => kind).length);

const OVER = "room 1 2 3\nnet a\nsource 0 0 0\nsink 0 1 1 south\nnet b\nsource 0 1 0\nsink 0 0 1\n";
const over = page.netsOf(router, sheetsOfText(OVER), false);
expect("an overlap", [over.number, over.net, over.detail], [16, 1, 1]);
expect("its words", page.netRefusalWords(over, page.jobsOf(page.readText(OVER))[1]),
    "its wire would lie in a cell that a net before it occupies: (0, 0, 1), number 1");
const overTold = page.netReasons(router, { sheets: sheetsOfText(OVER), names: ["a", "b"], strict: false }, over);
expect("who lies there", overTold.reasons[0].words, ["It is net 0 (a) that lies there. The router never moves a net that it has laid."]);
expect("the nets before it", overTold.before.length, 1);

// a wall with one gap: who comes first goes through it, and the other net's source stands behind it
const GAP = "room 7 1 3\nblock solid 3 0 0\nblock solid 3 0 2\nnet far\nsource 0 0 1\nsink 6 0 1\nnet near\nsource 0 0 0\nsink 6 0 0\n";
const gap = page.netsOf(router, sheetsOfText(GAP), false);
const gapTold = page.netReasons(router, { sheets: sheetsOfText(GAP), names: ["far", "near"], strict: false }, gap);
expect("no way for one of them", [gap.number, gapTold.before.length, gapTold.reasons.length > 0], [14, gap.net, true]);
const order = page.QUESTIONS.order(router, { sheets: sheetsOfText(GAP), names: ["far", "near"], strict: false, net: gap.net }).tries;
expect("what to try of an order is told at once", [order.isDone, Array.isArray(order.words)], [true, true]);

console.log(`page: the parts' reasons and files: ${failures} wrong`);
process.exit(failures ? 1 : 0);
