// node same.mjs SCRIPTS.mjs MODULE.wasm CASES.json ROOT: the page's scripts say of texts, sheets, searches and sinks that weren't reached what
// Python's modules say (cases.py), word for word, offer the same to try, and lay nets as they do.
import { readFileSync } from "node:fs";
import { pathToFileURL } from "node:url";
import { treeWhys } from "./stored.mjs";

const [, , scripts, moduleFile, cases, root] = process.argv;
const page = await import(pathToFileURL(scripts).href);
const router = await page.Router.load(readFileSync(moduleFile), page.TABLES.FUNCTIONS);
const { texts, sheets, reasons, unreached, explained, lists } = JSON.parse(readFileSync(cases, "utf8"));
let failures = 0;

function expect(what, found, due) {
    if (JSON.stringify(found) === JSON.stringify(due)) return;
    failures++;
    if (failures <= 10) console.log(`page: ${what}: ${JSON.stringify(found).slice(0, 600)}\n  due: ${JSON.stringify(due).slice(0, 600)}`);
}

const lines = (problems) => problems.map(({ line, words }) => [line, words]);
const hex = (bytes) => Buffer.from(bytes).toString("hex");
const remarked = (found) => found.map(({ at, words }) => [at, words]);
const ascending = (cells) => [...cells].sort((one, other) => one - other);

function checkText(told) {
    const draft = page.readText(told.text);
    expect(`the problems of ${JSON.stringify(told.text)}`, lines(draft.problems), told.problems);
    if (told.problems.length || draft.problems.length) return;
    const nets = page.jobsOf(draft);
    const names = page.draftsOf(draft).map(({ name }) => name);
    const list = page.joined(nets.map((net) => page.sheetOf(net)));
    const [job] = nets;
    expect("what the router refuses", lines(page.problemsOfAll(draft)), told.late);
    expect("the names of the nets", names, told.names);
    expect("the list", hex(list), told.list);
    expect("the canonical text of all nets", page.writeAll(nets, names), told.canonical_list);
    expect("the sheets of the list", page.sheetsOf(list).map(hex), nets.map((net) => hex(page.sheetOf(net))));
    expect("the sheet", hex(page.sheetOf(job)), told.sheet);
    if (!page.firstFault(job)) expect("the sheet by the proved writer", hex(page.sheetWritten(router, job).sheet), told.sheet);
    expect("the canonical text", page.writeText(job), told.canonical);
    expect("the job read from its sheet", page.writeText(page.jobOfSheet(page.sheetOf(job))), told.canonical);
    if (!told.blocked) return;
    expect("what is blocked at the outset", ascending(page.blocked(job)), told.blocked);
    expect("the remarks", remarked(page.remarks(job, null, null)), told.remarks);
    const again = page.drawn(job, { does: "block", kind: 1 }, [job.source.at], { facing: 0, node: 0 });
    const redrawn = page.jobOf(page.readText(page.writeText(again)));
    expect("a room that is drawn on, as text and back", hex(page.sheetOf(redrawn)), hex(page.sheetOf(again)));
}

function answerOf({ printed, number, detail }) {
    const rows = printed.trim().split("\n").map((row) => row.split(" ").slice(1).map(Number));
    return { number, detail, occupied: rows[0][1], branches: rows.slice(1, -1), repeaters: rows[rows.length - 1] };
}

function checkSheet(told) {
    const sheet = Uint8Array.from(Buffer.from(told.sheet, "hex"));
    let job;
    try {
        job = page.jobOfSheet(sheet);
    } catch (refused) {
        return expect("why the bytes are no sheet", refused.message, told.refused);
    }
    const fault = page.firstFault(job);
    expect("the first fault", fault && [fault.number, fault.part, fault.index, fault.words], told.fault);
    const file = page.sheetFile(router, { job, saveAs: "a.sheet" });
    if (told.unwritten) expect("why no sheet is written", file, { words: [`a.sheet: ${told.unwritten}`] });
    else {
        expect("the sheet by the proved writer", hex(file.file), told.made);
        expect("the limits in words", page.stepLimitWords(job), told.limits);
    }
    if (told.words) expect("the words of a refusal", page.refusalWords(told.number, told.detail, job), told.words);
    if (!told.printed) return undefined;
    const answer = answerOf(told);
    expect("what is printed", page.printed(answer), told.printed);
    const net = page.netOf(answer, job);
    expect("the remarks", remarked(page.remarks(job, answer, net)), told.remarks);
    expect("the signals", [...net.strength].sort((one, other) => one[0] - other[0]), told.signals);
    expect("the branches", net.branches.map((one) => [one.steps, one.stairs, one.supports, one.repeaters, one.signal]), told.branches);
    expect("the supports", ascending(net.supports), told.supports);
    return checkLaid(sheet, page.lay(job, answer), told);
}

function checkLaid(sheet, laid, told) {
    expect("the kinds when the net is laid", hex(laid.kinds), told.kinds);
    expect("the facings when the net is laid", hex(laid.facings), told.facings);
    const { words, file } = page.functionFile(router, { sheet, strict: false });
    expect("what the game doesn't have", words, told.unfit);
    expect("whether the function file is there", file !== undefined, !told.unfit.length);
}

function checkReason({ text, start, goal, words }) {
    expect("the reason of a search", page.searchTold(router, page.jobOf(page.readText(text)), start, goal).words, words);
}

// By the stored reason and, where it isn't a short queue's, by the module's own.
function checkUnreached(one, saidOf, reallyTold) {
    const job = page.jobOfSheet(one.sheet);
    const strict = one.strict === 1;
    const walls = one.told.flatMap(({ cell, reasons: why }) => why.flatMap((reason, move) => (reason ? [[cell, move, reason]] : [])));
    const causes = new Uint8Array(page.cellCount(job));
    for (const { cell, bits } of one.causes) causes[cell] = bits;
    const soFar = { branches: saidOf.branches, isExact: true };
    const stored = { ...one, job, strict, reached: one.told.map(({ cell }) => cell), walls, causes: [...causes], soFar };
    expect("why a sink wasn't reached", page.treeReason(stored).words, saidOf.words);
    for (const oneIn of [2, 7, 10 ** 9]) {
        const isThought = (changed, mode) => blend([...page.sheetOf(changed), mode ? 1 : 0]) % oneIn === 0;
        expect("what is offered to try", triesTold(stored, isThought), saidOf[`tries${oneIn}`]);
    }
    if (one.number !== page.NO_WAY) return;
    const told = page.unreachedTold(router, one.sheet, strict);
    const due = page.treeReason({ ...stored, soFar: told.soFar });
    const [found, limit] = page.treeReasons(router, { sheet: one.sheet, strict }, page.treeOf(router, one.sheet, strict));
    expect("why a sink wasn't reached, by the module", found, due);
    expect("whether the limit is to blame is told", limit !== undefined, one.verdict === page.CUT_SHORT);
    if (!reallyTold) return;
    const really = { soFar: told.soFar, ...triesTold(told, (...change) => page.reaches(router, ...change)) };
    expect("the net so far, and what to try", really, reallyTold);
}

// Several nets: what is printed, laid and warned of; of a refusal which net it is, why, and what helps.
function checkList({ sheets: given, names, strict, printed, head, more, tries, remarks, put }) {
    const bytes = given.map((one) => Uint8Array.from(Buffer.from(one, "hex")));
    const jobs = bytes.map((sheet) => page.jobOfSheet(sheet));
    const answer = page.netsOf(router, bytes, strict);
    expect("what is printed of several nets", page.printedNets(answer, names), printed);
    if (answer.number) {
        expect("which net is refused, and why", `${page.netName(answer.net, names[answer.net])}: ${page.netRefusalWords(answer, jobs[answer.net])}`, head);
        const told = page.netReasons(router, { sheets: bytes, names, strict }, answer);
        expect("what is known of it", told.reasons.flatMap(({ words }) => words), more);
        expect("what helps", page.QUESTIONS.order(router, { sheets: bytes, names, strict, net: answer.net }).tries.words, tries);
        return;
    }
    const nets = jobs.map((job, place) => ({ job, name: names[place], answer: answer.nets[place], net: page.netOf(answer.nets[place], job) }));
    expect("what is warned of", remarked(page.remarksOfAll(nets, answer)), remarks);
    expect("what is laid", page.putCells(jobs[0], answer).map((cell) => [cell, answer.kinds[cell]]), put);
}

// A number of bytes, as cases.py has it.
function blend(bytes) {
    return bytes.reduce((sum, byte) => (31 * sum + byte) % 1000003, 0);
}

function triesTold(told, asks) {
    const steps = page.trying(told, asks);
    let step;
    do step = steps.next();
    while (!step.done);
    const { found, tried, isAll } = step.value;
    const changes = found.map(({ sort, words, at, job, strict }) => [sort, words, at, hex(page.sheetOf(job)), strict]);
    return { words: page.helpful(told, step.value), tried, isAll, found: changes };
}

texts.forEach(checkText);
sheets.forEach(checkSheet);
reasons.forEach(checkReason);
lists.forEach(checkList);
const stopped = [...treeWhys(`${root}/tests/bindings/treewhys.bin`)].filter(({ verdict }) => verdict);
expect("how many sinks weren't reached", stopped.length, unreached.length);
stopped.forEach((one, index) => checkUnreached(one, unreached[index], explained?.[index]));
if (!explained) console.log("page: no library beside the module: the net so far and what really helps were not compared with Python's");
const looked = `${texts.length} texts, ${sheets.length} sheets, ${lists.length} lists, ${reasons.length} searches and ${stopped.length} sinks that weren't reached`;
console.log(`page: ${looked}: ${failures} things said otherwise than Python says them`);
process.exit(failures ? 1 : 0);
