// What is told of the answer: the numbers of each branch, a refusal with its reason, warnings.
import { KINDS, spell } from "../job/job.mjs";
import { counted, said, sentence } from "../job/said.mjs";
import { putCells } from "../job/several.mjs";
import { TABLES } from "../job/tables.mjs";
import { netName } from "../job/text.mjs";
import { stepLimitWords, refusalWords } from "../job/words.mjs";
import { printed } from "../router/answers.mjs";
import { netRefusalWords, printedNets } from "../router/nets.mjs";
import { branchColour, branchDashes } from "./signs.mjs";
import { WALL_LINES } from "./floor.mjs";

export function element(name, content = "", attributes = {}) {
    const made = document.createElement(name);
    if (Array.isArray(content)) made.append(...content);
    else made.textContent = content;
    for (const [key, value] of Object.entries(attributes)) made.setAttribute(key, value);
    return made;
}

// A piece of a line, as it is drawn.
function sample(colour, dashes, width = 5) {
    const made = document.createElementNS("http://www.w3.org/2000/svg", "svg");
    made.setAttribute("viewBox", "0 0 36 8");
    made.setAttribute("class", "sample");
    made.setAttribute("aria-hidden", "true");
    const path = document.createElementNS("http://www.w3.org/2000/svg", "path");
    for (const [key, value] of Object.entries({ d: "M0 4H36", stroke: colour, "stroke-width": width, "stroke-dasharray": dashes.join(" ") }))
        path.setAttribute(key, value);
    made.append(path);
    return made;
}

export function answerParts({ job, jobs, names, nets, answer, net, soFar, reasons, remarks, isSeveral }) {
    const parts = isSeveral ? severalParts({ jobs, names, nets, answer, soFar, reasons })
        : answer.number ? refusalParts(job, answer, reasons, soFar) : netParts(job, answer, net);
    if (remarks.length) {
        const listed = remarks.map(({ words }) => element("li", sentence(words)));
        const inside = [element("h3", "To look at before building"), element("ol", listed)];
        parts.push(element("section", inside, { class: "warnings", title: TABLES.NOT_KNOWN }));
    }
    const lines = element("pre", isSeveral ? printedNets(answer, names) : printed(answer), { id: "printed" });
    parts.push(element("details", [element("summary", "The router's own lines"), lines]));
    return parts;
}

// ---- several nets

function severalParts({ jobs, names, nets, answer, soFar, reasons }) {
    return answer.number ? refusedNetParts(jobs, names, answer, reasons, soFar) : netsParts(jobs[0], names, nets, answer);
}

// Which net it was, and why; then what to try, and what is known of its sink.
function refusedNetParts(jobs, names, answer, reasons, soFar) {
    const who = netName(answer.net, names[answer.net]);
    const words = sentence(said("%s: %s", who, netRefusalWords(answer, jobs[answer.net])));
    const head = element("h2", `Refused: ${who}, number ${answer.number}`, { class: "bad" });
    const toTry = answer.number >= 13 ? [element("section", "", { id: "tries" })] : []; // filled in when it is known
    const drawn = names.slice(0, answer.net).map((name, index) => element("li", netSample(index, name)));
    const title = element("p", "The nets before it, as they are drawn:", { class: "note" });
    const before = drawn.length ? [title, element("ul", drawn, { class: "legend" })] : [];
    return [head, element("p", words, { id: "refusal", class: "refused" }), ...toTry, ...reasons.flatMap(reasonParts), ...before,
        ...(soFar && !soFar.isExact ? soFarParts({ branches: [], isExact: false }) : [])];
}

function netSample(index, name) {
    return [sample(branchColour(index), branchDashes(index)), ` ${netName(index, name)}`];
}

function netsParts(job, names, nets, answer) {
    const rows = nets.map(({ net }, index) => {
        const head = element("th", netSample(index, names[index]), { scope: "rowgroup", colspan: 6 });
        const branches = net.branches.map((branch, place) => {
            const numbers = [branch.steps, branch.stairs, branch.supports, branch.repeaters, branch.signal];
            const sink = element("th", `${index}.${place + 1} at ${spell(branch.sink.at)}`, { scope: "row" });
            return element("tr", [sink, ...numbers.map((number) => element("td", String(number)))], { class: "of-net" });
        });
        return element("tbody", [element("tr", [head]), ...branches], { class: "net-rows" });
    });
    const titles = ["Sink", "Steps", "Stairs", "Supports", "Repeaters", "Signal"].map((word) => element("th", word, { scope: "col" }));
    const table = element("table", [element("thead", [element("tr", titles)]), ...rows]);
    const head = element("h2", `A way to every sink of ${nets.length} nets`, { class: "good" });
    return [head, table, element("p", fetchWords(job, answer), { id: "fetch" })];
}

// What is laid beside the room's own blocks, by kinds.
function fetchWords(job, answer) {
    const counts = new Map();
    for (const cell of putCells(job, answer)) counts.set(answer.kinds[cell], (counts.get(answer.kinds[cell]) ?? 0) + 1);
    const listed = [...counts].sort(([one], [other]) => one - other).map(([kind, count]) => `${count} ${TABLES.KIND_NAMES[KINDS[kind]]}`);
    return `To fetch: ${listed.join(", ") || "nothing"}.`;
}

// ---- one net

function netParts(job, answer, net) {
    const total = { steps: 0, stairs: 0, supports: 0, repeaters: answer.repeaters.length };
    const rows = net.branches.map((branch, index) => {
        for (const name of ["steps", "stairs", "supports"]) total[name] += branch[name];
        const cells = [branch.steps, branch.stairs, branch.supports, branch.repeaters, branch.signal].map((number) => element("td", String(number)));
        const name = element("th", [sample(branchColour(index), branchDashes(index)), ` ${index + 1} at ${spell(branch.sink.at)}`], { scope: "row" });
        return element("tr", [name, ...cells]);
    });
    const titles = ["Sink", "Steps", "Stairs", "Supports", "Repeaters", "Signal"].map((word) => element("th", word, { scope: "col" }));
    const sums = [total.steps, total.stairs, total.supports, total.repeaters, ""].map((number) => element("td", String(number)));
    const foot = net.branches.length > 1 ? [element("tfoot", [element("tr", [element("th", "In all", { scope: "row" }), ...sums])])] : [];
    const table = element("table", [element("thead", [element("tr", titles)]), element("tbody", rows), ...foot]);
    const fetch = `To fetch: ${answer.occupied - answer.repeaters.length} dust, ${counted(answer.repeaters.length, "repeater")}, ` +
        `${counted(net.supports.size, "support")}.`;
    const head = net.branches.length ? "A way to every sink" : "No sink yet: put one down";
    const limits = stepLimitWords(job) ? [element("p", sentence(stepLimitWords(job)), { id: "limits" })] : [];
    return [element("h2", head, { class: "good" }), ...(rows.length ? [table, element("p", fetch)] : []), ...limits];
}

function refusalParts(job, answer, reasons, soFar) {
    const words = sentence(refusalWords(answer.number, answer.detail, job));
    const parts = [element("h2", `Refused, number ${answer.number}`, { class: "bad" }), element("p", words, { id: "refusal", class: "refused" })];
    const toTry = soFar ? [element("section", "", { id: "tries" })] : []; // filled in when it is known
    return [...parts, ...toTry, ...reasons.flatMap(reasonParts), ...(soFar ? soFarParts(soFar) : [])];
}

// The branches of the net so far, as they are drawn.
function soFarParts({ branches, isExact }) {
    const drawn = branches.flatMap((branch, index) => {
        const words = [sample(branchColour(index), branchDashes(index)), " " + said("branch to sink %d", index + 1)];
        return branch.length ? [element("li", words)] : [];
    });
    const list = drawn.length ? [element("ul", drawn, { class: "legend", id: "so-far", "aria-label": said("the net so far") })] : [];
    const otherwise = said("The net so far is drawn as it is without the other sinks; it may have lain otherwise.");
    return [...list, ...(isExact ? [] : [element("p", otherwise, { class: "note" })])];
}

// What to try: each that helps can be done by a press. `looksAt` hears of its cell when it is pointed at or comes by the keys.
export function triesParts({ found, words, isDone }, takes, looksAt) {
    const items = words.map((line, index) => {
        const change = found[index];
        if (!change) return element("li", line, { class: "plain" });
        const button = element("button", line, { type: "button", class: "try", title: "do it; Undo takes a change of the room back" });
        button.addEventListener("click", () => takes(change));
        for (const name of change.at ? ["focus", "pointerenter"] : []) button.addEventListener(name, () => looksAt(change.at));
        return element("li", [element("span", `?${index + 1}`, { class: "tag", "aria-hidden": "true" }), button]);
    });
    const looking = isDone ? [] : [element("p", "Looking for what helps ..", { class: "looking" })];
    return items.length || looking.length ? [element("h2", said("What to try")), element("ul", items), ...looking] : [];
}

export function reasonParts(reason) {
    return [...reason.words.map((line) => element("p", line, { class: "reason" })), ...(reason.walls ? [wallLegend(reason)] : [])];
}

function wallLegend(reason) {
    const used = [...new Set(reason.walls.map(([, , why]) => why))].sort();
    const items = used.map((why) => element("li", [sample(...WALL_LINES[why]), ` ${TABLES.LINE_WORDS[why]}`]));
    const dot = element("li", [element("span", "●", { class: "dot" }), " wire gets here"]);
    const letters = new Set((reason.kept ?? []).map(([, { letter }]) => letter));
    const causes = TABLES.CAUSES.filter(({ letter }) => letters.has(letter)).map(({ letter, words }) =>
        element("li", [element("span", letter, { class: "kept" }), ` ${said("kept free: ")}${words}`]));
    return element("ul", [dot, ...items, ...causes], { class: "legend" });
}

// Why a cell is kept free, in words; none where the module doesn't tell.
export function causeWords(causes, cell) {
    const found = TABLES.CAUSES.filter(({ bit }) => causes?.[cell] & bit).map(({ words }) => words);
    return found.length ? [said("kept free: ") + found.join(", ")] : [];
}

// The same of the net so far, which has no signals yet.
export function soFarWords(soFar, cell) {
    return (soFar?.branches ?? []).flatMap((branch, index) => (branch.includes(cell) ? [said("branch to sink %d", index + 1)] : []));
}

// What a wire's cell tells when it is pointed at.
export function netWords(answer, net, cell) {
    if (!net || !net.strength.has(cell)) return [];
    const on = answer.branches.flatMap((branch, index) => (branch.includes(cell) ? [index + 1] : []));
    const words = [`wire to sink ${on.join(", ")}`, `signal ${net.strength.get(cell)}`];
    if (answer.repeaters.includes(cell)) words.push("repeater");
    return on.length ? words : [`signal ${net.strength.get(cell)}`];
}
