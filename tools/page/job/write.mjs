// A job as its canonical text: the parts in sheet order, boxes as long as they go. In step with tools/dustsheet/text.py.
import { FACINGS, KINDS, LIMITS, PLACE_LISTS, PORTS, same } from "./job.mjs";
import { TABLES } from "./tables.mjs";
import { said } from "./said.mjs";
import { cellsOf } from "./text.mjs";

export function writeText(job) {
    const lines = [...headLines(job), ...listLines(job), ...section("the net", endLines(job))];
    return lines.join("\n") + "\n";
}

// The canonical text of several nets over one room: what all share, by the first, and each net's own.
export function writeAll(jobs, names) {
    const [first] = jobs;
    const shared = Object.fromEntries(PLACE_LISTS.map((part) => [part, common(jobs.map((job) => job[part]))]));
    const lines = [...headLines(first), ...listLines(shared)];
    jobs.forEach((job, place) => {
        lines.push("", said("net %s", names[place] || place));
        const isOwn = [String(job.costs) !== String(first.costs), job.limit !== first.limit, job.run !== first.run];
        lines.push(...costLines(job).filter((_, index) => isOwn[index]));
        for (const [word, part] of Object.entries(TABLES.PLACE_WORDS)) lines.push(...placeLines(word, job[part].slice(shared[part].length)));
        lines.push(...endLines(job));
    });
    return lines.join("\n") + "\n";
}

// The longest list with which all of these begin.
function common(lists) {
    const [first, ...rest] = lists;
    const length = first.findIndex((at, place) => rest.some((other) => !other[place] || !same(other[place], at)));
    return length < 0 ? first : first.slice(0, length);
}

function costLines(job) {
    return [
        said("costs %d %d %d  # flat step, stair, new support; in tenths", ...job.costs),
        said("limit %d  # node limit", job.limit),
        said("run %d  # so many steps need no repeater", job.run),
    ];
}

// The room, what all is paid with, and the blocks.
function headLines(job) {
    const [costs, limit, run] = costLines(job);
    const lines = [said("room %d %d %d  # sides: x to the east, y up, z to the south", ...job.sides), costs, limit];
    if (job.run !== LIMITS.usualRun) lines.push(run);
    const blocks = boxes(job.blocks.map((block) => ({ at: block.at, like: `${block.kind} ${block.facing} ${block.node}` })));
    return [...lines, ...section("blocks", blocks.map(blockLine))];
}

function listLines(lists) {
    return Object.entries(TABLES.PLACE_WORDS).flatMap(([word, part]) => {
        const title = part === "reserved" ? said("cells that are reserved") : part + said(" of other nets");
        return section(title, placeLines(word, lists[part]));
    });
}

function placeLines(word, places) {
    return boxes(places.map((at) => ({ at, like: "" }))).map(({ low, high }) => said("%s %s", word, boxText(low, high)));
}

function endLines(job) {
    return [endLine("source", job.source), ...job.sinks.map(sinkLine)];
}

function section(title, lines) {
    return lines.length ? ["", "# " + title, ...lines] : [];
}

function blockLine({ low, high, like }) {
    const [kind, facing, node] = like.split(" ").map(Number);
    const words = ["block", name(kind, KINDS), boxText(low, high)];
    if (facing) words.push(name(facing, FACINGS));
    if (node) words.push(said("node %d", node));
    return words.join(" ");
}

function endLine(word, end) {
    const line = said("%s %s %d %d %d", word, name(end.port, PORTS), ...end.at);
    return end.facing ? line + " " + name(end.facing, FACINGS) : line;
}

function sinkLine(sink) {
    const line = endLine("sink", sink);
    return sink.tail === LIMITS.usualTail ? line : said("%s tail %d", line, sink.tail);
}

function boxText(low, high) {
    const one = said("%d %d %d", ...low);
    return same(low, high) ? one : one + said(" to %d %d %d", ...high);
}

function name(value, names) {
    return value < names.length ? names[value] : said("code-%d", value);
}

// The records, in their order, as boxes of like ones: the longest row along z, then rows along y, then slabs along x.
function boxes(records) {
    const found = [];
    let place = 0;
    while (place < records.length) {
        const { at: low, like } = records[place];
        const sides = [1, 1, 1];
        for (const axis of [2, 1, 0]) while (goesOn(records, place, low, like, sides, axis)) sides[axis]++;
        found.push({ low, high: low.map((start, axis) => start + sides[axis] - 1), like });
        place += sides[0] * sides[1] * sides[2];
    }
    return found;
}

// Whether the box goes on by one row or slab along this axis: the next records are just those.
function goesOn(records, place, low, like, sides, axis) {
    const start = low.map((value, other) => value + (other === axis ? sides[axis] : 0));
    const behind = place + sides[0] * sides[1] * sides[2];
    const isLike = (record, at) => record !== undefined && record.like === like && same(record.at, at);
    if (!isLike(records[behind], start)) return false;
    const more = cellsOf(start, start.map((value, other) => value + (other === axis ? 1 : sides[other]) - 1));
    return more.every((at, index) => isLike(records[behind + index], at));
}
