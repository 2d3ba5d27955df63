// Changes of a job by drawing. Each gives a new job and leaves the old one as it is, so that a step can be taken back.
import { AIR, FACINGS, LIMITS, PLACE_LISTS, holds, numberOf, same } from "../job/job.mjs";
import { keyOf, tidied } from "./tidy.mjs";

// The job after a tool is used on cells. `how` has the facing and the node of what is put there, and the port of an end.
export function drawn(job, tool, cells, how) {
    const inside = cells.filter((at) => holds(job, at));
    const last = inside[inside.length - 1];
    if (!last) return job;
    if (tool.does === "block") return withBlocks(job, inside, { kind: tool.kind, facing: how.facing, node: how.node });
    if (tool.does === "place") return { ...job, [tool.list]: tidied([...without(job[tool.list], inside), ...inside].map(bare)).map(({ at }) => at) };
    if (tool.does === "source") return { ...job, source: { at: last, port: how.port, facing: how.facing } };
    if (tool.does === "sink") return withSink(job, last, how);
    return tool.does === "erase" ? erased(job, inside) : job;
}

function bare(at) {
    return { at };
}

function without(places, gone) {
    const held = new Set(gone.map(keyOf));
    return places.filter((at) => !held.has(keyOf(at)));
}

function withBlocks(job, cells, block) {
    const held = new Set(cells.map(keyOf));
    const kept = job.blocks.filter(({ at }) => !held.has(keyOf(at)));
    const put = block.kind === AIR ? [] : cells.map((at) => ({ ...block, at }));
    return { ...job, blocks: tidied([...kept, ...put]) };
}

function withSink(job, at, how) {
    const sink = { at, port: how.port, facing: how.facing, tail: how.tail ?? LIMITS.usualTail };
    const place = job.sinks.findIndex((other) => same(other.at, at));
    if (place >= 0) return { ...job, sinks: job.sinks.map((other, index) => (index === place ? sink : other)) };
    return job.sinks.length < LIMITS.sinks ? { ...job, sinks: [...job.sinks, sink] } : job;
}

function erased(job, cells) {
    const held = new Set(cells.map(keyOf));
    const left = withBlocks(job, cells, { kind: AIR });
    left.sinks = job.sinks.filter(({ at }) => !held.has(keyOf(at)));
    for (const name of PLACE_LISTS) left[name] = without(job[name], cells);
    return left;
}

// What stands in a cell and can be moved: the source, a sink, or a block.
export function heldAt(job, at) {
    if (same(job.source.at, at)) return { part: "source", index: 0 };
    const sink = job.sinks.findIndex((end) => same(end.at, at));
    if (sink >= 0) return { part: "sinks", index: sink };
    const block = job.blocks.findIndex((one) => same(one.at, at));
    return block >= 0 ? { part: "blocks", index: block } : null;
}

// The job with what is held put elsewhere. A block doesn't go where another one stands.
export function moved(job, held, to) {
    if (!holds(job, to)) return job;
    if (held.part === "source") return { ...job, source: { ...job.source, at: to } };
    if (held.part === "blocks" && job.blocks.some(({ at }) => same(at, to))) return job;
    return { ...job, [held.part]: job[held.part].map((one, index) => (index === held.index ? { ...one, at: to } : one)) };
}

// The job in a room of other sides: what would stand outside is left out, and the ends are moved in.
export function resized(job, sides) {
    const smaller = { ...job, sides };
    const inside = (at) => holds(smaller, at);
    const pulled = (end) => ({ ...end, at: end.at.map((place, axis) => Math.min(place, sides[axis] - 1)) });
    smaller.blocks = job.blocks.filter(({ at }) => inside(at));
    for (const name of PLACE_LISTS) smaller[name] = job[name].filter(inside);
    smaller.source = pulled(job.source);
    smaller.sinks = job.sinks.filter(({ at }) => inside(at));
    return smaller;
}

// All that a cell holds, in words: its number first.
export function cellWords(job, at, kindNames) {
    const words = [`cell ${numberOf(job, at)} at (${at.join(", ")})`];
    for (const block of job.blocks) {
        if (same(block.at, at)) words.push(kindNames[block.kind] + (block.facing ? " facing " + FACINGS[block.facing] : ""));
    }
    const names = { conductors: "another net's conductor", clearances: "another net's clearance", terminals: "another net's terminal",
        reserved: "reserved" };
    for (const name of PLACE_LISTS) if (job[name].some((place) => same(place, at))) words.push(names[name]);
    if (same(job.source.at, at)) words.push("the source");
    job.sinks.forEach((sink, index) => same(sink.at, at) && words.push(`sink ${index + 1}${tailWords(sink)}`));
    return words;
}

function tailWords({ tail }) {
    return tail === LIMITS.usualTail ? "" : `, at most ${tail} steps behind its last repeater`;
}
