// The text of a job, read with its line numbers: tools/TEXT.md has the grammar. In step with tools/dustsheet/text.py.
import { KINDS, PLACE_LISTS, LIMITS, emptyJob, faults, recordName, same, spell } from "./job.mjs";
import { lateFaults } from "./rules.mjs";
import { TABLES } from "./tables.mjs";
import { said } from "./said.mjs";
import { closest } from "./close.mjs";
import { BadLine, CODES, Words, codeOf, plain, quoted } from "./words-of-line.mjs";

const { FORMS, PLACE_WORDS, ROOM_WORDS } = TABLES;

// A job as far as it is read, with the line of each record.
class Draft {
    // Of a text of several nets: what stands before the first `net` line is shared by all, and each has its own draft.
    constructor(shared = null, begins = 0) {
        Object.assign(this, { shared, begins, nets: [], name: "" });
        this.problems = [];
        this.once = new Map(); // the lines that come once: line and value
        this.records = Object.fromEntries(["blocks", ...PLACE_LISTS, "sinks"].map((part) => [part, []]));
        this.tried = new Set(); // first words of lines, good ones and bad ones
        this.last = begins || 1;
    }

    putOnce(word, line, value) {
        if (this.once.has(word)) throw new BadLine(said("a second '%s' line; the first is line %d", word, this.once.get(word).line));
        this.once.set(word, { line, value });
    }

    put(part, line, values) {
        const most = part === "sinks" ? 255 : LIMITS.records;
        if (this.records[part].length + values.length > most)
            throw new BadLine(said("more than %d %ss; a sheet can't count them", most, recordName(part, 0).slice(0, -2)));
        for (const value of values) this.records[part].push({ line, value });
    }

    // The line and the value of a word that comes once: the net's own before what is shared.
    said(word) {
        return this.once.get(word) ?? this.shared?.said(word) ?? null;
    }

    value(word, otherwise) {
        return this.said(word)?.value ?? otherwise;
    }

    // The records of a list with their lines: what is shared, and then the net's own.
    all(part) {
        return [...(this.shared?.all(part) ?? []), ...this.records[part]];
    }

    // One of them.
    record(part, index) {
        const shared = this.shared?.records[part] ?? [];
        return shared[index] ?? this.records[part][index - shared.length];
    }

    lineOf(fault) {
        if (fault.part in this.records) return this.record(fault.part, fault.index).line;
        return this.said(fault.part)?.line ?? this.last;
    }
}

// The cells of a box in the order of their numbers.
export function cellsOf(low, high) {
    const count = low.reduce((product, place, axis) => product * (high[axis] - place + 1), 1);
    if (count > LIMITS.records) throw new BadLine(said("the box from %s to %s has more than %d cells", spell(low), spell(high), LIMITS.records));
    const cells = [];
    for (let x = low[0]; x <= high[0]; x++)
        for (let y = low[1]; y <= high[1]; y++) for (let z = low[2]; z <= high[2]; z++) cells.push([x, y, z]);
    return cells;
}

export function readText(text) {
    const draft = new Draft();
    text.replace(/^\ufeff+/, "").split(/\r\n|\n|\r/).forEach((content, index) => {
        const words = new Words(content);
        if (!words.left.length) return;
        draft.last = index + 1;
        try {
            readLine(draft, index + 1, words);
        } catch (bad) {
            if (!(bad instanceof BadLine)) throw bad;
            draft.problems.push({ line: index + 1, words: bad.message });
        }
    });
    for (const word of ["room", "source"]) {
        if (!draft.tried.has(word) && !(draft.nets.length && word === "source"))
            draft.problems.push({ line: draft.last, words: said("no '%s' line; expected somewhere: %s", word, FORMS[word]) });
    }
    draft.nets.forEach((net, place) => {
        const words = said("%s has no 'source' line; expected behind it: %s", netName(place, net.name), FORMS.source);
        if (!net.tried.has("source")) draft.problems.push({ line: net.begins, words });
    });
    return draft;
}

// A net of a list in words, by its place, from 0, and its name, if it has one.
export function netName(place, name) {
    return name ? said("net %d (%s)", place, name) : said("net %d", place);
}

// The draft of each net; of a text without a `net` line there is one.
export function draftsOf(draft) {
    return draft.nets.length ? draft.nets : [draft];
}

function readLine(whole, line, words) {
    const first = words.next("the first word");
    const word = plain(first.slice(0, 2 * LIMITS.quoted));
    if (!Object.hasOwn(FORMS, word)) throw new BadLine(said("unknown word %s; %s", quoted(first), hint(word)));
    words.form = FORMS[word];
    const draft = whole.nets.at(-1) ?? whole;
    draft.tried.add(word);
    draft.last = line;
    if (word === "net") return beginNet(whole, line, words);
    if (whole.nets.length && ROOM_WORDS.includes(word))
        throw new BadLine(said("a '%s' line behind a 'net' line; the room is one for all nets: put it before the first 'net' line", word));
    if (word === "block") readBlock(draft, line, words);
    else if (word === "clear") clear(draft, words);
    else if (word in PLACE_WORDS) {
        const [low, high] = words.box();
        words.end();
        draft.put(PLACE_WORDS[word], line, cellsOf(low, high));
    } else if (word === "source" || word === "sink") readEnd(draft, line, word, words);
    else readHead(draft, line, word, words);
    return undefined;
}

// A net's name is one word, which no other net has. A number is no name: a net is known by its place, too.
function beginNet(whole, line, words) {
    const name = words.left.length ? words.left.shift() : "";
    words.end();
    const place = whole.nets.length;
    const net = new Draft(whole, line);
    whole.nets.push(net);
    for (const word of place ? [] : ["source", "sink"]) {
        if (whole.tried.has(word))
            throw new BadLine(said("a '%s' line stands before the first 'net' line; each net has its own, behind its 'net' line", word));
    }
    if (/^[0-9]+$/.test(name)) {
        if (name !== String(place)) throw new BadLine(said("this is net %d, and not %s; nets are counted from 0", place, quoted(name)));
        return;
    }
    if ([...name].length > LIMITS.netName || /[\p{C}\p{Z}]/u.test(name))
        throw new BadLine(said("the name %s; a net's name has at most %d letters", quoted(name), LIMITS.netName));
    if (name && whole.nets.some((other) => other.name === name)) throw new BadLine(said("a second net %s; each has a name of its own", quoted(name)));
    net.name = name;
}

// What a line's first word may have been meant to be.
function hint(word) {
    if (CODES.kind.has(word)) return said("did you mean 'block %s'? expected: %s", KINDS[CODES.kind.get(word)], FORMS.block);
    const close = closest(word, Object.keys(FORMS), 0.6);
    return close === null ? said("a line begins with one of: ") + Object.keys(FORMS).join(", ") : said("did you mean '%s'?", close);
}

function readHead(draft, line, word, words) {
    const most = 2 ** 32 - 1;
    let value;
    if (word === "room") value = ["side X", "side Y", "side Z"].map((what) => words.number(what, LIMITS.place));
    else if (word === "costs") value = ["the flat step", "the stair", "the new support"].map((what) => words.number(what, most));
    else if (word === "run") value = words.number("the run limit", 255);
    else value = words.number("the node limit", most);
    words.end();
    draft.putOnce(word, line, value);
}

function readBlock(draft, line, words) {
    const kind = codeOf(words.next("the kind"), "kind");
    const [low, high] = words.box();
    const facing = words.facing();
    const node = words.skip("node") ? words.number("the node", 65535) : 0;
    words.end();
    draft.put("blocks", line, cellsOf(low, high).map((at) => ({ node, at, kind, facing })));
}

function clear(draft, words) {
    const [low, high] = words.box();
    words.end();
    cellsOf(low, high); // a box with too many cells is refused here, too
    const isGone = (at) => at.every((place, axis) => low[axis] <= place && place <= high[axis]);
    const left = draft.records.blocks.filter(({ value }) => !isGone(value.at));
    if (left.length === draft.records.blocks.length) throw new BadLine(said("nothing to clear: no line above puts a block there"));
    draft.records.blocks = left;
}

function readEnd(draft, line, word, words) {
    const isNamed = words.left.length > 0 && !/^[\p{Nd}²³¹⁰⁴-⁹₀-₉]/u.test(words.left[0]) && plain(words.left[0]) !== "at";
    const port = isNamed ? codeOf(words.next("the port"), "port") : 0;
    words.skip("at");
    const end = { at: words.place(), port, facing: words.facing() };
    const tail = word === "sink" && words.skip("tail") ? words.number("the tail limit", 255) : LIMITS.usualTail;
    words.end();
    if (word === "source") draft.putOnce(word, line, end);
    else draft.put("sinks", line, [{ ...end, tail }]);
}

// The job of a draft without problems.
export function jobOf(draft) {
    const job = emptyJob(draft.value("room"));
    job.limit = draft.value("limit", job.limit);
    job.costs = draft.value("costs", job.costs);
    job.run = draft.value("run", job.run);
    job.source = draft.value("source");
    for (const part of Object.keys(draft.records)) job[part] = draft.all(part).map(({ value }) => value);
    return job;
}

// The jobs of a draft without problems, one for each net.
export function jobsOf(draft) {
    return draftsOf(draft).map(jobOf);
}

// What the router would refuse of any net by numbers 1 to 5, or else 7 to 9, each at its line: of each line the first, so that what is shared is
// told once.
export function problemsOfAll(draft) {
    const byLine = new Map();
    for (const net of draftsOf(draft)) {
        const job = jobOf(net);
        let found = [...faults(job)];
        if (!found.length) found = [...lateFaults(job)];
        for (const fault of found) {
            const line = net.lineOf(fault);
            if (!byLine.has(line))
                byLine.set(line, { line, words: said("%s (the router refuses this with number %d)", fullWords(net, fault), fault.number) });
        }
    }
    return [...byLine.values()].sort((one, other) => one.line - other.line);
}

function fullWords(draft, fault) {
    if (fault.number === 7) {
        const { at } = draft.record("blocks", fault.index).value;
        const lines = draft.all("blocks").filter(({ value }) => same(value.at, at)).map(({ line }) => line);
        return fault.words + said("; blocks are put there by the lines ") + lines.join(" and ");
    }
    if (fault.number === 8 || fault.number === 9) return said("%s: %s", recordName(fault.part, fault.index), fault.words);
    return fault.words;
}
