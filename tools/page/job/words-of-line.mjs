// The words of one line of a job's text, taken one by one. In step with tools/dustsheet/text.py.
import { FACINGS, KINDS, PORTS, LIMITS } from "./job.mjs";
import { TABLES } from "./tables.mjs";
import { said } from "./said.mjs";
import { closest } from "./close.mjs";

// What is wrong with the line being read, and what was expected.
export class BadLine extends Error {}

// commas and brackets count as blanks, so that (3, 0, 4) is a position
const BLANKS = /[ \t-\r\x1c-\x1f\x85\xa0\u1680\u2000-\u200a\u2028\u2029\u202f\u205f\u3000,()]+/;
const NAMES = { kind: KINDS, facing: FACINGS, port: PORTS };
export const CODES = Object.fromEntries(
    Object.entries(NAMES).map(([what, names]) => [what, new Map(names.map((name, code) => [plain(name), code]))]));
for (const [name, kind] of Object.entries(TABLES.ALSO)) CODES.kind.set(name, KINDS.indexOf(kind));

// Capitals, hyphens and underscores make no difference: RedstoneWire, redstone_wire, redstone-wire.
export function plain(word) {
    return word.replace(/[-_]/g, "").toLowerCase();
}

// A word for a message: its start, if it is long, and a question mark for what can't be printed.
export function quoted(word) {
    const letters = [...word];
    const start = letters.slice(0, LIMITS.quoted).map((letter) => (letter !== " " && /[\p{C}\p{Z}]/u.test(letter) ? "?" : letter)).join("");
    const rest = letters.length <= LIMITS.quoted ? "" : said(".. (%d characters)", letters.length);
    return said("'%s'%s", start, rest);
}

// The code of a name. 'code-N' stands for any code, for sheets that are meant to be refused.
export function codeOf(word, what) {
    const known = CODES[what];
    const asked = plain(word.slice(0, 2 * LIMITS.quoted));
    if (known.has(asked)) return known.get(asked);
    const bare = /^code([0-9]{1,3})$/.exec(asked);
    if (bare && Number(bare[1]) <= 255) return Number(bare[1]);
    const close = closest(asked, known.keys(), 0.7);
    const hint = close === null ? "" : said("; did you mean '%s'?", NAMES[what][known.get(close)]);
    throw new BadLine(said("unknown %s %s%s (%ss: %s)", what, quoted(word), hint, what, NAMES[what].join(", ")));
}

export class Words {
    constructor(line) {
        this.left = line.split("#", 1)[0].split(BLANKS).filter((word) => word);
        this.form = "";
    }

    next(what) {
        if (!this.left.length) throw new BadLine(said("%s is missing; expected: %s", what, this.form));
        return this.left.shift();
    }

    number(what, most) {
        const word = this.next(what);
        if (!/^[0-9]{1,12}$/.test(word)) throw new BadLine(said("%s is no number; %s was expected: %s", quoted(word), what, this.form));
        if (Number(word) > most) throw new BadLine(said("%s is %s; a sheet has room for 0 to %d there", what, word, most));
        return Number(word);
    }

    skip(word) {
        const found = this.left.length > 0 && plain(this.left[0]) === word;
        if (found) this.left.shift();
        return found;
    }

    place() {
        return ["x", "y", "z"].map((axis) => this.number(axis, LIMITS.place));
    }

    // One cell, or all from a corner to the opposite one.
    box() {
        this.skip("at");
        const one = this.place();
        const other = this.skip("to") ? this.place() : one;
        return [one.map((place, axis) => Math.min(place, other[axis])), one.map((place, axis) => Math.max(place, other[axis]))];
    }

    // The facing that may stand here; none if it doesn't.
    facing() {
        const named = this.skip("facing");
        if ((!this.left.length && !named) || (this.left.length && ["node", "tail"].includes(plain(this.left[0])))) return 0;
        return codeOf(this.next("the facing"), "facing");
    }

    end() {
        if (this.left.length) throw new BadLine(said("%s is too much; expected: %s", quoted(this.left.join(" ")), this.form));
    }
}
