// needs: dustroute_write_function
// The room with its net laid, as the text of commands from which a block world builds it. In step with tools/dustsheet/commands/build.py.
import { FACINGS, KIND, KINDS, LIMITS, cellCount, placeOf, spell } from "../job/job.mjs";
import { lay } from "../job/laying.mjs";
import { said, sentence } from "../job/said.mjs";
import { jobOfSheet } from "../job/sheet.mjs";
import { OFFERS, QUESTIONS } from "../router/reasons.mjs";
import { treeOf } from "../router/answers.mjs";
import { netsOf } from "../router/nets.mjs";

const UNFIT = 5; // the number of a facing that its kind can't have

OFFERS.push({ id: "save-function", label: "Save function", tip: "the finished room as commands for the block world", asks: "functionFile",
    end: ".mcfunction" });
QUESTIONS.functionFile = functionFile;

// Of one net or of several, laid by the module where it can; else one, laid here.
function functionFile(router, { sheet, sheets = [sheet], strict }) {
    const job = jobOfSheet(sheets[0]);
    const isLaid = router.has("dustroute_nets");
    const answer = isLaid ? netsOf(router, sheets, strict) : treeOf(router, sheets[0], strict);
    if (answer.number) return { words: ["There is no net to build yet."] };
    const laid = isLaid ? answer : lay(job, answer);
    const { number, text } = commands(router, job.sides, laid);
    if (number === UNFIT) return { words: unfitWords(router, job, laid).map(sentence) };
    if (number) return { words: [sentence(said("refused with number %d", number))] };
    return { words: [], file: text };
}

function commands(router, [wide, high, deep], { kinds, facings }) {
    const cells = wide * high * deep;
    const { number, lent } = router.call("dustroute_write_function", { wide, high, deep, kinds, facings }, cells,
        { text: LIMITS.lineBytes * cells, values: LIMITS.functionValues });
    return { number, text: number ? "" : new TextDecoder().decode(lent.text.slice(0, Number(lent.values[1]))) };
}

// ---- where a facing can't be

// The facings with which a kind can be written: the proved function is asked, so that its table stands once.
function facingsOf(router, kind) {
    return FACINGS.map((_, facing) => facing).filter((facing) => !commands(router, [1, 1, 1], { kinds: [kind], facings: [facing] }).number);
}

// Each block that can't be written, and what to write instead. Routing doesn't look at these facings.
function unfitWords(router, job, { kinds, facings }) {
    const lawful = new Map([...new Set(kinds)].map((kind) => [kind, facingsOf(router, kind)]));
    const found = [];
    for (let cell = 0; cell < cellCount(job); cell++) {
        const [kind, facing] = [kinds[cell], facings[cell]];
        if (lawful.get(kind).includes(facing)) continue;
        found.push(said("the %s at %s faces %s, and the game has none that does: write facing %s%s", KINDS[kind],
            spell(placeOf(job.sides, cell)), FACINGS[facing], oneOf(lawful.get(kind).map((one) => FACINGS[one])), standingWords(kind, facing)));
    }
    return found;
}

// `a, b or c`.
function oneOf(names) {
    return [names.slice(0, -1).join(", "), names[names.length - 1]].filter(Boolean).join(" or ");
}

// DustRoute's own standing torch faces up; in the game it has no facing.
function standingWords(kind, facing) {
    const isUp = FACINGS[facing] === "up" && [KIND["redstone-torch"], KIND.lever, KIND.button].includes(kind);
    return isUp ? said("; one that stands on the ground has facing none") : "";
}
