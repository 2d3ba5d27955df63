// needs: dustroute_write_sheet
// A job's sheet by the proved writer: what the router reads of it is this job, its records in their order. As bindings/python does it.
import { LIMITS, PLACE_LISTS, sheetSize } from "../job/job.mjs";
import { said } from "../job/said.mjs";
import { joined } from "../job/sheet.mjs";
import { refusalWords } from "../job/words.mjs";
import { QUESTIONS } from "../router/reasons.mjs";

QUESTIONS.sheetFile = sheetFile;

// Of several nets their sheets, one behind the other.
function sheetFile(router, { job, jobs = [job], saveAs }) {
    const sheets = [];
    for (const one of jobs) {
        const { number, sheet } = sheetWritten(router, one);
        const unread = { ...one, readAs: null }; // the writer has no sheet, in whose version it would be judged
        if (number) return { words: [said("%s: %s (number %d)", saveAs, refusalWords(number, 0, unread), number)] };
        sheets.push(sheet);
    }
    return { words: [], file: joined(sheets) };
}

export function sheetWritten(router, job) {
    const lengths = { sheet: Math.min(sheetSize(job), LIMITS.bytes), values: LIMITS.writeValues };
    const { number, lent } = router.call("dustroute_write_sheet", writerParts(job), 0, lengths);
    return { number, sheet: number ? null : lent.sheet.slice(0, Number(lent.values[1])) };
}

// The job's parts by the names of the writer's parameters: each record as 16-bit numbers, one behind another.
export function writerParts(job) {
    const [wide, high, deep] = job.sides;
    const [horizontal, stair, support] = job.costs;
    const end = ({ at, port, facing }) => [...at, port, facing];
    return {
        wide, high, deep, limit: job.limit, horizontal, stair, support, run: job.run,
        blocks: Uint16Array.from(job.blocks.flatMap(({ node, at, kind, facing }) => [node, ...at, kind, facing])),
        ...Object.fromEntries(PLACE_LISTS.map((name) => [name, Uint16Array.from(job[name].flat())])),
        source: Uint16Array.from(end(job.source)),
        sinks: Uint16Array.from(job.sinks.flatMap((sink) => [...end(sink), sink.tail])),
    };
}
