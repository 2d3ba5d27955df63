// needs: dustroute_why
// A tool that is drawn from a cell to another: whether wire could get there past the blocks, and why not, by the reason of one search.
import { jobOfSheet } from "../job/sheet.mjs";
import { TOOLS } from "../room/tools.mjs";
import { QUESTIONS } from "../router/reasons.mjs";
import { searchTold } from "./why-search.mjs";

QUESTIONS.between = (router, { sheet, from, to }) => searchTold(router, jobOfSheet(sheet), from, to);

TOOLS.splice(1, 0, { id: "why", does: "ask", asks: "between", key: "y", label: "Ask why", group: "Net", sign: "why",
    tip: "drag from a cell to another: can wire get there past the blocks, and if not, why?" });
