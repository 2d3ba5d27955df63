// The worker: the module is loaded once, then asked. A question is {id, sheet, strict}; what comes back is {id, answer, reasons, took}. Of
// several nets it is {id, sheets, names, strict}, and what comes back has the nets before a refused one, too. A question that `asks` something
// else comes back as {id, told}.
import { Router } from "./calls.mjs";
import { treeOf } from "./answers.mjs";
import { netReasons, netsOf } from "./nets.mjs";
import { QUESTIONS, REASONS } from "./reasons.mjs";

let loaded = null;

async function answerTo(question) {
    if (question.module) {
        loaded = Router.load(question.module, question.functions);
        return { names: (await loaded).names() };
    }
    const router = await loaded;
    if (question.asks) return { told: { saveAs: question.saveAs, ...QUESTIONS[question.asks](router, question) } };
    const begun = performance.now();
    if (question.sheets) {
        if (!router.has("dustroute_nets")) throw new Error("it routes one net, and no function for several is in it");
        const answer = netsOf(router, question.sheets, question.strict);
        const took = performance.now() - begun;
        return { answer, took, ...netReasons(router, question, answer) };
    }
    const answer = treeOf(router, question.sheet, question.strict);
    const took = performance.now() - begun;
    const reasons = REASONS.flatMap((reason) => reason(router, question, answer) ?? []);
    return { answer, reasons, took };
}

globalThis.onmessage = async ({ data }) => {
    try {
        globalThis.postMessage({ id: data.id, ...(await answerTo(data)) });
    } catch (error) {
        globalThis.postMessage({ id: data.id, failed: String(error) });
    }
};
