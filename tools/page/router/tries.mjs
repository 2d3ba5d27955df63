// What to try where a sink wasn't reached: each change is tried by asking the router again, and told only where it helps. In step with
// tools/dustsheet/tries.py.
import { cellCount } from "../job/job.mjs";
import { said, sentence } from "../job/said.mjs";
import { changes } from "./changes.mjs";
import { APPROACH_TAKEN, CONFLICTS, SHUT_IN } from "./unreached.mjs";

const MOST_TOLD = 3;
const MOST_TRIED = 60; // changes
const MOST_CELLS = 300000; // of all rooms in which they are

// The first few changes that help, those nearest to the net first, and of each sort one. `asks` says whether the router reaches the sink in a
// job and a mode. After each try comes {found, tried}, and at the end whether all were tried, too.
export function* trying(told, asks) {
    const budget = Math.max(6, Math.min(MOST_TRIED, Math.floor(MOST_CELLS / cellCount(told.job))));
    const found = [];
    let tried = 0;
    for (const change of changes(told)) {
        if (found.some(({ sort }) => sort === change.sort)) continue;
        if (tried === budget || found.length === MOST_TOLD) return { found, tried, isAll: false };
        tried++;
        if (asks(change.job, change.strict, told.place)) found.push(change);
        yield { found, tried };
    }
    return { found, tried, isAll: true };
}

// What helps, a sentence each; of a sink that is shut in also that no single change does, where all were tried.
export function helpful({ place, verdict }, { found, tried, isAll }) {
    if (found.length) return found.map(({ words }) => sentence(said("%s; then sink %d is reached", words, place)));
    if (verdict === SHUT_IN) {
        if (isAll) return [said("Taking away one block round it, or freeing one cell, doesn't help: more than one is in the way.")];
        return [said("Of the changes round it %d were tried, one at a time, and none helps.", tried)];
    }
    if (verdict === CONFLICTS) return [said("Give it room, or move the sink.")];
    return verdict === APPROACH_TAKEN ? [said("Take away what stands there, or move the sink.")] : [];
}
