// Texts and sheets, opened from a disk and saved to it.
import { firstFault, recordName } from "../job/job.mjs";
import { said } from "../job/said.mjs";
import { Refused, isList, isSheet, jobOfSheet, sheetsOf } from "../job/sheet.mjs";
import { writeAll, writeText } from "../job/write.mjs";

// The text of a file's bytes, a sheet's or its own; an Error with words for a person where there is none.
export function textOfFile(name, content) {
    if (!isSheet(content)) {
        try {
            return new TextDecoder("utf-8", { fatal: true }).decode(content);
        } catch {
            throw new Error(`${name}: ${said("this is no text (UTF-8 was expected)")}`);
        }
    }
    const jobs = (isList(content) ? sheetsOf(content) : [content]).map((sheet) => jobOfFile(name, sheet));
    return jobs.length > 1 ? writeAll(jobs, []) : writeText(jobs[0]);
}

function jobOfFile(name, sheet) {
    let job;
    try {
        job = jobOfSheet(sheet);
    } catch (refused) {
        if (!(refused instanceof Refused)) throw refused;
        throw new Error(said("%s: %s (number %d)", name, refused.message, refused.number));
    }
    const fault = firstFault(job);
    if (fault) throw new Error(said("%s: %s: %s (number %d)", name, recordName(fault.part, fault.index), fault.words, fault.number));
    return job;
}

// A text or bytes.
export function save(name, content) {
    const type = typeof content === "string" ? "text/plain" : "application/octet-stream";
    const link = document.createElement("a");
    link.href = URL.createObjectURL(new Blob([content], { type }));
    link.download = name;
    link.click();
    setTimeout(() => URL.revokeObjectURL(link.href), 1000);
}
