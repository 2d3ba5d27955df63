// What is kept on a disk: the room as a text, as a sheet or a list of sheets, and what else the module's parts can save; and files opened.
import { joined, sheetOf } from "../job/sheet.mjs";
import { OFFERS, QUESTIONS } from "../router/reasons.mjs";
import { element } from "../view/told.mjs";
import { save, textOfFile } from "./files.mjs";

export class Kept {
    // `name` is the file's, without its ending.
    constructor(app, background, name) {
        Object.assign(this, { app, background, name });
    }

    saveText() {
        save(this.name + ".txt", this.app.text);
    }

    // By the proved writer, where the module has it and could be loaded; else the script's own bytes, which are the same.
    saveSheet() {
        const { app, background } = this;
        const saveAs = this.name + (app.isSeveral ? ".sheets" : ".sheet");
        if (QUESTIONS.sheetFile && background.isLoaded) app.askFor({ asks: "sheetFile", jobs: app.jobs, saveAs });
        else save(saveAs, joined(app.jobs.map(sheetOf)));
    }

    showOffers(place) {
        for (const { id, label, tip, asks, end } of OFFERS) {
            const button = element("button", label, { type: "button", id, title: tip });
            button.addEventListener("click", () => this.app.askFor({ asks, saveAs: this.name + end }));
            place.append(button);
        }
    }

    // `failed` hears why a file is none.
    async open(field, failed) {
        const [file] = field.files;
        if (!file) return;
        try {
            const text = textOfFile(file.name, new Uint8Array(await file.arrayBuffer()));
            this.name = file.name.replace(/\.(txt|sheets?)$/, "");
            this.app.opened(text);
        } catch (error) {
            failed(error.message);
        }
        field.value = "";
    }
}
