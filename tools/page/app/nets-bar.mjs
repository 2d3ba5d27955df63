// The nets of the room, one beside the other: which one is drawn on, its name, and its turn. A net that was refused is crossed.
import { netName } from "../job/text.mjs";
import { branchColour } from "../view/signs.mjs";
import { element } from "../view/told.mjs";

export class Nets {
    constructor(app, at) {
        Object.assign(this, { app, at, shown: "" });
        const press = (id, does) => at(id).addEventListener("click", does);
        press("add-net", () => app.addNet());
        press("remove-net", () => app.removeNet());
        press("net-earlier", () => app.moveNet(-1));
        press("net-later", () => app.moveNet(1));
        at("net-name").addEventListener("change", ({ target }) => {
            this.shown = ""; // what was typed may have become another name
            app.renameNet(target.value);
        });
    }

    // Whether the module routes several nets.
    allow(isThere) {
        this.at("add-net").hidden = !isThere;
    }

    show() {
        const { app, at } = this;
        const refused = app.answer?.number && app.isSeveral ? app.answer.net : -1;
        const shown = JSON.stringify([app.names, app.active, app.isSeveral, refused]);
        if (shown === this.shown) return;
        this.shown = shown;
        at("net-list").replaceChildren(...(app.isSeveral ? app.names.map((name, index) => this.button(name, index, index === refused)) : []));
        at("nets").classList.toggle("alone", !app.isSeveral);
        at("net-how").hidden = !app.isSeveral;
        at("net-name").value = app.names[app.active];
        at("net-earlier").disabled = app.active === 0;
        at("net-later").disabled = app.active === app.jobs.length - 1;
    }

    button(name, index, isRefused) {
        const mark = element("span", String(index), { class: "net-mark", style: `background: ${branchColour(index)}` });
        const look = { type: "button", "aria-pressed": String(index === this.app.active), "data-net": index, "aria-label": netName(index, name),
            ...(isRefused ? { class: "refused-net", title: "this net was refused" } : { title: "draw on this net" }) };
        const made = element("button", [mark, element("span", name || "net")], look);
        made.addEventListener("click", () => this.app.chooseNet(index));
        return made;
    }
}
