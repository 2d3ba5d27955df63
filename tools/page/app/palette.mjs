// The tools at the side, each a button with its sign, its name and its key.
import { TOOLS } from "../room/tools.mjs";
import { paintSign } from "../view/signs.mjs";
import { element } from "../view/told.mjs";

const ICON = 26;

function icon(sign) {
    const canvas = element("canvas", "", { "aria-hidden": "true", width: 2 * ICON, height: 2 * ICON });
    const pen = canvas.getContext("2d");
    pen.scale((2 * ICON) / 42, (2 * ICON) / 42);
    pen.translate(1, 1);
    paintSign(pen, sign);
    return canvas;
}

// Fills the palette; `chosen` is told which tool was pressed. What comes back shows which one is in use.
export function buildPalette(place, chosen) {
    const buttons = new Map();
    for (const group of new Set(TOOLS.map((tool) => tool.group))) {
        const made = TOOLS.filter((tool) => tool.group === group).map((tool) => {
            const button = element("button", [icon(tool.sign), element("span", tool.label), element("kbd", tool.key.toUpperCase())],
                { type: "button", title: tool.tip, "aria-pressed": "false", "data-tool": tool.id });
            button.addEventListener("click", () => chosen(tool));
            buttons.set(tool.id, button);
            return button;
        });
        place.append(element("fieldset", [element("legend", group), ...made]));
    }
    return (tool) => buttons.forEach((button, id) => button.setAttribute("aria-pressed", String(id === tool.id)));
}
