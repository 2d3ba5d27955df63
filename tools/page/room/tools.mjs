// What can be drawn, with the key that draws it. The keys stand on the buttons, too.
import { KIND, KINDS } from "../job/job.mjs";
import { TABLES } from "../job/tables.mjs";

const BLOCK_KEYS = { solid: "s", transparent: "g", lever: "l", button: "b", "pressure-plate": "p", "redstone-torch": "t", "redstone-lamp": "a",
    piston: "i", "redstone-block": "k", repeater: "r", comparator: "m", "redstone-wire": "w" };
const BLOCK_LABELS = { solid: "Stone", transparent: "Glass", lever: "Lever", button: "Button", "pressure-plate": "Plate",
    "redstone-torch": "Torch", "redstone-lamp": "Lamp", piston: "Piston", "redstone-block": "Redstone", repeater: "Repeater",
    comparator: "Compare", "redstone-wire": "Dust" };

function blockTool(name) {
    return { id: name, does: "block", kind: KIND[name], key: BLOCK_KEYS[name], label: BLOCK_LABELS[name], group: "Blocks",
        sign: KINDS[KIND[name]], tip: TABLES.KIND_NAMES[name] };
}

function placeTool(id, list, key, label, tip) {
    return { id, does: "place", list, key, label, group: "Kept free", sign: id, tip };
}

export const TOOLS = [
    { id: "hand", does: "hand", key: "h", label: "Hand", group: "Net", sign: "hand",
        tip: "click the lever to switch it; drag a source, sink or block to move it" },
    { id: "source", does: "source", key: "q", label: "Source", group: "Net", sign: "source", tip: "where the net begins; there is just one" },
    { id: "sink", does: "sink", key: "e", label: "Sink", group: "Net", sign: "sink", tip: "where the net ends, up to sixteen" },
    { id: "erase", does: "erase", key: "x", label: "Erase", group: "Net", sign: "erase", tip: "take away all that is in a cell" },
    ...Object.keys(BLOCK_KEYS).map(blockTool),
    placeTool("conductor", "conductors", "c", "Other wire", "a cell of another net's wire: nothing may lie beside it"),
    placeTool("clearance", "clearances", "v", "Clearance", "a cell that another net keeps clear"),
    placeTool("terminal", "terminals", "n", "Terminal", "another net's terminal"),
    placeTool("reserved", "reserved", "z", "Reserved", "a cell that is to be kept free"),
];

export function toolOfKey(key) {
    return TOOLS.find((tool) => tool.key === key) ?? null;
}
