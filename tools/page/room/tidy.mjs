// Records in the order of boxes, floor by floor, so that the text of a drawn room has few lines. Record order changes no answer but the
// detail of number 7.

// A number for each place that a sheet can name.
export function keyOf([x, y, z]) {
    return (x * 256 + y) * 256 + z;
}

// Like records together, the cells of each kind as boxes: as far as they go along x, then along z, then up. A second record of the same
// cell comes at the end, so that none is lost.
export function tidied(records) {
    const groups = new Map();
    const repeats = [];
    const held = new Set();
    for (const record of records) {
        const cell = keyOf(record.at);
        const like = `${record.kind} ${record.facing} ${record.node}`;
        if (held.has(cell)) repeats.push(record);
        else {
            held.add(cell);
            if (!groups.has(like)) groups.set(like, new Map());
            groups.get(like).set(cell, record);
        }
    }
    return [...[...groups.values()].flatMap(boxed), ...repeats];
}

function boxed(group) {
    const order = [...group.values()].sort((one, other) => one.at[1] - other.at[1] || one.at[0] - other.at[0] || one.at[2] - other.at[2]);
    const listed = [];
    for (const { at } of order) {
        if (!group.has(keyOf(at))) continue;
        for (const cell of keysOf(at, farCorner(group, at))) {
            listed.push(group.get(cell));
            group.delete(cell);
        }
    }
    return listed;
}

// The far corner of the largest box from a cell on.
function farCorner(group, low) {
    const high = [...low];
    for (const axis of [0, 2, 1]) {
        for (;;) {
            const from = low.map((place, other) => (other === axis ? high[axis] + 1 : place));
            const to = high.map((place, other) => (other === axis ? high[axis] + 1 : place));
            if (!keysOf(from, to).every((cell) => group.has(cell))) break;
            high[axis]++;
        }
    }
    return high;
}

// The keys of a box's cells, in number order.
function keysOf(low, high) {
    const keys = [];
    for (let x = low[0]; x <= high[0]; x++) {
        for (let y = low[1]; y <= high[1]; y++) for (let z = low[2]; z <= high[2]; z++) keys.push(keyOf([x, y, z]));
    }
    return keys;
}
