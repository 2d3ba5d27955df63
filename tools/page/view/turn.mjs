// Where a point of the room is on a picture that can be turned and tilted, in parallel projection: tools/dustsheet/iso.py draws the same from
// the south-east alone.

export class Eye {
    constructor(sides, turn, tilt, width, height) {
        this.sides = sides;
        [this.across, this.along] = [Math.cos(turn), Math.sin(turn)];
        [this.flat, this.upright] = [Math.sin(tilt), Math.cos(tilt)];
        this.unit = 1;
        this.origin = [0, 0];
        const corners = [0, sides[0]].flatMap((x) => [0, sides[1]].flatMap((y) => [0, sides[2]].map((z) => this.on([x, y, z]))));
        const [left, right] = [Math.min(...corners.map(([x]) => x)), Math.max(...corners.map(([x]) => x))];
        const [top, bottom] = [Math.min(...corners.map(([, y]) => y)), Math.max(...corners.map(([, y]) => y))];
        this.unit = Math.min((width - 24) / (right - left), (height - 24) / (bottom - top), 46);
        this.origin = [width / 2 - (this.unit * (left + right)) / 2, height / 2 - (this.unit * (top + bottom)) / 2];
    }

    // The place of a point on the picture.
    on([x, y, z]) {
        const near = x * this.along + z * this.across;
        return [this.origin[0] + this.unit * (x * this.across - z * this.along),
            this.origin[1] + this.unit * (near * this.flat - y * this.upright)];
    }

    // The faces of a box that the eye sees: their corners, and how bright each is.
    faces([x0, y0, z0], [x1, y1, z1]) {
        const found = [];
        const x = this.along > 0 ? x1 : x0;
        const z = this.across > 0 ? z1 : z0;
        if (Math.abs(this.along) > 0.02)
            found.push({ side: [Math.sign(this.along), 0, 0], shade: 0.78, points: [[x, y0, z0], [x, y0, z1], [x, y1, z1], [x, y1, z0]] });
        if (Math.abs(this.across) > 0.02)
            found.push({ side: [0, 0, Math.sign(this.across)], shade: 0.9, points: [[x0, y0, z], [x1, y0, z], [x1, y1, z], [x0, y1, z]] });
        found.push({ side: [0, 1, 0], shade: 1, points: [[x0, y1, z0], [x1, y1, z0], [x1, y1, z1], [x0, y1, z1]] });
        return found;
    }

    // The cells of the room from the back to the front, so that what is nearer covers what is behind it.
    *cells() {
        const order = (side, isRising) => Array.from({ length: side }, (_, index) => (isRising ? index : side - 1 - index));
        const xs = order(this.sides[0], this.along > 0);
        const zs = order(this.sides[2], this.across > 0);
        for (let y = 0; y < this.sides[1]; y++) for (const z of zs) for (const x of xs) yield [x, y, z];
    }

    // A step from a cell towards the eye.
    towards() {
        return [this.along * this.upright, this.flat, this.across * this.upright];
    }
}
