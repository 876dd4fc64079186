// Sources over the sky as rings, and the row of one that is picked.

const REACH = 12;
const EDGE = "rgba(20, 18, 8, 0.65)";

/**
 * `inView(frame)` of each kind gives rows that `accepts` accepts and where they stand, [row, [column, line]]; a frame is {projection, width,
 * height, density}. `colourOf(row)` gives colours, where not all have the same.
 */
export class Marks {
    constructor(ink) {
        Object.assign(this, { ink, picked: null, units: new Map(), accepts: () => true, colourOf: null });
    }

    /** Draws a ring for each source in view; one that is picked has a second. */
    draw(brush, frame) {
        const rows = [...this.inView(frame)];
        this.stroke(brush, frame, rows, EDGE, 3.5);
        if (!this.colourOf) this.stroke(brush, frame, rows, this.ink, 1.5);
        else for (const row of rows) this.stroke(brush, frame, [row], this.colourOf(row[0]), 2);
    }

    stroke(brush, { density }, rows, colour, thick) {
        brush.strokeStyle = colour;
        brush.lineWidth = thick * density;
        brush.beginPath();
        for (const [row, [x, y]] of rows) {
            const radius = this.radiusOf(row) * density;
            brush.moveTo(x + radius, y);
            brush.arc(x, y, radius, 0, 2 * Math.PI);
            if (row !== this.picked) continue;
            brush.moveTo(x + radius + 4 * density, y);
            brush.arc(x, y, radius + 4 * density, 0, 2 * Math.PI);
        }
        brush.stroke();
    }

    /** Picks the source that is nearest to a point, if one is near; its distance in pixels. */
    pick([column, line], frame) {
        let [nearest, least] = [null, REACH * frame.density];
        for (const [row, [x, y]] of this.inView(frame)) {
            const distance = Math.hypot(x - column, y - line);
            if (distance < least) [nearest, least] = [row, distance];
        }
        this.picked = nearest;
        return nearest ? least : Infinity;
    }
}

/** Where a direction stands in the picture; null outside of it. */
export function placeIn({ projection, width, height }, direction) {
    const at = projection.toScreen(direction);
    return at && at[0] >= 0 && at[1] >= 0 && at[0] < width && at[1] < height ? at : null;
}
