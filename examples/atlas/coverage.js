// Cells of one order: the leaves of a survey, or those that changed.

import { centre, partOf } from "./healpix.js";

const SQUARE_DEGREES = 41_252.96;

export class Coverage {
    /** `rows` are numbers 4·4^order + cell of any order up to this one, `cells` numbers of this order, and `ranges` their ends. */
    constructor({ order, rows, cells, ranges = rows?.map((row) => rangeOf(row, order)) ?? (cells ?? []).map((cell) => [cell, cell + 1]) }) {
        this.order = order;
        this.ranges = [];
        for (const [first, end] of ranges.sort((one, other) => one[0] - other[0])) {
            const last = this.ranges.at(-1);
            if (last && last[1] >= first) last[1] = Math.max(last[1], end);
            else this.ranges.push([first, end]);
        }
        this.count = this.ranges.reduce((sum, [first, end]) => sum + end - first, 0);
    }

    /** Whether there is one at, under or above a cell. */
    touches(order, cell) {
        const leaves = 4 ** (this.order - order);
        const range = this.rangeAfter(cell * leaves);
        return range !== undefined && range[0] < (cell + 1) * leaves;
    }

    /** The first range that ends behind a leaf. */
    rangeAfter(leaf) {
        let [low, high] = [0, this.ranges.length];
        while (low < high) {
            const middle = (low + high) >> 1;
            if (this.ranges[middle][1] > leaf) high = middle;
            else low = middle + 1;
        }
        return this.ranges[low];
    }

    /** The same in cells of an order, in so many of them as touch it. */
    at(order) {
        const leaves = 4 ** (this.order - order);
        return new Coverage({ order, ranges: this.ranges.map(([first, end]) => [Math.floor(first / leaves), Math.ceil(end / leaves)]) });
    }

    /** The cells of both, in the coarser one's order. */
    with(other) {
        const order = Math.min(this.order, other.order);
        return new Coverage({ order, ranges: [this, other].flatMap((one) => one.at(order).ranges) });
    }

    /** The cells that only one of two of the same order has. */
    differences(other) {
        const ends = [...this.ranges, ...other.ranges].flat().sort((one, another) => one - another);
        const ranges = ends.flatMap((first, at) => (at % 2 === 0 && first < ends[at + 1] ? [[first, ends[at + 1]]] : []));
        return new Coverage({ order: this.order, ranges });
    }

    /** The numbers of the cells. */
    *[Symbol.iterator]() {
        for (const [first, end] of this.ranges) for (let cell = first; cell < end; cell++) yield cell;
    }

    /** The direction of a leaf amid the others, in the order of their numbers. */
    get middle() {
        const [first] = this.ranges[this.ranges.length >> 1];
        return centre(this.order, first);
    }

    /** Degrees along the side of a square as large as all leaves. */
    get side() {
        return Math.sqrt((this.count / (12 * 4 ** this.order)) * SQUARE_DEGREES);
    }

    /** The faces as pictures above each other, of cells of an order: 255 where there is a leaf at or under the cell. */
    map(order) {
        const side = 2 ** order;
        const found = new Uint8Array(12 * side * side);
        for (const cell of this.at(order)) {
            const [face, column, line] = partOf(order, cell);
            found[(face * side + line) * side + column] = 255;
        }
        return found;
    }
}

/** The order of the cell of a row, the number 4·4^order + cell. */
export function orderOfRow(row) {
    return Math.floor(Math.log2(row / 4) / 2);
}

/** The leaves under it. */
function rangeOf(row, leafOrder) {
    const order = orderOfRow(row);
    const leaves = 4 ** (leafOrder - order);
    const cell = row - 4 * 4 ** order;
    return [cell * leaves, (cell + 1) * leaves];
}
