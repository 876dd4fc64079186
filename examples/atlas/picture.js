// The pixels of the picture: each is asked where it stands on the sphere, which stored number is there, and which colour that has.

import { DEEP, find, interleave, locate, whole } from "./healpix.js";
import { channels, packed, shader, tableOf } from "./colours.js";

const OUTSIDE = 255;
export const GROUND = "#171b26";
export const OUTLINE = "#59d6c7";
const GROUND_PIXEL = packed(channels(GROUND));
// Within a block of pixels places are interpolated, by squares, where that is exact to this part of a pixel; else within its quarters.
const EXACT = 0.001;
const EXACT_WHILE_MOVING = 0.3;
const BLOCK = 16;
const LEAST_BLOCK = 4;
const MOST_SIZES = 8;

/** Finds the stored numbers of a layer; those beside each other are mostly of one tile, which it remembers. */
export class Reader {
    /** With a coverage, cells without leaves are known to be blank. */
    constructor(layer, coverage = null) {
        this.layer = layer;
        this.coverage = coverage;
        this.pixelShift = DEEP - layer.order - layer.bits;
        this.tileShift = DEEP - layer.order;
        this.mask = (1 << layer.bits) - 1;
        this.face = this.column = this.line = -1;
    }

    /** The tile that holds a place, undefined where it isn't here; and in `index` where its number stands in the file. */
    at(face, x, y) {
        const column = x >> this.tileShift;
        const line = y >> this.tileShift;
        if (face !== this.face || column !== this.column || line !== this.line) this.turnTo(face, column, line);
        // Lines of a tile go with x, from the top, and columns with y; a file has the bottom line first.
        this.index = ((this.mask - ((x >> this.pixelShift) & this.mask)) << this.layer.bits) | ((y >> this.pixelShift) & this.mask);
        return this.tile;
    }

    turnTo(face, column, line) {
        this.face = face;
        this.column = column;
        this.line = line;
        this.cell = face * 4 ** this.layer.order + interleave(column, line);
        this.tile = this.layer.tiles.get(this.cell);
        this.isBlank = this.tile === undefined && this.coverage !== null && !this.coverage.touches(this.layer.order, this.cell);
    }
}

export class Picture {
    constructor(canvas) {
        this.canvas = canvas;
        this.brush = canvas.getContext("2d");
        this.width = this.height = 0;
        this.sizes = new Map();
    }

    /** Finds where each pixel stands, or each square of so many pixels. */
    place(projection, width, height, step) {
        this.resize(Math.ceil(width / step), Math.ceil(height / step));
        this.faces.fill(OUTSIDE);
        this.covered = new Map();
        this.sky = (column, line) => projection.toSky((column + 0.5) * step, (line + 0.5) * step);
        this.exact = step === 1 ? EXACT : EXACT_WHILE_MOVING;
        const half = BLOCK / 2;
        const columns = 2 * Math.ceil(this.width / BLOCK) + 1;
        let top = this.nodes(columns, 0);
        for (let line = 0; line < this.height; line += BLOCK) {
            const [middle, bottom] = [this.nodes(columns, line + half), this.nodes(columns, line + BLOCK)];
            for (let at = 0; at + 2 < columns; at += 2) {
                const nodes = [top, middle, bottom].flatMap((some) => [some[at], some[at + 1], some[at + 2]]);
                this.placeBlock(at * half, line, BLOCK, nodes);
            }
            top = bottom;
        }
    }

    /** Takes the arrays of a size, of which some are kept: a view that moves is drawn in another size than one that rests. */
    resize(width, height) {
        if (width === this.width && height === this.height) return;
        this.width = this.canvas.width = width;
        this.height = this.canvas.height = height;
        const key = `${width} ${height}`;
        if (!this.sizes.has(key)) {
            if (this.sizes.size >= MOST_SIZES) this.sizes.clear();
            const count = width * height;
            const [faces, xs, ys, values, under] = [Uint8Array, Int32Array, Int32Array, Float64Array, Float64Array].map((Numbers) => new Numbers(count));
            this.sizes.set(key, { faces, xs, ys, values, under, image: this.brush.createImageData(width, height) });
        }
        Object.assign(this, this.sizes.get(key));
    }

    /** Where points of a line stand, half a block from one another. */
    nodes(columns, line) {
        return Array.from({ length: columns }, (_, at) => this.node((at * BLOCK) / 2, line));
    }

    node(column, line) {
        const sky = this.sky(column, line);
        return sky && find(sky, {});
    }

    /** Places the pixels of a block, of which three times three nodes are known, or of its quarters. */
    placeBlock(column, line, side, nodes) {
        if (column >= this.width || line >= this.height) return;
        const right = Math.min(side, this.width - column);
        const down = Math.min(side, this.height - line);
        if (this.isSmooth(column, line, side, nodes)) this.interpolate(column, line, side, right, down, nodes);
        else if (side <= LEAST_BLOCK) this.placeEach(column, line, right, down);
        else {
            const [half, quarter] = [side / 2, side / 4];
            for (const [left, above] of [[0, 0], [half, 0], [0, half], [half, half]]) {
                const places = [0, 1, 2].flatMap((y) => [0, 1, 2].map((x) => [column + left + x * quarter, line + above + y * quarter]));
                this.placeBlock(column + left, line + above, half, places.map((place) => this.node(...place)));
            }
        }
    }

    /** Whether places between the nodes lie where they are interpolated. */
    isSmooth(column, line, side, nodes) {
        const [first] = nodes;
        if (!first || !nodes.every((node) => node && node.face === first.face && node.isBelt === first.isBelt)) return false;
        const found = this.node(column + side / 4, line + side / 4);
        if (!found || found.face !== first.face) return false;
        const weights = [0.375, 0.75, -0.125];
        const expected = (axis) => nodes.reduce((sum, node, at) => sum + node[axis] * weights[at % 3] * weights[Math.floor(at / 3)], 0);
        const across = (axis) => Math.abs(nodes[8][axis] - first[axis]) + Math.abs(nodes[2][axis] - nodes[6][axis]);
        const pixel = (across("u") + across("v")) / (4 * side);
        return Math.abs(expected("u") - found.u) + Math.abs(expected("v") - found.v) <= this.exact * pixel;
    }

    interpolate(column, line, side, right, down, nodes) {
        const { face } = nodes[0];
        const half = side / 2;
        for (let y = 0; y < down; y++) {
            const part = y / side;
            const [one, two, three] = [(1 - 2 * part) * (1 - part), 4 * part * (1 - part), part * (2 * part - 1)];
            const u0 = nodes[0].u * one + nodes[3].u * two + nodes[6].u * three;
            const u1 = nodes[1].u * one + nodes[4].u * two + nodes[7].u * three;
            const u2 = nodes[2].u * one + nodes[5].u * two + nodes[8].u * three;
            const v0 = nodes[0].v * one + nodes[3].v * two + nodes[6].v * three;
            const v1 = nodes[1].v * one + nodes[4].v * two + nodes[7].v * three;
            const v2 = nodes[2].v * one + nodes[5].v * two + nodes[8].v * three;
            const [bendU, bendV] = [(u2 - 2 * u1 + u0) / (2 * half * half), (v2 - 2 * v1 + v0) / (2 * half * half)];
            const [riseU, riseV] = [(u1 - u0) / half - bendU * half, (v1 - v0) / half - bendV * half];
            let at = (line + y) * this.width + column;
            for (let x = 0; x < right; x++, at++) {
                this.faces[at] = face;
                this.xs[at] = whole(u0 + x * (riseU + x * bendU));
                this.ys[at] = whole(v0 + x * (riseV + x * bendV));
            }
        }
    }

    placeEach(column, line, right, down) {
        const place = {};
        for (let y = 0; y < down; y++) {
            for (let x = 0; x < right; x++) {
                const sky = this.sky(column + x, line + y);
                if (sky === null) continue;
                locate(sky, place);
                const at = (line + y) * this.width + column + x;
                this.faces[at] = place.face;
                this.xs[at] = place.x;
                this.ys[at] = place.y;
            }
        }
    }

    /** The cells of an order in the picture, those in its middle first. */
    cells(order) {
        const found = new Map();
        const shift = DEEP - order;
        let [face, column, line] = [OUTSIDE, -1, -1];
        for (let at = 0; at < this.faces.length; at++) {
            if (this.faces[at] === OUTSIDE || (this.faces[at] === face && this.xs[at] >> shift === column && this.ys[at] >> shift === line)) continue;
            [face, column, line] = [this.faces[at], this.xs[at] >> shift, this.ys[at] >> shift];
            const cell = face * 4 ** order + interleave(column, line);
            const distance = Math.hypot((at % this.width) - this.width / 2, Math.floor(at / this.width) - this.height / 2);
            if (!(found.get(cell) <= distance)) found.set(cell, distance);
        }
        return [...found.keys()].sort((one, other) => found.get(one) - found.get(other));
    }

    /** The values of the pixels from a column on, of the first of the layers that has a tile there. NaN is blank. */
    read(layers, coverage, from = 0, values = this.values) {
        const readers = layers.map((layer) => new Reader(layer, coverage));
        for (let at = 0; at < this.faces.length; at++) {
            if (from > 0 && at % this.width < from) continue;
            values[at] = NaN;
            if (this.faces[at] === OUTSIDE) continue;
            for (let which = 0; which < readers.length; which++) {
                const tile = readers[which].at(this.faces[at], this.xs[at], this.ys[at]);
                if (tile !== undefined) values[at] = tile.value(readers[which].index);
                if (tile !== undefined || readers[which].isBlank) break;
            }
        }
    }

    /** Some of the values that are shown, in order of their pixels: about so many, those that aren't blank. */
    samples(most, values = this.values) {
        const step = Math.max(1, Math.floor(values.length / most));
        const found = [];
        for (let at = 0; at < values.length; at += step) if (this.faces[at] !== OUTSIDE && values[at] === values[at]) found.push(values[at]);
        return Float64Array.from(found);
    }

    /** Shows a background behind what is painted: the values under it by their own scale, through colours of that opacity. */
    paintOver(scale, opacity) {
        const pixels = new Uint8ClampedArray(this.image.data.buffer);
        const table = new Uint8Array(tableOf(scale).buffer);
        const shade = shader(scale);
        for (let at = 0; at < this.under.length; at++) {
            const value = this.under[at];
            if (this.faces[at] === OUTSIDE || value !== value) continue;
            const part = this.values[at] === this.values[at] ? opacity : 0;
            const from = 4 * shade(value);
            for (let channel = 0; channel < 3; channel++) {
                pixels[4 * at + channel] = table[from + channel] + (pixels[4 * at + channel] - table[from + channel]) * part;
            }
        }
    }

    /** Colours the pixels, over a background if there is one, and draws the outlines of coverages in their colours. */
    paint(scale, outlines, background) {
        const pixels = new Uint32Array(this.image.data.buffer);
        const table = tableOf(scale);
        const shade = shader(scale);
        for (let at = 0; at < pixels.length; at++) {
            const value = this.values[at];
            if (this.faces[at] === OUTSIDE) pixels[at] = 0;
            else pixels[at] = value !== value ? GROUND_PIXEL : table[shade(value)];
        }
        if (background) this.paintOver(background.scale, background.opacity);
        for (const { coverage, colour } of outlines) this.outline(pixels, coverage, packed(channels(colour)));
        this.brush.putImageData(this.image, 0, 0);
    }

    outline(pixels, coverage, colour) {
        if (!this.covered.has(coverage)) this.covered.set(coverage, this.cover(coverage));
        const { width } = this;
        const covered = this.covered.get(coverage);
        for (let at = 0; at + width < pixels.length; at++) {
            const here = covered[at];
            if (here === OUTSIDE) continue;
            const [right, below] = [covered[at + 1], covered[at + width]];
            if ((right !== here && right !== OUTSIDE && (at + 1) % width !== 0) || (below !== here && below !== OUTSIDE)) pixels[at] = colour;
        }
    }

    /** Finds for each pixel 1 where it lies in the coverage, and 0 elsewhere. */
    cover(coverage) {
        const covered = new Uint8Array(this.faces.length).fill(OUTSIDE);
        const shift = DEEP - coverage.order;
        let [face, column, line, answer] = [OUTSIDE, -1, -1, 0];
        for (let at = 0; at < covered.length; at++) {
            if (this.faces[at] === OUTSIDE) continue;
            if (this.faces[at] !== face || this.xs[at] >> shift !== column || this.ys[at] >> shift !== line) {
                [face, column, line] = [this.faces[at], this.xs[at] >> shift, this.ys[at] >> shift];
                answer = coverage.touches(coverage.order, face * 4 ** coverage.order + interleave(column, line)) ? 1 : 0;
            }
            covered[at] = answer;
        }
        return covered;
    }
}
