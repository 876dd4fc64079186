// FITS files of a HiPS (FITS 4.0; MOC 1.1): images of whole and of real numbers, and the table of a coverage file.

import { partOf } from "./healpix.js";

const CARD = 80;
const BLOCK = 2880;
const COLUMNS_OF_MOSAIC = 27;
const CELLS_OF_MOSAIC = 768;

/** Why a file can't be read. */
export class FitsFault extends Error {}

/** How the stored numbers of each BITPIX are kept and read; those of 64 bits stay exact. */
const DEPTHS = new Map([
    [8, { size: 1, Numbers: Uint8Array, read: (view, at) => view.getUint8(at), number: Number }],
    [16, { size: 2, Numbers: Int16Array, read: (view, at) => view.getInt16(at), number: Number }],
    [32, { size: 4, Numbers: Int32Array, read: (view, at) => view.getInt32(at), number: Number }],
    [64, { size: 8, Numbers: BigInt64Array, read: (view, at) => view.getBigInt64(at), number: BigInt }],
    [-32, { size: 4, Numbers: Float32Array, read: (view, at) => view.getFloat32(at) }],
    [-64, { size: 8, Numbers: Float64Array, read: (view, at) => view.getFloat64(at) }],
]);

/** A square or a mosaic of stored numbers, the bottom line first, with what turns them into values. */
export class Image {
    constructor(width, height, numbers, { scale, zero, blank }) {
        Object.assign(this, { width, height, numbers, scale, zero, blank });
    }

    /** The value of a stored number by its place in the file; NaN where it is blank. */
    value(place) {
        const number = this.numbers[place];
        return number === this.blank ? NaN : this.zero + this.scale * Number(number);
    }

    /** Whether 32 bits of a real number hold its values. */
    get isShort() {
        return this.numbers instanceof Float32Array || this.numbers.BYTES_PER_ELEMENT <= 2;
    }

    isBlankAt(place) {
        const number = this.numbers[place];
        return number === this.blank || number !== number;
    }

    /** Whether two tiles show the same within a cell below theirs: that of a number, so many orders deeper. No other tile is a blank one. */
    equalsWithin(other, cell, deeper) {
        if (this.width < 2 ** deeper) return false;
        const { left, bottom, side } = this.squareOf(cell, deeper);
        for (let line = bottom; line < bottom + side; line++) {
            for (let place = line * this.width + left; place < line * this.width + left + side; place++) {
                if (other ? !isSame(this.numbers[place], other.numbers[place]) : !this.isBlankAt(place)) return false;
            }
        }
        return true;
    }

    /** Where a cell below a tile's stands in it. Lines of a tile go with x, from the top, and columns with y; the bottom line is the first. */
    squareOf(cell, deeper) {
        const side = this.width >> deeper;
        const [, column, line] = partOf(deeper, cell);
        return { left: line * side, bottom: this.width - (column + 1) * side, side };
    }

    /** A square of it as an image of its own. */
    cut({ left, bottom, side }) {
        const numbers = new this.numbers.constructor(side * side);
        for (let line = 0; line < side; line++) {
            const from = (bottom + line) * this.width + left;
            numbers.set(this.numbers.subarray(from, from + side), line * side);
        }
        return new Image(side, side, numbers, this);
    }

    /** The same with other squares, [square, image]; an image of null is blank. */
    pasted(squares) {
        const numbers = this.numbers.slice();
        for (const [{ left, bottom, side }, image] of squares) {
            for (let line = 0; line < side; line++) {
                const at = (bottom + line) * this.width + left;
                if (image) numbers.set(image.numbers.subarray(line * side, (line + 1) * side), at);
                else numbers.fill(this.blank ?? NaN, at, at + side);
            }
        }
        return new Image(this.width, this.height, numbers, this);
    }
}

/** Whether two stored numbers are the same; two that are none are. */
function isSame(number, other) {
    return number === other || (number !== number && other !== other);
}

/** The image of a file of one header and its data. */
export function readImage(buffer) {
    const { cards, end } = readHeader(buffer, 0);
    const depth = DEPTHS.get(wholeCard(cards, "BITPIX"));
    if (!depth) throw new FitsFault(`its BITPIX is ${cards.get("BITPIX")}, and this page reads 8, 16, 32, 64, -32 and -64`);
    if (wholeCard(cards, "NAXIS") !== 2) throw new FitsFault(`its NAXIS is ${cards.get("NAXIS")}, and an image has 2`);
    const width = wholeCard(cards, "NAXIS1");
    const height = wholeCard(cards, "NAXIS2");
    if (buffer.byteLength < end + width * height * depth.size) throw new FitsFault("its data are cut short");
    const view = new DataView(buffer, end);
    const numbers = new depth.Numbers(width * height);
    for (let place = 0; place < numbers.length; place++) numbers[place] = depth.read(view, place * depth.size);
    return new Image(width, height, numbers, {
        scale: realCard(cards, "BSCALE", 1),
        zero: realCard(cards, "BZERO", 0),
        blank: cards.has("BLANK") && depth.number ? depth.number(cards.get("BLANK")) : undefined,
    });
}

/** Where a cell of order 3 stands in the all-sky mosaic. */
export function squareInMosaic({ width, height }, cell) {
    const side = width / COLUMNS_OF_MOSAIC;
    return { left: (cell % COLUMNS_OF_MOSAIC) * side, bottom: height - (Math.floor(cell / COLUMNS_OF_MOSAIC) + 1) * side, side };
}

/** The cells of the mosaic, as a map from their numbers to images. */
export function cutMosaic(mosaic) {
    return new Map(Array.from({ length: CELLS_OF_MOSAIC }, (_, cell) => [cell, mosaic.cut(squareInMosaic(mosaic, cell))]));
}

/** The rows of a coverage file: the numbers 4·4^order + cell, and the order of the leaves. */
export function readCoverage(buffer) {
    const { isRange, numbers, order } = readMocTable(buffer);
    if (isRange) throw new FitsFault("its table isn't one of NUNIQ numbers");
    return { order, rows: numbers.map(Number) };
}

/** The numbers of a coverage file's table: cells, or the first cells of ranges and those behind them, in turn. */
export function readMocTable(buffer) {
    const first = readHeader(buffer, 0);
    const { cards, end } = readHeader(buffer, first.end);
    const [isRange, isLong] = [cards.get("ORDERING") === "RANGE", /^1?K$/.test(cards.get("TFORM1"))];
    if ((!isRange && cards.get("ORDERING") !== "NUNIQ") || !/^1?[JK]$/.test(cards.get("TFORM1"))) throw new FitsFault("its table isn't one of NUNIQ numbers");
    const rows = wholeCard(cards, "NAXIS2");
    const size = isLong ? 8 : 4;
    if (buffer.byteLength < end + rows * size) throw new FitsFault("its table is cut short");
    const view = new DataView(buffer, end);
    const numbers = Array.from({ length: rows }, (_, row) => (isLong ? view.getBigInt64(row * size) : BigInt(view.getInt32(row * size))));
    const order = cards.has("MOCORDER") ? wholeCard(cards, "MOCORDER") : null;
    return { isRange, numbers, order };
}

/** The values of the cards of the header that begins there, and where its last block ends. */
function readHeader(buffer, start) {
    const bytes = new Uint8Array(buffer);
    const cards = new Map();
    for (let at = start; at + CARD <= bytes.length; at += CARD) {
        const card = String.fromCharCode(...bytes.subarray(at, at + CARD));
        const keyword = card.slice(0, 8).trimEnd();
        if (keyword === "END") return { cards, end: start + Math.ceil((at + CARD - start) / BLOCK) * BLOCK };
        if (card.slice(8, 10) === "= ") cards.set(keyword, valueText(card.slice(10)));
    }
    throw new FitsFault("its header has no end");
}

/** The value of a card: what stands between quotes, or else before a comment. */
function valueText(text) {
    const quoted = /^ *'([^']*)'/.exec(text);
    return (quoted ? quoted[1] : text.split("/")[0]).trim();
}

function wholeCard(cards, keyword) {
    const text = cards.get(keyword) ?? "";
    if (!/^[+-]?\d+$/.test(text)) throw new FitsFault(`its ${keyword} is no whole number`);
    return Number(text);
}

function realCard(cards, keyword, absent) {
    if (!cards.has(keyword)) return absent;
    const number = Number(cards.get(keyword).replace(/d/i, "E"));
    if (Number.isNaN(number)) throw new FitsFault(`its ${keyword} is no number`);
    return number;
}
