// Coverage maps from disk (MOC 2.0): FITS files of NUNIQ numbers or of ranges, JSON, and text.

import { Coverage, orderOfRow } from "./coverage.js";
import { readMocTable } from "./fits.js";
import { DEEP } from "./healpix.js";
import { FileFault } from "./tables.js";

const RANGE_ORDER = 29;

/** The coverage of a file's bytes. */
export function readMoc(bytes) {
    const text = new TextDecoder("latin1").decode(bytes.slice(0, 9));
    return text === "SIMPLE  =" ? readFits(bytes) : readText(new TextDecoder().decode(bytes).trim());
}

function readFits(bytes) {
    const { isRange, numbers } = readMocTable(bytes);
    const rows = numbers.map(Number);
    if (!isRange) return new Coverage({ order: Math.max(...rows.map(orderOfRow)), rows });
    const shift = BigInt(2 * (RANGE_ORDER - DEEP));
    const last = (1n << shift) - 1n;
    return coverageOf(pairsOf(numbers).map(([first, end]) => ({ order: DEEP, first: Number(first >> shift), end: Number((end + last) >> shift) })));
}

function pairsOf(numbers) {
    return Array.from({ length: Math.floor(numbers.length / 2) }, (_, at) => [numbers[2 * at], numbers[2 * at + 1]]);
}

/** `{"5": [1, 2]}`, or `5/1-2 7 6/30`. */
function readText(text) {
    const parts = text.startsWith("{") ? fromJson(text) : fromWords(text);
    const isCell = ({ order, first, end }) => Number.isInteger(first) && first >= 0 && end > first && end <= 12 * 4 ** order && order <= DEEP;
    if (parts.length === 0 || !parts.every(isCell)) throw new FileFault(`It is no coverage map with cells of the orders 0 to ${DEEP}.`);
    return coverageOf(parts);
}

function fromJson(text) {
    try {
        return Object.entries(JSON.parse(text)).flatMap(([order, cells]) => cells.map((cell) => ({ order: Number(order), first: cell, end: cell + 1 })));
    } catch {
        return [];
    }
}

function fromWords(text) {
    let order = NaN;
    return text.split(/[\s,]+/).flatMap((word) => {
        const [, told, cells] = /^(?:(\d+)\/)?([\d-]*)$/.exec(word) ?? [null, undefined, "none"];
        order = told === undefined ? order : Number(told);
        if (cells === "") return [];
        const [first, last = first] = cells.split("-").map(Number);
        return [{ order, first, end: last + 1 }];
    });
}

function coverageOf(parts) {
    const order = Math.max(...parts.map((part) => part.order));
    const ranges = parts.map(({ order: own, first, end }) => [first * 4 ** (order - own), end * 4 ** (order - own)]);
    return new Coverage({ order, ranges });
}
