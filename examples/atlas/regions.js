// Region files of DS9, as lines on the sky: circles, ellipses, boxes, polygons, lines, annuli and points, in ICRS, FK5 of J2000 or galactic
// coordinates.

import { equatorialDegrees } from "./frames.js";
import { fromDegrees } from "./healpix.js";
import { readPosition } from "./position.js";
import { FileFault } from "./tables.js";

const FRAMES = { icrs: "RA", fk5: "RA", j2000: "RA", wcs: "RA", galactic: "l" };
const OTHER_FRAMES = /^(fk4|b1950|ecliptic|image|physical|detector|amplifier|linear)$/;
const UNITS = { '"': 1 / 3600, "'": 1 / 60, d: 1, r: 180 / Math.PI };
const POINTS = 72;
const MARK = 8 / 3600;

/** The shapes of a file, each an array of lines of directions, and how many of its shapes aren't drawn: {shapes, others}. */
export function readRegions(text) {
    let frame = null;
    const [shapes, others] = [[], []];
    for (const part of text.split(/\r?\n/).flatMap((line) => line.replace(/#.*/, "").split(";"))) {
        const words = part.trim().toLowerCase();
        if (words in FRAMES) frame = words;
        else if (OTHER_FRAMES.test(words)) throw new FileFault(`Its coordinates are ${words}: save it in icrs, fk5 or galactic.`);
        else if (words !== "" && !words.startsWith("global")) {
            const shape = readShape(words, frame);
            (shape ? shapes : others).push(shape ?? words);
        }
    }
    if (shapes.length === 0) throw new FileFault("It has no shape that can be drawn.");
    return { shapes, others: others.length };
}

function readShape(words, frame) {
    const found = /^[+-]?([a-z]+)\s*\(?([^)]*)\)?/.exec(words);
    const lines = found && SHAPES[found[1]];
    if (!lines) return null;
    if (!frame) throw new FileFault("Its coordinates are in no frame that it names.");
    const values = found[2].trim().split(/[\s,]+/);
    const place = (at) => directionOf(values[at], values[at + 1], frame);
    return lines(values, place, frame);
}

const SHAPES = {
    point: (_, place, frame) => [45, 135].map((angle) => [-1, 1].map((side) => apart(place(0), side * MARK, 0, angle, frame))),
    circle: (values, place, frame) => [ring(place(0), sizeOf(values[2]), sizeOf(values[2]), 0, frame)],
    annulus: (values, place, frame) => values.slice(2).map((radius) => ring(place(0), sizeOf(radius), sizeOf(radius), 0, frame)),
    ellipse: (values, place, frame) => [ring(place(0), sizeOf(values[2]), sizeOf(values[3]), Number(values[4] ?? 0), frame)],
    box: (values, place, frame) => {
        const [width, height] = [sizeOf(values[2]) / 2, sizeOf(values[3]) / 2];
        const corners = [[1, 1], [-1, 1], [-1, -1], [1, -1], [1, 1]];
        return [corners.map(([x, y]) => apart(place(0), x * width, y * height, Number(values[4] ?? 0), frame))];
    },
    polygon: (values, place) => {
        const corners = Array.from({ length: Math.floor(values.length / 2) }, (_, at) => place(2 * at));
        return [[...corners, corners[0]]];
    },
    line: (_, place) => [[place(0), place(2)]],
};

function sizeOf(text) {
    const found = /^([\d.eE+-]+)(["'dr]?)$/.exec(text ?? "");
    if (!found || !Number.isFinite(Number(found[1]))) throw new FileFault(`“${text}” is no size of a shape on the sky.`);
    return Number(found[1]) * (UNITS[found[2]] ?? 1);
}

/** A place of a shape: its direction, and its angles in the shape's frame. */
function directionOf(along, above, frame) {
    const isGalactic = FRAMES[frame] === "l";
    const found = readPosition(isGalactic ? `l ${along} b ${above}` : `RA ${along} Dec ${above}`);
    if (found.fault) throw new FileFault(`“${along}, ${above}”: ${found.fault}`);
    return fromDegrees(found.ra, found.dec);
}

function ring(middle, width, height, turn, frame) {
    return Array.from({ length: POINTS + 1 }, (_, at) => {
        const angle = (2 * Math.PI * at) / POINTS;
        return apart(middle, width * Math.cos(angle), height * Math.sin(angle), turn, frame);
    });
}

/** The direction so many degrees to the right and up, as on a picture whose east is left, which is turned against the clock. */
function apart(middle, right, up, turn, frame) {
    const [cosine, sine] = [Math.cos, Math.sin].map((of) => of((turn * Math.PI) / 180));
    const [west, north] = [right * cosine - up * sine, right * sine + up * cosine];
    const distance = (Math.hypot(west, north) * Math.PI) / 180;
    if (distance === 0) return middle;
    const [eastward, northward] = axesOf(middle, frame);
    const length = Math.sin(distance) / Math.hypot(west, north);
    return middle.map((side, axis) => side * Math.cos(distance) + length * (north * northward[axis] - west * eastward[axis]));
}

/** The directions to the east and to the north, of the equator or of the galaxy. */
function axesOf([x, y, z], frame) {
    const pole = FRAMES[frame] === "l" ? fromDegrees(...equatorialDegrees([0, 90])) : [0, 0, 1];
    const cross = [pole[1] * z - pole[2] * y, pole[2] * x - pole[0] * z, pole[0] * y - pole[1] * x];
    const length = Math.hypot(...cross) || 1;
    const east = cross.map((side) => side / length);
    return [east, [y * east[2] - z * east[1], z * east[0] - x * east[2], x * east[1] - y * east[0]]];
}
