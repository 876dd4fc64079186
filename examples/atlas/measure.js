// How far a place is from a mark, along a great circle, and in which direction.

import { angleText } from "./angles.js";
import { toDegrees } from "./healpix.js";

const DEGREES = 180 / Math.PI;
const STEPS = 64;

/** Degrees between two directions. */
export function separation(one, other) {
    const cross = [0, 1, 2].map((axis) => one[(axis + 1) % 3] * other[(axis + 2) % 3] - one[(axis + 2) % 3] * other[(axis + 1) % 3]);
    return Math.atan2(Math.hypot(...cross), one.reduce((sum, side, axis) => sum + side * other[axis], 0)) * DEGREES;
}

/** Degrees from north to the east in which another direction lies. */
export function positionAngle(one, other) {
    const [[ra, dec], [otherRa, otherDec]] = [one, other].map((direction) => toDegrees(direction).map((angle) => angle / DEGREES));
    const east = Math.cos(otherDec) * Math.sin(otherRa - ra);
    const north = Math.cos(dec) * Math.sin(otherDec) - Math.sin(dec) * Math.cos(otherDec) * Math.cos(otherRa - ra);
    return (Math.atan2(east, north) * DEGREES + 360) % 360;
}

/** Directions along the great circle between two that aren't opposite. */
export function arc(one, other) {
    return Array.from({ length: STEPS + 1 }, (_, step) => {
        const sum = one.map((side, axis) => side * (1 - step / STEPS) + (other[axis] * step) / STEPS);
        const length = Math.hypot(...sum);
        return sum.map((side) => side / length);
    });
}

export function measureText(mark, place) {
    return `${angleText(separation(mark, place))} from the mark, to ${positionAngle(mark, place).toFixed(1)}°`;
}
