// Cells of the sphere in HEALPix's nested scheme (Górski et al. 2005). A direction is [x, y, z], a unit vector of the equatorial frame.
// A place is a face of the twelve and two whole numbers of DEEP bits within it, x to the north-east and y to the north-west: it is a
// cell of order DEEP, and a right shift of x and y gives the cell of any order above.

export const DEEP = 20;
const SIDE = 2 ** DEEP;
const ROW_OF_FACE = [2, 2, 2, 2, 3, 3, 3, 3, 4, 4, 4, 4];
const COLUMN_OF_FACE = [1, 3, 5, 7, 0, 2, 4, 6, 1, 3, 5, 7];

/** Sets `place` to where a direction stands. */
export function locate(direction, place) {
    find(direction, place);
    place.x = whole(place.u);
    place.y = whole(place.v);
    return place;
}

/** Sets `place` to the face that has a direction, and to how far along it that stands: u and v from 0 to 1. */
export function find([x, y, z], place) {
    const quarters = ((Math.atan2(y, x) * 2) / Math.PI + 4) % 4;
    place.isBelt = Math.abs(z) <= 2 / 3;
    if (place.isBelt) findInBelt(quarters, z, place);
    else findInCap(quarters, z, Math.hypot(x, y), place);
    return place;
}

function findInBelt(quarters, z, place) {
    const falling = 0.5 + quarters - 0.75 * z;
    const rising = 0.5 + quarters + 0.75 * z;
    const left = Math.floor(falling);
    const right = Math.floor(rising);
    if (left === right) place.face = (left & 3) + 4;
    else place.face = left < right ? left & 3 : (right & 3) + 8;
    place.u = rising - right;
    place.v = 1 - (falling - left);
}

function findInCap(quarters, z, sine, place) {
    const column = Math.min(Math.floor(quarters), 3);
    const along = quarters - column;
    const width = sine / Math.sqrt((1 + Math.abs(z)) / 3);
    place.face = z > 0 ? column : column + 8;
    place.u = z > 0 ? 1 - (1 - along) * width : along * width;
    place.v = z > 0 ? 1 - along * width : (1 - along) * width;
}

/** A part from 0 to 1 as a whole number of DEEP bits. */
export function whole(part) {
    return Math.max(0, Math.min(SIDE - 1, Math.floor(part * SIDE)));
}

/** The direction of a point of a face, x and y from 0 to 1. */
export function direction(face, x, y) {
    const row = ROW_OF_FACE[face] - x - y;
    const width = Math.min(1, row, 4 - row);
    let z = ((2 - row) * 2) / 3;
    let sine = Math.sqrt(1 - z * z);
    if (width < 1) {
        z = (row < 1 ? 1 : -1) * (1 - (width * width) / 3);
        sine = width * Math.sqrt((2 - (width * width) / 3) / 3);
    }
    const angle = width > 0 ? ((COLUMN_OF_FACE[face] * width + x - y) * Math.PI) / (4 * width) : 0;
    return [sine * Math.cos(angle), sine * Math.sin(angle), z];
}

/** The number of the cell of an order in which a place lies; exact up to order DEEP. */
export function cellOf(order, { face, x, y }) {
    const column = x >> (DEEP - order);
    const line = y >> (DEEP - order);
    return face * 4 ** order + interleave(column >> 10, line >> 10) * 4 ** 10 + interleave(column & 1023, line & 1023);
}

/** The face of a cell of an order up to 24, and its column and line there. */
export function partOf(order, cell) {
    const face = Math.floor(cell / 4 ** order);
    const within = cell - face * 4 ** order;
    const [high, low] = [Math.floor(within / 4 ** 15), within % 4 ** 15];
    return [face, gather(high) * 2 ** 15 + gather(low), gather(high >> 1) * 2 ** 15 + gather(low >> 1)];
}

/** Points along the border of a cell, so many for each of its four sides. */
export function border(order, cell, points) {
    const [face, left, low] = partOf(order, cell);
    const corners = [[0, 0], [1, 0], [1, 1], [0, 1], [0, 0]];
    const directions = [];
    for (let side = 0; side < 4; side++) {
        const [[x0, y0], [x1, y1]] = corners.slice(side, side + 2);
        for (let point = 0; point < points; point++) {
            const part = point / points;
            const x = (left + x0 + (x1 - x0) * part) / 2 ** order;
            const y = (low + y0 + (y1 - y0) * part) / 2 ** order;
            directions.push(direction(face, x, y));
        }
    }
    return directions;
}

/** The direction of a cell's centre. */
export function centre(order, cell) {
    const [face, column, line] = partOf(order, cell);
    return direction(face, (column + 0.5) / 2 ** order, (line + 0.5) / 2 ** order);
}

/** The number whose even bits are those of x, and whose odd bits those of y; at most 15 bits each. */
export function interleave(x, y) {
    return spread(x) | (spread(y) << 1);
}

function spread(bits) {
    let n = bits;
    n = (n | (n << 8)) & 0x00ff00ff;
    n = (n | (n << 4)) & 0x0f0f0f0f;
    n = (n | (n << 2)) & 0x33333333;
    return (n | (n << 1)) & 0x55555555;
}

/** The even bits of a number, beside each other. */
function gather(bits) {
    let n = bits & 0x55555555;
    n = (n | (n >> 1)) & 0x33333333;
    n = (n | (n >> 2)) & 0x0f0f0f0f;
    n = (n | (n >> 4)) & 0x00ff00ff;
    return (n | (n >> 8)) & 0x0000ffff;
}

/** Right ascension and declination in degrees, and back. */
export function toDegrees([x, y, z]) {
    return [((Math.atan2(y, x) * 180) / Math.PI + 360) % 360, (Math.atan2(z, Math.hypot(x, y)) * 180) / Math.PI];
}

export function fromDegrees(ra, dec) {
    const [angle, height] = [(ra * Math.PI) / 180, (dec * Math.PI) / 180];
    return [Math.cos(height) * Math.cos(angle), Math.cos(height) * Math.sin(angle), Math.sin(height)];
}
