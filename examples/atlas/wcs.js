// Where the pixels of a file lie on the sky, as cards of its header (FITS 4.0, section 8).

import { partOf } from "./healpix.js";

/** Degrees in the plane for half of the ellipse's width. */
const HALF_OF_ELLIPSE = (360 * Math.SQRT2) / Math.PI;

/** The cards of a picture of a part of the sky in the gnomonic projection, turned by so many degrees, with such pixels in its middle. */
export function gnomonicCards({ ra, dec }, turn, pixel, size) {
    const [cosine, sine] = [Math.cos, Math.sin].map((of) => pixel * of((turn * Math.PI) / 180));
    return cards("TAN", [ra, dec], size.map((side) => (side + 1) / 2), [[-cosine, sine], [sine, cosine]]);
}

/** The cards of the whole sky as an ellipse, by the name of its projection. */
export function wholeCards(name, { meridian, half, isGalactic }, size) {
    const pixel = HALF_OF_ELLIPSE / half;
    return cards(name, [meridian, 0], size.map((side) => (side + 1) / 2), [[-pixel, 0], [0, pixel]], isGalactic);
}

/**
 * The cards of a tile: in the HEALPix projection (Calabretta and Roukema 2007) a face is a square that stands on its corner. Its
 * columns go to the north-west, and its lines, the bottom one first, to the south-west.
 */
export function tileCards(order, cell, width) {
    const [face, left, low] = partOf(order, cell);
    const pixel = 45 / (width * 2 ** order);
    const isPolar = face < 4 || face > 7;
    const height = [45, 0, -45][Math.floor(face / 4)];
    // The middle of the first pixel, in the plane around a meridian near the face.
    const [u, v] = [left + (width - 0.5) / width, low + 0.5 / width].map((along) => along / 2 ** order);
    const [x, y] = [(isPolar ? 45 : 0) + 45 * (u - v), height + 45 * (u + v - 1)];
    const corner = [(x - y) / (2 * pixel) + 1, (x + y) / (2 * pixel) + 1];
    const matrix = [[-pixel, -pixel], [pixel, -pixel]];
    return [...cards("HPX", [90 * (face % 4), 0], corner, matrix), ["PV2_1", 4], ["PV2_2", 3]];
}

function cards(projection, [along, above], [column, line], matrix, isGalactic = false) {
    const [first, second] = isGalactic ? ["GLON-", "GLAT-"] : ["RA---", "DEC--"];
    return [
        ["CTYPE1", first + projection], ["CTYPE2", second + projection], ["CRVAL1", along], ["CRVAL2", above], ["CRPIX1", column], ["CRPIX2", line],
        ["CD1_1", matrix[0][0]], ["CD1_2", matrix[0][1]], ["CD2_1", matrix[1][0]], ["CD2_2", matrix[1][1]],
        ["CUNIT1", "deg"], ["CUNIT2", "deg"], ...(isGalactic ? [] : [["RADESYS", "ICRS"]]),
    ];
}
