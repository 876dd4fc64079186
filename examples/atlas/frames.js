// The galactic frame and the equatorial one (ICRS), by the matrix of the Hipparcos Catalogue (ESA SP-1200, volume 1, section 1.5.3).

import { fromDegrees, toDegrees } from "./healpix.js";

const TO_GALACTIC = [
    [-0.0548755604162154, -0.873437090234885, -0.4838350155487132],
    [0.4941094278755837, -0.4448296299600112, 0.7469822444972189],
    [-0.8676661490190047, -0.1980763734312015, 0.4559837761750669],
];

/** The galactic direction of an equatorial one. */
export function toGalactic(direction) {
    return TO_GALACTIC.map((row) => row[0] * direction[0] + row[1] * direction[1] + row[2] * direction[2]);
}

/** The equatorial direction of a galactic one. */
export function fromGalactic(direction) {
    return [0, 1, 2].map((axis) => TO_GALACTIC.reduce((sum, row, which) => sum + row[axis] * direction[which], 0));
}

/** The galactic longitude and latitude of a right ascension and a declination, and back; all in degrees. */
export function galacticDegrees([ra, dec]) {
    return toDegrees(toGalactic(fromDegrees(ra, dec)));
}

export function equatorialDegrees([l, b]) {
    return toDegrees(fromGalactic(fromDegrees(l, b)));
}
