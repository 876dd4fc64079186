// The equations of the projections (Calabretta and Greisen 2002), in JavaScript and in the shading language of WebGL, by the names that
// FITS gives them.

/**
 * Of a part of the sky, around a direction. A point at x and y, `square` from the middle, has the direction `cosine` forward, and `length`
 * times x and y aside; it is within `most`. A direction, `cosine` of which is forward, stands at `stretch` times its parts aside, where
 * that is `least` at least. `reach` is how far from the middle an angle stands, `widest` the widest view in degrees, and `thickest` how
 * much more of the sky a pixel shows at the edge.
 */
export const PARTS = {
    ZEA: {
        most: 4, least: -0.9, widest: 180, thickest: 1,
        reach: (angle) => 2 * Math.sin(angle / 2),
        cosine: (square) => 1 - square / 2,
        length: (square) => Math.sqrt(1 - square / 4),
        stretch: (cosine) => Math.sqrt(2 / (1 + cosine)),
    },
    TAN: {
        most: Infinity, least: 0.05, widest: 120, thickest: 1,
        reach: (angle) => Math.tan(angle),
        cosine: (square) => 1 / Math.sqrt(1 + square),
        length: (square) => 1 / Math.sqrt(1 + square),
        stretch: (cosine) => 1 / cosine,
    },
    SIN: {
        most: 1, least: 0, widest: 180, thickest: 2.5,
        reach: (angle) => Math.sin(angle),
        cosine: (square) => Math.sqrt(1 - square),
        length: () => 1,
        stretch: () => 1,
    },
};

/** Of the whole sky, as an ellipse with x and y from -1 to 1: its angle from the middle meridian and the sine of its height, and back. */
export const WHOLES = {
    MOL: {
        toSky: (x, y) => {
            const slope = Math.asin(y);
            return [(Math.PI * x) / Math.cos(slope), (2 * slope + Math.sin(2 * slope)) / Math.PI];
        },
        toPlane: (angle, z) => {
            const slope = slopeOf(z);
            return [(angle * Math.cos(slope)) / Math.PI, Math.sin(slope)];
        },
    },
    AIT: {
        toSky: (x, y) => {
            const square = 1 - (x * x + y * y) / 2;
            const length = Math.sqrt(square);
            return [2 * Math.atan2(length * Math.SQRT2 * x, 2 * square - 1), length * Math.SQRT2 * y];
        },
        toPlane: (angle, z) => {
            const flat = Math.sqrt(Math.max(0, 1 - z * z));
            const length = Math.sqrt(1 + flat * Math.cos(angle / 2));
            return [(flat * Math.sin(angle / 2)) / length, z / length];
        },
    },
};

/** The same from the picture to the sky: `sky(point, kind)`, the parts of the direction along the three axes; kinds count from 0. */
export const KINDS = ["MOL", "AIT", "ZEA", "TAN", "SIN"];
export const SKY = `
vec3 lifted(float angle, float z) {
    float flat_part = sqrt(max(0.0, 1.0 - z * z));
    return vec3(flat_part * cos(angle), flat_part * sin(angle), z);
}

vec3 sky(vec2 at, int kind) {
    float square = dot(at, at);
    if (kind == 0) {
        float slope = asin(at.y);
        return lifted(PI * at.x / cos(slope), (2.0 * slope + sin(2.0 * slope)) / PI);
    }
    if (kind == 1) {
        float part = 1.0 - square / 2.0, along = sqrt(part);
        return lifted(2.0 * atan(along * sqrt(2.0) * at.x, 2.0 * part - 1.0), along * sqrt(2.0) * at.y);
    }
    if (kind == 2) return vec3(1.0 - square / 2.0, sqrt(1.0 - square / 4.0) * at);
    if (kind == 3) return vec3(1.0, at) / sqrt(1.0 + square);
    return vec3(sqrt(1.0 - square), at);
}`;

/** Mollweide's angle t with 2t + sin 2t = π z, by Newton's steps from a start that is near at the poles too. */
function slopeOf(z) {
    if (Math.abs(z) >= 1) return (Math.sign(z) * Math.PI) / 2;
    let slope = Math.sign(z) * (Math.PI / 2 - Math.cbrt((3 * Math.PI * (1 - Math.abs(z))) / 4));
    for (let step = 0; step < 8; step++) {
        slope -= (2 * slope + Math.sin(2 * slope) - Math.PI * z) / (2 + 2 * Math.cos(2 * slope));
    }
    return slope;
}
