// How values between the two cuts become shades, as DS9 and astropy do it. Each function takes and gives a part from 0 to 1.

const LOG = 1000;
const POWER = 1000;
const ASINH = 10;

export const STRETCHES = {
    linear: (part) => part,
    log: (part) => Math.log(LOG * part + 1) / Math.log(LOG + 1),
    sqrt: (part) => Math.sqrt(part),
    asinh: (part) => Math.asinh(ASINH * part) / Math.asinh(ASINH),
    power: (part) => (POWER ** part - 1) / (POWER - 1),
    squared: (part) => part * part,
};

/** The same in the shading language of WebGL: `stretched(part, which)`, where `which` counts the stretches from 0. */
export const STRETCHED = `
float stretched(float part, int which) {
    if (which == 1) return log(${LOG}.0 * part + 1.0) / log(${LOG}.0 + 1.0);
    if (which == 2) return sqrt(part);
    if (which == 3) return asinh(${ASINH}.0 * part) / asinh(${ASINH}.0);
    if (which == 4) return (pow(${POWER}.0, part) - 1.0) / (${POWER}.0 - 1.0);
    return which == 5 ? part * part : part;
}`;
