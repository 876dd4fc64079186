// The two cuts of a picture, by its values: percentiles, or IRAF's zscale as astropy computes it.

// zscale: so many samples, the part of them that must be left, how many sigma a pixel may be away, the slope's contrast.
const SAMPLES = 1000;
const MOST_REJECTED = 0.5;
const LEAST_LEFT = 5;
const SIGMAS = 2.5;
const CONTRAST = 0.25;
const ROUNDS = 5;
const GROWTH = 0.01;

/** Ways to find cuts, by their names. Each takes values that are numbers, at least one, and gives the lowest and the highest. */
export const FITS = {
    "99.6 %": (values) => middle(values, 0.996),
    zscale,
    "min to max": (values) => middle(values, 1),
    "99.9 %": (values) => middle(values, 0.999),
    "99 %": (values) => middle(values, 0.99),
    "95 %": (values) => middle(values, 0.95),
    "90 %": (values) => middle(values, 0.9),
};

/** The cuts that a way finds: {low, high}, with some room where all values are the same. */
export function cutsOf(values, name) {
    if (values.length === 0) return { low: 0, high: 1 };
    const [low, high] = FITS[name](values);
    return high > low ? { low, high } : { low: low - 1, high: low + 1 };
}

/** The values between which that part of all lies, with as many below as above. */
function middle(values, part) {
    const sorted = Float64Array.from(values).sort();
    return [(1 - part) / 2, (1 + part) / 2].map((share) => {
        const along = share * (sorted.length - 1);
        const at = Math.min(Math.floor(along), Math.max(0, sorted.length - 2));
        return sorted[at] + ((sorted[at + 1] ?? sorted[at]) - sorted[at]) * (along - at);
    });
}

/** A line through the sorted samples, of which those far from it are rejected, gives the slope of the scale around the median. */
function zscale(values) {
    const stride = Math.max(1, Math.floor(values.length / SAMPLES));
    const samples = Float64Array.from(values.filter((_, at) => at % stride === 0).slice(0, SAMPLES)).sort();
    const count = samples.length;
    const least = Math.max(LEAST_LEFT, Math.floor(count * MOST_REJECTED));
    let isBad = new Uint8Array(count);
    let [left, before, slope] = [count, count + 1, 0];
    for (let round = 0; round < ROUNDS && left < before && left >= least; round++) {
        const line = lineThrough(samples, isBad);
        slope = line.slope;
        isBad = grown(rejected(samples, isBad, line), Math.max(1, Math.floor(count * GROWTH)));
        before = left;
        left = isBad.filter((bad) => bad === 0).length;
    }
    if (left < least) return [samples[0], samples[count - 1]];
    const centre = Math.floor((count - 1) / 2);
    const median = (samples[centre] + samples[Math.ceil((count - 1) / 2)]) / 2;
    const rise = slope / CONTRAST;
    return [Math.max(samples[0], median - (centre - 1) * rise), Math.min(samples[count - 1], median + (count - centre) * rise)];
}

function lineThrough(samples, isBad) {
    let [count, sumX, sumY] = [0, 0, 0];
    samples.forEach((sample, x) => isBad[x] || ((count += 1), (sumX += x), (sumY += sample)));
    const [meanX, meanY] = [sumX / count, sumY / count];
    let [square, product] = [0, 0];
    samples.forEach((sample, x) => isBad[x] || ((square += (x - meanX) ** 2), (product += (x - meanX) * (sample - meanY))));
    const slope = square > 0 ? product / square : 0;
    return { slope, start: meanY - slope * meanX };
}

/** The samples that are far from a line, and those that were rejected before. */
function rejected(samples, isBad, { slope, start }) {
    const apart = samples.map((sample, x) => sample - start - slope * x);
    const good = apart.filter((_, x) => !isBad[x]);
    const mean = good.reduce((sum, one) => sum + one, 0) / good.length;
    const sigma = Math.sqrt(good.reduce((sum, one) => sum + (one - mean) ** 2, 0) / good.length);
    return isBad.map((bad, x) => (bad || Math.abs(apart[x]) > SIGMAS * sigma ? 1 : 0));
}

/** Rejects the neighbours too, so many in all around each. */
function grown(isBad, width) {
    const before = Math.floor(width / 2);
    return isBad.map((_, at) => (isBad.subarray(Math.max(0, at - before), at - before + width).includes(1) ? 1 : 0));
}
