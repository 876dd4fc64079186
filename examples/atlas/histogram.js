// How often values occur in what is shown, over the same range as the sliders of the two cuts.

/** How many of the values fall into each of so many equal bins of a range; those outside count nowhere. */
export function countsOf(values, [from, to], bins) {
    const counts = new Uint32Array(bins);
    for (const value of values) {
        const bin = Math.floor(((value - from) / (to - from)) * bins);
        if (bin >= 0 && bin < bins) counts[bin] += 1;
    }
    return counts;
}

/** Draws bars whose heights go with the logarithm of the counts; those between the cuts are dark. */
export function drawHistogram(canvas, values, range, { low, high }) {
    const brush = canvas.getContext("2d");
    const { width, height } = canvas;
    const counts = countsOf(values, range, width);
    const most = Math.log1p(Math.max(1, ...counts));
    const ink = getComputedStyle(canvas).color;
    brush.clearRect(0, 0, width, height);
    brush.fillStyle = ink;
    counts.forEach((count, bin) => {
        const value = range[0] + ((bin + 0.5) / width) * (range[1] - range[0]);
        const bar = Math.ceil((height * Math.log1p(count)) / most);
        brush.globalAlpha = value >= low && value <= high ? 0.85 : 0.3;
        brush.fillRect(bin, height - bar, 1, bar);
    });
    brush.globalAlpha = 1;
}
