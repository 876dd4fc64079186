// Angles and positions as the page says them.

const MOST_PLACES = 7;

/** A position in degrees, and in hours, minutes and seconds; as many digits as a pixel of so many degrees has. */
export function positionText([ra, dec], pixel = 0.001) {
    const places = placesFor(pixel);
    const digits = Math.max(0, Math.min(3, places - 4));
    const degrees = `RA ${(Number(ra.toFixed(places)) % 360).toFixed(places)}°  Dec ${signed(dec, places)}°`;
    const clock = sexagesimal(ra / 15, 24, "h", "m", "s", digits + 1);
    return `${degrees}   (${clock}, ${dec < 0 ? "−" : "+"}${sexagesimal(Math.abs(dec), 360, "°", "′", "″", digits)})`;
}

function placesFor(pixel) {
    return Math.max(2, Math.min(MOST_PLACES, Math.ceil(-Math.log10(pixel)) + 1));
}

export function galacticText([l, b], pixel = 0.001) {
    const places = placesFor(pixel);
    return `l ${(Number(l.toFixed(places)) % 360).toFixed(places)}°  b ${signed(b, places)}°`;
}

function sexagesimal(number, round, one, two, three, digits) {
    const unit = 10 ** digits;
    const all = Math.round(number * 3600 * unit);
    const seconds = (all % (60 * unit)) / unit;
    return `${Math.floor(all / (3600 * unit)) % round}${one} ${Math.floor(all / (60 * unit)) % 60}${two} ${seconds.toFixed(digits)}${three}`;
}

function signed(number, places) {
    return `${number < 0 ? "−" : "+"}${Math.abs(number).toFixed(places)}`;
}

/** An angle in the unit in which it is read best. */
export function angleText(degrees) {
    const [value, unit] = degrees >= 1 ? [degrees, "°"] : degrees >= 1 / 60 ? [degrees * 60, "′"] : [degrees * 3600, "″"];
    return `${Number(value.toPrecision(3))}${unit}`;
}
