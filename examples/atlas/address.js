// The page's own address: behind its # it has the view, the colours, the switches and the paths of other HiPS, so that a link shows the
// same.

import { COLOURS } from "./colours.js";
import { WHOLE_SKY } from "./projection.js";
import { PARTS, WHOLES } from "./projections.js";
import { STRETCHES } from "./stretch.js";

/** What an address says, and for what it doesn't say what was known: {isTold, view, style, scale, switches, others}. */
export function readAddress(hash, { scale, switches, others }) {
    const words = new URLSearchParams(hash.slice(1));
    const number = (name, absent) => (Number.isFinite(parseFloat(words.get(name))) ? parseFloat(words.get(name)) : absent);
    const oneOf = (name, known, absent) => (known.includes(words.get(name)) ? words.get(name) : absent);
    const isOn = (name, known) => (words.has(name) ? words.get(name) === "1" : known);
    return {
        isTold: words.has("ra") || words.has("dec") || words.has("width"),
        view: { ra: number("ra", 0), dec: number("dec", 0), width: number("width", WHOLE_SKY), turn: number("turn", 0) },
        style: { part: oneOf("part", Object.keys(PARTS), "ZEA"), whole: oneOf("whole", Object.keys(WHOLES), "MOL"), isGalactic: words.get("north") === "galactic" },
        scale: {
            low: number("low", scale.low),
            high: number("high", scale.high),
            stretch: oneOf("stretch", Object.keys(STRETCHES), scale.stretch),
            colours: oneOf("colours", COLOURS, scale.colours),
            isInverted: isOn("inverted", scale.isInverted),
        },
        switches: Object.fromEntries(Object.entries(switches).map(([name, known]) => [name, isOn(name, known)])),
        others: Object.fromEntries(Object.entries(others).map(([name, known]) => [name, words.get(name) ?? known])),
    };
}

/** The view as it stands in an address: two views with the same texts are one. */
export function viewWords({ ra, dec, width, turn, part, whole, isGalactic }) {
    const words = { ra: ra.toFixed(6), dec: dec.toFixed(6), width: width.toPrecision(6) };
    if (turn !== 0) words.turn = turn.toFixed(3);
    if (part !== "ZEA") words.part = part;
    if (whole !== "MOL") words.whole = whole;
    if (isGalactic) words.north = "galactic";
    return words;
}

export function writeAddress(view, { low, high, stretch, colours, isInverted }, switches, others) {
    const words = { ...viewWords(view), stretch, colours, inverted: isInverted ? "1" : "0" };
    for (const [name, value] of Object.entries({ low, high })) if (value !== null) words[name] = value;
    for (const [name, isOn] of Object.entries(switches)) words[name] = isOn ? "1" : "0";
    for (const [name, address] of Object.entries(others)) if (address) words[name] = address;
    return `#${new URLSearchParams(words)}`;
}
