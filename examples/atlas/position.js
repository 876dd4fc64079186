// Positions that a person writes: which two angles a text has, and of which frame. Labels (`RA`, `b`), names of frames (`ICRS`, `gal`)
// and hours decide; where there are none, the frame that the page shows does. What contradicts itself is refused.

import { centre, toDegrees } from "./healpix.js";
import { equatorialDegrees } from "./frames.js";

const ICRS = "ICRS";
const GALACTIC = "galactic";
const LABELS = {
    ra: { frame: ICRS, axis: 0 }, raj2000: { frame: ICRS, axis: 0 }, α: { frame: ICRS, axis: 0 },
    dec: { frame: ICRS, axis: 1 }, de: { frame: ICRS, axis: 1 }, dej2000: { frame: ICRS, axis: 1 }, δ: { frame: ICRS, axis: 1 },
    l: { frame: GALACTIC, axis: 0 }, glon: { frame: GALACTIC, axis: 0 },
    b: { frame: GALACTIC, axis: 1 }, glat: { frame: GALACTIC, axis: 1 },
};
const FRAMES = { icrs: ICRS, j2000: ICRS, gal: GALACTIC, galactic: GALACTIC };
const OTHER_FRAMES = new Set(["b1950", "fk4", "fk5", "ecl", "ecliptic", "supergalactic"]);
const AXES = { [ICRS]: ["right ascension", "declination"], [GALACTIC]: ["longitude", "latitude"] };

const NUMBER = /([+-]?)\s*(\d+(?:\.\d*)?|\.\d+)\s*(?:([°'":])|(degrees?|deg|d|hours?|hrs?|h|min|m|sec|s)(?![a-zαδ]))?/iy;
const WORD = /(?:raj2000|dej2000|j2000(?:\.0)?|b1950(?:\.0)?|fk[45]|[a-zαδ]+)\s*[=:]?/iy;
const GAP = /[\s()[\]]+/y;
const COMMA = /[,;|]/y;
// What may follow each number of an angle.
const UNITS = [["", ":", "h", "°"], ["", ":", "m", "'"], ["", "s", '"']];
const CELL = /^(?:hpx|healpix|cell|pixel)\s*(\d{1,2})\s*\/\s*(\d{1,16})$/i;
const DEEPEST_CELL = 24;
const MOST_PLACES = 7;
// A name made of a position: hours, minutes and seconds, then degrees, minutes and seconds.
const J_NAME = /^j(\d\d)(\d\d)(\d\d)\.?(\d*)([+-]\d\d)(\d\d)(\d\d)\.?(\d*)$/i;
const SHORT_J_NAME = /^j(\d\d)(\d\d(?:\.\d+)?)([+-]\d\d)(\d\d)$/i;

/** Why a text is no position. */
class PositionFault extends Error {}

function refuse(text) {
    throw new PositionFault(text);
}

/**
 * The position of a text: {ra, dec, text}, in degrees of the ICRS, where `text` says what was understood. Or {fault}, in words; with
 * `isName` where the text may be the name of an object.
 */
export function readPosition(text, isGalactic = false) {
    const plain = plainText(text);
    try {
        return readCell(plain) ?? readAngles(withoutJ(plain), isGalactic);
    } catch (fault) {
        if (!(fault instanceof PositionFault)) throw fault;
        return { fault: fault.message, isName: fault.isName === true };
    }
}

/** The text with one kind of minus, of units and of decimals: `31ˢ.9` is `31.9s`. */
function plainText(text) {
    return text.replace(/[−–]/g, "-").replace(/[ʰ]/g, "h").replace(/[ᵐ]/g, "m").replace(/[ˢ]/g, "s").replace(/[º˚]/g, "°")
        .replace(/''|′′|[″”]/g, '"').replace(/[′’]/g, "'").replace(/([hms°'"])\.(\d+)/g, ".$2$1").trim();
}

function readCell(plain) {
    const found = CELL.exec(plain);
    if (!found) return null;
    const [order, cell] = found.slice(1).map(Number);
    if (order > DEEPEST_CELL) refuse(`A cell's order is from 0 to ${DEEPEST_CELL}.`);
    if (cell >= 12 * 4 ** order) refuse(`Order ${order} has the cells 0 to ${12 * 4 ** order - 1}.`);
    return positionOf(ICRS, toDegrees(centre(order, cell)));
}

function withoutJ(plain) {
    const long = J_NAME.exec(plain);
    if (long) return `${long[1]}h${long[2]}m${long[3]}.${long[4]}s ${long[5]}d${long[6]}m${long[7]}.${long[8]}s`;
    const short = SHORT_J_NAME.exec(plain);
    return short ? `${short[1]}h${short[2]}m ${short[3]}d${short[4]}m` : plain;
}

function readAngles(plain, isGalactic) {
    const { numbers, labels, frames } = tokens(plain);
    if (numbers.length === 0) refuse("A position is wanted, as 83.6 +22.0 or 5h34m32s +22°0′52″.");
    const second = secondAngle(numbers, labels);
    const parts = [numbers.slice(0, second), numbers.slice(second)];
    if (!Number.isInteger(second) || parts.some(({ length }) => length < 1 || length > 3)) {
        refuse("A position has two angles, each of one to three numbers: degrees, or hours and degrees with minutes and seconds.");
    }
    parts.forEach(judgeNumbers);
    const hasHours = parts.map(([{ unit }]) => unit === "h");
    const told = agreedFrame([...labels, ...frames], hasHours.includes(true));
    const [along, above] = isTurned(labels, hasHours) ? [parts[1], parts[0]] : parts;
    if (!told && isGalactic && along.length > 1 && along[0].unit !== "°") {
        refuse("Galactic coordinates are shown: write RA and Dec before such angles, or l and b.");
    }
    const frame = told ?? (isGalactic ? GALACTIC : ICRS);
    return positionOf(frame, [longitude(along, frame), latitude(above, frame)]);
}

/** The numbers of a text, and its labels and frames, each with how many numbers stand before it. */
function tokens(plain) {
    const found = { numbers: [], labels: [], frames: [] };
    let at = 0;
    let isApart = false;
    const next = (pattern) => {
        pattern.lastIndex = at;
        const match = pattern.exec(plain);
        if (match) at = pattern.lastIndex;
        return match;
    };
    while (at < plain.length) {
        if (next(GAP)) continue;
        const word = next(WORD);
        if (word) takeWord(word[0].replace(/[\s=:]+$/, ""), found, plain);
        else if (next(COMMA)) isApart = true;
        else {
            const number = next(NUMBER) ?? refuse(`“${plain}” is no position: it has other characters than numbers and their units.`);
            found.numbers.push({ ...readNumber(number), isApart: isApart && found.numbers.length > 0 });
            isApart = false;
        }
    }
    return found;
}

function readNumber([, sign, digits, mark, word]) {
    const unit = mark ?? (word ? word[0].toLowerCase().replace("d", "°") : "");
    return { sign, value: Number(digits), hasDecimals: digits.includes("."), unit };
}

function takeWord(written, { numbers, labels, frames }, plain) {
    const word = written.toLowerCase().replace(/\.0$/, "");
    if (word in LABELS) labels.push({ ...LABELS[word], written, at: numbers.length });
    else if (word in FRAMES) frames.push({ frame: FRAMES[word], written });
    else if (OTHER_FRAMES.has(word)) refuse(`Positions of ${written} aren't taken: write them in ICRS (J2000) or galactic coordinates.`);
    else {
        const fault = new PositionFault(`“${plain}” is no position. Names of objects aren't known here, since that would need a service; write a position, as 83.6 +22.0.`);
        throw Object.assign(fault, { isName: true });
    }
}

/** Where the second angle begins: at its label, behind a comma, where colons end, at a sign, at hours or degrees, where units end; else halfway. */
function secondAngle(numbers, labels) {
    const places = labels.map(({ at }) => at);
    const isHead = places.every((at) => at === 0);
    const isBefore = places.length === 2 && places[0] === 0;
    const isBehind = places.length === 2 && places[0] > 0 && places[1] === numbers.length;
    if (!(isHead && places.length <= 2) && !isBefore && !isBehind) refuse("Each angle has one label, before it: RA 10.684 Dec 41.269.");
    if (!isHead) return isBefore ? places[1] : places[0];
    if (numbers.filter(({ isApart }) => isApart).length > 1) refuse("A position has one comma, between its angles; decimals have a point.");
    const hasComma = numbers.some(({ isApart }) => isApart);
    const hasColons = numbers.some(({ unit }) => unit === ":");
    const begins = ({ isApart, sign, unit }, before) => {
        if (hasComma) return isApart;
        if (hasColons) return before.unit !== ":";
        return sign !== "" || unit === "h" || unit === "°" || (unit === "" && /^[ms'"]$/.test(before.unit));
    };
    const second = numbers.findIndex((number, at) => at > 0 && begins(number, numbers[at - 1]));
    return second > 0 ? second : numbers.length / 2;
}

function judgeNumbers(numbers) {
    numbers.forEach(({ sign, value, hasDecimals, unit }, at) => {
        if (at > 0 && sign !== "") refuse("A sign stands before an angle, not within it.");
        if (at > 0 && value >= 60) refuse("Minutes and seconds are below 60.");
        if (at < numbers.length - 1 && hasDecimals) refuse("Only the last number of an angle has decimals.");
        if (!UNITS[at].includes(unit)) refuse("An angle is degrees or hours, then minutes, then seconds.");
    });
}

/** The frame that labels, names of frames and hours agree on; undefined where there are none. */
function agreedFrame(evidence, hasHours) {
    const all = hasHours ? [...evidence, { frame: ICRS, written: "h" }] : evidence;
    const other = all.find(({ frame }) => frame !== all[0].frame);
    if (other) refuse(`“${all[0].written}” says ${all[0].frame}, and “${other.written}” says ${other.frame}.`);
    return all[0]?.frame;
}

/** Whether the angle above the equator comes first. */
function isTurned(labels, hasHours) {
    if (hasHours[0] && hasHours[1]) refuse("Both angles are in hours.");
    if (labels.length === 0) return hasHours[1];
    const [{ frame, axis }, other] = labels;
    if (other?.axis === axis) refuse(`Both angles are labelled as a ${AXES[frame][axis]}.`);
    if (hasHours[1 - axis]) refuse("Hours are of the right ascension.");
    return axis === 1;
}

function longitude(numbers, frame) {
    const [{ unit }] = numbers;
    const isHours = frame === ICRS && (unit === "h" || (numbers.length > 1 && unit !== "°"));
    const degrees = angle(numbers) * (isHours ? 15 : 1);
    if (Math.abs(degrees) > 360) refuse(`A ${AXES[frame][0]} is from 0 to ${isHours ? "24 hours" : "360 degrees"}.`);
    return ((degrees % 360) + 360) % 360;
}

function latitude(numbers, frame) {
    const degrees = angle(numbers);
    if (Math.abs(degrees) > 90) refuse(`A ${AXES[frame][1]} is from −90 to +90 degrees.`);
    return degrees;
}

/** The angle of numbers with one sign before the first. */
function angle(numbers) {
    const size = numbers.reduce((sum, { value }, at) => sum + value / 60 ** at, 0);
    return numbers[0].sign === "-" ? -size : size;
}

function positionOf(frame, degrees) {
    const [ra, dec] = frame === ICRS ? degrees : equatorialDegrees(degrees);
    return { ra, dec, text: writePosition(degrees, frame === GALACTIC) };
}

/** A position in degrees as it is written here, and can be read again. */
export function writePosition(degrees, isGalactic = false) {
    const [along, above] = degrees.map((angle) => String(Number(angle.toFixed(MOST_PLACES))));
    return isGalactic ? `l ${along} b ${above}, galactic` : `RA ${along} Dec ${above}, ICRS`;
}
