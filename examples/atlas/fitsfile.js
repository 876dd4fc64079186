// FITS files that the page writes (FITS 4.0): images with a WCS, and a tile to which one is added.

const CARD = 80;
const BLOCK = 2880;

/** A card of a header: its value is a number, a text, or true. */
function card([keyword, value]) {
    if (typeof value === "string") return `${keyword.padEnd(8)}= '${value.replaceAll("'", "''").padEnd(8)}'`.padEnd(CARD);
    const text = value === true ? "T" : String(value).replace("e", "E");
    return `${keyword.padEnd(8)}= ${text.padStart(20)}`.padEnd(CARD);
}

function header(cards) {
    const text = `${cards.join("")}${"END".padEnd(CARD)}`;
    return new TextEncoder().encode(text.padEnd(Math.ceil(text.length / BLOCK) * BLOCK).replace(/[^ -~]/g, "?"));
}

/** An image of 32 or 64 bit real numbers, the bottom line first; NaN is blank. `cards` are pairs of keywords and values. */
export function imageFile(numbers, [width, height], cards) {
    const size = numbers.BYTES_PER_ELEMENT;
    const first = [["SIMPLE", true], ["BITPIX", -8 * size], ["NAXIS", 2], ["NAXIS1", width], ["NAXIS2", height]];
    const data = new DataView(new ArrayBuffer(Math.ceil((numbers.length * size) / BLOCK) * BLOCK));
    const write = size === 4 ? (at, value) => data.setFloat32(at, value) : (at, value) => data.setFloat64(at, value);
    numbers.forEach((number, at) => write(at * size, number));
    return new Blob([header([...first, ...cards].map(card)), data], { type: "application/fits" });
}

/** A file of one image with other cards: those of the same keywords are replaced. */
export function withCards(bytes, cards) {
    const text = new TextDecoder("latin1").decode(bytes);
    const known = [];
    let at = 0;
    for (; text.slice(at, at + 8) !== "END     "; at += CARD) known.push(text.slice(at, at + CARD));
    const data = bytes.slice(Math.ceil((at + CARD) / BLOCK) * BLOCK);
    const keywords = new Set(cards.map(([keyword]) => keyword.padEnd(8)));
    const kept = known.filter((one) => !keywords.has(one.slice(0, 8)));
    return new Blob([header([...kept, ...cards.map(card)]), data], { type: "application/fits" });
}
