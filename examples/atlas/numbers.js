// Numbers as texts, with as many digits as they have.

const MOST_PLACES = 20;
const DIGITS = 12;
const DIGITS_OF_A_REAL = 7;
// Digits behind the first one of the step between two raw numbers.
const FINER = 2;

/** A number of the page's own, as a cut: without the last digits, which arithmetic leaves behind. */
export function short(value) {
    return String(Number(value.toPrecision(DIGITS)));
}

/** `zero` + `scale` · `raw`, exactly as far as it goes on behind the digit that tells two raw numbers apart; `raw` may be a BigInt. */
export function scaledText(raw, scale, zero) {
    const exact = Math.max(placesOf(scale), placesOf(zero));
    if (exact > MOST_PLACES || !Number.isInteger(Number(raw))) return String(Number((zero + scale * Number(raw)).toPrecision(DIGITS_OF_A_REAL)));
    const all = decimal(zero, exact) + decimal(scale, exact) * BigInt(raw);
    return decimalText(...rounded(all, exact, Math.max(0, -Math.floor(Math.log10(Math.abs(scale)))) + FINER));
}

/** How many decimals a number has as it is written. */
function placesOf(number) {
    const [digits, power = "0"] = String(number).split("e");
    return Math.max(0, (digits.split(".")[1] ?? "").length - Number(power));
}

/** A number times a power of ten, which makes it whole. */
function decimal(number, places) {
    return BigInt(number.toFixed(places).replace(".", ""));
}

/** A decimal with at most so many places, halves away from zero. */
function rounded(all, places, most) {
    if (places <= most) return [all, places];
    const unit = 10n ** BigInt(places - most);
    const half = all < 0n ? -unit / 2n : unit / 2n;
    return [(all + half) / unit, most];
}

function decimalText(all, places) {
    const digits = String(all < 0n ? -all : all).padStart(places + 1, "0");
    const whole = digits.slice(0, digits.length - places);
    const part = digits.slice(digits.length - places).replace(/0+$/, "");
    return `${all < 0n ? "-" : ""}${whole}${part && "."}${part}`;
}
