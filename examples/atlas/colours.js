// From values to colours: the part between the cuts, its stretch, and tables of 256 colours.

import { STRETCHES } from "./stretch.js";

const STOPS = {
    dusk: ["#0b1026", "#253b6e", "#6b5b95", "#c77d8a", "#f2b880", "#fdf6e3"],
    grey: ["#000000", "#ffffff"],
    viridis: ["#440154", "#48186a", "#472d7b", "#424086", "#3b528b", "#33638d", "#2c728e", "#26828e", "#21918c", "#1fa088", "#28ae80", "#3fbc73",
        "#5ec962", "#84d44b", "#addc30", "#d8e219", "#fde725"],
    ember: ["#000000", "#5c0a0a", "#c4370c", "#f6a02d", "#ffffff"],
};
const SHADES = 256;
const MAPS = {
    ...Object.fromEntries(Object.entries(STOPS).map(([name, stops]) => [name, between(stops.map(channels))])),
    cubehelix,
    heat,
};

export const COLOURS = ["dusk", "grey", "viridis", "cubehelix", "heat", "ember"];

/** A table of colours as the 32-bit numbers of an ImageData's pixels, from dark to light or inverted. */
export function tableOf({ colours, isInverted }) {
    const colour = MAPS[colours] ?? MAPS.grey;
    const shades = Uint32Array.from({ length: SHADES }, (_, shade) => packed(colour(shade / (SHADES - 1)).map(Math.round)));
    return isInverted ? shades.reverse() : shades;
}

function between(stops) {
    return (part) => {
        const along = part * (stops.length - 1);
        const stop = Math.min(Math.floor(along), stops.length - 2);
        return stops[stop].map((from, channel) => from + (stops[stop + 1][channel] - from) * (along - stop));
    };
}

/** Green 2011, Bull. Astr. Soc. India 39, 289, with its usual numbers: start 0.5, -1.5 rotations, hue and gamma 1. */
function cubehelix(part) {
    const angle = 2 * Math.PI * (0.5 / 3 + 1 - 1.5 * part);
    const size = (part * (1 - part)) / 2;
    const [cosine, sine] = [Math.cos(angle), Math.sin(angle)];
    return [-0.14861 * cosine + 1.78277 * sine, -0.29227 * cosine - 0.90649 * sine, 1.97294 * cosine].map((shift) => 255 * (part + size * shift));
}

/** That of DS9. */
function heat(part) {
    const blue = part < 0.65 ? 0 : Math.min(1, (part - 0.65) / 0.33);
    return [Math.min(1, part / 0.34), part, blue].map((level) => 255 * level);
}

/** The place in a table of a value that is a number. */
export function shader({ low, high, stretch }) {
    const span = high - low || 1;
    const stretched = STRETCHES[stretch] ?? STRETCHES.linear;
    return (value) => Math.round((SHADES - 1) * stretched(Math.max(0, Math.min(1, (value - low) / span))));
}

/** A colour as a 32-bit number, from its three channels. */
export function packed([red, green, blue]) {
    return new Uint32Array(new Uint8ClampedArray([red, green, blue, 255]).buffer)[0];
}

export function channels(colour) {
    return [1, 3, 5].map((at) => parseInt(colour.slice(at, at + 2), 16));
}
