// What the page says in words and numbers.

import { cellOf } from "./healpix.js";
import { scaledText } from "./numbers.js";
import { Reader } from "./picture.js";

export function counted(count, one, many = `${one}s`) {
    return `${count.toLocaleString("en")} ${count === 1 ? one : many}`;
}

export function facts(properties) {
    const [bits, leaves, order] = ["survey_bitpix", "survey_leaves", "hips_order"].map((name) => properties.get(name));
    return `${counted(Number(leaves), "leaf tile", "leaf tiles")} of order ${order}, ${properties.get("hips_tile_width")} pixels wide, ${bits} bits`;
}

export function faultText(fault, generation) {
    const shown = generation ? ` What is shown is the survey after ${counted(generation.prefix, "published edit")}.` : "";
    return `${fault.message}${shown} It is asked again each second.`;
}

export function newsText(changes) {
    if (!changes) return "";
    const { order, cells, isWhole } = changes;
    return `The last publication changed ${counted(cells.length, "tile")} of order ${order}${isWhole ? "" : " in view"}.`;
}

/** What stands at a place, of the finest of the layers that has it: {text, value}. */
export function readingOf(layers, coverage, place) {
    const readers = layers.map((layer) => new Reader(layer, coverage));
    const reader = readers.find((some) => some.at(place.face, place.x, place.y) || some.isBlank) ?? readers[0];
    if (!reader) return { text: "", value: NaN };
    const tile = reader.at(place.face, place.x, place.y);
    const { layer } = reader;
    const pixelOrder = layer.order + layer.bits;
    const where = `cell ${layer.order}/${cellOf(layer.order, place)}, pixel ${pixelOrder}/${cellOf(pixelOrder, place)}`;
    if (!tile) return { text: `${where}: no data`, value: NaN };
    const value = tile.value(reader.index);
    const text = `${where}: ${Number.isNaN(value) ? "blank" : numberText(tile, reader.index)}`;
    return { text, value };
}

/** The value, and the raw number in the file where that is another. */
function numberText(tile, index) {
    const raw = tile.numbers[index];
    if (tile.scale === 1 && tile.zero === 0 && Number.isInteger(Number(raw))) return String(raw);
    const text = scaledText(raw, tile.scale, tile.zero);
    return tile.scale === 1 && tile.zero === 0 ? text : `${text} (raw ${raw})`;
}
