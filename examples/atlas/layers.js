// Tiles of one order, as far as they are here; and the all-sky mosaic, which has those of order 3, mostly with fewer pixels.

import { cutMosaic, squareInMosaic } from "./fits.js";

export const SKY_ORDER = 3;
export const SKY_WIDTH = 64;

/** The tiles of an order, and how many bits a column of theirs has. */
export class Layer {
    constructor(order, bits, tiles = new Map(), mosaic = null) {
        Object.assign(this, { order, bits, tiles, mosaic });
    }
}

/** The mosaic, of which there may be none, as a layer. */
export function skyOf(mosaic, bits) {
    return new Layer(SKY_ORDER, bits, mosaic ? cutMosaic(mosaic) : new Map(), mosaic);
}

/** Where the parts of a tile stand in the mosaic whose pixels are as large as the tile's: pairs of cells and squares of the tile. */
function partsOf(order, cell, tile) {
    const deeper = SKY_ORDER - order;
    return Array.from({ length: 4 ** deeper }, (_, part) => [cell * 4 ** deeper + part, tile?.squareOf(part, deeper)]);
}

/** A tile as a part of the mosaic. */
export function skyOfTile(order, cell, tile, bits) {
    return new Layer(SKY_ORDER, bits, new Map(partsOf(order, cell, tile).map(([part, square]) => [part, tile.cut(square)])));
}

/** A mosaic with what the tiles of some cells have now; a cell without one is blank. */
export function patchedSky({ bits, tiles, mosaic }, layer, cells) {
    const squares = cells.flatMap((cell) => {
        const tile = layer.tiles.get(cell);
        return partsOf(layer.order, cell, tile).map(([part, square]) => [part, squareInMosaic(mosaic, part), tile?.cut(square)]);
    });
    const now = mosaic.pasted(squares.map(([, square, image]) => [square, image]));
    return new Layer(SKY_ORDER, bits, new Map([...tiles, ...squares.map(([part, square]) => [part, now.cut(square)])]), now);
}
