// The view as a FITS image with a WCS: a part of the sky in the gnomonic projection (TAN), the whole sky in that which is shown.

import { imageFile } from "./fitsfile.js";
import { locate } from "./healpix.js";
import { Reader } from "./picture.js";
import { gnomonicCards, wholeCards } from "./wcs.js";

/** The file of a view: each pixel has the value that stands at its middle, of the finest of the layers. */
export function cutOut(view, layers, coverage, title) {
    const { projection, size } = view;
    const [width, height] = size;
    const isShort = layers.every(({ tiles }) => [...tiles.values()].every((tile) => tile.isShort));
    const values = new (isShort ? Float32Array : Float64Array)(width * height).fill(NaN);
    const readers = layers.map((layer) => new Reader(layer, coverage));
    const sky = projection.isWhole ? (column, line) => projection.toSky(column, line) : gnomonic(projection, size);
    for (let line = 0; line < height; line++) {
        for (let column = 0; column < width; column++) {
            const direction = sky(column + 0.5, line + 0.5);
            if (direction) values[(height - 1 - line) * width + column] = valueAt(readers, locate(direction, {}));
        }
    }
    const where = projection.isWhole ? wholeCards(view.whole, projection, size) : gnomonicCards(view, projection.turn, projection.pixel, size);
    return imageFile(values, size, [...where, ["OBJECT", title.slice(0, 60)]]);
}

/** Where points of a picture lie that touches the sphere in its middle. */
function gnomonic({ centre, left, up, scale }, [width, height]) {
    return (column, line) => {
        const [x, y] = [(width / 2 - column) / scale, (height / 2 - line) / scale];
        const length = Math.sqrt(1 + x * x + y * y);
        return centre.map((side, axis) => (side + x * left[axis] + y * up[axis]) / length);
    };
}

function valueAt(readers, { face, x, y }) {
    for (const reader of readers) {
        const tile = reader.at(face, x, y);
        if (tile) return tile.value(reader.index);
        if (reader.isBlank) break;
    }
    return NaN;
}
