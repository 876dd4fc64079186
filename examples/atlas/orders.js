// Of which order the tiles are that show a view.

const MOST_TILES = 200;
const DEGREES_OF_A_FACE = 58.63;
// Where tiles have far more pixels than the screen, the all-sky mosaic is shown: it has so many.
const MOSAIC = 768 * 64 ** 2;
const MOST_MOSAICS = 4;
// A part of an order by which pixels may be larger than the screen's.
const SLACK = 0.01;

/** Degrees along the side of a pixel of the leaves. */
export function leafPixel({ order, width }) {
    return DEGREES_OF_A_FACE / 2 ** order / width;
}

/**
 * The order whose pixels are at least as fine as the screen's, within those that the survey has and the most tiles at once; null where
 * the all-sky mosaic is shown.
 */
export function orderFor({ order, least, width }, projection) {
    if (projection.isWhole) return null;
    const cells = 12 * projection.share;
    const most = Math.min(order, Math.floor(Math.log2(MOST_TILES / cells) / 2));
    const wanted = Math.ceil(Math.log2(DEGREES_OF_A_FACE / projection.pixel / width) - SLACK);
    const found = Math.max(least, Math.min(most, wanted));
    const isMuch = cells * 4 ** found * width ** 2 > MOST_MOSAICS * MOSAIC;
    return found > most || (found > wanted && isMuch) ? null : found;
}
