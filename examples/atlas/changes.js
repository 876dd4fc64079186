// Where two states of a survey differ, in cells as small as their tiles show.

const MOST_CELLS = 400;

/**
 * The cells in which the tiles of two layers of one order differ: {order, cells}, of the leaves' order, or of the finest one that has
 * pixels in these tiles. A tile that is missing is blank.
 */
export function changesOf(layer, earlier, cells, leafOrder) {
    const deeper = Math.min(leafOrder - layer.order, layer.bits);
    const changed = cells.flatMap((cell) => {
        const [now, before] = [layer.tiles.get(cell), earlier.tiles.get(cell)];
        if (now === before) return [];
        const [tile, other] = now ? [now, before] : [before, now];
        return changedIn(tile, other, deeper).map((part) => cell * 4 ** deeper + part);
    });
    return { order: layer.order + deeper, cells: changed };
}

/** The cells within a tile, so many orders deeper, in which another differs. */
function changedIn(tile, other, deeper) {
    const below = (part, depth) => {
        if (tile.equalsWithin(other, part, depth)) return [];
        return depth === deeper ? [part] : [0, 1, 2, 3].flatMap((quarter) => below(4 * part + quarter, depth + 1));
    };
    return below(0, 0);
}

/** The same changes in coarser cells, where there are too many to be drawn. */
export function coarsened({ order, cells }) {
    if (cells.length <= MOST_CELLS || order === 0) return { order, cells };
    return coarsened({ order: order - 1, cells: [...new Set(cells.map((cell) => Math.floor(cell / 4)))] });
}
