// What a publication touched. Each edit changes one leaf, and the survey's prefix counts them: once as many cells are known to have
// changed, all else is as it was. The coverage tells which leaves came and went. Then tiles are looked at that the publication before
// touched, and coarse ones; whatever is known to be unchanged is taken from the generation before.

import { changesOf } from "./changes.js";
import { Coverage } from "./coverage.js";
import { tilePath } from "./files.js";
import { Layer, skyOfTile } from "./layers.js";

/** The path of the mosaic, by which one of before is known. */
export const MOSAIC = "Norder3/Allsky.fits";
const CELLS_OF_ORDER_0 = [...Array(12).keys()];
// To guess about the mosaic may cost this part of it.
const SHARE_OF_MOSAIC = 1 / 4;

export class Patch {
    /** From a generation `before` to another one of the same layout, of which the coverage is known. */
    constructor(now, before) {
        Object.assign(this, { now, before, edits: now.prefix - before.prefix, guess: null });
        this.found = now.coverage.differences(before.coverage);
        if (this.isAll) this.takeOver();
    }

    /** Whether each cell that changed is known. */
    get isAll() {
        return this.found.count >= this.edits;
    }

    /** The cells, of those that lack their tile, to be looked at first: where it changed for sure, or is likely to have. */
    first(order, cells) {
        if (!this.before) return [];
        const changed = cells.filter((cell) => this.found.touches(order, cell));
        return this.isAll ? changed : [...new Set([...changed, ...this.guessed(order, cells)])];
    }

    /**
     * Of the cells those that the publication before touched, as many as there were edits; none where that one didn't touch what the one
     * before it had. They are chosen once.
     */
    guessed(order, cells, most = Infinity) {
        const { lastFound, isRepeated } = this.before;
        const isLikely = (cell) => isRepeated && lastFound.touches(order, cell);
        this.guess ??= { order, cells: cells.filter(isLikely).slice(0, Math.min(this.edits, most)) };
        return this.guess.order === order ? this.guess.cells.filter((cell) => cells.includes(cell)) : [];
    }

    /** The files that tell where the mosaic changed; null where that takes the mosaic itself. */
    filesOfSky() {
        const { now, before } = this;
        if (!before?.sky?.mosaic || now.skyOrder < now.least) return null;
        const lacking = (order, cells) => cells.filter((cell) => now.lacks(order, cell));
        const guessed = this.guessed(now.skyOrder, lacking(now.skyOrder, [...before.lastFound?.at(now.skyOrder) ?? []]), now.tilesOfMosaic * SHARE_OF_MOSAIC);
        if (guessed.length > 0) return guessed.map((cell) => now.file(now.skyOrder, cell));
        if (now.least > 0 || (now.skyOrder > 0 && !CELLS_OF_ORDER_0.every((cell) => this.known(0, cell) || !now.coverage.touches(0, cell)))) return null;
        const missing = lacking(0, CELLS_OF_ORDER_0);
        if (missing.length > 0) return now.some(missing).map((cell) => ({ ...now.file(0, cell), isMuch: true }));
        if (now.skyOrder > 0) return null;
        // All pixels of the mosaic were compared.
        now.references.set(MOSAIC, { tile: before.sky, since: this.found });
        return [];
    }

    /** A tile was fetched: what differs in it from before. */
    compare(order, cell) {
        const { now, before } = this;
        if (!before || this.isAll) return;
        const layer = now.layer(order);
        const known = this.known(order, cell);
        if (known) this.add(changesOf(layer, new Layer(order, layer.bits, new Map([[cell, known.tile]])), [cell], now.order), known.since);
        else if (order === now.skyOrder && before.sky) {
            const parts = skyOfTile(order, cell, layer.tiles.get(cell), before.sky.bits);
            this.add(changesOf(parts, before.sky, [...parts.tiles.keys()], now.order));
        }
    }

    /** A tile as it was in the generation before, or in an earlier one, and the cells that have changed in it since then. */
    known(order, cell) {
        const path = tilePath(order, cell);
        const tile = this.before.layer(order).tiles.get(cell);
        return tile && !this.before.unsure.has(path) ? { tile, since: null } : this.before.references.get(path);
    }

    /** Cells have changed, but for those that may have done so before. */
    add({ order, cells }, since = null) {
        const news = cells.filter((cell) => !since?.touches(order, cell));
        if (news.length === 0) return;
        this.found = this.found.with(new Coverage({ order, cells: news }));
        if (!this.isAll) return;
        for (const [path, wasUnsure] of this.now.unsure) if (!wasUnsure) this.now.unsure.delete(path);
        if (this.before) this.takeOver();
    }

    /** Takes tiles in view over that their ancestors show as unchanged. */
    keep(order, cells) {
        if (!this.before || this.isAll) return;
        for (const cell of cells) if (!this.now.layer(order).tiles.has(cell) && this.isUnchanged(order, cell)) this.take(order, cell);
    }

    isUnchanged(order, cell) {
        const { now, before } = this;
        const above = now.above(order);
        if (order === above || !now.coverage.touches(order, cell) || !before.layer(order).tiles.has(cell)) return false;
        const deeper = order - above;
        const leading = Math.floor(cell / 4 ** deeper);
        const [tile, known] = [now.layer(above).tiles.get(leading), this.known(above, leading)];
        return tile && known && !known.since?.touches(order, cell) && tile.equalsWithin(known.tile, cell - leading * 4 ** deeper, deeper);
    }

    take(order, cell) {
        const path = tilePath(order, cell);
        this.now.layer(order).tiles.set(cell, this.before.layer(order).tiles.get(cell));
        const wasUnsure = this.before.unsure.has(path);
        if (wasUnsure || !this.isAll) this.now.unsure.set(path, wasUnsure);
    }

    /** Takes all over that didn't change; of coarse tiles and the mosaic that did it is known where. */
    takeOver() {
        const { now, before, found } = this;
        for (const [path, { tile, since }] of before.references) now.references.set(path, { tile, since: since.with(found) });
        for (const { order, tiles } of before.layers.values()) {
            for (const [cell, tile] of tiles) {
                if (now.layer(order).tiles.has(cell)) continue;
                if (!found.touches(order, cell)) this.take(order, cell);
                else if (order < now.order && !before.unsure.has(tilePath(order, cell))) now.references.set(tilePath(order, cell), { tile, since: found });
            }
        }
        if (before.sky?.mosaic) now.references.set(MOSAIC, { tile: before.sky, since: found });
    }

    /** The generation is shown, with tiles of this order, or the mosaic, in view. */
    end(view) {
        const { now, before, found } = this;
        const order = Math.max(0, view.order ?? now.skyOrder);
        const isRepeated = !before.lastFound || [...found.at(order)].some((cell) => before.lastFound.touches(order, cell));
        Object.assign(now, found.count > 0 ? { lastFound: found, isRepeated } : { lastFound: before.lastFound, isRepeated: before.isRepeated });
        this.before = null;
    }
}
