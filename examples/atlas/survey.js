// One generation of a survey, as far as its files were fetched: all of them are answered by the same published edits.

import { changesOf } from "./changes.js";
import { Coverage } from "./coverage.js";
import { SurveyFault, read, readProperties, tilePath } from "./files.js";
import { readCoverage, readImage } from "./fits.js";
import { Layer, SKY_ORDER, SKY_WIDTH, patchedSky, skyOf } from "./layers.js";
import { MOSAIC, Patch } from "./patch.js";

/** So many bits of a coarse tile's column show a tile of the order in view, which is 4 of its pixels wide. */
const PIXEL_BITS_OF_A_TILE = 2;
/** A mosaic costs as much as so many coarse tiles that come before it. */
const COARSE_SHARE = 4;
const CELLS_OF_MOSAIC = 768;
/** Bytes that are looked at together for what a publication touched. */
const BYTES_AT_ONCE = 300_000;
const MOST_REFERENCES = 30;
const LAYOUT = ["hips_order", "hips_order_min", "hips_tile_width", "survey_bitpix"];

export class Generation {
    /** `earlier` is the one that is shown, of the same server, from which is taken what didn't change. */
    constructor(prefix, earlier = null) {
        Object.assign(this, { prefix, earlier, patch: null, sky: null, lastFound: null, isRepeated: false });
        this.layers = new Map();
        this.fetching = new Set();
        // Tiles by their paths that were taken over and not compared themselves; and whether they weren't either in the generation before.
        this.unsure = new Map();
        // Tiles of earlier generations by their paths, and the cells that have changed in them since then: {tile, since}.
        this.references = new Map();
    }

    /** Fetches what says which tiles there are. `get` asks for a path, and its answer is of this generation. */
    async open(get) {
        const [properties, coverage] = await Promise.all(["properties", "Moc.fits"].map(get));
        if (!properties) throw new SurveyFault("There is no properties file.");
        this.properties = readProperties(new TextDecoder().decode(properties));
        this.order = this.number("hips_order");
        this.width = this.number("hips_tile_width");
        this.bits = Math.log2(this.width);
        this.least = Math.min(this.number("hips_order_min") ?? SKY_ORDER, SKY_ORDER);
        this.skyBits = Math.log2(Math.min(this.width, SKY_WIDTH));
        // Tiles of this order have the mosaic's pixels; one of a negative order is none.
        this.skyOrder = SKY_ORDER + this.skyBits - this.bits;
        this.coverage = this.coverageOf(coverage);
        const { earlier } = this;
        this.earlier = null;
        if (earlier && LAYOUT.every((name) => this.properties.get(name) === earlier.properties.get(name))) this.patch = new Patch(this, earlier);
    }

    coverageOf(bytes) {
        if (!bytes) throw new SurveyFault("There is no Moc.fits.");
        return new Coverage(read("Moc.fits", bytes, readCoverage));
    }

    /** The number that a key of the properties has, null where it has none. */
    number(key) {
        const value = parseFloat(this.properties.get(key));
        return Number.isFinite(value) ? value : null;
    }

    /** The tiles of an order, as far as they are here. */
    layer(order) {
        if (!this.layers.has(order)) this.layers.set(order, new Layer(order, this.bits));
        return this.layers.get(order);
    }

    /** The layers that show an order, the finest first; null is the mosaic. */
    shownBy(order) {
        const finest = order === null ? SKY_ORDER + this.skyBits : order + this.bits;
        const isShown = (layer) => layer && layer.order + layer.bits <= finest && (layer.tiles.size > 0 || layer.order === order);
        return [this.sky, ...this.layers.values()].filter(isShown).sort((one, other) => other.order + other.bits - one.order - one.bits);
    }

    lacks(order, cell) {
        return this.coverage.touches(order, cell) && !this.layer(order).tiles.has(cell);
    }

    file(order, cell) {
        return { path: tilePath(order, cell), order, cell };
    }

    /** As many of some tiles as are looked at together, all of them where there is nothing to be compared with. */
    some(tiles) {
        const bytes = (this.width ** 2 * Math.abs(this.number("survey_bitpix") ?? 16)) / 8;
        return this.patch?.before ? tiles.slice(0, Math.max(1, Math.floor(BYTES_AT_ONCE / bytes))) : tiles;
    }

    /**
     * The files that a view lacks, those that are to be fetched next: what a publication touched or is likely to have, coarse tiles, then
     * those of its order, or the mosaic. Of `isMuch` not too much is fetched.
     */
    lacking({ order, cells }) {
        if (order === null) return this.lackingOfSky();
        this.patch?.keep(order, cells);
        const missing = cells.filter((cell) => this.lacks(order, cell));
        const first = this.patch?.first(order, missing) ?? [];
        if (missing.length === 0 || first.length > 0) return first.map((cell) => this.file(order, cell));
        const above = this.above(order);
        const coarse = this.coarse(order, cells).filter((cell) => this.lacks(above, cell));
        if (coarse.length > 0) return this.some(coarse).map((cell) => ({ ...this.file(above, cell), isCoarse: true }));
        return (order === above ? this.some(missing) : missing).map((cell) => this.file(order, cell));
    }

    /** The files that the mosaic lacks: tiles with the same pixels where it is known where it changed, or itself. */
    lackingOfSky() {
        if (this.sky) return [];
        const before = this.skyOrder >= this.least ? this.references.get(MOSAIC) : null;
        const changed = before ? [...before.since.at(this.skyOrder)] : [];
        const missing = changed.filter((cell) => this.lacks(this.skyOrder, cell));
        if (before && missing.length === 0) this.sky = patchedSky(before.tile, this.layer(this.skyOrder), changed);
        if (this.sky) return [];
        if (before && missing.length * 2 < this.tilesOfMosaic) {
            const isMuch = this.isLimited && missing.length * COARSE_SHARE > this.tilesOfMosaic;
            return missing.map((cell) => ({ ...this.file(this.skyOrder, cell), isMuch }));
        }
        const files = this.patch?.filesOfSky();
        if (files) return files.length > 0 ? files : this.lackingOfSky();
        const coarse = this.isLimited ? [] : this.coarse(null, []).filter((cell) => this.lacks(this.least, cell));
        if (coarse.length > 0) return coarse.map((cell) => ({ ...this.file(this.least, cell), isCoarse: true }));
        return [{ path: MOSAIC, order: null, isMuch: this.isLimited }];
    }

    /** Another generation's mosaic is shown while this one comes. */
    get isLimited() {
        return Boolean(this.patch?.before?.sky);
    }

    /** So many tiles have as many pixels as the mosaic. */
    get tilesOfMosaic() {
        return CELLS_OF_MOSAIC * 4 ** (this.skyBits - this.bits);
    }

    /** The order of the coarse tiles for an order in view: the coarsest in which a tile of it still has some pixels to a side. */
    above(order) {
        return order === null ? this.least : Math.min(order, Math.max(this.least, order - this.bits + PIXEL_BITS_OF_A_TILE));
    }

    /** The cells of that order above those in view; none where they are no shorter way. */
    coarse(order, cells) {
        const above = this.above(order);
        if (order !== null) return order > above ? [...new Set(cells.map((cell) => Math.floor(cell / 4 ** (order - above))))] : [];
        const all = Array.from({ length: 12 * 4 ** above }, (_, cell) => cell);
        return above < SKY_ORDER && all.length * COARSE_SHARE <= this.tilesOfMosaic ? all : [];
    }

    /** Fetches what is lacking. */
    async fetch(get, { path, order, cell }) {
        this.fetching.add(path);
        try {
            const bytes = await get(path);
            if (order === null) this.sky = skyOf(bytes && read(path, bytes, readImage), this.skyBits);
            else if (!bytes) this.isMissing(path, order, cell);
            else {
                this.layer(order).tiles.set(cell, read(path, bytes, readImage));
                this.patch?.compare(order, cell);
            }
        } finally {
            this.fetching.delete(path);
        }
    }

    isMissing(path) {
        throw new SurveyFault(`The coverage has leaves at ${path}, and the server has no such file.`);
    }

    /** Whether a tile was taken over, and not looked at since. */
    keeps(order, cell) {
        return order !== null && this.unsure.has(tilePath(order, cell));
    }

    /** Looks at a tile that was taken over: the cells in it that are others after all. */
    async check(get, order, cell) {
        const path = tilePath(order, cell);
        const bytes = await get(path);
        const layer = this.layer(order);
        const before = new Layer(order, this.bits, new Map([[cell, layer.tiles.get(cell)]]));
        if (bytes) layer.tiles.set(cell, read(path, bytes, readImage));
        const changes = changesOf(layer, before, [cell], this.order);
        if (this.unsure.get(path) === false) this.patch.add(changes);
        this.unsure.delete(path);
        return changes.cells;
    }

    /** Forgets the tiles that aren't in view, once there are many. */
    tidy({ order, cells }, most) {
        for (const layer of this.layers.values()) {
            if (layer.tiles.size <= most) continue;
            const kept = new Set(layer.order === order ? cells : layer.order === this.above(order) ? this.coarse(order, cells) : []);
            for (const cell of layer.tiles.keys()) if (!kept.has(cell)) layer.tiles.delete(cell);
        }
        for (const path of this.references.keys()) if (this.references.size > MOST_REFERENCES && path !== MOSAIC) this.references.delete(path);
    }

    /** Where what is shown in view differs from another state of the survey: {order, cells, isWhole}; null where that isn't known. */
    changesSince(earlier, { order, cells }) {
        if (order !== null) {
            const known = cells.filter((cell) => !this.lacks(order, cell) && !earlier.lacks(order, cell));
            return { ...changesOf(this.layer(order), earlier.layer(order), known, this.order), isWhole: false };
        }
        if (!this.sky || !earlier.sky) return null;
        const all = [...new Set([...this.sky.tiles.keys(), ...earlier.sky.tiles.keys()])];
        return { ...changesOf(this.sky, earlier.sky, all, this.order), isWhole: true };
    }
}
