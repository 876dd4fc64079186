// A catalogue HiPS over the sky, where there is one beside the survey (hipsctl catalog): its sources as rings, those of the coarse
// orders first and larger, and the row of one that is picked.

import { readProperties, tilePath } from "./files.js";
import { cellOf, fromDegrees, locate } from "./healpix.js";
import { Marks, placeIn } from "./marks.js";

const MOST_TILES = 60;
// So many pixels of the sky, on a screen of one pixel a point, have a mark.
const AREA_OF_A_MARK = 1500;
const FETCHES_AT_ONCE = 4;
const ALL_SKY_ORDERS = 2;
const INK = "#ffd24a";

export class Catalogue extends Marks {
    constructor(address, onChange) {
        super(INK);
        Object.assign(this, { address, onChange });
        this.orders = new Map();
        this.isThere = false;
    }

    /** Finds out whether there is one. */
    async open() {
        const properties = readProperties((await this.ask("properties")) ?? "");
        if (properties.get("dataproduct_type") !== "catalog") return;
        this.deepest = Number(properties.get("hips_order"));
        this.title = properties.get("obs_title");
        this.count = Number(properties.get("hips_cat_nrows"));
        this.isThere = true;
        this.onChange();
        await this.readUnits();
    }

    /** The text of a file, or none. */
    async ask(path) {
        const reply = await fetch(`${this.address}/${path}`).catch(() => null);
        return reply?.ok ? reply.text() : null;
    }

    /** The units of its columns are in a VOTable beside its tiles, where there is one. */
    async readUnits() {
        const table = new DOMParser().parseFromString((await this.ask("metadata.xml")) ?? "", "text/xml");
        this.units = new Map([...table.querySelectorAll("FIELD[unit]")].map((field) => [field.getAttribute("name"), field.getAttribute("unit")]));
    }

    /** Fetches what a view lacks: two files of whole orders, then tiles, as deep as so few of them cover it. */
    async view(cellsOf) {
        if (!this.isThere) return;
        this.cellsOf = cellsOf;
        if (this.isFetching) return;
        this.isFetching = true;
        await Promise.all(Array.from({ length: FETCHES_AT_ONCE }, () => this.fetchNext()));
        this.isFetching = false;
    }

    async fetchNext() {
        for (;;) {
            const next = this.lacking();
            if (!next) return;
            const [order, cell, path] = next;
            const tiles = this.tilesOf(order);
            tiles.set(cell, []);
            const text = await this.ask(path);
            if (text) tiles.set(cell, readRows(text, order));
            this.onChange();
        }
    }

    tilesOf(order) {
        if (!this.orders.has(order)) this.orders.set(order, new Map());
        return this.orders.get(order);
    }

    lacking() {
        for (let order = 1; order <= this.deepest; order++) {
            const tiles = this.tilesOf(order);
            if (order <= ALL_SKY_ORDERS) {
                if (!tiles.has(-1)) return [order, -1, `Norder${order}/Allsky.tsv`];
                continue;
            }
            const cells = this.cellsOf(order);
            if (cells.length > MOST_TILES) return null;
            const cell = cells.find((wanted) => !tiles.has(wanted));
            if (cell !== undefined) return [order, cell, tilePath(order, cell).replace(".fits", ".tsv")];
        }
        return null;
    }

    /** Some sources in view and where they stand, the best of each cell first. */
    *inView(frame) {
        const { projection, width, height, density } = frame;
        const area = projection.isWhole ? (Math.PI * projection.half ** 2) / 2 : width * height;
        let left = Math.round(area / AREA_OF_A_MARK / density ** 2);
        for (const [order, tiles] of [...this.orders].sort(([one], [other]) => one - other)) {
            if (order > ALL_SKY_ORDERS && this.cellsOf(order).length > MOST_TILES) return;
            for (const rows of tiles.values()) {
                for (const row of rows) {
                    const at = this.accepts(row) && placeIn(frame, row.direction);
                    if (!at) continue;
                    if (left-- === 0) return;
                    yield [row, at];
                }
            }
        }
    }

    /** Brighter sources stand in the tiles of coarser orders. */
    radiusOf({ order }) {
        return Math.max(2.5, 6.5 - order);
    }
}

/** The rows of a tile: its columns by their names, and the direction; of several cells the best ones of each come first. */
function readRows(text, order) {
    const [head, ...lines] = text.split("\n").filter((line) => line !== "" && !line.startsWith("#"));
    const names = head.split("\t");
    const [ra, dec] = ["ra", "dec"].map((name) => names.indexOf(name));
    const counts = new Map();
    const rows = lines.map((line) => {
        const values = line.split("\t");
        const direction = fromDegrees(Number(values[ra]), Number(values[dec]));
        const cell = cellOf(order, locate(direction, {}));
        counts.set(cell, (counts.get(cell) ?? -1) + 1);
        return { order, names, values, direction, place: counts.get(cell) };
    });
    return rows.sort((one, other) => one.place - other.place);
}
