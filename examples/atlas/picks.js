// Sources that are picked in the picture, or in the list of them, and the row of the one that is.

import { toDegrees } from "./healpix.js";
import { saySource } from "./said.js";

export class Picks {
    /** `page` has `opened`, `catalogue`, `switches`, `drawing` and `motion`. */
    constructor(page) {
        this.page = page;
    }

    /** The tables whose sources can be picked: those from disk, and the catalogue where it is shown. */
    get tables() {
        const { opened, switches, catalogue } = this.page;
        return [...opened.tables, ...(switches.catalogue && catalogue.isThere ? [catalogue] : [])];
    }

    /** Picks the source that is nearest to a point of the picture, or none. */
    at(point) {
        const found = this.tables.map((table) => ({ table, distance: table.pick(point, this.page.drawing.frame) }));
        const nearest = found.reduce((one, other) => (other.distance < one.distance ? other : one), { distance: Infinity });
        for (const { table } of found) if (table !== nearest.table) table.picked = null;
        this.say(nearest.table);
    }

    /** Goes to a source, and picks it. */
    row(row) {
        const table = this.tables.find((one) => [...one.inView(this.page.drawing.frame)].some(([other]) => other === row));
        this.none();
        if (table) table.picked = row;
        this.say(table);
        this.page.motion.goTo(...toDegrees(row.direction));
    }

    none() {
        for (const table of [this.page.catalogue, ...this.page.opened.tables]) table.picked = null;
        this.say();
    }

    say(table = this.page.catalogue) {
        saySource(table);
        this.page.drawing.draw();
    }
}
