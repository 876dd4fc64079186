// Files from disk over the sky: tables of sources, regions of DS9, coverage maps. They stay in the browser.

import { FitsFault } from "./fits.js";
import { toDegrees } from "./healpix.js";
import { Marks, placeIn } from "./marks.js";
import { readMoc } from "./moc.js";
import { element, made, refuse } from "./panel.js";
import { readRegions } from "./regions.js";
import { FileFault, readTable } from "./tables.js";
import { counted } from "./words.js";

const INKS = ["#ff8ad8", "#8cf08c", "#ffb066", "#9fd3ff"];
const MOST_MARKS = 5000;
const RADIUS = 4;

/** A table of sources from disk. */
class Sources extends Marks {
    constructor(ink, { units, rows }) {
        super(ink);
        Object.assign(this, { units, rows });
    }

    *inView(frame) {
        let left = MOST_MARKS;
        for (const row of this.rows) {
            const at = this.accepts(row) && placeIn(frame, row.direction);
            if (!at) continue;
            if (left-- === 0) return;
            yield [row, at];
        }
    }

    radiusOf() {
        return RADIUS;
    }
}

export class Opened {
    /** `page` has `changed()`, called when others are shown, and `found(ra, dec)`. */
    constructor(page) {
        Object.assign(this, { page, items: [], count: 0 });
    }

    connect() {
        element("file").addEventListener("change", () => this.openAll(element("file").files));
        window.addEventListener("dragover", (event) => event.preventDefault());
        window.addEventListener("drop", (event) => {
            event.preventDefault();
            this.openAll(event.dataTransfer.files);
        });
    }

    async openAll(files) {
        refuse("file", "file-refused", "");
        for (const file of files) this.open(file.name, await file.arrayBuffer());
        element("file").value = "";
    }

    open(name, bytes) {
        const ink = INKS[this.count++ % INKS.length];
        try {
            this.items.push({ name, ink, ...readFile(name, bytes, ink) });
        } catch (fault) {
            if (!(fault instanceof FileFault || fault instanceof FitsFault)) throw fault;
            refuse("file", "file-refused", `${name}: ${fault.message}`);
        }
        this.show();
    }

    show() {
        element("opened").replaceChildren(...this.items.map((item) => {
            const go = made("button", { title: "Go there", onclick: () => item.first && this.page.found(...toDegrees(item.first)) }, `${item.name} (${item.said})`);
            const end = made("button", { ariaLabel: `Close ${item.name}`, onclick: () => this.close(item) }, "✕");
            return made("li", {}, made("i", { style: `color: ${item.ink}` }), go, end);
        }));
        this.page.changed();
    }

    close(item) {
        this.items = this.items.filter((other) => other !== item);
        this.show();
    }

    /** The coverages that are outlined, and their colours. */
    get outlines() {
        return this.items.filter(({ coverage }) => coverage).map(({ coverage, ink }) => ({ coverage, colour: ink }));
    }

    get tables() {
        return this.items.flatMap(({ sources }) => sources ?? []);
    }

    draw(lines, frame) {
        for (const { shapes, ink } of this.items) for (const line of (shapes ?? []).flat()) lines.shape(line, ink);
        for (const sources of this.tables) sources.draw(lines.brush, frame);
    }
}

/** What a file shows, by what it begins with: sources, shapes or a coverage; what is said of it; and a direction to go to. */
function readFile(name, bytes, ink) {
    const start = new TextDecoder("latin1").decode(bytes.slice(0, 2000));
    if (start.startsWith("SIMPLE  =") || /^\s*(\{|\d+\/)/.test(start)) {
        const coverage = readMoc(bytes);
        return { coverage, said: `coverage to order ${coverage.order}`, first: coverage.middle };
    }
    const text = new TextDecoder().decode(bytes);
    if (/\.reg$/i.test(name) || /region file format/i.test(start)) {
        const { shapes, others } = readRegions(text);
        const said = `${counted(shapes.length, "shape")}${others > 0 ? `, ${others} not drawn` : ""}`;
        return { shapes, said, first: shapes[0][0][0] };
    }
    const table = readTable(text);
    return { sources: new Sources(ink, table), said: counted(table.rows.length, "source"), first: table.rows[0]?.direction };
}
