// A second HiPS of the page's origin, which doesn't change while it is shown: a state of the survey as it was, say.

import { SurveyFault, askFile, tilePath } from "./files.js";
import { element, refuse } from "./panel.js";
import { Generation } from "./survey.js";

const FETCHES_AT_ONCE = 4;
const MOST_TILES = 600;
const EVERYWHERE = { touches: () => true };

/** The files of a HiPS that may have no Moc.fits, and then lack tiles anywhere. */
class Still extends Generation {
    constructor() {
        super(0);
        this.absent = new Set();
    }

    coverageOf(bytes) {
        return bytes ? super.coverageOf(bytes) : EVERYWHERE;
    }

    isMissing(path) {
        this.absent.add(path);
    }

    lacks(order, cell) {
        return super.lacks(order, cell) && !this.absent.has(tilePath(order, cell));
    }
}

export class Second {
    /** `page.inView(generation)` says which tiles the picture needs; `page.changed()` is called when more is here, or a fault. */
    constructor(address, page) {
        Object.assign(this, { address: address.replace(/\/$/, ""), page, shown: null, fault: "", isFetching: false, isEnded: false });
    }

    get isWhole() {
        return this.shown !== null && this.shown.lacking(this.page.inView(this.shown)).length === 0;
    }

    async open() {
        await this.tried(async () => {
            const opened = new Still();
            await opened.open((path) => askFile(this.address, path));
            const format = opened.properties.get("hips_tile_format") ?? "";
            if (!format.includes("fits")) throw new SurveyFault(`Its tiles are ${format || "of no format"}, and this page reads FITS.`);
            this.shown = opened;
        });
        await this.view();
    }

    /** Fetches what a view lacks. */
    async view() {
        if (!this.shown || this.isFetching) return;
        this.isFetching = true;
        await this.tried(() => Promise.all(Array.from({ length: FETCHES_AT_ONCE }, () => this.fetchNext())));
        this.isFetching = false;
        this.shown.tidy(this.page.inView(this.shown), MOST_TILES);
    }

    async fetchNext() {
        while (!this.isEnded) {
            const wanted = this.shown.lacking(this.page.inView(this.shown)).find(({ path }) => !this.shown.fetching.has(path));
            if (!wanted) return;
            await this.shown.fetch((path) => askFile(this.address, path), wanted);
            this.page.changed();
        }
    }

    async tried(work) {
        try {
            await work();
            this.fault = "";
        } catch (fault) {
            if (!(fault instanceof SurveyFault)) throw fault;
            this.fault = `${this.address}: ${fault.message}`;
        }
        if (!this.isEnded) this.page.changed();
    }

    /** It is shown no longer. */
    end() {
        this.isEnded = true;
    }
}

/** The form in which the path of a second HiPS is written: `name` is its input's, and begins the names of what belongs to it. */
export class SecondForm {
    /** `page` has `inView(generation)`, `changed()`, called when more of it is here, and `opened(name, path)`. */
    constructor(name, page) {
        Object.assign(this, { name, page, second: null });
    }

    connect() {
        element(`${this.name}-form`).addEventListener("submit", (event) => {
            event.preventDefault();
            this.open(element(this.name).value.trim());
        });
        element(`${this.name}-end`).addEventListener("click", () => this.open(""));
    }

    /** Shows the HiPS at a path of this origin, or none. */
    open(path) {
        this.second?.end();
        this.second = null;
        element(this.name).value = path;
        this.page.opened(this.name, path);
        const isHere = URL.canParse(path, window.location.href) && new URL(path, window.location.href).origin === window.location.origin;
        refuse(this.name, `${this.name}-refused`, isHere ? "" : "A second HiPS is shown from this server only: write its path, as /past.");
        if (path !== "" && isHere) {
            this.second = new Second(path, { inView: this.page.inView, changed: () => this.changed() });
            this.second.open();
        }
        this.show();
    }

    changed() {
        refuse(this.name, `${this.name}-refused`, this.second.fault);
        this.show();
    }

    show() {
        element(`${this.name}-shown`).hidden = !this.shown;
        this.page.changed();
    }

    /** What it shows, once it is known. */
    get shown() {
        return this.second?.shown ?? null;
    }

    get isWhole() {
        return this.second === null || this.second.fault !== "" || this.second.isWhole;
    }
}
