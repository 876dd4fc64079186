// The view in the page's own address, and going back to views that were there before.

import { readAddress, viewWords, writeAddress } from "./address.js";

export class Visits {
    /** `page` has what an address tells: `view`, `scale`, `switches` and `others`; `returned()` is called when another one was gone to. */
    constructor(page) {
        Object.assign(this, { page, isTold: false });
    }

    connect() {
        // A view that is gone back to comes by `popstate`, and one that is typed by `hashchange` too.
        for (const name of ["popstate", "hashchange"]) window.addEventListener(name, () => this.returned());
    }

    read() {
        const { page } = this;
        const { isTold, view, style, ...others } = readAddress(window.location.hash, page);
        this.isTold = isTold;
        Object.assign(page, others);
        page.view.show(style);
        page.view.moveTo(view);
    }

    get key() {
        return Object.values(viewWords(this.page.view)).join();
    }

    /** The first view isn't one to go back to. */
    begin() {
        this.written ??= this.key;
    }

    /** Writes the view into the page's address; another view is one to go back from. */
    write(isOther = false) {
        const { view, scale, switches, others } = this.page;
        const { key } = this;
        const isPushed = isOther && this.written !== undefined && this.written !== key;
        window.history[isPushed ? "pushState" : "replaceState"](null, "", writeAddress(view, scale, switches, others));
        this.written = key;
        this.hash = window.location.hash;
    }

    returned() {
        if (window.location.hash === this.hash) return;
        this.hash = window.location.hash;
        this.read();
        this.written = undefined;
        this.page.returned();
    }
}
