// The survey beside a second HiPS, an earlier state of it, say: to the right of a line, or both in turn; and where they differ.

import { coarsened } from "./changes.js";
import { element, say } from "./panel.js";
import { SecondForm } from "./second.js";
import { counted } from "./words.js";

const BLINK = 1000;

export class Compare extends SecondForm {
    constructor(page) {
        super("second", page);
        Object.assign(this, { blinking: null, isTurn: false, differences: null });
    }

    connect() {
        super.connect();
        element("curtain").addEventListener("input", () => this.page.changed());
        element("blink").addEventListener("click", () => this.blink(this.blinking === null));
    }

    open(path) {
        this.blink(false);
        super.open(path);
    }

    blink(isOn) {
        clearInterval(this.blinking);
        this.isTurn = false;
        this.blinking = isOn ? setInterval(() => this.takeTurn(), BLINK) : null;
        element("blink").setAttribute("aria-pressed", String(isOn));
        this.page.changed();
    }

    takeTurn() {
        this.isTurn = !this.isTurn;
        this.page.changed();
    }

    /** The column of a picture from which on the second HiPS is shown. */
    columnOf(width) {
        if (!this.shown) return width;
        if (this.blinking !== null) return this.isTurn ? 0 : width;
        return Math.round((width * Number(element("curtain").value)) / 100);
    }

    /** Finds where it differs from a generation of the survey, in view. */
    differ(generation, view) {
        const { shown } = this;
        const isAlike = shown && ["order", "width"].every((name) => shown[name] === generation[name]);
        const found = isAlike && this.isWhole ? generation.changesSince(shown, view) : null;
        this.differences = found && coarsened(found);
        if (found) say("differs", `${counted(found.cells.length, "tile")} of order ${found.order} ${found.cells.length === 1 ? "differs" : "differ"}${found.isWhole ? "" : " in view"}.`);
        else say("differs", isAlike ? "" : "Its orders or tiles are others, so no differences are marked.");
    }
}
