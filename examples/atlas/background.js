// A HiPS behind the survey, seen where this is blank, and through it where its opacity is less than whole.

import { element } from "./panel.js";
import { cutsOf } from "./cuts.js";
import { SecondForm } from "./second.js";

export class Background extends SecondForm {
    constructor(page) {
        super("background", page);
        this.scale = { low: 0, high: 1, stretch: "linear", colours: "grey", isInverted: false };
    }

    connect() {
        super.connect();
        element("opacity").addEventListener("input", () => this.page.changed());
    }

    get opacity() {
        return Number(element("opacity").value) / 100;
    }

    /** Its cuts fit what is in view of it. */
    fit(samples) {
        Object.assign(this.scale, cutsOf(samples, "99 %"));
    }
}
