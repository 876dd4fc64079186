// The place that is pointed at, by a pointer, a finger, or keys, which point at the middle: what stands there, how far it is from a mark,
// and its position to copy.

import { galacticDegrees } from "./frames.js";
import { cellOf, locate, toDegrees } from "./healpix.js";
import { element, say } from "./panel.js";
import { writePosition } from "./position.js";
import { hearPoint, sayPoint, sayTile } from "./said.js";
import { readingOf } from "./words.js";

export class Pointing {
    /** `page` has `view`, `switches`, `drawing`, `live`, `compare` and `scaleControls`. */
    constructor(page) {
        Object.assign(this, { page, pointed: null, last: null, mark: null, isByKeys: false });
    }

    /** A pointer is at a point of the picture, or has left it. */
    point(pointed) {
        Object.assign(this, { pointed, last: pointed ?? this.last, isByKeys: this.isByKeys && pointed === null });
        this.tellLater();
    }

    /** Keys are used in the picture, or no longer. */
    byKeys(isOn) {
        this.isByKeys = isOn && this.pointed === null;
        this.page.drawing.draw();
    }

    tellLater() {
        const { drawing } = this.page;
        if (this.mark) drawing.draw();
        else if (!drawing.asked) this.tell();
    }

    /** The point of the picture. */
    get at() {
        return this.isByKeys ? this.page.view.middle() : this.pointed;
    }

    /** Its direction on the sky. */
    get sky() {
        return this.at && this.page.view.projection.toSky(...this.at);
    }

    /** Says what stands there, in the HiPS that is shown there. */
    tell() {
        const { view, switches, live, compare, drawing, scaleControls } = this.page;
        const { sky } = this;
        const isSecond = this.at && this.at[0] >= compare.columnOf(view.size[0]);
        const generation = isSecond ? compare.shown : live.shown;
        const place = sky && generation ? locate(sky, {}) : null;
        const reading = place && readingOf(drawing.layers(generation), drawing.coverageFor(generation), place);
        sayPoint(sky, reading, { isGalactic: switches.galactic, pixel: view.projection.pixel, mark: this.mark });
        if (this.isByKeys && !drawing.isMoving) hearPoint();
        scaleControls.mark(reading?.value ?? NaN);
        const { shown } = live;
        const leaf = place && shown && cellOf(shown.order, place);
        if (leaf !== null && shown.coverage.touches(shown.order, leaf)) sayTile(shown.order, leaf);
    }

    /** The place that is pointed at, or was last; or else the middle. */
    get chosen() {
        const { view } = this.page;
        return view.projection.toSky(...(this.at ?? this.last ?? view.middle())) ?? view.projection.centre;
    }

    /** Begins to measure from there, or ends that. */
    measure() {
        this.mark = this.mark ? null : this.chosen;
        element("measure").setAttribute("aria-pressed", String(this.mark !== null));
        this.page.drawing.draw();
    }

    /** Copies the position, as the box for positions reads it. */
    async copy() {
        const { galactic } = this.page.switches;
        const degrees = toDegrees(this.chosen);
        const text = writePosition(galactic ? galacticDegrees(degrees) : degrees, galactic);
        const isCopied = await navigator.clipboard?.writeText(text).then(() => true, () => false);
        say("understood", isCopied ? `${text} is copied.` : text);
        element("place").value = text;
        if (!isCopied) element("place").select();
    }
}
