// How the view moves: at once, or by a hand; and what follows once it rests.

import { WHOLE_SKY } from "./projection.js";

const SETTLED_AFTER = 160;
const WIDEST_FIELD = 20;

export class Motion {
    /** `page` has `view`, `drawing`, `live`, and `settled()`, called when the view rests. */
    constructor(page) {
        this.page = page;
    }

    moveTo(view) {
        this.page.drawing.isMoving = false;
        this.page.view.moveTo(view);
        this.moved(0);
    }

    drag(right, down) {
        this.page.view.drag(right, down);
        this.byHand();
    }

    zoom(factor, point = this.page.view.middle()) {
        this.page.view.zoom(factor, point);
        this.byHand();
    }

    byHand() {
        this.page.drawing.isMoving = true;
        this.moved(SETTLED_AFTER);
    }

    moved(rest) {
        this.page.drawing.moved();
        clearTimeout(this.settling);
        this.settling = setTimeout(() => this.settle(), rest);
    }

    settle() {
        const { drawing } = this.page;
        if (drawing.isMoving) {
            drawing.isMoving = false;
            drawing.moved();
        }
        this.page.settled();
    }

    /** Shows the same in another projection, or with another north. */
    show(style) {
        this.page.view.show(style);
        this.turnNorth();
    }

    turnNorth() {
        this.moveTo({ ...this.page.view, turn: 0 });
    }

    showWhole() {
        this.moveTo({ ...this.page.view, width: WHOLE_SKY });
    }

    /** Goes to a position that was written, near enough to see what is there. */
    goTo(ra, dec) {
        this.moveTo({ ra, dec, width: Math.min(this.page.view.width, this.field) });
    }

    /** How wide the survey is to be seen first. */
    get field() {
        const { shown } = this.page.live;
        return shown ? shown.number("hips_initial_fov") ?? Math.min(WIDEST_FIELD, shown.coverage.side) : WIDEST_FIELD;
    }
}
