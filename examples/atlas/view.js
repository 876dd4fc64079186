// Which part of the sky is shown, and how it moves: {ra, dec, width, turn} in degrees, and the projection of it into the picture.
// `turn` is how far up is from north, to the east. North is that of the galaxy where `isGalactic`.

import { equatorialDegrees, galacticDegrees } from "./frames.js";
import { toDegrees } from "./healpix.js";
import { WHOLE_SKY, WIDEST_PART, boundedWidth, projectionOf, turnOf } from "./projection.js";

// A step from the whole sky is at least so far, and several lead back: steps to and fro don't change the projection each time.
const WIDEST_FROM_WHOLE = 150;
// Nearer to a pole than this part of the picture's width, the picture follows the hand, and north doesn't stay up.
const POLAR = 0.25;

export class View {
    constructor() {
        Object.assign(this, { ra: 0, dec: 0, width: WHOLE_SKY, turn: 0, part: "ZEA", whole: "MOL", isGalactic: false, size: [1, 1], least: 1e-4 });
    }

    /** Shows the same in other projections, or with another north: {part, whole, isGalactic}, or some of them. */
    show(style) {
        Object.assign(this, style);
        this.project();
    }

    /** The picture has so many pixels. */
    resize(size) {
        this.size = size;
        this.project();
    }

    project() {
        this.projection = projectionOf(this, ...this.size);
    }

    moveTo({ ra, dec, width, turn = 0 }) {
        this.ra = ((ra % 360) + 360) % 360;
        this.dec = Math.max(-90, Math.min(90, dec));
        this.width = boundedWidth(width, this.least);
        this.turn = this.width === WHOLE_SKY ? 0 : ((turn % 360) + 360) % 360;
        this.project();
    }

    middle() {
        return this.size.map((side) => side / 2);
    }

    /** Makes the view narrower or wider; what stands at a point of the picture stays there. */
    zoom(factor, point) {
        const { isWhole } = this.projection;
        const fixed = this.projection.toSky(...point);
        const width = isWhole && factor < 1 ? Math.min(WIDEST_FROM_WHOLE, WIDEST_PART * factor) : this.width * factor;
        const [ra, dec] = isWhole && fixed ? toDegrees(fixed) : [this.ra, this.dec];
        this.moveTo({ ra, dec, width, turn: this.turn });
        const now = fixed && !this.projection.isWhole && this.projection.toScreen(fixed);
        if (now) this.drag(point[0] - now[0], point[1] - now[1]);
    }

    /** Moves the picture by so many pixels. */
    drag(right, down) {
        if (this.projection.isWhole) {
            const [along, above] = this.isGalactic ? galacticDegrees([this.ra, this.dec]) : [this.ra, this.dec];
            const moved = [along + right * this.projection.pixel, above];
            const [ra, dec] = this.isGalactic ? equatorialDegrees(moved) : moved;
            this.moveTo({ ...this, ra, dec });
            return;
        }
        const middle = this.projection.toSky(this.size[0] / 2 - right, this.size[1] / 2 - down);
        if (middle === null) return;
        const [ra, dec] = toDegrees(middle);
        const heights = [[ra, dec], [this.ra, this.dec]].map((place) => Math.abs(this.isGalactic ? galacticDegrees(place)[1] : place[1]));
        const isPolar = 90 - Math.max(...heights) < this.width * POLAR;
        this.moveTo({ ra, dec, width: this.width, turn: isPolar ? turnOf(this.projection, middle) : this.turn });
    }

    /** A round angle, and how many pixels of the picture's middle show it: at most so many. */
    ruler(most) {
        const degrees = most * this.projection.pixel;
        const unit = degrees >= 1 ? 1 : degrees >= 1 / 60 ? 1 / 60 : 1 / 3600;
        const power = 10 ** Math.floor(Math.log10(degrees / unit));
        const angle = [5, 2, 1].map((digit) => digit * power * unit).find((round) => round <= degrees * (1 + 1e-9));
        return { angle, pixels: angle / this.projection.pixel };
    }
}
