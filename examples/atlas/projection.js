// Where a direction stands in the picture, and back. North, of the equator or of the galaxy, is up where the view isn't turned, and east
// to the left. Points of the picture are counted in its pixels from the top left corner.

import { fromGalactic, galacticDegrees } from "./frames.js";
import { border, fromDegrees, toDegrees } from "./healpix.js";
import { PARTS, WHOLES } from "./projections.js";

export const WHOLE_SKY = 360;
export const WIDEST_PART = 180;
const MARGIN = 36;

/** The projection of a view ({ra, dec, width, turn} in degrees, and which: {part, whole, isGalactic}) into a picture of so many pixels. */
export function projectionOf(view, width, height) {
    if (view.width > WIDEST_PART) return new Whole(view, width, height);
    const kind = PARTS[view.part] ?? PARTS.ZEA;
    return new Part(view, view.width > kind.widest ? PARTS.ZEA : kind, width, height);
}

/** The view with that width nearest to the wanted one: the whole sky, or a part of it. */
export function boundedWidth(width, least) {
    return width > WIDEST_PART ? WHOLE_SKY : Math.max(width, least);
}

/** The directions to the east and to the north of a place, of the equator or of the galaxy. */
function axesAt(ra, dec, isGalactic) {
    const [along, above] = isGalactic ? galacticDegrees([ra, dec]) : [ra, dec];
    const axes = [fromDegrees(along + 90, 0), fromDegrees(along, above + 90)];
    return isGalactic ? axes.map(fromGalactic) : axes;
}

/** How far `up` is turned from north to the east at a place, in degrees. */
function turnFrom([east, north], up) {
    return (Math.atan2(dot(up, east), dot(up, north)) * 180) / Math.PI;
}

/** How a view is turned after its middle has moved along a great circle to another direction, and the picture with it. */
export function turnOf({ centre, up, isGalactic }, middle) {
    const part = dot(up, middle) / (1 + dot(centre, middle));
    const moved = up.map((side, axis) => side - part * (centre[axis] + middle[axis]));
    return turnFrom(axesAt(...toDegrees(middle), isGalactic), moved);
}

/** Both have three axes, `centre`, `left` and `up`, in which the equations of the projections are written. */
class Projection {
    constructor(view, kind, width, height) {
        this.kind = kind;
        this.isGalactic = view.isGalactic ?? false;
        this.middle = [width / 2, height / 2];
    }

    /** A direction of which the parts along the three axes are known. */
    along(forward, leftward, upward) {
        const { centre, left, up } = this;
        return [0, 1, 2].map((axis) => forward * centre[axis] + leftward * left[axis] + upward * up[axis]);
    }

    /** Whole pixels around a cell in a picture; all of them where its border isn't all there, or crosses the picture's edge. */
    boundsOf(order, cell, width, height) {
        const points = border(order, cell, 4).map((direction) => this.toScreen(direction));
        if (points.some((point) => point === null)) return [0, 0, width, height];
        const [columns, lines] = [0, 1].map((axis) => points.map((point) => point[axis]));
        const slack = (Math.max(...columns) - Math.min(...columns)) / 8 + 2;
        if (slack > width / 20) return [0, 0, width, height];
        const bounds = [Math.min(...columns) - slack, Math.min(...lines) - slack, Math.max(...columns) + slack, Math.max(...lines) + slack];
        const [left, top, right, bottom] = bounds.map((bound, side) => Math.max(0, Math.min(side % 2 ? height : width, Math.round(bound))));
        return right > left && bottom > top ? [left, top, right, bottom] : null;
    }
}

/** The whole sky as an ellipse, around a meridian. */
class Whole extends Projection {
    constructor(view, width, height) {
        super(view, WHOLES[view.whole] ?? WHOLES.MOL, width, height);
        this.half = Math.max(1, Math.min(width / 2 - MARGIN, height - 2 * MARGIN));
        this.meridian = this.isGalactic ? galacticDegrees([view.ra, view.dec])[0] : view.ra;
        const axes = [[this.meridian, 0], [this.meridian + 90, 0], [0, 90]].map((place) => fromDegrees(...place));
        [this.centre, this.left, this.up] = this.isGalactic ? axes.map(fromGalactic) : axes;
        this.isWhole = true;
    }

    /** Degrees along the equator that a pixel shows. */
    get pixel() {
        return 180 / this.half;
    }

    /** The share of the sphere in the picture. */
    get share() {
        return 1;
    }

    toSky(column, line) {
        const x = (this.middle[0] - column) / this.half;
        const y = (2 * (this.middle[1] - line)) / this.half;
        if (x * x + y * y > 1) return null;
        const [angle, z] = this.kind.toSky(x, y);
        const sine = Math.sqrt(Math.max(0, 1 - z * z));
        return this.along(sine * Math.cos(angle), sine * Math.sin(angle), z);
    }

    toScreen(direction) {
        const angle = Math.atan2(dot(direction, this.left), dot(direction, this.centre));
        return this.at((angle * 180) / Math.PI, dot(direction, this.up));
    }

    /** The point so many degrees to the east of the middle meridian, -180 to 180, at a height z: both ends are told apart. */
    at(east, z) {
        const [x, y] = this.kind.toPlane((east * Math.PI) / 180, z);
        return [this.middle[0] - this.half * x, this.middle[1] - (this.half * y) / 2];
    }
}

/** A part of the sky around a direction. */
class Part extends Projection {
    constructor(view, kind, width, height) {
        super(view, kind, width, height);
        this.scale = width / 2 / kind.reach((view.width * Math.PI) / 360);
        this.centre = fromDegrees(view.ra, view.dec);
        const [east, north] = axesAt(view.ra, view.dec, this.isGalactic);
        const turn = ((view.turn ?? 0) * Math.PI) / 180;
        this.up = combined(north, Math.cos(turn), east, Math.sin(turn));
        this.left = combined(east, Math.cos(turn), north, -Math.sin(turn));
        /** Degrees by which up is turned from the equator's north to the east. */
        this.turn = turnFrom(axesAt(view.ra, view.dec, false), this.up);
        this.isWhole = false;
        this.share = Math.min(1, (kind.thickest * width * height) / (4 * Math.PI * this.scale * this.scale));
    }

    get pixel() {
        return 180 / Math.PI / this.scale;
    }

    toSky(column, line) {
        const x = (this.middle[0] - column) / this.scale;
        const y = (this.middle[1] - line) / this.scale;
        const square = x * x + y * y;
        if (square > this.kind.most) return null;
        const length = this.kind.length(square);
        return this.along(this.kind.cosine(square), length * x, length * y);
    }

    /** No point where the direction is behind the projection's edge, or far away: a line there would cross the picture. */
    toScreen(direction) {
        const cosine = dot(direction, this.centre);
        if (cosine < this.kind.least) return null;
        const length = this.scale * this.kind.stretch(cosine);
        return [this.middle[0] - length * dot(direction, this.left), this.middle[1] - length * dot(direction, this.up)];
    }
}

/** Two vectors, each so many times. */
function combined(one, times, other, otherTimes) {
    return one.map((side, axis) => side * times + other[axis] * otherTimes);
}

function dot([a, b, c], [x, y, z]) {
    return a * x + b * y + c * z;
}
