// What is drawn over the pixels: the equatorial grid and its numbers, the borders of cells, and those that changed.

import { border, centre, fromDegrees } from "./healpix.js";
import { fromGalactic, galacticDegrees } from "./frames.js";

const INK = "rgba(255, 255, 255, 0.45)";
const SHADE = "rgba(16, 19, 28, 0.22)";
const MARGIN_INK = "#5b5f6b";
const NUMBERS = "rgba(255, 255, 255, 0.78)";
const CELLS = "rgba(140, 190, 255, 0.75)";
const CHANGED = "#ff7a1a";
const STEPS = [30, 15, 10, 5, 2, 1, 0.5, 0.2, 0.1, 0.05, 0.02, 0.01, 0.005, 0.002, 0.001];
// 2 hours to 0.1 seconds.
const HOUR_STEPS = [7200, 3600, 1800, 1200, 600, 300, 120, 60, 30, 20, 10, 5, 2, 1, 0.5, 0.2, 0.1].map((seconds) => seconds / 240);
const LINES_WANTED = 6;
const POINTS_OF_A_SIDE = 12;
const MOST_NUMBERED = 80;
const CORNER = 40;
const COMPASS = 22;

export class Lines {
    constructor(canvas) {
        this.canvas = canvas;
        this.brush = canvas.getContext("2d");
    }

    /** Clears the picture's lines; widths and letters are for a screen with so many pixels to a point. */
    begin(projection, width, height, density) {
        if (this.canvas.width !== width || this.canvas.height !== height) Object.assign(this.canvas, { width, height });
        else this.brush.clearRect(0, 0, width, height);
        Object.assign(this, { projection, width, height, density });
        this.taken = [];
        this.brush.font = `${11 * density}px system-ui, "DejaVu Sans", sans-serif`;
        this.brush.lineJoin = "round";
    }

    /** Meridians and parallels, with their degrees, or with hours for the right ascension. */
    grid(view, isGalactic, isInHours) {
        const step = this.projection.isWhole ? 30 : STEPS.find((degrees) => view.width / degrees >= LINES_WANTED) ?? STEPS.at(-1);
        Object.assign(this, { isGalactic, isInHours: isInHours && !isGalactic });
        if (this.projection.isWhole && isGalactic !== this.projection.isGalactic) this.otherWholeGrid(step);
        else if (this.projection.isWhole) this.wholeGrid(step);
        else this.partGrid(isGalactic ? galacticView(view) : view, step);
    }

    /** The grid of a frame whose north isn't up. */
    otherWholeGrid(step) {
        for (let along = 0; along < 360; along += step) {
            this.gridLine(range(-90, 90, 2).map((above) => this.point(along, above)));
            this.number(this.alongText(along, step), ...shifted(this.point(along, 0), 3, -7, this.density), "left", NUMBERS);
        }
        for (let above = -90 + step; above < 90; above += step) {
            this.gridLine(range(0, 360, 2).map((along) => this.point(along, above)));
            this.number(this.aboveText(above, step), ...shifted(this.point(0, above), 3, -7, this.density), "left", NUMBERS);
        }
        this.edge();
    }

    wholeGrid(step) {
        const { projection } = this;
        const height = (above) => Math.sin((above * Math.PI) / 180);
        const heights = range(-90, 90, 2);
        for (let east = -180; east <= 180; east += step) {
            this.gridLine(heights.map((above) => projection.at(east, height(above))));
        }
        for (let above = -90 + step; above < 90; above += step) {
            this.gridLine(range(-180, 180, 5).map((east) => projection.at(east, height(above))));
            const [column, line] = projection.at(180, height(above));
            this.number(this.aboveText(above, step), column - 6 * this.density, line, "right", MARGIN_INK);
        }
        this.edge();
        for (let along = 0; along < 360; along += step) {
            const east = ((along - projection.meridian + 540) % 360) - 180;
            if (Math.abs(east) < 179) this.number(this.alongText(along, step), ...shifted(projection.at(east, 0), 3, -7, this.density), "left", NUMBERS);
        }
    }

    /** The border of the ellipse. */
    edge() {
        const { projection } = this;
        const heights = range(-90, 90, 1).map((dec) => Math.sin((dec * Math.PI) / 180));
        const around = [...heights.map((z) => projection.at(180, z)), ...heights.reverse().map((z) => projection.at(-180, z))];
        this.path(around, "#33384a", 1.5);
    }

    partGrid(view, step) {
        const reach = Math.min(120, view.width * 0.75 * Math.max(1, this.height / this.width));
        const [lowest, highest] = [Math.max(-90, view.dec - reach), Math.min(90, view.dec + reach)];
        const isPole = lowest <= -88 || highest >= 88;
        const wide = isPole ? 180 : Math.min(180, reach / Math.cos((Math.max(-lowest, highest) * Math.PI) / 180));
        const across = this.acrossFor(wide, isPole ? Math.max(step, 15) : step, isPole);
        for (let above = Math.ceil(lowest / step) * step; above <= highest + 1e-9; above += step) {
            if (Math.abs(above) > 90 - 1e-9) continue;
            const line = range(view.ra - wide, view.ra + wide, wide / 60).map((along) => this.point(along, above));
            this.gridLine(line);
            this.numberAtEdges(line, this.aboveText(above, step), ["left", "bottom"]);
        }
        const first = Math.ceil((view.ra - wide) / across);
        for (let at = first; at * across < view.ra + wide; at++) {
            const line = range(lowest, highest, (highest - lowest) / 60).map((above) => this.point(at * across, above));
            this.gridLine(line);
            this.numberAtEdges(line, this.alongText(at * across, across), ["bottom", "left"]);
        }
    }

    /** How many degrees are between the meridians of a grid so wide to each side. */
    acrossFor(wide, step, isPole) {
        const steps = this.isInHours ? HOUR_STEPS : STEPS;
        if (isPole) return step;
        return steps.find((degrees) => (2 * wide) / 1.5 / degrees >= LINES_WANTED) ?? steps.at(-1);
    }

    /** A right ascension or a longitude, as the grid tells it, for lines so many degrees apart. */
    alongText(along, step) {
        const degrees = ((along % 360) + 360) % 360;
        if (this.isInHours) return hoursText(degrees, step);
        return `${this.isGalactic ? "l " : ""}${degrees.toFixed(placesOf(step))}°`;
    }

    aboveText(above, step) {
        return `${this.isGalactic ? "b " : ""}${signed(above, placesOf(step))}°`;
    }

    /** A line that is seen on dark and on light pixels. */
    gridLine(points) {
        this.path(points, SHADE, 2.5);
        this.path(points, INK, 1);
    }

    point(ra, dec) {
        const direction = fromDegrees(ra, dec);
        return this.projection.toScreen(this.isGalactic ? fromGalactic(direction) : direction);
    }

    /** A number at the edge of the picture where a line crosses it: the first of the edges, or the other in a grid that is turned. */
    numberAtEdges(points, text, [edge, other]) {
        if (!this.numberAtEdge(points, text, edge) && (this.isGalactic || this.projection.turn !== 0)) this.numberAtEdge(points, text, other);
    }

    /** A number where a line crosses the left or the bottom edge of the picture, if it does. */
    numberAtEdge(points, text, edge) {
        const inset = 8 * this.density;
        const [axis, level] = edge === "left" ? [0, inset] : [1, this.height - inset];
        for (let at = 1; at < points.length; at++) {
            const [one, other] = [points[at - 1], points[at]];
            if (!one || !other || one[axis] < level === other[axis] < level) continue;
            const part = (level - one[axis]) / (other[axis] - one[axis]);
            const [column, line] = one.map((from, which) => from + (other[which] - from) * part);
            const corner = CORNER * this.density;
            if (edge === "left" ? line < corner / 2 || line > this.height - corner : column < 0 || column > this.width - corner) continue;
            const [x, y] = edge === "left" ? [column, line - 7 * this.density] : [column + 4 * this.density, line];
            this.number(text, x, y, "left", NUMBERS);
            return true;
        }
        return false;
    }

    /** The borders of cells, with their numbers where there is room. */
    cells(order, cells) {
        for (const cell of cells) this.cell(order, cell, CELLS, 1);
        if (cells.length > MOST_NUMBERED) return;
        for (const cell of cells) {
            const at = this.projection.toScreen(centre(order, cell));
            if (at) this.number(`${order}/${cell}`, ...at, "center", "rgba(205, 226, 255, 0.95)");
        }
    }

    /** Arrows to the north and to the east, in the corner. */
    compass() {
        const { density, projection } = this;
        const foot = [this.width - 3 * COMPASS * density, this.height - 3 * COMPASS * density];
        const [cosine, sine] = [Math.cos, Math.sin].map((of) => of((projection.turn * Math.PI) / 180));
        for (const [letter, right, down] of [["N", sine, -cosine], ["E", -cosine, -sine]]) {
            const along = (length, aside) => [foot[0] + (length * right - aside * down) * density, foot[1] + (length * down + aside * right) * density];
            const tip = along(COMPASS, 0);
            this.bold([foot, tip, null, along(COMPASS - 6, 4), tip, along(COMPASS - 6, -4)], NUMBERS);
            this.number(letter, ...along(COMPASS + 9, 0), "center", NUMBERS);
        }
    }

    /** The way from a mark, along these directions. */
    way(directions) {
        const points = directions.map((direction) => this.projection.toScreen(direction));
        const cross = (foot) => [-1, 1].flatMap((side) => [shifted(foot, -5, -5 * side, this.density), shifted(foot, 5, 5 * side, this.density), null]);
        this.bold([...points, null, ...(points[0] ? cross(points[0]) : [])], NUMBERS);
    }

    /** The point at which keys point. */
    cross(point) {
        const arm = (right, down) => [shifted(point, 4 * right, 4 * down, this.density), shifted(point, 12 * right, 12 * down, this.density), null];
        this.bold([arm(1, 0), arm(-1, 0), arm(0, 1), arm(0, -1)].flat(), NUMBERS);
    }

    /** A line of a file, on dark and on light pixels. */
    shape(directions, colour) {
        this.bold(directions.map((direction) => this.projection.toScreen(direction)), colour);
    }

    /** The line behind which a second HiPS is shown, with its name. */
    curtain(column, name) {
        this.bold([[column, 0], [column, this.height]], "#ffffff");
        const line = 14 * this.density;
        if (column > 0) this.number("now ▸", column - 8 * this.density, line, "right", NUMBERS);
        if (column < this.width) this.number(`◂ ${name}`, column + 8 * this.density, line, "left", NUMBERS);
    }

    /** The cells that changed. */
    changed({ order, cells }) {
        for (const cell of cells) this.cell(order, cell, CHANGED, 2.5);
    }

    cell(order, cell, colour, width) {
        const points = border(order, cell, POINTS_OF_A_SIDE).map((direction) => this.projection.toScreen(direction));
        this.path([...points, points[0]], colour, width);
    }

    /** A line that stands out from any pixels. */
    bold(points, colour) {
        this.path(points, "rgba(16, 19, 28, 0.6)", 4);
        this.path(points, colour, 1.5);
    }

    /** A line through points; it is lifted where a point is missing or far from the one before. */
    path(points, colour, width) {
        this.brush.strokeStyle = colour;
        this.brush.lineWidth = width * this.density;
        this.brush.beginPath();
        let last = null;
        for (const point of points) {
            if (point && last && Math.abs(point[0] - last[0]) < this.width / 2) this.brush.lineTo(...point);
            else if (point) this.brush.moveTo(...point);
            last = point;
        }
        this.brush.stroke();
    }

    /** Writes a number, where it would not lie over another. */
    number(text, column, line, align, colour) {
        const width = this.brush.measureText(text).width;
        const left = column - { left: 0, center: 0.5, right: 1 }[align] * width;
        const [above, beside] = [6 * this.density, 4 * this.density];
        const box = { left: left - beside, right: left + width + beside, top: line - above, bottom: line + above };
        const isOver = (one) => box.left < one.right && one.left < box.right && box.top < one.bottom && one.top < box.bottom;
        if (this.taken.some(isOver)) return;
        this.taken.push(box);
        this.brush.textAlign = align;
        this.brush.textBaseline = "middle";
        if (colour !== MARGIN_INK) {
            this.brush.lineWidth = 3 * this.density;
            this.brush.strokeStyle = "rgba(15, 18, 28, 0.6)";
            this.brush.strokeText(text, column, line);
        }
        this.brush.fillStyle = colour;
        this.brush.fillText(text, column, line);
    }
}

/** A view whose middle is told in galactic coordinates. */
function galacticView(view) {
    const [ra, dec] = galacticDegrees([view.ra, view.dec]);
    return { ...view, ra, dec };
}

function range(first, last, step) {
    return Array.from({ length: Math.round((last - first) / step) + 1 }, (_, at) => first + at * step);
}

/** Decimals that tell lines apart. */
function placesOf(step) {
    return Math.max(0, Math.ceil(-Math.log10(step)));
}

/** A right ascension in hours, in minutes if lines are closer, and in seconds. */
function hoursText(degrees, step) {
    const seconds = degrees * 240;
    const places = step < 1 / 240 ? 1 : 0;
    const whole = Number(seconds.toFixed(places)) % 86400;
    const parts = [`${Math.floor(whole / 3600)}h`];
    if (step < 15) parts.push(`${Math.floor(whole / 60) % 60}m`);
    if (step < 0.25) parts.push(`${(whole % 60).toFixed(places)}s`);
    return parts.join(" ");
}

function signed(degrees, places) {
    if (Math.abs(degrees) < 1e-9) return "0";
    return `${degrees < 0 ? "−" : "+"}${Math.abs(degrees).toFixed(places)}`;
}

function shifted([column, line], right, down, density) {
    return [column + right * density, line + down * density];
}
