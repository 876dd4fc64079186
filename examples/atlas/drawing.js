// What is drawn when: the pixels of the picture, by WebGL while it moves where the browser has that in hardware, and the lines over them.

import { coarsened } from "./changes.js";
import { gpuOf } from "./gpu.js";
import { SKY_ORDER } from "./layers.js";
import { Lines } from "./lines.js";
import { arc } from "./measure.js";
import { orderFor } from "./orders.js";
import { element } from "./panel.js";
import { OUTLINE, Picture } from "./picture.js";

const SAMPLES = 30_000;
// While the view moves without WebGL, squares of so many pixels are drawn; larger ones where frames take so many milliseconds, and
// smaller ones where their drawing takes so few.
const SQUARES = { least: 2, first: 4, most: 8 };
const SLOW_FRAME = 24;
const QUICK_DRAWING = 6;
// With WebGL, places are known this coarsely while it moves: enough to tell which tiles are in view.
const COARSE = 8;

export class Drawing {
    /**
     * `page` has `view`, `scale`, `switches`, and what is shown: `live`, `compare`, `background`, `catalogue`, `opened`, `sources`,
     * `pointing`; `drawn(generation)` is called after each picture. `drawBy` is "gpu" or "cpu" where one is to be used.
     */
    constructor(page, drawBy) {
        Object.assign(this, { page, isMoving: false, squares: SQUARES.first });
        this.picture = new Picture(element("pixels"));
        this.gpu = drawBy === "cpu" ? null : gpuOf(element("moving"), drawBy === "gpu");
        this.lines = new Lines(element("lines"));
        this.seen = new Map();
    }

    /** The picture is as large as its place on the screen. */
    measure() {
        const { clientWidth, clientHeight } = element("sky");
        this.density = window.devicePixelRatio || 1;
        this.page.view.resize([clientWidth, clientHeight].map((side) => Math.max(1, Math.round(side * this.density))));
        this.moved();
    }

    /** The view is another: where its pixels stand is found when it is asked for. */
    moved() {
        this.isPlaced = this.isRead = false;
        this.seen.clear();
        this.draw();
    }

    /** What is shown is another, or more of it is here. */
    changed() {
        this.isRead = false;
        this.draw();
    }

    // ---- what is in view

    place() {
        if (this.isPlaced) return;
        this.isPlaced = true;
        const { view, compare, background } = this.page;
        this.byGpu = this.isMoving && !compare.shown && !background.shown && this.gpu !== null && this.gpu.draws(view.projection);
        this.step = !this.isMoving ? 1 : this.byGpu ? COARSE : this.squares;
        this.picture.place(view.projection, ...view.size, this.step);
    }

    cellsOf(order) {
        this.place();
        if (!this.seen.has(order)) this.seen.set(order, this.picture.cells(order));
        return this.seen.get(order);
    }

    orderOf(generation) {
        return orderFor(generation, this.page.view.projection);
    }

    /** The tiles that the picture needs of a generation. */
    inView(generation) {
        const order = this.orderOf(generation);
        return { order, cells: order === null ? [] : this.cellsOf(order) };
    }

    /** The layers that show the view, the finest first. */
    layers(generation) {
        return generation.shownBy(this.orderOf(generation));
    }

    /** Where tiles are shown, cells without leaves are known to be blank. */
    coverageFor(generation) {
        return this.orderOf(generation) === null ? null : generation.coverage;
    }

    /** Some of the values that are shown. */
    samples() {
        this.place();
        this.read();
        return this.picture.samples(SAMPLES);
    }

    /** How the picture lies on the sky. */
    get frame() {
        const { projection, size } = this.page.view;
        return { projection, width: size[0], height: size[1], density: this.density };
    }

    /** What the marks show: how the second HiPS differs, or what the last publication changed. */
    get changes() {
        const { compare, live } = this.page;
        return compare.shown ? compare.differences : live.changes;
    }

    // ---- drawing

    /** Draws at the next frame, once for all that asked until then. */
    draw() {
        this.asked ??= requestAnimationFrame(() => {
            this.asked = null;
            this.drawNow();
        });
    }

    drawNow() {
        const begun = performance.now();
        const { view, switches, live, pointing, sources, catalogue, opened } = this.page;
        const generation = live.shown;
        this.place();
        this.lines.begin(view.projection, ...view.size, this.density);
        if (generation) this.drawSurvey(generation);
        if (switches.grid) this.lines.grid(view, switches.galactic, switches.hours);
        if (switches.compass && !view.projection.isWhole) this.lines.compass();
        if (pointing.mark) this.lines.way(arc(pointing.mark, pointing.sky ?? pointing.mark));
        if (pointing.isByKeys) this.lines.cross(pointing.at);
        if (!this.isMoving) sources.prepare();
        if (switches.catalogue) catalogue.draw(this.lines.brush, this.frame);
        opened.draw(this.lines, this.frame);
        this.page.drawn(generation);
        if (this.isMoving && !this.byGpu) this.pace(performance.now() - begun, begun - (this.last ?? begun));
        this.last = this.isMoving ? begun : undefined;
    }

    /** Larger squares where frames are slow and their drawing is much of it, smaller ones where it is quick. */
    pace(drawing, frame) {
        if (frame > SLOW_FRAME && drawing > QUICK_DRAWING) this.squares = Math.min(SQUARES.most, this.squares + 1);
        else if (drawing < QUICK_DRAWING / 2) this.squares = Math.max(SQUARES.least, this.squares - 1);
    }

    drawSurvey(generation) {
        const { view, scale, switches, opened, background, compare } = this.page;
        const { order, cells } = this.inView(generation);
        const layers = this.layers(generation);
        const shownScale = { ...scale, low: scale.low ?? 0, high: scale.high ?? 1 };
        const coverage = switches.coverage && generation.coverage;
        element("moving").hidden = !this.byGpu;
        if (this.byGpu) {
            this.gpu.draw(view.projection, ...view.size, { scale: shownScale, layers, cells: (at) => this.cellsOf(at), coverage });
        } else {
            this.read();
            const outlines = coverage ? [{ coverage, colour: OUTLINE }] : [];
            this.picture.paint(shownScale, [...outlines, ...opened.outlines], background.shown && background);
        }
        if (switches.cells) this.lines.cells(order ?? SKY_ORDER, order === null ? this.cellsOf(SKY_ORDER) : cells);
        if (switches.changes && this.changes) this.lines.changed(coarsened(this.changes));
        if (compare.shown) this.lines.curtain(compare.columnOf(view.size[0]), compare.second.address);
        if (layers.some(({ tiles }) => tiles.size > 0)) document.body.dataset.first ??= Math.round(performance.now());
    }

    /** Reads the values of the picture's pixels, once until it is another. */
    read() {
        const { live, compare, background, view, scaleControls } = this.page;
        if (this.isRead || !live.shown) return;
        this.isRead = true;
        const sources = [[live.shown, 0], [compare.shown, compare.columnOf(view.size[0]) / this.step]];
        for (const [generation, from] of sources) {
            if (generation && from < this.picture.width) this.picture.read(this.layers(generation), this.coverageFor(generation), Math.ceil(from));
        }
        const { shown } = background;
        if (shown) this.picture.read(this.layers(shown), this.coverageFor(shown), 0, this.picture.under);
        if (this.isMoving) return;
        if (shown) background.fit(this.picture.samples(SAMPLES, this.picture.under));
        compare.differ(live.shown, this.inView(live.shown));
        scaleControls.showSamples(this.picture.samples(SAMPLES));
    }
}
