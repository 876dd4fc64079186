// The colours' controls: the two cuts, typed, drawn with sliders or fitted to what is shown; the stretch; the colour map.

import { COLOURS, shader, tableOf } from "./colours.js";
import { FITS, cutsOf } from "./cuts.js";
import { drawHistogram } from "./histogram.js";
import { short } from "./numbers.js";
import { element, refuse } from "./panel.js";
import { STRETCHES } from "./stretch.js";

const CUTS = ["low", "high"];
const CHOICES = { colours: COLOURS, stretch: Object.keys(STRETCHES) };
// A slider's step, as a part of the range between the cuts.
const STEPS = 1000;

export class ScaleControls {
    /** `page` has `scale`, `drawing`, and `scaled()`, called when a person has set something. */
    constructor(page) {
        this.page = page;
        this.samples = new Float64Array();
    }

    connect() {
        for (const [name, choices] of Object.entries(CHOICES)) {
            element(name).append(...choices.map((choice) => new Option(choice)));
            element(name).addEventListener("input", () => this.set({ [name]: element(name).value }));
        }
        element("fit").append(...Object.keys(FITS).map((name) => new Option(name)));
        element("fit").addEventListener("input", () => this.setFit());
        element("usual").addEventListener("click", () => this.setFit());
        element("inverted").addEventListener("input", () => this.set({ isInverted: element("inverted").checked }));
        for (const name of CUTS) {
            element(name).addEventListener("input", () => this.slide(name));
            element(`${name}-value`).addEventListener("change", () => this.typed(name));
        }
        this.show();
    }

    set(values) {
        Object.assign(this.page.scale, values);
        this.showLevels();
        this.page.scaled();
    }

    /** A slider is moved, up to the other cut. */
    slide(name) {
        const { low, high } = this.page.scale;
        const step = 10 ** Math.floor(Math.log10((high - low) / STEPS || 1));
        const value = Number(short(Math.round(Number(element(name).value) / step) * step));
        if (name === "low" ? value < high : value > low) this.set({ [name]: value });
        else element(name).value = this.page.scale[name];
    }

    /** A cut that is typed: any number, the lowest below the highest. */
    typed(name) {
        const text = element(`${name}-value`).value.trim().replace("−", "-");
        const value = Number(text);
        const cuts = { ...this.page.scale, [name]: value };
        let fault = "";
        if (text === "" || !Number.isFinite(value)) fault = `“${text}” is no number: a cut is written as -12.5 or 3e4.`;
        else if (cuts.low !== null && cuts.high !== null && cuts.low >= cuts.high) fault = "The lowest value must be below the highest.";
        refuse(`${name}-value`, "cut-refused", fault);
        if (fault) return;
        this.set({ [name]: value });
        this.show();
    }

    setFit() {
        this.fit();
        this.page.scaled();
    }

    /** Cuts that fit what is shown, where something is. */
    fit() {
        const samples = this.page.drawing.samples();
        if (samples.length === 0) return;
        const { low, high } = cutsOf(samples, element("fit").value || Object.keys(FITS)[0]);
        Object.assign(this.page.scale, { low: Number(short(low)), high: Number(short(high)) });
        this.show();
    }

    /** The sliders and lists show what is set. */
    show() {
        const { low, high, isInverted } = this.page.scale;
        const reach = ((high ?? 1) - (low ?? 0)) / 2 || 1;
        for (const name of CUTS) {
            Object.assign(element(name), { min: (low ?? 0) - reach, max: (high ?? 1) + reach, value: this.page.scale[name] ?? 0 });
        }
        for (const name of Object.keys(CHOICES)) element(name).value = this.page.scale[name];
        element("inverted").checked = isInverted;
        this.showLevels();
    }

    showLevels() {
        for (const name of CUTS) {
            element(`${name}-value`).value = this.page.scale[name] === null ? "" : short(this.page.scale[name]);
            refuse(`${name}-value`, "cut-refused", "");
        }
        const bar = element("colour-bar").getContext("2d");
        const image = bar.createImageData(256, 1);
        new Uint32Array(image.data.buffer).set(tableOf(this.page.scale));
        bar.putImageData(image, 0, 0);
        this.showHistogram();
    }

    /** Another part of the sky is shown, or more of it. */
    showSamples(samples) {
        this.samples = samples;
        this.showHistogram();
    }

    showHistogram() {
        const [from, to] = [Number(element("low").min), Number(element("low").max)];
        drawHistogram(element("histogram"), this.samples, [from, to], this.page.scale);
    }

    /** Marks a value in the bar of colours; NaN takes the mark away. */
    mark(value) {
        const mark = element("mark");
        mark.hidden = Number.isNaN(value) || this.page.scale.low === null;
        if (!mark.hidden) mark.style.left = `${(100 * shader(this.page.scale)(value)) / 255}%`;
    }
}
