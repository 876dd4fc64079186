// The controls beside the picture that set the view and what is shown over it, and how the page looks.

import { element, mark, remembered } from "./panel.js";
import { PARTS, WHOLES } from "./projections.js";

const ZOOM = 1.5;
const STYLES = { part: PARTS, whole: WHOLES };
const THEME = "atlas-theme";

export class Controls {
    /** `page` has `view`, `switches`, `motion`, `pointing`, `picks`, `scaleControls`, and `setSwitch(name, isOn)`. */
    constructor(page) {
        this.page = page;
    }

    connect() {
        const { motion, pointing, picks } = this.page;
        for (const name of Object.keys(this.page.switches)) element(name).addEventListener("input", () => this.page.setSwitch(name, element(name).checked));
        for (const [name, known] of Object.entries(STYLES)) {
            element(name).append(...Object.keys(known).map((kind) => new Option(kind)));
            element(name).addEventListener("input", () => motion.show({ [name]: element(name).value }));
        }
        element("galactic-up").addEventListener("input", () => motion.show({ isGalactic: element("galactic-up").checked }));
        const clicks = {
            nearer: () => motion.zoom(1 / ZOOM), farther: () => motion.zoom(ZOOM), all: () => motion.showWhole(), north: () => motion.turnNorth(),
            measure: () => pointing.measure(), copy: () => pointing.copy(), close: () => picks.none(), fold: () => this.fold(), dark: () => this.turnTheme(),
        };
        for (const [name, work] of Object.entries(clicks)) element(name).addEventListener("click", work);
        window.addEventListener("keydown", (event) => event.key === "Escape" && picks.none());
        this.show();
    }

    /** They show what is set. */
    show() {
        const { view, switches } = this.page;
        for (const name of Object.keys(switches)) element(name).checked = switches[name];
        for (const name of Object.keys(STYLES)) element(name).value = view[name];
        element("galactic-up").checked = view.isGalactic;
    }

    fold() {
        const isOpen = document.body.dataset.controls !== "open";
        mark({ controls: isOpen ? "open" : "" });
        element("fold").setAttribute("aria-expanded", String(isOpen));
    }

    turnTheme() {
        const theme = document.documentElement.dataset.theme === "dark" ? "light" : "dark";
        document.documentElement.dataset.theme = theme;
        remembered((storage) => storage.setItem(THEME, theme));
        this.page.scaleControls.showHistogram();
    }
}

/** Dark or light as it was the last time, or as the system is. */
export function beginTheme() {
    const isDark = window.matchMedia("(prefers-color-scheme: dark)").matches;
    document.documentElement.dataset.theme = remembered((storage) => storage.getItem(THEME)) ?? (isDark ? "dark" : "light");
}
