// The sources of all tables that are shown: a filter, their colours by a column, and a list of those in view.

import { shader, tableOf } from "./colours.js";
import { cutsOf } from "./cuts.js";
import { readFilter } from "./filter.js";
import { element, made, refuse, say } from "./panel.js";
import { counted } from "./words.js";

const MOST_LISTED = 200;
const ONE_COLOUR = "one colour";

export class SourcesPanel {
    /** `page` has `picks`, whose tables are shown, and `drawing`. */
    constructor(page) {
        Object.assign(this, { page, accepts: () => true, isListed: false });
    }

    connect() {
        element("filter").addEventListener("change", () => this.filter(element("filter").value));
        element("by").addEventListener("input", () => this.page.drawing.draw());
        element("list").addEventListener("click", () => {
            this.isListed = !this.isListed;
            element("list").setAttribute("aria-pressed", String(this.isListed));
            this.page.drawing.draw();
        });
    }

    filter(text) {
        const { accepts, fault = "" } = readFilter(text);
        refuse("filter", "filter-refused", fault);
        if (!fault) this.accepts = accepts;
        this.page.drawing.draw();
    }

    /** Tells the tables which rows they show and how these are coloured; before they are drawn. */
    prepare() {
        const { tables } = this.page.picks;
        const { frame } = this.page.drawing;
        element("sources-panel").hidden = tables.length === 0;
        for (const table of tables) Object.assign(table, { accepts: this.accepts, colourOf: null });
        const rows = tables.flatMap((table) => [...table.inView(frame)].map(([row]) => row));
        this.showColumns(rows);
        const colourOf = this.colours(rows);
        for (const table of tables) table.colourOf = colourOf;
        element("listed").hidden = !this.isListed || tables.length === 0;
        if (!element("listed").hidden) this.showRows(rows);
    }

    /** The columns that have numbers in view. */
    showColumns(rows) {
        const isNumber = (row, at) => row.values[at] !== "" && Number.isFinite(Number(row.values[at]));
        const names = [ONE_COLOUR, ...new Set(rows.slice(0, MOST_LISTED).flatMap((row) => row.names.filter((_, at) => isNumber(row, at))))];
        const key = names.join("\n");
        if (key === this.columns) return;
        this.columns = key;
        const chosen = element("by").value;
        element("by").replaceChildren(...names.map((name) => new Option(name)));
        element("by").value = names.includes(chosen) ? chosen : ONE_COLOUR;
    }

    /** The colour of a row by the chosen column, over what is in view; null for one colour. */
    colours(rows) {
        const name = element("by").value;
        if (name === ONE_COLOUR || name === "") return null;
        const valueOf = (row) => parseFloat(row.values[row.names.indexOf(name)]);
        const values = Float64Array.from(rows.map(valueOf).filter(Number.isFinite));
        const { low, high } = cutsOf(values, "90 %");
        const shade = shader({ low, high, stretch: "linear" });
        const table = new Uint8Array(tableOf({ colours: "viridis", isInverted: false }).buffer);
        return (row) => {
            const at = 4 * shade(valueOf(row));
            return Number.isNaN(at) ? "#888888" : `rgb(${table.subarray(at, at + 3).join()})`;
        };
    }

    showRows(rows) {
        const shown = rows.slice(0, MOST_LISTED);
        const names = [...new Set(shown.flatMap((row) => row.names))];
        const key = `${names} ${shown.map((row) => row.values).join()} ${rows.length}`;
        if (key === this.listed) return;
        this.listed = key;
        const more = rows.length > shown.length ? `, the first ${MOST_LISTED} of which are listed` : "";
        say("listed-count", `${counted(rows.length, "source")} marked in view${more}`);
        const head = made("tr", {}, made("td"), ...names.map((name) => made("th", { scope: "col" }, name)));
        element("rows").replaceChildren(head, ...shown.map((row) => {
            const go = made("button", { ariaLabel: `Go to ${row.values.join(" ")}`, onclick: () => this.page.picks.row(row) }, "Go");
            return made("tr", {}, made("td", {}, go), ...names.map((name) => made("td", {}, row.values[row.names.indexOf(name)] ?? "")));
        }));
    }
}
