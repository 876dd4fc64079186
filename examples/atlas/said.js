// What the page says beside the picture: its state, the scale, what stands at a point, the row of a source.

import { angleText, galacticText, positionText } from "./angles.js";
import { toGalactic } from "./frames.js";
import { toDegrees } from "./healpix.js";
import { measureText } from "./measure.js";
import { element, made, mark, say } from "./panel.js";
import { counted, facts, faultText, newsText } from "./words.js";

const RULER = 120;

/** The state of the survey and of the picture; `order` is null where the mosaic is shown. */
export function sayState({ live, isWhole, changes }, order) {
    const { fault, shown } = live;
    say("message", fault ? faultText(fault, shown) : "");
    element("message").hidden = !fault;
    const state = fault ? "away" : isWhole ? "whole" : "loading";
    mark({ state, generation: shown ? String(shown.prefix) : "", sure: state === "whole" && live.isSure ? "1" : "0" });
    const loading = live.isComing ? "next generation is coming" : "loading";
    say("state", { away: shown ? "no server" : "no survey", whole: "complete", loading }[state]);
    if (!shown) return;
    say("title", shown.properties.get("obs_title"));
    say("facts", facts(shown.properties));
    say("generation", `after ${counted(shown.prefix, "published edit")}`);
    say("shown", order === null ? "all-sky mosaic" : `tiles of order ${order}`);
    say("news", newsText(live.changes));
    say("changes-name", changes ? `What changed, order ${changes.order}` : "What changed");
}

export function sayCatalogue(catalogue) {
    element("has-catalogue").hidden = !catalogue.isThere;
    if (catalogue.isThere) say("catalogue-title", `${catalogue.title} (${counted(catalogue.count, "source")})`);
}

/** The scale bar, and how much of the sky the picture is wide and high. */
export function sayScale(view, density) {
    const { projection, size, turn } = view;
    const { angle, pixels } = view.ruler(RULER * density);
    const width = `${Math.round(pixels / density)}px`;
    if (element("scale-bar").style.width !== width) element("scale-bar").style.width = width;
    const field = projection.isWhole ? "whole sky" : size.map((side) => angleText(side * projection.pixel)).join(" × ");
    say("scale-text", `${angleText(angle)}, ${field}`);
    element("north").hidden = turn === 0;
}

/** The position of a direction, how far it is from a mark, and what stands there. */
export function sayPoint(sky, reading, { isGalactic, pixel, mark }) {
    const text = () => (isGalactic ? galacticText(toDegrees(toGalactic(sky)), pixel) : positionText(toDegrees(sky), pixel));
    say("position", sky ? text() : "");
    say("distance", sky && mark ? measureText(mark, sky) : "");
    say("value", reading?.text ?? "");
}

/** Says the same to screen readers, which aren't told of each move of a pointer. */
export function hearPoint() {
    say("heard", ["position", "distance", "value"].map((id) => element(id).textContent).filter((text) => text !== "").join("; "));
}

/** The leaf under the pointer can be saved, also once the pointer has gone to the button. */
export function sayTile(order, cell) {
    element("tile").hidden = false;
    Object.assign(element("tile").dataset, { order, cell });
    say("tile", `Save tile ${order}/${cell}`);
}

/** The row of a source that is picked, with units where they are known. */
export function saySource({ picked, units }) {
    element("source").hidden = !picked;
    element("source-row").replaceChildren(...(picked?.names ?? []).map((name, at) => {
        const unit = picked.values[at] ? units.get(name) : undefined;
        return made("tr", {}, made("th", { scope: "row" }, name), made("td", {}, [picked.values[at], unit].filter(Boolean).join(" ")));
    }));
}
