// The box in which a position is written, or a name where a resolver is known.

import { element, refuse, say } from "./panel.js";
import { readPosition } from "./position.js";
import { resolve } from "./resolver.js";

/** `page` has `isGalactic()` and `found(ra, dec)`. */
export function connectSearch(resolver, page) {
    let asked = 0;
    if (resolver) Object.assign(element("place"), { placeholder: "RA Dec, or a name" });
    element("place").addEventListener("input", () => refuse("place", "refused", ""));
    element("go").addEventListener("submit", async (event) => {
        event.preventDefault();
        const text = element("place").value;
        const mine = ++asked;
        let found = readPosition(text, page.isGalactic());
        if (found.isName && resolver) found = await resolve(resolver, text.trim());
        if (mine !== asked) return;
        refuse("place", "refused", found.fault ?? "");
        if (found.fault) return;
        // The box has what was understood; written once more, that leads to the same place.
        element("place").value = found.text;
        say("understood", found.name ? `${found.name}: ${found.text}` : found.text);
        page.found(found.ra, found.dec);
    });
}
