// Names of objects, by a service that answers as Sesame of the CDS does: `ADDRESS?NAME` is an XML with the first resolver's position.
// The page asks none unless its index.html names one (data-resolver), whose origin its Content-Security-Policy must then allow.

import { writePosition } from "./position.js";

const PATIENCE = 10_000;

/** The position of an object: {ra, dec, text}; or {fault}, in words. */
export async function resolve(address, name) {
    const reply = await fetch(`${address}?${encodeURIComponent(name)}`, { signal: AbortSignal.timeout(PATIENCE) }).catch(() => null);
    if (!reply?.ok) return { fault: `The service that knows the names of objects ${reply ? `answers by ${reply.status}` : "can't be reached"}.` };
    return readSesame(await reply.text(), name);
}

export function readSesame(text, name) {
    const answer = new DOMParser().parseFromString(text, "text/xml");
    const [ra, dec] = ["jradeg", "jdedeg"].map((tag) => parseFloat(answer.querySelector(`Resolver > ${tag}`)?.textContent));
    if (!(ra >= 0 && ra < 360 && Math.abs(dec) <= 90)) return { fault: `No object is known as “${name}”.` };
    const known = answer.querySelector("Resolver > oname")?.textContent.trim();
    return { ra, dec, text: writePosition([ra, dec]), name: known || name };
}
