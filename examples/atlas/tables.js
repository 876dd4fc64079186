// Tables of sources from disk: a VOTable with its data inline (TABLEDATA), or text with commas, semicolons or tabs.

import { fromDegrees } from "./healpix.js";
import { readPosition } from "./position.js";

const UCDS = [/^pos\.eq\.ra(;|$)|^POS_EQ_RA/, /^pos\.eq\.dec(;|$)|^POS_EQ_DEC/];
const NAMES = [/^_?ra(_?j2000|_?icrs|_?deg)?$|^alpha(_j2000)?$/i, /^_?de(c|j2000|c?_?icrs|c?_?deg|cj2000)?$|^delta(_j2000)?$/i];

/** Why a file isn't shown. */
export class FileFault extends Error {}

/** A table: {names, units, rows}, where each row has {names, values, direction}. */
export function readTable(text) {
    return /^\s*<(\?xml|VOTABLE)/i.test(text) ? readVotable(text) : readSeparated(text);
}

function readVotable(text) {
    const file = new DOMParser().parseFromString(text, "text/xml");
    const all = (name, within = file) => [...within.getElementsByTagNameNS("*", name)];
    const [table] = all("TABLE");
    if (!table || all("parsererror").length > 0) throw new FileFault("It is no VOTable that can be read.");
    const [data] = all("TABLEDATA", table);
    if (!data) throw new FileFault("Its data aren't inline: save it as a VOTable with TABLEDATA.");
    const fields = all("FIELD", table);
    const names = fields.map((field) => field.getAttribute("name") ?? "");
    const byUcd = UCDS.map((ucd) => fields.findIndex((field) => ucd.test(field.getAttribute("ucd") ?? "")));
    const lines = all("TR", data).map((row) => all("TD", row).map((cell) => cell.textContent.trim()));
    const units = fields.filter((field) => field.hasAttribute("unit")).map((field) => [field.getAttribute("name"), field.getAttribute("unit")]);
    return { names, units: new Map(units), rows: rowsOf(names, lines, byUcd) };
}

function readSeparated(text) {
    const [head, ...lines] = text.split(/\r?\n/).filter((line) => line.trim() !== "" && !line.startsWith("#"));
    if (head === undefined) throw new FileFault("It has no lines.");
    const separator = ["\t", ";", ","].find((one) => head.includes(one));
    if (!separator) throw new FileFault("Its first line names no columns with commas, semicolons or tabs between them.");
    const names = fieldsOf(head, separator);
    return { names, units: new Map(), rows: rowsOf(names, lines.map((line) => fieldsOf(line, separator)), [-1, -1]) };
}

/** The fields of a line; one in quotes may have separators, and doubled quotes. */
function fieldsOf(line, separator) {
    const fields = [];
    const isOpen = (field) => field?.startsWith('"') && field.split('"').length % 2 === 0;
    for (const piece of line.split(separator)) {
        if (isOpen(fields.at(-1))) fields.push(fields.pop() + separator + piece);
        else fields.push(piece.trim());
    }
    return fields.map((field) => (/^"(.*)"$/.exec(field)?.[1] ?? field).replaceAll('""', '"'));
}

/** The rows that have a position, by columns of these places, or by their names. */
function rowsOf(names, lines, places) {
    const [ra, dec] = places.map((place, axis) => (place >= 0 ? place : names.findIndex((name) => NAMES[axis].test(name))));
    if (ra < 0 || dec < 0) throw new FileFault(`It has no columns of a position, as ra and dec, among ${names.join(", ")}.`);
    return lines.flatMap((values) => {
        const direction = directionOf(values[ra] ?? "", values[dec] ?? "");
        return direction ? [{ names, values, direction }] : [];
    });
}

function directionOf(ra, dec) {
    if (ra === "" || dec === "") return null;
    const [along, above] = [Number(ra), Number(dec)];
    if (Number.isFinite(along) && Number.isFinite(above)) return Math.abs(above) <= 90 ? fromDegrees(along, above) : null;
    const found = readPosition(`RA ${ra} Dec ${dec}`);
    return found.fault ? null : fromDegrees(found.ra, found.dec);
}
