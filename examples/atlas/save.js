// What is saved: the picture, a cut-out of the view, and the leaf that was pointed at.

import { positionText } from "./angles.js";
import { cutOut } from "./cutout.js";
import { askFile, tilePath } from "./files.js";
import { withCards } from "./fitsfile.js";
import { element, made, say } from "./panel.js";
import { tileCards } from "./wcs.js";

const KEPT = 10_000;

/** Saves a blob as a file of that name. */
function saveFile(blob, name) {
    const link = made("a", { href: URL.createObjectURL(blob), download: name });
    link.click();
    setTimeout(() => URL.revokeObjectURL(link.href), KEPT);
}

/** Canvases over each other on a ground, with a line of words at the top. */
export function pictureOf(canvases, [width, height], density, ground, words) {
    const canvas = made("canvas", { width, height });
    const brush = canvas.getContext("2d");
    brush.fillStyle = ground;
    brush.fillRect(0, 0, width, height);
    brush.imageSmoothingEnabled = false;
    for (const layer of canvases) brush.drawImage(layer, 0, 0, width, height);
    brush.font = `${12 * density}px sans-serif`;
    Object.assign(brush, { lineWidth: 3 * density, strokeStyle: "rgba(15, 18, 28, 0.7)", fillStyle: "#ffffff" });
    brush.strokeText(words, 8 * density, 16 * density);
    brush.fillText(words, 8 * density, 16 * density);
    return canvas;
}

/** The buttons that save. `page` has `view`, `drawing`, `live` and `address`, the survey's. */
export function connectSaves(page) {
    element("save").addEventListener("click", () => savePicture(page));
    element("cut-out").addEventListener("click", () => saveCutOut(page));
    element("tile").addEventListener("click", () => saveTile(page));
}

function savePicture({ view, drawing }) {
    const ground = getComputedStyle(document.documentElement).getPropertyValue("--paper");
    const words = ["title", "generation", "scale-text"].map((id) => element(id).textContent);
    words.push(positionText([view.ra, view.dec], view.projection.pixel));
    pictureOf([element("pixels"), element("lines")], view.size, drawing.density, ground, words.join(", ")).toBlob((blob) => saveFile(blob, "atlas.png"));
}

/** What is shown of the survey, as a FITS file. */
function saveCutOut({ view, drawing, live: { shown } }) {
    if (shown) saveFile(cutOut(view, drawing.layers(shown), drawing.coverageFor(shown), element("title").textContent), "cut-out.fits");
}

/** The leaf as the server has it, with cards that tell where it lies. */
async function saveTile({ address, live }) {
    const [order, cell] = ["order", "cell"].map((name) => Number(element("tile").dataset[name]));
    const path = tilePath(order, cell);
    const bytes = await askFile(address, path).catch(() => null);
    if (bytes) saveFile(withCards(bytes, tileCards(order, cell, live.shown.width)), path.replaceAll("/", "_"));
    say("understood", bytes ? `${path} is saved.` : `The server has no tile ${order}/${cell}.`);
}
