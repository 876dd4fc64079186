"""What the modules of the atlas page do that draw or have a state, each alone in the browser: on a page that has the atlas's elements and
not its script, with what it asks of others made here. atlas-client.py calls `parts`, and says what `trial` is. What the other modules
answer is in atlas_modules.py.
"""

import io

import healpy
import numpy
from astropy.coordinates import SkyCoord
from astropy.io import fits
from astropy.wcs import WCS

RUN = """
const [words, done] = arguments, load = (name) => import(`/atlas/${name}.js`), element = (id) => document.getElementById(id);
const later = (milliseconds) => new Promise((resume) => setTimeout(resume, milliseconds));
const input = (id, value, kind = "input") => { Object.assign(element(id), { value }).dispatchEvent(new Event(kind)); };
load("MODULE").then(async (it) => { BODY }).then(done, (fault) => done({ fault: String(fault.stack) }));
"""
# A survey whose leaves have one number each, as a function that answers paths by files.
FAKE = """
const { imageFile } = await load("fitsfile"), { partOf } = await load("healpix");
const fake = ({ order, bits, least, leaves }) => {
    const valueAt = (pixelOrder, pixel) => {
        if (pixelOrder >= order) return leaves.get(Math.floor(pixel / 4 ** (pixelOrder - order))) ?? NaN;
        const count = 4 ** (order - pixelOrder);
        const some = Array.from({ length: count }, (_, at) => leaves.get(pixel * count + at)).filter((value) => value !== undefined);
        return some.length > 0 ? some.reduce((sum, value) => sum + value, 0) / some.length : NaN;
    };
    const places = new Map();
    const placesOf = (bits) => {
        const side = 2 ** bits, placeOf = ([, x, y]) => (side - 1 - x) * side + y;
        if (!places.has(bits)) places.set(bits, Uint32Array.from({ length: side * side }, (_, at) => placeOf(partOf(bits, at))));
        return places.get(bits);
    };
    // Pixels that are next to one another in nested order have one number where they are of one leaf.
    const tile = (pixelOrder, bits, cell) => {
        const count = 4 ** bits, numbers = new Float32Array(count), run = 4 ** Math.min(bits, Math.max(0, pixelOrder - order)), of = placesOf(bits);
        for (let first = 0; first < count; first += run) {
            const value = valueAt(pixelOrder, cell * count + first);
            for (let at = first; at < first + run; at++) numbers[of[at]] = value;
        }
        return numbers;
    };
    const mosaic = () => {
        const bitsOfSky = Math.min(bits, 6), side = 2 ** bitsOfSky, numbers = new Float32Array(27 * 29 * side * side).fill(NaN);
        for (let cell = 0; cell < 768; cell++) {
            const part = tile(3 + bitsOfSky, bitsOfSky, cell), left = (cell % 27) * side, bottom = (28 - Math.floor(cell / 27)) * side;
            for (let line = 0; line < side; line++) numbers.set(part.subarray(line * side, (line + 1) * side), (bottom + line) * 27 * side + left);
        }
        return imageFile(numbers, [27 * side, 29 * side], []);
    };
    const coverage = () => {
        const card = (name, value) => `${name.padEnd(8)}= ${value}`.padEnd(80);
        const head = (cards) => [...cards.map(([name, value]) => card(name, value)), "END".padEnd(80)].join("").padEnd(2880);
        const table = new DataView(new ArrayBuffer(8 * leaves.size));
        [...leaves.keys()].forEach((leaf, at) => table.setBigInt64(8 * at, BigInt(4 * 4 ** order + leaf)));
        return new Blob([head([["SIMPLE", "T"]]), head([["NAXIS2", leaves.size], ["TFORM1", "'1K'"], ["ORDERING", "'NUNIQ'"], ["MOCORDER", order]]), table]);
    };
    return async (path) => {
        if (path === "properties") return new TextEncoder().encode(`obs_title=Fake\\nhips_order=${order}\\nhips_order_min=${least}\\nhips_tile_width=${2 ** bits}\\nsurvey_bitpix=-32\\nhips_tile_format=fits\\n`).buffer;
        if (path === "Moc.fits") return coverage().arrayBuffer();
        if (path === "Norder3/Allsky.fits") return mosaic().arrayBuffer();
        const [, own, cell] = /Norder(\\d+)\\/Dir\\d+\\/Npix(\\d+)/.exec(path).map(Number);
        return imageFile(tile(own + bits, bits, cell), [2 ** bits, 2 ** bits], []).arrayBuffer();
    };
};
const isSame = (one, other) => one.numbers.every((number, at) => Object.is(number, other.numbers[at]));
"""
# A view of the sky and the page's parts that others ask, of which none does anything but note what it was asked for.
PAGE = """
const { View } = await load("view"), calls = [];
const noting = (name, methods, more = {}) => Object.assign(Object.fromEntries(methods.map((method) => [method, (...all) => { calls.push([name, method, ...all]); }])), more);
const view = new View();
view.resize([400, 300]);
view.moveTo({ ra: 80, dec: 20, width: 30 });
const page = {
    view, switches: { galactic: false, catalogue: true, grid: true }, others: { second: "", background: "" },
    scale: { low: 0, high: 100, stretch: "linear", colours: "grey", isInverted: false },
    drawing: noting("drawing", ["draw", "moved", "changed", "measure"], { density: 1, frame: { projection: view.projection, width: 400, height: 300, density: 1 } }),
    motion: noting("motion", ["drag", "zoom", "moveTo", "show", "showWhole", "turnNorth", "goTo"]),
    pointing: noting("pointing", ["point", "byKeys", "measure", "copy"], { at: null }),
    picks: noting("picks", ["at", "row", "none"], { tables: [] }),
    scaleControls: noting("scaleControls", ["mark", "showHistogram", "showSamples"]),
    compare: { shown: null, columnOf: (width) => width, differ() {} }, background: { shown: null }, live: { shown: null, changes: null },
    opened: { tables: [], outlines: [], draw() {} }, catalogue: { isThere: false, picked: null, units: new Map(), draw() {} },
    ...noting("page", ["setSwitch", "settled", "returned", "scaled", "drawn"]),
};
"""


def run(trial, module, body, words=None):
    """What a script answers that has the module as `it`."""
    script = RUN.replace("MODULE", module).replace("BODY", body)
    found = trial.browser.execute_async_script(script, words)
    if isinstance(found, dict) and "fault" in found:
        trial.blame(f"{module}.js:", found["fault"])
    return found


def expect(trial, module, what, found, expected):
    if found != expected:
        trial.blame(f"{module}.js: {what} gives {found} in place of {expected}")


def parts(trial):
    for part in (panel, files, coverages, words_said, said, layers, surveys, patches, live, seconds, compares, backgrounds, catalogues, marks, picks, sources, opened,
                 pictures, cut_outs, lines, webgl, drawing, motion, gestures, pointing, scale, searches, saves, controls, visits):
        trial.browser.get(f"{trial.base}/still")
        part(trial)


# ---- words and elements

def panel(trial):
    found = run(trial, "panel", """
        it.say("news", "one"); it.mark({ state: "x" }); it.refuse("place", "refused", "no");
        const isRefused = element("place").getAttribute("aria-invalid");
        it.refuse("place", "refused", "");
        const row = it.made("tr", { className: "a" }, it.made("td", {}, "<b>"), "two");
        return [element("news").textContent, document.body.dataset.state, isRefused, element("place").getAttribute("aria-invalid"), element("refused").textContent,
            row.outerHTML, it.remembered(() => { throw new Error(); })];""")
    expect(trial, "panel", "each", found, ["one", "x", "true", None, "", '<tr class="a"><td>&lt;b&gt;</td>two</tr>', None])


def files(trial):
    found = run(trial, "files", """
        const replies = { ok: ["12", 200], none: ["12", 404], other: [null, 200], broken: ["12", 503] }, asked = [];
        window.fetch = async (path) => {
            const [prefix, status] = replies[path.split("/")[1]];
            return new Response("body", { status, headers: prefix === null ? {} : { "Survey-Prefix": prefix } });
        };
        const said = (fault) => fault.message;
        for (const path of Object.keys(replies)) asked.push(await it.ask("at", path).then(({ prefix, bytes }) => [prefix, bytes?.byteLength ?? null], said));
        window.fetch = () => Promise.reject(new Error());
        return [...asked, await it.askFile("at", "ok").catch(said), it.tilePath(5, 12345), [...it.readProperties("a = b=c\\n# no\\n d=")]];""")
    expect(trial, "files", "replies", found, [[12, 4], [12, None], "The reply for other has no Survey-Prefix: there is no hipsd at at.", "The server answers broken by 503 .",
                                              "The server can't be reached.", "Norder5/Dir10000/Npix12345.fits", [["a", "b=c"], ["d", ""]]])


def coverages(trial):
    """Sets of cells, as Python has them."""
    chance = numpy.random.default_rng(4)
    one, other = ({int(cell) for cell in chance.choice(768, 200, replace=False)} for _ in range(2))
    found = run(trial, "coverage", """
        const [one, other] = words.map((cells) => new it.Coverage({ order: 3, cells }));
        const touched = (order) => Array.from({ length: 12 * 4 ** order }, (_, cell) => cell).filter((cell) => one.touches(order, cell));
        return [[...one], [...one.with(other)], [...one.differences(other)], [...one.at(1)], touched(2), touched(4), one.count, [...one.with(new it.Coverage({ order: 1, cells: [5] })).at(1)].length];
    """, [sorted(one), sorted(other)])
    above = sorted({cell // 16 for cell in one})
    expected = [sorted(one), sorted(one | other), sorted(one ^ other), above, sorted({cell // 4 for cell in one}), sorted(4 * cell + at for cell in one for at in range(4)), 200, len({*above, 5})]
    expect(trial, "coverage", "sets of cells", found, expected)


def words_said(trial):
    found = run(trial, "words", """
        const { Image } = await load("fits"), { Layer } = await load("layers"), { locate, fromDegrees } = await load("healpix");
        const image = (scale) => new Image(2, 2, Int16Array.from([1, 2, 3, -9]), { scale, zero: 0, blank: -9 });
        const place = locate(fromDegrees(45, 0.1), {});
        const at = (layers, coverage) => it.readingOf(layers, coverage, place);
        const texts = [1, 0.5].map((scale) => at([new Layer(0, 1, new Map([[0, image(scale)], [4, image(scale)]]))], null).text);
        return [it.counted(1, "edit"), it.counted(1234, "edit"), it.newsText({ order: 4, cells: [1, 2], isWhole: false }), it.newsText(null), it.faultText({ message: "M." }, { prefix: 1 }),
            texts.map((text) => /: (.*)$/.exec(text)[1]), at([new Layer(0, 1)], { touches: () => false }).text.endsWith("no data")];""")
    pixel = int(healpy.ang2pix(2, 45, 0.1, nest=True, lonlat=True))
    stored = {0: 3, 1: 1, 2: -9, 3: 2}[pixel % 4]
    texts = ["blank", "blank"] if stored == -9 else [str(stored), f"{stored / 2:g} (raw {stored})"]
    expect(trial, "words", "what is said", found, ["1 edit", "1,234 edits", "The last publication changed 2 tiles of order 4 in view.", "",
                                                   "M. What is shown is the survey after 1 published edit. It is asked again each second.", texts, True])


def said(trial):
    found = run(trial, "said", PAGE + """
        it.sayScale(view, 1);
        const scale = [element("scale-text").textContent, element("scale-bar").style.width];
        const properties = new Map(Object.entries({ obs_title: "T", survey_bitpix: "16", survey_leaves: "5", hips_order: "4", hips_tile_width: "64" }));
        const states = [[null, true], [null, false], [{ message: "F." }, true]].map(([fault, isWhole]) => {
            it.sayState({ live: { fault, shown: { prefix: 2, properties }, isSure: true, isComing: false, changes: null }, isWhole, changes: null }, 4);
            return [document.body.dataset.state, element("state").textContent, element("message").hidden, document.body.dataset.sure];
        });
        const { fromDegrees } = await load("healpix");
        it.sayPoint(fromDegrees(80, 20), { text: "v" }, { isGalactic: false, pixel: 0.1, mark: fromDegrees(80, 21) });
        it.hearPoint();
        it.sayTile(4, 7);
        it.saySource({ picked: { names: ["a", "b", "c"], values: ["1", "x", ""] }, units: new Map([["a", "mag"], ["c", "s"]]) });
        return [scale, states, element("title").textContent, element("shown").textContent, element("heard").textContent, element("tile").textContent, element("tile").hidden,
            [...element("source-row").rows].map((row) => [...row.cells].map((cell) => cell.textContent)), element("source").hidden];""")
    states = [["whole", "complete", True, "1"], ["loading", "loading", True, "0"], ["away", "no server", False, "0"]]
    heard = "RA 80.00°  Dec +20.00°   (5h 20m 0.0s, +20° 0′ 0″); 1° from the mark, to 180.0°; v"
    pixel = -picture_wcs().wcs.cdelt[0]
    expect(trial, "said", "each", found, [[f"5°, {400 * pixel:.1f}° × {300 * pixel:.1f}°", f"{round(5 / pixel)}px"], states, "T", "tiles of order 4", heard, "Save tile 4/7", False,
                                          [["a", "1 mag"], ["b", "x"], ["c", ""]], False])


# ---- surveys

def layers(trial):
    """A mosaic that is patched by tiles of each order is the mosaic of what they show."""
    found = run(trial, "layers", FAKE + """
        const { readImage } = await load("fits");
        const answers = [];
        for (const [bits, order] of [[6, 3], [7, 2], [8, 1], [9, 0]]) {
            const leaves = new Map(Array.from({ length: 40 }, (_, at) => [at * 19, at]));
            const skyOf = async () => it.skyOf(readImage(await fake({ order: 3, bits, least: 0, leaves })("Norder3/Allsky.fits")), 6);
            const before = await skyOf();
            const cells = [5, 700].map((cell) => Math.floor(cell / 4 ** (3 - order)));
            leaves.set(5, 1000).delete(19 * 36);
            const now = await skyOf(), layer = new it.Layer(order, bits);
            for (const cell of cells) layer.tiles.set(cell, readImage(await fake({ order: 3, bits, least: 0, leaves })(`Norder${order}/Dir0/Npix${cell}.fits`)));
            const patched = it.patchedSky(before, layer, [...new Set([...cells, Math.floor((19 * 36) / 4 ** (3 - order))])].filter((cell) => order < 3 || cell !== 19 * 36 || layer.tiles.delete(cell) || true));
            const part = it.skyOfTile(order, cells[0], layer.tiles.get(cells[0]), 6);
            answers.push([isSame(patched.mosaic, now.mosaic), [...now.tiles].every(([cell, tile]) => isSame(tile, patched.tiles.get(cell))), part.tiles.size, isSame(part.tiles.get(5), now.tiles.get(5))]);
        }
        return answers;""")
    expect(trial, "layers", "a patched mosaic", found, [[True, True, 4 ** (3 - order), True] for order in (3, 2, 1, 0)])


def surveys(trial):
    """Files come by stages: coarse tiles, those of the view; in time those out of view are forgotten."""
    found = run(trial, "survey", FAKE + """
        const leaves = new Map(Array.from({ length: 256 }, (_, leaf) => [leaf, leaf])), get = fake({ order: 4, bits: 4, least: 0, leaves });
        const one = new it.Generation(3), view = { order: 4, cells: [0, 5, 300] }, stages = [];
        await one.open(get);
        for (let next = one.lacking(view); next.length > 0; next = one.lacking(view)) {
            stages.push(next.map(({ order, cell, isCoarse }) => [order, cell, isCoarse ?? false]));
            await Promise.all(next.map((file) => one.fetch(get, file)));
        }
        const shown = one.shownBy(4).map(({ order }) => order);
        one.tidy({ order: 4, cells: [5] }, 1);
        const sky = one.lacking({ order: null, cells: [] }).map(({ order }) => order);
        const other = new it.Generation(4);
        const fault = await other.open(async (path) => (path === "Moc.fits" ? null : get(path))).catch(({ message }) => message);
        return [stages, shown, [...one.layer(4).tiles.keys()], sky.length, sky[0], one.number("hips_order"), one.number("none"), fault];""")
    expect(trial, "survey", "stages", found, [[[[2, 0, True]], [[4, 0, False], [4, 5, False]]], [4, 2], [5], 1, 0, 4, None, "There is no Moc.fits."])


# How many edits, what they change, and how many tiles are looked at: of the whole sky and of a view, of tiles 512 and 64 pixels wide.
# A stands in the view, B is in another tile, C is out of view and in another tile of order 0, D is no leaf yet.
STEPS = [
    ("A", 1, [["A", 1]], {"sky 9": 2, "part 9": 2, "sky 6": 3, "part 6": 2}),
    ("A again, which is guessed", 1, [["A", 2]], {"sky 9": 1, "part 9": 1, "sky 6": 1, "part 6": 1}),
    ("B in its place, where the guess is wrong", 1, [["B", 3]], {"sky 9": 1, "part 9": 3, "sky 6": 4, "part 6": 3}),
    ("A and B", 2, [["A", 4], ["B", 5]], {"sky 9": 1, "part 9": 3, "sky 6": 4, "part 6": 3}),
    ("a leaf comes, as the coverage tells", 1, [["D", 6]], {"sky 9": 1, "part 9": 1, "sky 6": 1, "part 6": 1}),
    ("and goes", 1, [["D", None]], {"sky 9": 1, "part 9": 0, "sky 6": 1, "part 6": 0}),
    ("C", 1, [["C", 7]], None),
    ("A twice", 2, [["A", 8]], None),
    ("nothing that is seen", 1, [], None),
]


def patches(trial):
    """After each publication the picture is what a page that is opened anew shows, and as few tiles as that takes were fetched."""
    body = FAKE + """
        const { Generation } = await load("survey"), [steps, bits, order, kind] = words, answers = [];
        const face = 4 ** order, places = { A: face + 6, B: face + 10, C: 2 * face + 1, D: face + 11 };
        const leaves = new Map(Array.from({ length: 3 * face }, (_, leaf) => [leaf, leaf % 50]).filter(([leaf]) => leaf % 5 < 3 || [places.A, places.B, places.C].includes(leaf)));
        leaves.delete(places.D);
        const view = kind === "sky" ? { order: null, cells: [] } : { order, cells: [5, 6, 7, 9, 10, 11].map((at) => face + at) };
        const filled = async (prefix, earlier) => {
            const asked = [], get = (path) => { asked.push(path); return fake({ order, bits, least: 0, leaves })(path); };
            const now = new Generation(prefix, earlier);
            await now.open(get);
            for (let [next] = now.lacking(view); next; [next] = now.lacking(view)) await now.fetch(get, next);
            now.patch?.end(view);
            return [now, asked.length - 2];
        };
        let [shown] = await filled(0), prefix = 0;
        for (const [, edits, changes] of steps) {
            for (const [place, value] of changes) { if (value === null) leaves.delete(places[place]); else leaves.set(places[place], 100 + value); }
            const [now, count] = await filled(prefix += edits, shown), [anew] = await filled(prefix);
            const tiles = (one) => (kind === "sky" ? one.sky.tiles : one.layer(order).tiles);
            const isRight = (kind === "part" || isSame(now.sky.mosaic, anew.sky.mosaic)) && [...tiles(anew)].every(([cell, tile]) => isSame(tile, tiles(now).get(cell)));
            answers.push([isRight, count, now.unsure.size]);
            shown = now;
        }
        return answers;"""
    for bits, order in ((9, 3), (6, 4)):
        for kind in ("sky", "part"):
            answers = run(trial, "patch", body, [STEPS, bits, order, kind])
            for (what, edits, _, counts), (is_right, count, unsure) in zip(STEPS, answers):
                expected = counts and counts[f"{kind} {bits}"]
                if not is_right or (counts and (count, unsure) != (expected, 0)):
                    trial.blame(f"patch.js: {kind}, tiles of 2^{bits}, {what}: {'right' if is_right else 'WRONG'}, by {count} files, {unsure} unsure, in place of {expected}")


def live(trial):
    """One generation after another; replies of an older one; a server that is away, and one that began anew; all of the sky at most every ten seconds."""
    found = run(trial, "live", FAKE + """
        const leaves = new Map(Array.from({ length: 12 * 64 }, (_, leaf) => [leaf, leaf])), survey = { order: 3, bits: 4, least: 3, leaves };
        let prefix = 0, isThere = true, forward = 0, mosaics = 0;
        window.fetch = async (path) => {
            if (!isThere) throw new Error();
            mosaics += path.endsWith("Allsky.fits");
            return new Response(await fake(survey)(path.slice(3)), { headers: { "Survey-Prefix": prefix } });
        };
        const now = performance.now.bind(performance);
        performance.now = () => now() + forward;
        const view = { order: 3, cells: [7, 8] }, opened = [];
        const one = new it.Live("at", { inView: () => view, opened: (generation) => opened.push(generation.prefix), changed() {} });
        const looked = async (isDone = () => one.isWhole) => {
            await one.look();
            for (let times = 0; times < 100 && !isDone(); times++) await later(10);
            return [one.shown.prefix, one.isWhole, one.fault?.message ?? "", one.changes?.cells ?? null];
        };
        const said = [await looked()];
        leaves.set(8, 99); prefix = 1; said.push(await looked());
        prefix = 0; said.push(await looked(), await looked(), await looked()); prefix = 1; said.push(await looked());
        isThere = false; said.push(await looked(() => one.fault)); isThere = true; said.push(await looked());
        prefix = 0; for (let times = 0; times < 3; times++) await looked(); said.push(await looked(() => one.isWhole && one.shown.prefix === 0));
        Object.assign(view, { order: null, cells: [] }); one.viewed(); await looked();
        leaves.set(8, 7); prefix = 2; said.push(await looked(() => one.isComing && !one.coming.isFilling && one.coming.coverage));
        said.push([one.isComing, mosaics]); forward = 10_000; said.push(await looked(() => one.isWhole), mosaics);
        return [opened, said];""")
    ok = lambda prefix, changes=None: [prefix, True, "", changes]  # noqa: E731
    away = [1, False, "The server can't be reached.", [8]]
    expect(trial, "live", "what is shown", found, [[0], [ok(0), ok(1, [8]), ok(1, [8]), ok(1, [8]), ok(1, [8]), ok(1, [8]), away, ok(1), ok(0), [0, False, "", None], [True, 1], ok(2, [8]), 2]])


# ---- other HiPS and sources

def seconds(trial):
    """A HiPS without Moc.fits and with few tiles; one whose tiles are pictures, one from elsewhere, and one that isn't there."""
    found = run(trial, "second", FAKE + PAGE + """
        const leaves = new Map([[5, 1]]), asked = [], get = fake({ order: 3, bits: 4, least: 3, leaves });
        let format = "fits";
        window.fetch = async (path) => {
            asked.push(path);
            if (path.startsWith("/none/") || path.endsWith("Moc.fits") || path.endsWith("Npix6.fits")) return new Response("", { status: 404 });
            const bytes = await get(path.slice("/past/".length));
            return new Response(path.endsWith("properties") ? new TextDecoder().decode(bytes).replace("=fits", `=${format}`) : bytes);
        };
        const shown = { inView: () => ({ order: 3, cells: [5, 6] }), changed() {}, opened: (name, path) => calls.push([name, path]) };
        const form = new it.SecondForm("second", shown), said = [];
        form.connect();
        for (const [path, kind] of [["/past/", "fits"], ["/past", "png"], ["https://elsewhere.example/hips", "fits"], ["/none", "fits"], ["", "fits"]]) {
            format = kind;
            input("second", path);
            element("second-form").requestSubmit();
            for (let times = 0; times < 60 && !(form.isWhole && (form.shown || form.second?.fault || !form.second)); times++) await later(10);
            said.push([form.shown !== null && [...form.shown.layer(3).tiles.keys()], form.isWhole, element("second-refused").textContent, element("second-shown").hidden]);
        }
        return [said, calls, asked.filter((path) => path.includes("Npix")).length];""")
    refused = "A second HiPS is shown from this server only: write its path, as /past."
    said = [[[5], True, "", False], [False, True, "/past: Its tiles are png, and this page reads FITS.", True], [False, True, refused, True],
            [False, True, "/none: There is no properties file.", True], [False, True, "", True]]
    expect(trial, "second", "each", found, [said, [["second", path] for path in ("/past/", "/past", "https://elsewhere.example/hips", "/none", "")], 2])


def compares(trial):
    found = run(trial, "compare", """
        const one = new it.Compare({ changed() {}, opened() {}, inView: () => ({ order: 3, cells: [] }) }), said = [];
        one.connect();
        said.push(one.columnOf(200));
        const shown = { order: 3, width: 16, lacking: () => [] };
        one.second = { shown, isWhole: true, fault: "" };
        for (const part of [50, 0, 100]) { input("curtain", part); said.push(one.columnOf(200)); }
        one.blink(true); said.push(one.columnOf(200)); one.takeTurn(); said.push(one.columnOf(200)); one.blink(false);
        const changes = { order: 3, cells: [1, 2], isWhole: false };
        one.differ({ order: 3, width: 16, changesSince: () => changes }, {}); said.push(element("differs").textContent, one.differences);
        one.differ({ order: 4, width: 16 }, {}); said.push(element("differs").textContent);
        return said;""")
    expect(trial, "compare", "each", found, [200, 100, 0, 200, 200, 0, "2 tiles of order 3 differ in view.", {"order": 3, "cells": [1, 2]},
                                             "Its orders or tiles are others, so no differences are marked."])


def backgrounds(trial):
    found = run(trial, "background", """
        const one = new it.Background({ changed() {}, opened() {} });
        one.connect();
        one.fit(Float64Array.from({ length: 1001 }, (_, at) => at));
        input("opacity", 30);
        return [one.scale.low, one.scale.high, one.opacity];""")
    expect(trial, "background", "cuts and opacity", numpy.round(found, 6).tolist(), [*numpy.percentile(numpy.arange(1001), (0.5, 99.5)), 0.3])


CATALOGUE = {"properties": "dataproduct_type=catalog\nhips_order=3\nobs_title=Made\nhips_cat_nrows=4", "metadata.xml": '<VOTABLE><FIELD name="mag" unit="mag"/></VOTABLE>',
             "Norder1/Allsky.tsv": "# made\nra\tdec\tmag\n80\t20\t1\n81\t21\t2\n200\t0\t3\n", "Norder2/Allsky.tsv": "ra\tdec\tmag\n82\t22\t4\n"}


def catalogues(trial):
    """Coarse orders first; of several sources in a cell the first one comes first; marks stand where wcslib has the sources."""
    found = run(trial, "catalogue", PAGE + """
        const [texts] = words, asked = [];
        window.fetch = async (path) => { asked.push(path.slice(3)); return new Response(texts[path.slice(3)] ?? "", { status: path.slice(3) in texts ? 200 : 404 }); };
        const one = new it.Catalogue("at", () => {});
        await one.open();
        await one.view(() => [1, 2]);
        const rows = [...one.inView(page.drawing.frame)];
        window.fetch = async () => new Response("", { status: 404 });
        const none = new it.Catalogue("at", () => {});
        await none.open();
        return [asked.sort(), one.isThere, one.title, one.count, one.units.get("mag"), rows.map(([{ values }]) => values[2]), rows.map(([, at]) => at), rows.map(([row]) => one.radiusOf(row)), none.isThere];""", [CATALOGUE])
    places = picture_wcs().all_world2pix([80, 82, 81], [20, 22, 21], 0)
    asked = sorted([*CATALOGUE, "Norder3/Dir0/Npix1.tsv", "Norder3/Dir0/Npix2.tsv"])
    if found[:5] != [asked, True, "Made", 4, "mag"] or sorted(found[5]) != ["1", "2", "4"] or found[5][0] != "1" or found[7] != [5.5, 5.5, 4.5] or found[8]:
        trial.blame("catalogue.js:", found)
    order = [["1", "4", "2"].index(value) for value in found[5]]
    if not numpy.allclose(numpy.array(found[6]) - 0.5, numpy.array(places).T[order], atol=1e-6):
        trial.blame("catalogue.js: sources stand at", found[6], "in place of", places)


def picture_wcs(width=400, height=300, view=(80, 20, 30)):
    """The projection of the parts' view, by wcslib."""
    found = WCS(naxis=2)
    degrees = numpy.degrees(4 * numpy.sin(numpy.radians(view[2]) / 4) / width)
    found.wcs.crpix, found.wcs.crval, found.wcs.cdelt = [width / 2 + 0.5, height / 2 + 0.5], view[:2], [-degrees, -degrees]
    found.wcs.ctype = ["RA---ZEA", "DEC--ZEA"]
    return found


def marks(trial):
    found = run(trial, "marks", PAGE + """
        const { fromDegrees } = await load("healpix"), { frame } = page.drawing;
        const rows = [[80, 20], [80.5, 20], [85, 25]].map(([ra, dec]) => ({ direction: fromDegrees(ra, dec) }));
        class Some extends it.Marks { *inView(frame) { for (const row of rows) yield [row, it.placeIn(frame, row.direction)]; } radiusOf() { return 4; } }
        const some = new Some("#ffd24a"), arcs = [];
        const picked = [[201, 150], [196, 150], [300, 10]].map((point) => [some.pick(point, frame) < 12, rows.indexOf(some.picked)]);
        some.picked = rows[0];
        some.draw({ beginPath() {}, moveTo() {}, stroke() {}, arc: (x, y, radius) => arcs.push(radius) }, frame);
        return [picked, arcs, it.placeIn(frame, fromDegrees(260, -20)), it.placeIn(frame, fromDegrees(120, 20))];""")
    expect(trial, "marks", "each", found, [[[True, 0], [True, 1], [False, -1]], [4, 8, 4, 4, 4, 8, 4, 4], None, None])


def picks(trial):
    found = run(trial, "picks", PAGE + """
        const table = (name, distance) => ({ name, units: new Map(), picked: null, inView: () => [[name, [0, 0]]], pick() { this.picked = { names: ["of"], values: [name] }; return distance; } });
        const [near, far] = [table("near", 2), table("far", 9)], one = new it.Picks(page), row = { names: ["of"], values: ["row"], direction: [0, 0, 1] };
        Object.assign(page, { opened: { tables: [far] }, catalogue: Object.assign(near, { isThere: true }) });
        const said = () => [element("source").hidden, element("source-row").textContent];
        const all = [one.tables.length, (one.at([1, 1]), said()), far.picked, (one.none(), said())];
        far.inView = () => [[row, [0, 0]]];
        all.push((one.row(row), said()), calls.filter(([name]) => name === "motion"));
        page.switches.catalogue = false;
        return [...all, one.tables.length];""")
    expect(trial, "picks", "each", found, [2, [False, "ofnear"], None, [True, ""], [False, "ofrow"], [["motion", "goTo", 0, 90]], 1])


def sources(trial):
    """A filter, colours of the least and the greatest value, and the list."""
    found = run(trial, "sources", PAGE + """
        const rows = [1, 5, 9].map((mag) => ({ names: ["mag", "name"], values: [String(mag), `s${mag}`] }));
        const table = { accepts: () => true, *inView() { for (const row of rows) if (this.accepts(row)) yield [row, [0, 0]]; } };
        page.picks.tables = [table];
        const one = new it.SourcesPanel(page);
        one.connect();
        one.prepare();
        const columns = [...element("by").options].map(({ value }) => value);
        input("by", "mag"); one.prepare();
        const inks = [rows[0], rows[2], { names: ["mag"], values: [""] }].map((row) => table.colourOf(row));
        input("filter", "mag < 6", "change"); element("list").click(); one.prepare();
        element("rows").querySelector("button").click();
        return [columns, inks, element("listed-count").textContent, [...element("rows").rows].map((row) => row.textContent), calls.at(-1).slice(0, 2), element("list").getAttribute("aria-pressed")];""")
    expect(trial, "sources", "each", found, [["one colour", "mag"], ["rgb(68,1,84)", "rgb(253,231,37)", "#888888"], "2 sources marked in view", ["magname", "Go1s1", "Go5s5"], ["picks", "row"], "true"])


def opened(trial):
    found = run(trial, "opened", PAGE + """
        const gone = [], one = new it.Opened({ changed() {}, found: (...place) => gone.push(place.map(Math.round)) });
        one.connect();
        const files = [["a.csv", "ra,dec,name\\n80,20,A\\n"], ["b.reg", "icrs\\ncircle(82,21,1)\\n"], ["c.json", '{"3": [5]}'], ["d.txt", "nothing"]].map(([name, text]) => new File([text], name));
        await one.openAll(files);
        const list = () => [...element("opened").children].map((item) => item.textContent), all = list();
        element("opened").querySelector("button").click();
        const marked = [...one.tables[0].inView(page.drawing.frame)].length;
        element("opened").querySelectorAll("button")[3].click();
        return [all, element("file-refused").textContent, gone, marked, one.outlines.map(({ coverage }) => [...coverage]), list().length];""")
    said = ["a.csv (1 source)✕", "b.reg (1 shape)✕", "c.json (coverage to order 3)✕"]
    expect(trial, "opened", "each", found, [said, "d.txt: Its first line names no columns with commas, semicolons or tabs between them.", [[80, 20]], 1, [[5]], 2])


# ---- pictures

def pictures(trial):
    """Each pixel's cell is that of healpy at the place that wcslib has; its value and colour are those of the tile there."""
    found = run(trial, "picture", PAGE + """
        const { Image } = await load("fits"), { Layer } = await load("layers");
        const one = new it.Picture(document.createElement("canvas"));
        one.place(view.projection, 400, 300, 1);
        const tiles = new Map(one.cells(4).filter((cell) => cell % 2 === 0).map((cell) => [cell, new Image(1, 1, Int16Array.from([cell]), { scale: 1, zero: 0, blank: -1 })]));
        one.read([new Layer(4, 0, tiles)], { touches: () => false });
        one.paint({ low: 0, high: 3072, stretch: "linear", colours: "grey", isInverted: false }, [], null);
        const { data } = one.brush.getImageData(0, 0, 400, 300);
        return [one.cells(3), [...one.values].map((value) => (Number.isNaN(value) ? -1 : value)), [...data].filter((_, at) => at % 4 === 0), one.samples(1e9).length];""")
    lines, columns = (axis.ravel() for axis in numpy.mgrid[0:300, 0:400])
    ra, dec = picture_wcs().all_pix2world(columns, lines, 0)
    cells = healpy.ang2pix(16, ra, dec, nest=True, lonlat=True)
    values = numpy.where(cells % 2 == 0, cells, -1)
    greys = numpy.where(values < 0, 0x17, numpy.round(255 * values / 3072))
    expect(trial, "picture", "cells", sorted(found[0]), sorted({int(cell) // 4 for cell in cells}))
    trial.judge("picture.js: values", numpy.array(found[1]) == values, 0.9999)
    trial.judge("picture.js: colours", abs(numpy.array(found[2]) - greys) <= 1, 0.9999)
    expect(trial, "picture", "samples", found[3], int((numpy.array(found[1]) >= 0).sum()))


def cut_outs(trial):
    """The pixels of a turned cut-out have the numbers of the cells that stand where wcslib has them."""
    found = run(trial, "cutout", PAGE + """
        const { Image } = await load("fits"), { Layer } = await load("layers");
        view.resize([60, 40]);
        view.moveTo({ ra: 80, dec: 20, width: 40, turn: 30 });
        const tiles = new Map(Array.from({ length: 12 * 256 }, (_, cell) => [cell, new Image(1, 1, Int16Array.from([cell]), { scale: 1, zero: 0, blank: -1 })]));
        return [...new Uint8Array(await it.cutOut(view, [new Layer(4, 0, tiles)], null, "T").arrayBuffer())];""")
    with fits.open(io.BytesIO(bytes(found))) as file:
        file.verify("exception")
        lines, columns = numpy.mgrid[0:40, 0:60]
        expected = healpy.ang2pix(16, *WCS(file[0].header).all_pix2world(columns, lines, 0), nest=True, lonlat=True)
        trial.judge("cutout.js", (file[0].data == expected).ravel(), 0.999)


def lines(trial):
    """Meridians and parallels go where wcslib has them; numbers don't lie over each other; the compass's north goes where north is."""
    found = run(trial, "lines", PAGE + """
        const one = new it.Lines(document.createElement("canvas")), texts = [], arrows = [];
        const begin = () => { one.begin(view.projection, ...view.size, 1); one.brush.fillText = (text) => texts.push(text); };
        begin();
        one.grid(view, false, false);
        const isInked = (column, line) => one.brush.getImageData(column - 1, line - 1, 3, 3).data.some((level) => level > 0);
        const inked = words.map(([column, line]) => isInked(...[column, line].map(Math.round)));
        const degrees = texts.splice(0);
        begin(); one.grid(view, false, true);
        const hours = texts.splice(0), boxes = one.taken;
        const isOver = boxes.some((one, at) => boxes.slice(at + 1).some((other) => one.left < other.right && other.left < one.right && one.top < other.bottom && other.top < one.bottom));
        for (const turn of [0, 90]) { view.moveTo({ ...view, turn }); begin(); one.bold = (points) => arrows.push([points[1][0] - points[0][0], points[1][1] - points[0][1]].map(Math.round)); one.compass(); }
        begin(); one.cells(3, [5, 6]); const cells = texts.splice(-2);
        return [inked, degrees, hours, isOver, arrows, cells];""", [[float(axis) for axis in place] for place in grid_points()])
    expect(trial, "lines", "inked", found[0], [True] * 4 + [False] * 2)
    expect(trial, "lines", "each", found[3:5], [False, [[0, -22], [-22, 0], [22, 0], [0, -22]]])
    if not {"80°", "+20°"} <= set(found[1]) or "5h 20m" not in found[2] or not all(text.startswith("3/") for text in found[5]):
        trial.blame("lines.js: numbers are", found[1], found[2], found[5])


def grid_points():
    """Places on the lines of 5 degrees, and two on none."""
    return numpy.array(picture_wcs().all_world2pix([80, 75, 82.5, 90, 82, 77.5], [21.7, 22, 20, 17, 22.5, 18], 0)).T


def webgl(trial):
    """By a processor here: the same colours as picture.js."""
    found = run(trial, "gpu", PAGE + """
        const { Image } = await load("fits"), { Layer } = await load("layers"), { Picture } = await load("picture");
        const canvas = document.createElement("canvas"), gpu = it.gpuOf(canvas, true);
        if (!gpu) return null;
        view.resize([200, 150]);
        const picture = new Picture(document.createElement("canvas")), scale = { low: 0, high: 3072, stretch: "sqrt", colours: "viridis", isInverted: false };
        picture.place(view.projection, 200, 150, 1);
        const tiles = new Map(picture.cells(4).filter((cell) => cell % 5 > 0).map((cell) => [cell, new Image(2, 2, Int16Array.from([cell, cell, cell, -1]), { scale: 1, zero: 0, blank: -1 })]));
        const layers = [new Layer(4, 1, tiles)];
        picture.read(layers, null);
        picture.paint(scale, [], null);
        for (let times = 0; times < 10; times++) gpu.draw(view.projection, 200, 150, { scale, layers, cells: (order) => picture.cells(order), coverage: null });
        const pixels = new Uint8Array(4 * 200 * 150), { data } = picture.brush.getImageData(0, 0, 200, 150);
        gpu.gl.readPixels(0, 0, 200, 150, gpu.gl.RGBA, gpu.gl.UNSIGNED_BYTE, pixels);
        let apart = 0;
        for (let line = 0; line < 150; line++) for (let at = 0; at < 800; at++) apart += Math.abs(pixels[(149 - line) * 800 + at] - data[line * 800 + at]) > 2;
        return [apart / pixels.length < 0.02, gpu.draws(view.projection), it.gpuOf(document.createElement("canvas"), false)];""")
    expect(trial, "gpu", "the same picture", found, [True, True, None])


def drawing(trial):
    """Frames are drawn once for all that ask; squares grow where frames are slow; tiles in view are those that healpy has there."""
    found = run(trial, "drawing", PAGE + """
        element("sky").style.cssText = "width: 400px; height: 300px; position: fixed";
        page.sources = { prepare() {} };
        const one = page.drawing = new it.Drawing(page, "cpu"), shown = { order: 4, least: 0, width: 64, prefix: 0, coverage: { touches: () => true }, shownBy: () => [] };
        one.measure();
        view.moveTo({ ra: 80, dec: 20, width: 30 });
        page.live.shown = shown;
        one.moved(); one.draw(); one.changed();
        for (let frame = 0; frame < 2; frame++) await new Promise(requestAnimationFrame);
        const drawn = calls.filter(([, method]) => method === "drawn").length, { order, cells } = one.inView(shown), squares = [];
        for (const [drawing, frame] of [[20, 50], [20, 50], [2, 16], [8, 30]]) { one.pace(drawing, frame); squares.push(one.squares); }
        one.isMoving = true; one.moved(); one.place();
        return [drawn, order, cells, squares, one.step, view.size, one.frame.width];""")
    lines, columns = (axis.ravel() for axis in numpy.mgrid[0:300, 0:400])
    cells = healpy.ang2pix(2 ** found[1], *picture_wcs().all_pix2world(columns, lines, 0), nest=True, lonlat=True)
    expect(trial, "drawing", "each", [found[0], sorted(found[2]), *found[3:]], [1, sorted({int(cell) for cell in cells}), [5, 6, 5, 6], 6, [400, 300], 400])


# ---- what a person does

def motion(trial):
    found = run(trial, "motion", PAGE + """
        const one = new it.Motion(page), said = [];
        const settled = () => calls.filter(([, method]) => method === "settled").length;
        one.goTo(10, 20); await later(20);
        said.push([view.ra, view.dec, view.width, settled(), page.drawing.isMoving]);
        page.live.shown = { number: () => null, coverage: { side: 7 } };
        one.goTo(11, 21); said.push(view.width);
        one.drag(10, 0); said.push(page.drawing.isMoving, settled()); one.zoom(0.5);
        await later(250); said.push(page.drawing.isMoving, settled(), view.width);
        one.showWhole(); said.push(view.width); one.moveTo({ ...view, width: 30, turn: 9 }); one.turnNorth(); said.push(view.turn);
        one.show({ part: "TAN" }); said.push(view.part);
        return said;""")
    expect(trial, "motion", "each", found, [[10, 20, 20, 1, False], 7, True, 1, False, 2, 3.5, 360, 0, "TAN"])


def gestures(trial):
    """What is asked for by a drag, a tap, two fingers, the wheel, keys, and the focus that these bring."""
    found = run(trial, "gestures", PAGE + """
        const canvas = element("lines");
        it.connectGestures(canvas, page);
        const event = (kind, x, y, more = {}) => { const one = new PointerEvent(kind, { pointerId: 1, ...more }); Object.defineProperties(one, { offsetX: { value: x }, offsetY: { value: y } }); canvas.dispatchEvent(one); };
        const asked = (work) => { calls.length = 0; work(); return calls.filter(([name, method]) => !(name === "pointing" && method === "point" && calls.length > 1)).map(([, ...rest]) => rest); };
        const key = (key, more = {}) => asked(() => canvas.dispatchEvent(new KeyboardEvent("keydown", { key, ...more })));
        return [
            asked(() => { event("pointerdown", 10, 10); event("pointermove", 13, 10); event("pointermove", 30, 10); event("pointerup", 30, 10); }),
            asked(() => { event("pointerdown", 10, 10); event("pointerup", 12, 10); }),
            asked(() => { event("pointerdown", 100, 100); event("pointerdown", 200, 100, { pointerId: 2 }); event("pointermove", 250, 100, { pointerId: 2 }); event("pointerup", 250, 100, { pointerId: 2 }); event("pointerup", 100, 100); }),
            asked(() => canvas.dispatchEvent(Object.defineProperties(new WheelEvent("wheel", { deltaY: 500, cancelable: true }), { offsetX: { value: 5 }, offsetY: { value: 6 } }))),
            key("ArrowLeft"), key("="), key("-"), key("m"), key("c"), key("c", { ctrlKey: true }), key("Enter"),
            asked(() => event("pointerleave", 0, 0)), asked(() => event("pointerleave", 0, 0, { pointerType: "touch" })),
        ];""")
    by_keys = ["byKeys", True]
    expected = [[["drag", 20, 0]], [["at", [12.5, 10.5]]], [["zoom", 100 / 150, [175.5, 100.5]], ["drag", 25, 0]], [["zoom", 2**0.4, [5.5, 6.5]]], [["drag", 60, 0], by_keys], [["zoom", 1 / 1.5], by_keys],
                [["zoom", 1.5], by_keys], [["measure"], by_keys], [["copy"], by_keys], [], [["at", [200, 150]], by_keys], [["point", None]], []]
    expect(trial, "gestures", "each", found, expected)


def pointing(trial):
    """By a pointer and by keys; a mark, the distance from it, and the position to copy, as astropy has them."""
    found = run(trial, "pointing", PAGE + """
        const one = page.pointing = new it.Pointing(page), position = () => element("position").textContent, said = [];
        one.point([100.5, 80.5]); said.push(position());
        one.measure(); one.point([300.5, 200.5]); one.tell(); said.push(element("distance").textContent, element("measure").getAttribute("aria-pressed"));
        one.byKeys(true); said.push(one.isByKeys);
        one.point(null); one.byKeys(true); one.tell(); said.push(one.isByKeys, one.at, element("heard").textContent === position() + "; " + element("distance").textContent);
        one.measure(); await one.copy(); said.push(element("place").value);
        page.switches.galactic = true; one.tell(); said.push(position());
        return said;""")
    wcs = picture_wcs()
    first, second = (SkyCoord(*wcs.all_pix2world(*place, 0), unit="deg") for place in ((100, 80), (300, 200)))
    middle = SkyCoord(80, 20, unit="deg").galactic
    is_right = found[0].startswith(f"RA {first.ra.deg:.3f}°  Dec +{first.dec.deg:.3f}°")
    is_right = is_right and found[1] == f"{first.separation(second).deg:.1f}° from the mark, to {first.position_angle(second).deg:.1f}°"
    is_right = is_right and found[2:8] == ["true", False, True, [200, 150], True, "RA 80 Dec 20, ICRS"] and found[8] == f"l {middle.l.deg:.3f}°  b −{-middle.b.deg:.3f}°"
    if not is_right:
        trial.blame("pointing.js:", found, first, second, middle)


def scale(trial):
    found = run(trial, "scale", PAGE + """
        page.drawing.samples = () => Float64Array.from({ length: 1001 }, (_, at) => at);
        const one = new it.ScaleControls(page), said = [];
        one.connect();
        for (const [id, text] of [["low-value", "much"], ["low-value", "200"], ["low-value", "−5.5"], ["high-value", "1e4"]]) {
            input(id, text, "change");
            said.push([page.scale.low, page.scale.high, element("cut-refused").textContent, element(id).getAttribute("aria-invalid")]);
        }
        input("fit", "90 %"); said.push(page.scale.low, page.scale.high);
        input("low", 999); said.push(page.scale.low); input("low", 100.04); said.push(page.scale.low);
        input("stretch", "sqrt"); element("inverted").click(); said.push(page.scale.stretch, page.scale.isInverted);
        one.mark(525); said.push(Math.round(parseFloat(element("mark").style.left))); one.mark(NaN); said.push(element("mark").hidden);
        return said;""")
    expected = [[0, 100, "“much” is no number: a cut is written as -12.5 or 3e4.", "true"], [0, 100, "The lowest value must be below the highest.", "true"], [-5.5, 100, "", None], [-5.5, 10000, "", None],
                *numpy.percentile(numpy.arange(1001), (5, 95)), 50, 100, "sqrt", True, round(100 * (425 / 850) ** 0.5), True]
    expect(trial, "scale", "each", found, expected)


def searches(trial):
    """What was written later is what is gone to, whatever a resolver's answers take."""
    found = run(trial, "search", """
        const gone = [], said = [];
        let wait = 0;
        window.fetch = async (path) => { const now = wait; wait = 0; await later(now); return new Response(`<Sesame><Resolver><jradeg>10</jradeg><jdedeg>41</jdedeg><oname>${path}</oname></Resolver></Sesame>`); };
        it.connectSearch("/resolver", { isGalactic: () => false, found: (...place) => gone.push(place) });
        const search = (text) => { input("place", text); element("go").requestSubmit(); };
        for (const text of ["83", "10 20", "M 31"]) { search(text); await later(30); said.push([element("place").value, element("refused").textContent, element("understood").textContent]); }
        wait = 60; search("M 33"); search("1 2"); await later(120);
        return [gone, said, element("place").value, element("place").placeholder];""")
    two = "A position has two angles, each of one to three numbers: degrees, or hours and degrees with minutes and seconds."
    ten, m31 = "RA 10 Dec 20, ICRS", "RA 10 Dec 41, ICRS"
    said = [["83", two, ""], [ten, "", ten], [m31, "", f"/resolver?M%2031: {m31}"]]
    expect(trial, "search", "each", found, [[[10, 20], [10, 41], [1, 2]], said, "RA 1 Dec 2, ICRS", "RA Dec, or a name"])


def saves(trial):
    """Pictures over each other on a ground; without a survey nothing is saved as FITS."""
    found = run(trial, "save", PAGE + """
        const of = (colour, x) => { const canvas = Object.assign(document.createElement("canvas"), { width: 40, height: 60 }); const brush = canvas.getContext("2d"); brush.fillStyle = colour; brush.fillRect(x, 0, 20, 60); return canvas; };
        const canvas = it.pictureOf([of("#ff0000", 0), of("#00ff00", 10)], [40, 60], 1, "#0000ff", "words");
        const pixel = (x) => [...canvas.getContext("2d").getImageData(x, 50, 1, 1).data].slice(0, 3);
        const saved = [];
        HTMLAnchorElement.prototype.click = function () { saved.push(this.download); };
        window.fetch = async () => new Response("", { status: 404 });
        it.connectSaves({ ...page, address: "at" });
        for (const id of ["save", "cut-out"]) element(id).click();
        Object.assign(element("tile").dataset, { order: 4, cell: 7 });
        element("tile").click();
        await later(200);
        return [canvas.width, pixel(5), pixel(15), pixel(25), pixel(35), saved, element("understood").textContent];""")
    expect(trial, "save", "each", found, [40, [255, 0, 0], [0, 255, 0], [0, 255, 0], [0, 0, 255], ["atlas.png"], "The server has no tile 4/7."])


def controls(trial):
    found = run(trial, "controls", PAGE + """
        const one = new it.Controls(page);
        view.show({ whole: "AIT" });
        one.connect();
        const set = [element("grid").checked, element("galactic").checked, element("whole").value];
        for (const id of ["nearer", "farther", "all", "north", "measure", "copy", "close", "grid", "fold", "dark"]) element(id).click();
        input("part", "SIN"); element("galactic-up").click();
        const said = [element("fold").getAttribute("aria-expanded"), document.body.dataset.controls];
        element("fold").click();
        it.beginTheme();
        return [set, calls, said, element("fold").getAttribute("aria-expanded"), document.documentElement.dataset.theme];""")
    calls = [["motion", "zoom", 1 / 1.5], ["motion", "zoom", 1.5], ["motion", "showWhole"], ["motion", "turnNorth"], ["pointing", "measure"], ["pointing", "copy"], ["picks", "none"],
             ["page", "setSwitch", "grid", False], ["scaleControls", "showHistogram"], ["motion", "show", {"part": "SIN"}], ["motion", "show", {"isGalactic": True}]]
    expect(trial, "controls", "each", found, [[True, False, "AIT"], calls, ["true", "open"], "false", "dark"])
    run(trial, "controls", "localStorage.clear()")


def visits(trial):
    found = run(trial, "visits", PAGE + """
        location.hash = "#ra=10&dec=41&width=5&grid=0";
        const one = new it.Visits(page), said = [];
        one.read(); one.connect();
        said.push(one.isTold, view.ra, view.width, page.switches.grid);
        one.begin(); one.write();
        const before = history.length;
        one.write(true); said.push(history.length - before);
        view.moveTo({ ra: 11, dec: 41, width: 5 }); one.write(true); said.push(history.length - before, location.hash.includes("ra=11.0"));
        history.back(); await later(100);
        said.push(view.ra, calls.filter(([, method]) => method === "returned").length);
        return said;""")
    expect(trial, "visits", "each", found, [True, 10, 5, False, 0, 1, True, 10, 1])
