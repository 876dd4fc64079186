"""What the modules of the atlas page answer, in the browser: tables, whose answers are astropy's, healpy's, matplotlib's and numpy's.
atlas-client.py calls `tables`, and says what `trial` is.
"""

import io
from decimal import Decimal

import erfa
import healpy
import matplotlib
import numpy
from astropy import units, visualization
from astropy.coordinates import SkyCoord
from astropy.io import fits
from astropy.wcs import WCS

CALL = """
const [inputs, done] = arguments;
import("/atlas/MODULE.js").then((it) => inputs.map(FUNCTION)).then(done, (fault) => done(String(fault)));
"""


def answers(trial, module, function, inputs):
    """What a function, whose text may name what the module exports as `it`, answers to each of the inputs."""
    found = trial.browser.execute_async_script(CALL.replace("MODULE", module).replace("FUNCTION", function), inputs)
    if isinstance(found, str):
        trial.blame(f"{module}.js:", found)
        return [None] * len(inputs)
    return found


def judge(trial, module, rows):
    """Each row has its name, what was found, and whether that is right."""
    for name, found, is_right in rows:
        if not is_right:
            trial.blame(f"{module}.js: {name} gives {found}")


def tables(trial):
    trial.open("")
    for table in (positions, cells, frames, distances, angles, numbers, stretches, colours, cuts, histograms, orders, views, poles, projections, addresses, names, reals, headers, tiles, changes, tables_of_sources, filters, regions, mocs):
        table(trial)


# ---- positions

# Seconds of arc: astropy's galactic frame goes through FK5, which is so far from that of the Hipparcos Catalogue.
MOST_APART = 0.04
M31 = SkyCoord(10.684, 41.269, unit="deg")
CRAB = SkyCoord("05h34m31.9s +22d00m52s")
NEAR_M31 = SkyCoord("00h42m44s +41d16m00s")
GALACTIC = SkyCoord(184.55, -5.78, unit="deg", frame="galactic")
OTHER_GALACTIC = SkyCoord(121.17, -21.57, unit="deg", frame="galactic")
# A text, whether galactic coordinates are shown, and the position or a part of the refusal.
POSITIONS = [
    ("10.684 41.269", False, M31),
    ("10.684, +41.269", False, M31),
    ("(10.684; 41.269)", False, M31),
    ("10.684d 41.269d", False, M31),
    ("10.684° +41.269°", False, M31),
    ("10.684 deg 41.269 deg", False, M31),
    ("RA=10.684 DEC=41.269", False, M31),
    ("RA=10.684 DEC=41.269", True, M31),
    ("DEC=41.269 RA=10.684", False, M31),
    ("Dec 41.269, RA 10.684", True, M31),
    ("RA10.684DEC41.269", False, M31),
    ("RA 10.684 Dec 41.269, ICRS", True, M31),
    ("RA Dec 10.684 41.269", True, M31),
    ("10.684 RA 41.269 Dec", True, M31),
    ("α = 10.684 δ = 41.269", False, M31),
    ("RAJ2000=10.684 DEJ2000=41.269", False, M31),
    ("10.684 41.269 icrs", True, M31),
    ("J2000 10.684 41.269", True, M31),
    ("370.684 41.269", False, "from 0 to 360"),
    ("-349.316 41.269", False, M31),
    ("5h34m31.9s +22d0m52s", False, CRAB),
    ("5h34m31.9s+22°0′52″", True, CRAB),
    ("5 34 31.9 +22 0 52", False, CRAB),
    ("5 34 31.9, 22 0 52", False, CRAB),
    ("05:34:31.9 +22:00:52", False, CRAB),
    ("05:34:31.9 22:00:52", False, CRAB),
    ("05ʰ34ᵐ31ˢ.9 +22°00′52″", False, CRAB),
    ("+22°00′52″ 5h34m31.9s", False, CRAB),
    ("RA 05:34:31.9 Dec +22:00:52", True, CRAB),
    ("00h42m44s +41d16m", False, NEAR_M31),
    ("00h42m44s +41d16m", True, NEAR_M31),
    ("00 42 44 41 16 00", False, NEAR_M31),
    ("12:34:56.7 -01:02:03", False, SkyCoord("12h34m56.7s -01d02m03s")),
    ("12:34:56.7 −01:02:03", False, SkyCoord("12h34m56.7s -01d02m03s")),
    ("12:34:56.7 -01:02:03", True, "write RA and Dec"),
    ("0 0 0.5 -0 0 30", False, SkyCoord("0h0m0.5s -0d0m30s")),
    ("J004244.3+411608", False, SkyCoord("00h42m44.3s +41d16m08s")),
    ("J004244.3+411608", True, SkyCoord("00h42m44.3s +41d16m08s")),
    ("J00424433+4116074", False, SkyCoord("00h42m44.33s +41d16m07.4s")),
    ("J0534+2200", False, SkyCoord("05h34m00s +22d00m00s")),
    ("HPX 7/10836", False, SkyCoord(*healpy.pix2ang(2**7, 10836, nest=True, lonlat=True), unit="deg")),
    ("cell 3/767", True, SkyCoord(*healpy.pix2ang(2**3, 767, nest=True, lonlat=True), unit="deg")),
    ("HPX 24/3377699720527871", False, SkyCoord(*healpy.pix2ang(2**24, 3377699720527871, nest=True, lonlat=True), unit="deg")),
    ("HPX 3/768", False, "0 to 767"),
    ("HPX 25/1", False, "from 0 to 24"),
    ("l 184.55 b -5.78", False, GALACTIC),
    ("l=184.55, b=-5.78", True, GALACTIC),
    ("b -5.78 l 184.55", False, GALACTIC),
    ("184.55 -5.78 galactic", False, GALACTIC),
    ("184.55 -5.78", True, GALACTIC),
    ("184°33′ -5°46′48″", True, GALACTIC),
    ("gal 121.17 -21.57", False, OTHER_GALACTIC),
    ("GLON 121.17 GLAT -21.57", False, OTHER_GALACTIC),
    ("l 121.17 b -21.57, galactic", False, OTHER_GALACTIC),
    ("RA 10.684 b 5", False, "“RA” says ICRS, and “b” says galactic"),
    ("gal 00h42m44s +41d16m", False, "“gal” says galactic, and “h” says ICRS"),
    ("l 5h b 3", False, "says galactic"),
    ("RA 10 RA 20", False, "Both angles are labelled as a right ascension"),
    ("Dec 5h RA 20", False, "Hours are of the right ascension"),
    ("10.684 Dec 41.269", False, "one label, before it"),
    ("10,684 41,269", False, "decimals have a point"),
    ("10.5 20 30 40", False, "last number of an angle"),
    ("30m +20d", False, "then minutes"),
    ("5h34s31m +22d", False, "then minutes"),
    ("5 34 61 +22 0 0", False, "below 60"),
    ("24:00:01 0:0:0", False, "24 hours"),
    ("83 99", False, "−90 to +90"),
    ("10 -90.1", True, "A latitude"),
    ("83", False, "two angles"),
    ("1 2 3", False, "two angles"),
    ("B1950 10 20", False, "B1950 aren't taken"),
    ("10.684/41.269", False, "other characters"),
    ("M31", False, "Names of objects aren't known"),
    ("NGC 224", True, "Names of objects aren't known"),
    ("", False, "A position is wanted"),
]


def positions(trial):
    found = answers(trial, "position", "([text, isGalactic]) => it.readPosition(text, isGalactic)", [row[:2] for row in POSITIONS])
    rows = []
    for (text, is_galactic, expected), answer in zip(POSITIONS, found):
        is_right = expected in answer.get("fault", "") if isinstance(expected, str) else "fault" not in answer and apart(answer, expected) < MOST_APART
        rows.append((f"“{text}”, {'galactic' if is_galactic else 'equatorial'}", answer, is_right))
    judge(trial, "position", rows)
    # What was understood leads to the same place.
    texts = [answer["text"] for answer in found if "text" in answer]
    for text, again in zip(texts, answers(trial, "position", "(text) => it.readPosition(text).text", texts)):
        judge(trial, "position", [(text, again, again == text)])


def apart(answer, expected):
    """Seconds of arc between the two."""
    return SkyCoord(answer["ra"], answer["dec"], unit="deg").separation(expected.icrs).arcsec


def cells(trial):
    ra, dec = some_directions()
    rows = []
    for order in (0, 3, 9, 20):
        found = answers(trial, "healpix", f"([ra, dec]) => it.cellOf({order}, it.locate(it.fromDegrees(ra, dec), {{}}))", [*zip(ra, dec)])
        rows += [(f"the cell of order {order} at {place}", cell, cell == expected)
                 for place, cell, expected in zip(zip(ra, dec), found, healpy.ang2pix(2**order, ra, dec, nest=True, lonlat=True).tolist())]
    judge(trial, "healpix", rows)


def some_directions(count=60):
    chance = numpy.random.default_rng(5)
    return chance.uniform(0, 360, count).tolist(), numpy.degrees(numpy.arcsin(chance.uniform(-1, 1, count))).tolist()


def frames(trial):
    ra, dec = some_directions()
    found = answers(trial, "frames", "(place) => it.galacticDegrees(place)", [*zip(ra, dec)])
    there = numpy.degrees(erfa.icrs2g(*numpy.radians((ra, dec)))).T
    judge(trial, "frames", [(place, answer, numpy.allclose(answer, expected, atol=1e-9)) for place, answer, expected in zip(zip(ra, dec), found, there)])
    back = answers(trial, "frames", "(place) => it.equatorialDegrees(it.galacticDegrees(place))", [*zip(ra, dec)])
    judge(trial, "frames", [(place, found, numpy.allclose(place, found, atol=1e-9)) for place, found in zip(zip(ra, dec), back)])


def distances(trial):
    ra, dec = some_directions()
    pairs = [*zip(zip(ra, dec), zip(ra[1:], dec[1:])), ((10, 41), (10 + 1e-7, 41)), ((5, 5), (185, -5))]
    there = SkyCoord([pair[0] for pair in pairs], unit="deg"), SkyCoord([pair[1] for pair in pairs], unit="deg")
    function = """(pair) => import("/atlas/healpix.js").then(({ fromDegrees }) => {
        const [one, other] = pair.map((place) => fromDegrees(...place));
        return [it.separation(one, other), it.positionAngle(one, other), it.arc(one, other)[32]];
    })"""
    for pair, (separation, angle, middle), far, to in zip(pairs, answers_later(trial, "measure", function, pairs), there[0].separation(there[1]).deg, there[0].position_angle(there[1]).deg):
        is_right = abs(separation - far) < 1e-9 and (far > 179.9 or abs((angle - to + 180) % 360 - 180) < 1e-6)
        judge(trial, "measure", [(pair, (separation, angle), is_right)])
        if far < 179:
            halfway = SkyCoord(*pair[0], unit="deg").directional_offset_by(to * units.deg, far / 2 * units.deg)
            judge(trial, "measure", [(pair, middle, numpy.allclose(middle, halfway.cartesian.xyz, atol=1e-8))])


def angles(trial):
    places = [(10.6847083, 41.26875), (0.0000001, -0.0000001), (359.99999999, 89.9999), (83.633083, -5.0), (195.0, -0.51)]
    found = answers(trial, "angles", "(place) => it.positionText(place, 1e-6)", places)
    for (ra, dec), text in zip(places, found):
        degrees, clock = text.removesuffix(")").split("   (")
        plain = clock.replace("−", "-").replace("′", "m").replace("°", "d").replace("″", "s").replace(" ", "").replace(",", " ")
        there, said = SkyCoord(ra, dec, unit="deg"), SkyCoord(plain)
        judge(trial, "angles", [((ra, dec), text, there.separation(said).arcsec < 0.01)])


# ---- numbers and colours

NUMBERS = [(1, "0.5", "1000"), (-1, "0.5", "0"), (0, "0.1", "0"), (1234567, "0.001", "0"), (5, "2", "0"), (2**63 - 1, "0.5", "0"), (7, "1e-07", "0"),
           (-4, "0.25", "0.125"), (10, "1", "32768"), (300, "10", "0"), (1, "0.001", "1000000000"), (1999999999, "0.5", "1000")]


def numbers(trial):
    """Exact as far as the numbers go; a scale of many digits is cut behind the one that tells two raw numbers apart."""
    found = answers(trial, "numbers", "([raw, scale, zero]) => it.scaledText(BigInt(raw), Number(scale), Number(zero))", [(str(raw), *rest) for raw, *rest in NUMBERS])
    judge(trial, "numbers", [((raw, scale, zero), text, Decimal(text) == Decimal(zero) + Decimal(scale) * raw) for (raw, scale, zero), text in zip(NUMBERS, found)])
    long = answers(trial, "numbers", "(raw) => it.scaledText(raw, 0.0123456789, 0)", [1, 123, 99999])
    judge(trial, "numbers", [(raw, text, abs(float(text) - 0.0123456789 * raw) < 0.0001 and len(text.split(".")[1]) <= 4) for raw, text in zip([1, 123, 99999], long)])


STRETCHES = {"linear": visualization.LinearStretch(), "log": visualization.LogStretch(1000), "sqrt": visualization.SqrtStretch(),
             "asinh": visualization.AsinhStretch(0.1), "power": visualization.PowerDistStretch(1000), "squared": visualization.SquaredStretch()}


def stretches(trial):
    parts = numpy.linspace(0, 1, 41)
    known = answers(trial, "stretch", "() => Object.keys(it.STRETCHES)", [0])[0]
    judge(trial, "stretch", [("the names", known, known == [*STRETCHES])])
    for name, stretch in STRETCHES.items():
        found = answers(trial, "stretch", f"(part) => it.STRETCHES.{name}(part)", parts.tolist())
        judge(trial, "stretch", [(name, found, numpy.allclose(found, stretch(parts), atol=1e-12))])


def colours(trial):
    for name, most in (("viridis", 6), ("cubehelix", 1), ("grey", 1)):
        found = table_of(trial, name)
        expected = matplotlib.colormaps["gray" if name == "grey" else name](numpy.arange(256), bytes=True)[:, :3].astype(int)
        judge(trial, "colours", [(name, abs(found - expected).max(), abs(found - expected).max() <= most)])
        judge(trial, "colours", [(f"{name}, inverted", "", (table_of(trial, name, True) == found[::-1]).all())])
    # DS9's heat is linear between these.
    part = numpy.arange(256) / 255
    heat = numpy.stack([numpy.interp(part, [0, 0.34, 1], [0, 1, 1]), part, numpy.interp(part, [0, 0.65, 0.98, 1], [0, 0, 1, 1])], axis=1) * 255
    judge(trial, "colours", [("heat", "", abs(table_of(trial, "heat") - heat).max() <= 0.51)])
    shades = answers(trial, "colours", "(value) => it.shader({ low: 10, high: 20, stretch: 'sqrt' })(value)", [0, 10, 12.5, 20, 99])
    judge(trial, "colours", [("shades", shades, shades == [0, 0, 128, 255, 255])])


def table_of(trial, name, is_inverted=False):
    function = f"() => [...new Uint8Array(it.tableOf({{ colours: '{name}', isInverted: {str(is_inverted).lower()} }}).buffer)]"
    return numpy.array(answers(trial, "colours", function, [0])[0]).reshape(256, 4)[:, :3]


def cuts(trial):
    chance = numpy.random.default_rng(3)
    for what, values in {"a sky": chance.normal(100, 5, 5000), "stars": numpy.append(chance.normal(0, 1, 900), 50 + 40 * chance.pareto(1.5, 100)),
                         "few": numpy.array([3.0, 1.0, 2.0]), "a slope": numpy.arange(2500.0), "many outliers": numpy.append(chance.normal(0, 1, 300), chance.uniform(0, 1e6, 700))}.items():
        expected = {"zscale": visualization.ZScaleInterval().get_limits(values), "min to max": (values.min(), values.max())}
        expected |= {f"{part:g} %": numpy.percentile(values, [50 - part / 2, 50 + part / 2]) for part in (99.6, 99.9, 99, 95, 90)}
        found = answers(trial, "cuts", "([values, name]) => Object.values(it.cutsOf(Float64Array.from(values), name))", [(values.tolist(), name) for name in expected])
        judge(trial, "cuts", [(f"{name} of {what}", cut, numpy.allclose(cut, limits, rtol=1e-9)) for (name, limits), cut in zip(expected.items(), found)])
    same = answers(trial, "cuts", "(values) => Object.values(it.cutsOf(values, 'zscale'))", [[7, 7, 7, 7, 7, 7], []])
    judge(trial, "cuts", [("cuts of nothing to tell apart", same, same == [[6, 8], [0, 1]])])


def histograms(trial):
    values = numpy.random.default_rng(9).normal(0, 1, 2000)
    found = answers(trial, "histogram", "([values, range]) => [...it.countsOf(values, range, 40)]", [(values.tolist(), [-2, 2])])[0]
    expected, _ = numpy.histogram(values[(values >= -2) & (values < 2)], 40, (-2, 2))
    judge(trial, "histogram", [("counts", found, found == expected.tolist())])


# ---- views

# The survey's deepest order, its least one and its tiles' width; the view's width on 1280 by 800 pixels; the order, None for the mosaic.
ORDERS = [((9, 0, 512), 360, None), ((9, 0, 512), 118, 1), ((9, 0, 512), 60, 2), ((9, 0, 512), 30, 3), ((9, 0, 512), 1, 8), ((9, 0, 512), 0.01, 9),
          ((9, 3, 512), 118, None), ((9, 3, 512), 40, 3), ((4, 0, 64), 150, 2), ((4, 0, 64), 30, 4), ((4, 3, 64), 150, None), ((3, 3, 32), 12, 3), ((3, 0, 32), 12, 3),
          ((6, 3, 64), 3, 6), ((5, 3, 16), 100, 3)]


def orders(trial):
    function = """([[order, least, width], degrees], _) => import("/atlas/projection.js").then(({ projectionOf }) =>
        it.orderFor({ order, least, width }, projectionOf({ ra: 10, dec: 40, width: degrees }, 1280, 800)))"""
    found = answers_later(trial, "orders", function, [row[:2] for row in ORDERS])
    judge(trial, "orders", [(row[:2], order, order == row[2]) for row, order in zip(ORDERS, found)])


def answers_later(trial, module, function, inputs):
    return answers(trial, module, f"{function}).map((answer) => answer)).then((all) => Promise.all(all", inputs)


def views(trial):
    """Steps of a wheel lead from the whole sky to a part and back, and what stands at a point stays there."""
    function = """(factor) => {
        const view = new it.View();
        view.resize([1280, 800]);
        const widths = [];
        for (let step = 0; step < 12; step++) { view.zoom(factor, [700, 380]); widths.push(view.width); }
        const fixed = view.projection.toSky(700, 380);
        view.zoom(factor, [700, 380]);
        const now = view.projection.toScreen(fixed);
        for (let step = 0; step < 24; step++) { view.zoom(1 / factor, [700, 380]); widths.push(view.width); }
        return [widths, now];
    }"""
    for factor, (widths, now) in zip((0.76, 0.97, 0.999), answers(trial, "view", function, [0.76, 0.97, 0.999])):
        judge(trial, "view", [(f"steps of {factor}", widths, widths[0] < 180 and all(numpy.diff(widths[:12]) < 0) and numpy.allclose(now, (700, 380), atol=0.01))])
        if factor == 0.76:
            judge(trial, "view", [(f"steps of {factor} back", widths, widths[-1] == 360)])


def poles(trial):
    """Over a pole the picture stays in the hand: wcslib has each pixel of a turned view where the page has it, and up stays up."""
    function = """(places) => {
        const view = new it.View();
        view.resize([1280, 800]);
        view.moveTo({ ra: 40, dec: 80, width: 60 });
        const steps = [];
        for (let step = 0; step < 30; step++) {
            const above = view.projection.toSky(640, 390), hand = view.projection.toSky(640, 400);
            view.drag(step % 3, 20);
            const [up, at] = [above, hand].map((one) => view.projection.toScreen(one));
            steps.push([at[0] - 640 - step % 3, at[1] - 420, up[0] - at[0], up[1] - at[1]]);
        }
        return [view.ra, view.dec, view.turn, steps, places.map(([x, y]) => view.projection.toSky(x, y))];
    }"""
    pixels = [(0.5, 0.5), (640, 400), (1000, 50), (1279.5, 799.5), (30, 700)]
    ra, dec, turn, steps, sky = answers(trial, "view", function, [pixels])[0]
    judge(trial, "view", [("a drag over the pole", (ra, dec, turn), abs(abs(turn - 180) - 0) < 25 and 60 < dec < 85 and abs(ra - 220) < 25)])
    judge(trial, "view", [("a step over the pole", steps, numpy.allclose(steps, [0, 0, 0, -10], atol=0.3))])
    found = WCS(naxis=2)
    found.wcs.crpix, found.wcs.crval, found.wcs.ctype = [640.5, 400.5], [ra, dec], ["RA---ZEA", "DEC--ZEA"]
    scale = numpy.degrees(4 * numpy.sin(numpy.radians(60) / 4) / 1280)
    angle = numpy.radians(turn)
    # To the right and down are from east and north by the turn.
    found.wcs.cd = scale * numpy.array([[-numpy.cos(angle), -numpy.sin(angle)], [numpy.sin(angle), -numpy.cos(angle)]])
    expected = found.all_pix2world(numpy.array(pixels) - 0.5, 0)
    there = healpy.ang2vec(*expected.T, lonlat=True)
    judge(trial, "projection", [("a turned view", (sky, there), numpy.allclose(sky, there, atol=1e-9))])


def projections(trial):
    """Pixels of each projection, with the equator's and with the galaxy's north up: where wcslib has them, and back."""
    function = """([part, whole, isGalactic, width, pixels]) => import("/atlas/projection.js").then(({ projectionOf }) => {
        const projection = projectionOf({ ra: 280, dec: -35, width, turn: 0, part, whole, isGalactic }, 1280, 800);
        const sky = pixels.map(([x, y]) => projection.toSky(x, y));
        return [sky, sky.map((one) => one && projection.toScreen(one)), projection.scale ?? projection.half];
    })"""
    pixels = [(640, 400), (1, 1), (900.5, 120), (300, 799), (60, 395), (1221, 404), (700, 130)]
    cases = [(name, is_galactic, width) for is_galactic in (False, True) for name, width in (("ZEA", 100), ("TAN", 60), ("SIN", 90), ("SIN", 170), ("MOL", 360), ("AIT", 360))]
    inputs = [(name, name, is_galactic, width, pixels) for name, is_galactic, width in cases]
    for (name, is_galactic, width), (sky, screen, scale) in zip(cases, answers_later(trial, "view", function, inputs)):
        middle = numpy.array((280.0, -35.0))
        if is_galactic:
            middle = numpy.degrees(erfa.icrs2g(*numpy.radians(middle)))
        found = WCS(naxis=2)
        found.wcs.ctype = [f"{first}{name}" for first in (("GLON-", "GLAT-") if is_galactic else ("RA---", "DEC--"))]
        found.wcs.crval = (middle[0], 0) if width == 360 else middle
        found.wcs.crpix = [640.5, 400.5]
        degrees = 360 * numpy.sqrt(2) / numpy.pi / scale if width == 360 else numpy.degrees(1 / scale)
        found.wcs.cdelt = [-degrees, -degrees]
        along, above = found.all_pix2world(numpy.array(pixels) - 0.5, 0).T
        inside = numpy.isfinite(along)
        along, above = along[inside], above[inside]
        if is_galactic:
            along, above = numpy.degrees(erfa.g2icrs(*numpy.radians((along, above))))
        there = healpy.ang2vec(along, above, lonlat=True)
        is_right = sum(inside) >= 4 and [one is not None for one in sky] == inside.tolist()
        is_right = is_right and numpy.allclose([one for one in sky if one], there, atol=1e-8)
        is_right = is_right and numpy.allclose([one for one in screen if one], numpy.array(pixels)[inside], atol=1e-3)
        judge(trial, "projections", [(f"{name} of {width} degrees, galactic: {is_galactic}", (sky, there), is_right)])


ADDRESSES = ["#ra=10.684000&dec=41.269000&width=2.50000&stretch=log&colours=viridis&inverted=1&low=-5&high=1e-7&grid=0&second=%2Fpast",
             "#ra=0.000000&dec=-90.000000&width=30.0000&turn=179.500&part=SIN&whole=AIT&north=galactic&stretch=linear&colours=dusk&inverted=0&grid=1"]


def addresses(trial):
    function = """(hash) => {
        const known = { scale: { low: null, high: null, stretch: "linear", colours: "dusk", isInverted: false }, switches: { grid: true }, others: { second: "" } };
        const { view, style, scale, switches, others } = it.readAddress(hash, known);
        return it.writeAddress({ ...view, ...style }, scale, switches, others);
    }"""
    parts = lambda hash: sorted(hash[1:].split("&"))  # noqa: E731
    for hash, found in zip(ADDRESSES, answers(trial, "address", function, ADDRESSES)):
        judge(trial, "address", [(hash, found, parts(found) == parts(hash))])
    wrong = answers(trial, "address", function, ["#colours=ink&stretch=much&low=x&grid=2"])[0]
    judge(trial, "address", [("what is wrong in an address", wrong, "colours=dusk" in wrong and "stretch=linear" in wrong and "low=" not in wrong)])


SESAME = """<?xml version="1.0"?><Sesame><Target option="SNV"><name>{name}</name><Resolver name="S=Simbad (CDS)"><otype>AGN</otype><jpos>00:42:44.33 +41:16:07.5</jpos>
<jradeg>{ra}</jradeg><jdedeg>{dec}</jdedeg><oname>M  31</oname></Resolver></Target></Sesame>"""
NOTHING = '<?xml version="1.0"?><Sesame><Target option="SNV"><name>x</name><INFO>*** Nothing found ***</INFO></Target></Sesame>'


def names(trial):
    texts = [SESAME.format(name="M31", ra="10.6847083", dec="41.26875"), NOTHING, "no XML <", SESAME.format(name="x", ra="400", dec="0"), ""]
    found = answers(trial, "resolver", "(text) => it.readSesame(text, 'M31')", texts)
    right = [found[0] == {"ra": 10.6847083, "dec": 41.26875, "text": "RA 10.6847083 Dec 41.26875, ICRS", "name": "M  31"}]
    right += ["No object is known as “M31”" in answer.get("fault", "") for answer in found[1:]]
    judge(trial, "resolver", zip(texts, found, right))


# ---- files

def reals(trial):
    """Images of real numbers, as other makers of a HiPS write them."""
    values = numpy.random.default_rng(1).normal(0, 1e3, (8, 8))
    values[3, 4] = numpy.nan
    for kind in (">f4", ">f8"):
        file = io.BytesIO()
        fits.PrimaryHDU(values.astype(kind)).writeto(file)
        found = answers(trial, "fits", "(bytes) => { const image = it.readImage(Uint8Array.from(bytes).buffer); return [...image.numbers].map((_, at) => image.value(at)); }", [[*file.getvalue()]])[0]
        read = numpy.array([numpy.nan if one is None else one for one in found]).reshape(8, 8)
        judge(trial, "fits", [(kind, found, numpy.array_equal(read, values.astype(kind), equal_nan=True))])


def headers(trial):
    """What the page writes, as astropy reads it: cards of each kind, numbers of 32 and 64 bits, and cards that are added to a file."""
    cards = [["OBJECT", "The ‘sky’ of O'Brien"], ["CRVAL1", 266.41681662499997], ["CD1_1", -1.25e-9], ["PV2_1", 4]]
    values = [[1.5, -2.25, None], [0, 3e30, 7]]
    function = """([kind, cards, values]) => it.imageFile(new { Float32Array, Float64Array }[kind](values.flat().map((value) => value ?? NaN)), [3, 2], cards)
        .arrayBuffer().then((bytes) => [...new Uint8Array(bytes)])"""
    for kind, found in zip(("Float32Array", "Float64Array"), answers_later(trial, "fitsfile", function, [[kind, cards, values] for kind in ("Float32Array", "Float64Array")])):
        with fits.open(io.BytesIO(bytes(found))) as file:
            file.verify("exception")
            header, data = file[0].header, file[0].data
            right = [header["OBJECT"] == "The ?sky? of O'Brien", header["CRVAL1"] == cards[1][1], header["CD1_1"] == cards[2][1], header["PV2_1"] == 4]
            right += [len(found) % 2880 == 0, numpy.array_equal(data, numpy.array(values, data.dtype), equal_nan=True)]
            judge(trial, "fitsfile", [(kind, right, all(right))])
    before = io.BytesIO()
    fits.PrimaryHDU(numpy.arange(6, dtype=">i2").reshape(2, 3), fits.Header({"CRVAL1": 5.0, "BLANK": -1})).writeto(before)
    function = """([bytes, cards]) => it.withCards(Uint8Array.from(bytes).buffer, cards).arrayBuffer().then((bytes) => [...new Uint8Array(bytes)])"""
    after = bytes(answers_later(trial, "fitsfile", function, [[[*before.getvalue()], cards]])[0])
    with fits.open(io.BytesIO(after)) as file:
        file.verify("exception")
        header = file[0].header
        judge(trial, "fitsfile", [("added cards", repr(header), header["CRVAL1"] == cards[1][1] and header["BLANK"] == -1 and header.count("CRVAL1") == 1)])
    judge(trial, "fitsfile", [("the data behind them", "", after[-2880:] == before.getvalue()[-2880:])])


def tiles(trial):
    """Each pixel of a tile lies, by wcslib, in the cell that it shows: on each face, and at the greatest order."""
    for order, cell in [(0, face) for face in range(12)] + [(3, 5), (3, 400), (9, 1234567), (9, 3000000), (11, 12 * 4**11 - 1)]:
        bits = 4
        cards = answers(trial, "wcs", "([order, cell]) => it.tileCards(order, cell, 16)", [(order, cell)])[0]
        lines, columns = (axis.ravel() for axis in numpy.mgrid[0:16, 0:16])
        ra, dec = WCS(fits.Header(map(tuple, cards))).all_pix2world(columns, lines, 0)
        found = healpy.ang2pix(2 ** (order + bits), ra, dec, nest=True, lonlat=True)
        # Lines go from the bottom up; from the top they go with the even bits of a pixel's number, and columns with the odd ones.
        within = sum(((15 - lines) >> bit & 1) << 2 * bit | (columns >> bit & 1) << 2 * bit + 1 for bit in range(bits))
        judge(trial, "wcs", [(f"the tile {order}/{cell}", (found - cell * 256)[:4], numpy.array_equal(found, cell * 256 + within))])


def changes(trial):
    """The leaves whose pixels differ in a tile three orders above them, and where a tile is missing all that have a number."""
    chance = numpy.random.default_rng(2)
    before = chance.integers(1, 100, (16, 16))
    now = before.copy()
    # In nested order, where those of a leaf are together: four pixels of one leaf, and one of another.
    for pixel in (4 * 9, 4 * 9 + 1, 4 * 9 + 2, 4 * 9 + 3, 4 * 40 + 2):
        now[at(pixel)] += 1
    sparse = numpy.zeros((16, 16), int)
    sparse[at(4 * 7)] = 5
    function = """([one, other]) => import("/atlas/fits.js").then(({ Image }) => {
        const layer = (numbers) => ({ order: 3, bits: 4, tiles: new Map(numbers ? [[5, new Image(16, 16, Int16Array.from(numbers), { scale: 1, zero: 0, blank: 0 })]] : []) });
        return it.changesOf(layer(one), layer(other), [5], 6);
    })"""
    lists = [None if one is None else one.ravel().tolist() for one in (now, before, sparse)]
    pairs = [(0, 1), (1, 1), (2, None), (None, 2), (None, None)]
    inputs = [[None if which is None else lists[which] for which in pair] for pair in pairs]
    found = answers_later(trial, "changes", function, inputs)
    expected = [[5 * 64 + 9, 5 * 64 + 40], [], [5 * 64 + 7], [5 * 64 + 7], []]
    judge(trial, "changes", [(pair, answer, answer == {"order": 6, "cells": cells}) for pair, answer, cells in zip(pairs, found, expected)])
    coarse = answers(trial, "changes", "(cells) => it.coarsened({ order: 6, cells })", [[*range(1000)], [1, 2]])
    judge(trial, "changes", [("many", coarse, coarse == [{"order": 5, "cells": [*range(250)]}, {"order": 6, "cells": [1, 2]}])])


VOTABLE = """<?xml version="1.0"?><VOTABLE version="1.4" xmlns="http://www.ivoa.net/xml/VOTable/v1.3"><RESOURCE><TABLE>
<FIELD name="Vmag" datatype="float" unit="mag" ucd="phot.mag"/><FIELD name="lon" datatype="double" ucd="pos.eq.ra;meta.main"/>
<FIELD name="lat" datatype="double" ucd="pos.eq.dec;meta.main"/><DATA>%s</DATA></TABLE></RESOURCE></VOTABLE>"""
TABLES = [
    (VOTABLE % "<TABLEDATA><TR><TD>7.5</TD><TD>10.684</TD><TD>41.269</TD></TR><TR><TD>8</TD><TD/><TD/></TR></TABLEDATA>", [("7.5", M31)]),
    ("# made\nid;RAJ2000;DEJ2000\n1;10.684;41.269\n2;05:34:31.9;+22:00:52\n", [("1", M31), ("2", CRAB)]),
    ('id,ra,dec\n"1, ""a""",10.684,41.269\n3,x,5\n', [('1, "a"', M31)]),
    ("id\t_RAJ2000\t_DEJ2000\r\n\t10.684\t41.269\r\n", [("", M31)]),
    ("alpha,delta\n10.684,41.269", [("10.684", M31)]),
    (VOTABLE % "<BINARY2/>", "aren't inline"),
    ("<?xml version='1.0'?><nothing>", "no VOTable"),
    ("a,b\n1,2\n", "no columns of a position, as ra and dec, among a, b"),
    ("one line", "names no columns"),
    ("", "no lines"),
]


def tables_of_sources(trial):
    function = """(text) => {
        try { return it.readTable(text).rows.map(({ values, direction }) => [values[0], direction]); } catch (fault) { return fault.message; }
    }"""
    found = answers(trial, "tables", function, [text for text, _ in TABLES])
    for (text, expected), rows in zip(TABLES, found):
        if isinstance(expected, str):
            is_right = isinstance(rows, str) and expected in rows
        else:
            is_right = [row[0] for row in rows] == [name for name, _ in expected]
            is_right = is_right and all(numpy.allclose(direction, place.cartesian.xyz, atol=1e-9) for (_, direction), (_, place) in zip(rows, expected))
        judge(trial, "tables", [(text, rows, is_right)])


# A filter, and which of these rows it leaves: name, mag.
SOURCES = [["NGC 224", "3.4"], ["ngc 1", "13.6"], ["M 31", ""], ["M 33", "5.7"]]
FILTERS = [("", [0, 1, 2, 3]), ("mag < 6", [0, 3]), ("mag<=5.7 & name ~ ngc", [0]), ("name = M 31", [2]), ('name != "M 31"', [0, 1, 3]), ("mag = 3.40", [0]), ('"mag" > 13.5', [1]),
           ("mag >= 1e1", [1]), ("colour < 1", []), ("mag", "written as"), ("mag < big", "is a number"), ("mag < 6 &", "written as")]


def filters(trial):
    function = """([text, rows]) => {
        const { accepts, fault } = it.readFilter(text);
        return fault ?? rows.map((_, at) => at).filter((at) => accepts({ names: ["name", "mag"], values: rows[at] }));
    }"""
    found = answers(trial, "filter", function, [(text, SOURCES) for text, _ in FILTERS])
    judge(trial, "filter", [(text, rows, expected in rows if isinstance(expected, str) else rows == expected) for (text, expected), rows in zip(FILTERS, found)])


def regions(trial):
    """Shapes of DS9: points of each line, and how far and in which direction astropy has them from the shape's middle."""
    function = "(text) => { try { return it.readRegions(text).shapes; } catch (fault) { return fault.message; } }"
    shapes = {
        "fk5\ncircle(10,41,30')": (SkyCoord(10, 41, unit="deg"), [(0, 0.5, 270), (18, 0.5, 0), (36, 0.5, 90)]),
        'icrs; circle 00:40:00 +41:00:00 1800"': (SkyCoord(10, 41, unit="deg"), [(54, 0.5, 180)]),
        "galactic\nellipse(120,-20,2,1,30) # color=red": (SkyCoord(120, -20, unit="deg", frame="galactic"), [(0, 2, 300), (18, 1, 30)]),
        "j2000\nbox(200,-60,2,1,0)": (SkyCoord(200, -60, unit="deg"), [(0, 1.25**0.5, 360 - 63.4349), (1, 1.25**0.5, 63.4349)]),
    }
    for text, (middle, points) in shapes.items():
        line = answers(trial, "regions", function, [text])[0][0][0]
        for which, far, angle in points:
            point = SkyCoord(*line[which], representation_type="cartesian").represent_as("unitspherical")
            point = SkyCoord(point.lon, point.lat).transform_to(middle.frame)
            found = middle.separation(point).deg, middle.position_angle(point).deg
            judge(trial, "regions", [(text, found, abs(found[0] - far) < 1e-4 and abs((found[1] - angle + 180) % 360 - 180) < 0.01)])
    polygon = answers(trial, "regions", function, ["icrs\npolygon(10,41,11,41,11,42)"])[0][0][0]
    expected = healpy.ang2vec([10, 11, 11, 10], [41, 41, 42, 41], lonlat=True)
    judge(trial, "regions", [("a polygon", polygon, numpy.allclose(polygon, expected, atol=1e-12))])
    refused = {"image\ncircle(1,2,3)": "are image", "circle(1,2,3)": "no frame", "fk5\ncircle(1,2,3p)": "no size", "fk5\nvector(1,2,3,4)": "no shape", "fk5\ncircle(1,99,1)": "−90 to +90"}
    judge(trial, "regions", [(text, said, refused[text] in said) for text, said in zip(refused, answers(trial, "regions", function, [*refused]))])


def mocs(trial):
    """Coverage maps of each form: which cells of order 8 they touch."""
    cells = {3: [5, 700], 6: [2**12 * 3 + 17], 8: [123456, 123457]}
    expected = sorted({cell * 4 ** (8 - order) + at for order, some in cells.items() for cell in some for at in range(4 ** (8 - order))})
    uniq = [4 * 4**order + cell for order, some in cells.items() for cell in some]
    ranges = [bound << 2 * (29 - order) for order, some in cells.items() for cell in some for bound in (cell, cell + 1)]
    text = "3/5 700 6/12305 8/123456-123457"
    files = [moc_file("NUNIQ", "K", uniq), moc_file("NUNIQ", "J", uniq), moc_file("RANGE", "K", ranges), text.encode(), (text + " 9/").encode(), b'{"3": [5, 700], "6": [12305], "8": [123456, 123457]}']
    function = """(bytes) => {
        try { const moc = it.readMoc(Uint8Array.from(bytes).buffer); return Array.from({ length: 12 * 4 ** 8 }, (_, cell) => cell).filter((cell) => moc.touches(8, cell)); }
        catch (fault) { return fault.message; }
    }"""
    found = answers(trial, "moc", function, [[*file] for file in files])
    judge(trial, "moc", [(file[:40], len(cells), cells == expected) for file, cells in zip(files, found)])
    wrong = [b"3/768", b"{}", b"5/x", b'{"3": [1', b"25/1"]
    judge(trial, "moc", [(text, said, isinstance(said, str) and "no coverage map" in said) for text, said in zip(wrong, answers(trial, "moc", function, [[*text] for text in wrong]))])


def moc_file(ordering, form, numbers):
    column = fits.Column("UNIQ", form, array=numpy.array(numbers, "i8" if form == "K" else "i4"))
    table = fits.BinTableHDU.from_columns([column])
    table.header["ORDERING"] = ordering
    file = io.BytesIO()
    fits.HDUList([fits.PrimaryHDU(), table]).writeto(file)
    return file.getvalue()


def at(pixel):
    """Line and column in a file of the pixel of a tile of 16, in nested order."""
    x, y = (sum((pixel >> (2 * bit + shift) & 1) << bit for bit in range(4)) for shift in (0, 1))
    return 15 - x, y
