"""What whoever looks at the atlas page does with it, tried at three sizes of the screen: atlas-client.py calls `at_each_size` and
`once`, and says what `trial` is.

- Positions that are written, and those that the page doesn't take; what stands under a pointer, after arrow keys, under a finger.
- Frames a second while the view moves, and how many milliseconds of the browser's main thread each takes; the first picture, also on
  a slow line; how many bytes come for a view, and for a publication; a change that coarser tiles don't show.
- A second HiPS beside the survey.
- The scale bar, the colour bar, cuts that are typed or fitted, galactic coordinates, Back and Forward, files that are saved.
- A server that begins anew; names of objects; a catalogue over the sky; the picture that WebGL draws.
"""

import os
import re
import tempfile
import time
from pathlib import Path
from urllib.parse import parse_qs

import healpy
import numpy
from astropy import units, visualization
from astropy.coordinates import SkyCoord
from astropy.io import fits
from astropy.wcs import WCS
from PIL import Image
from selenium.webdriver.common.action_chains import ActionChains
from selenium.webdriver.common.by import By
from selenium.webdriver.common.actions.wheel_input import ScrollOrigin
from selenium.webdriver.common.keys import Keys

from survey_files import tile_path

EXAMPLES = Path(__file__).resolve().parent.parent / "examples"
SIZES = {"1280 by 800": (1280, 800, False), "1920 by 1080": (1920, 1080, False), "390 by 844": (390, 844, True)}
VIEW = (80, 20, 30)
# What a busy machine of two processors meets; a page that fetches or draws too much is far beyond.
MOST_MILLISECONDS_A_FRAME, LEAST_FRAMES_A_SECOND = 50, 5
MOST_FIRST, MOST_FIRST_ON_A_SLOW_LINE = 8, 12
# Far below the mosaic's 6,400,000.
MOST_BYTES_OF_A_VIEW, MOST_BYTES_OF_A_PUBLICATION = 3_000_000, 200_000
LEAST_FINGER = 40
FRAMES = """
const done = arguments[arguments.length - 1], canvas = document.getElementById("lines"), begun = performance.now();
let frames = 0;
const next = () => {
    const key = frames++ % 40 < 20 ? "ArrowLeft" : "ArrowRight";
    canvas.dispatchEvent(new KeyboardEvent("keydown", { key }));
    if (performance.now() - begun < 1000) requestAnimationFrame(next);
    else done([frames, performance.now() - begun]);
};
requestAnimationFrame(next);
"""


def resize(trial, width, height, is_touch):
    metrics = {"width": width, "height": height, "deviceScaleFactor": 1, "mobile": is_touch}
    trial.browser.execute_cdp_cmd("Emulation.setDeviceMetricsOverride", metrics)
    trial.browser.execute_cdp_cmd("Emulation.setTouchEmulationEnabled", {"enabled": is_touch, "maxTouchPoints": 5})


def script(trial, text, *words):
    return trial.browser.execute_script(text, *words)


def view_of(trial):
    """The view that the page's address has."""
    words = parse_qs(script(trial, "return location.hash.slice(1)"))
    return tuple(float(words.get(name, ["nan"])[0]) for name in ("ra", "dec", "width"))


def turn(trial, view, *switches):
    """The page goes to a view, without being opened anew."""
    script(trial, "location.hash = arguments[0]", trial.hash(view, *switches))
    time.sleep(0.1)
    trial.wait("whole")


def shown_order(trial):
    """The order of the tiles that are shown; 3 where it is the mosaic."""
    text = script(trial, "return document.getElementById('shown').textContent")
    return int(text[-1]) if "order" in text else 3


def is_said(trial, what, text, found):
    if text not in found:
        trial.blame(f"{what}: no '{text}' in '{found}'")


def wait_for(trial, what, condition, seconds=15):
    until = time.monotonic() + seconds
    while time.monotonic() < until:
        if condition():
            return
        time.sleep(0.05)
    trial.blame(f"{what}: not within {seconds} seconds")


# ---- at each size


def at_each_size(trial, sent):
    for name, (width, height, is_touch) in SIZES.items():
        resize(trial, width, height, is_touch)
        first_picture(trial, name, sent)
        ruler(trial, name)
        publication(trial, name, sent)
        if is_touch:
            folds_away(trial, name)
        else:
            reads(trial, name)
            turn(trial, VIEW)
        by_fingers(trial, name)
        searches(trial, name)
        frames(trial, name)
    resize(trial, *SIZES["1280 by 800"])


def first_picture(trial, name, sent):
    # What the page before asked for may still come.
    trial.browser.get("about:blank")
    time.sleep(0.3)
    sent.clear()
    trial.open(trial.hash(VIEW))
    first = script(trial, "return Number(document.body.dataset.first) / 1000")
    paths = [path for path, _ in sent]
    size = sum(size for _, size in sent)
    if not first or first > MOST_FIRST:
        trial.blame(f"{name}: the first picture comes after {first} s")
    if size > MOST_BYTES_OF_A_VIEW or "/Norder3/Allsky.fits" in paths:
        trial.blame(f"{name}: {size} bytes are fetched for a view of {VIEW[2]} degrees")
    orders = [int(path.split("/")[1].removeprefix("Norder")) for path in paths if path.startswith("/Norder")]
    if orders != sorted(orders) or orders[:1] != [0]:
        trial.blame(f"{name}: tiles don't come by the coarsest order first: {orders}")
    trial.compare(f"{name}, {VIEW[2]} degrees", VIEW, shown_order(trial) + trial.survey.bits)
    print(f"check-atlas: {name}: first picture after {first:.2f} s, whole view {size / 1e6:.2f} MB in {len(sent)} files")


def searches(trial, name):
    """Positions that are written; what isn't taken is said, and the next one is taken."""
    place = trial.browser.find_element(By.ID, "place")
    if not place.is_displayed():
        script(trial, "document.getElementById('fold').click()")
    for text, said in (("M 31", "Names of objects aren't known"), ("83", "two angles")):
        search(place, text)
        is_said(trial, f"{name}: '{text}'", said, script(trial, "return document.getElementById('refused').textContent"))
    for text, expected, understood in (("05:36:00 +21:30:00", (84, 21.5), "RA 84 Dec 21.5, ICRS"), ("Dec 20 RA 80", (80, 20), "RA 80 Dec 20, ICRS")):
        search(place, text)
        wait_for(trial, f"{name}: '{text}' leads to {view_of(trial)}", lambda expected=expected: view_of(trial)[:2] == expected, 10)
        if script(trial, "return document.getElementById('refused').textContent") or place.get_attribute("value") != understood:
            trial.blame(f"{name}: '{text}' is taken as '{place.get_attribute('value')}'")
    if script(trial, "return document.body.dataset.controls") == "open":
        script(trial, "document.getElementById('fold').click()")


def search(place, text):
    place.clear()
    place.send_keys(text, Keys.ENTER)


def reading_is(trial, what, at):
    """The position, the pixel and its number that stand at a point of the picture, by wcslib and healpy."""
    survey, view = trial.survey, view_of(trial)
    rect = trial.browser.find_element(By.ID, "lines").rect
    ra, dec = trial.wcs((round(rect["height"]), round(rect["width"])), *view).all_pix2world([at[0]], [at[1]], 0)
    said = re.search(r"RA ([\d.]+)°  Dec ([+−][\d.]+)°", script(trial, "return document.getElementById('position').textContent"))
    found = said and (float(said[1]), float(said[2].replace("−", "-")))
    if not found or abs(found[0] - ra[0]) > 0.002 or abs(found[1] - dec[0]) > 0.002:
        trial.blame(f"{what}: {found} is said at {at}, which is {ra[0]}, {dec[0]}")
        return
    text = script(trial, "return document.getElementById('value').textContent")
    value = re.search(r"cell \d+/\d+, pixel (\d+)/(\d+): (-?\d+|blank|no data)", text)
    if not value:
        trial.blame(f"{what}: '{text}' is said")
        return
    order = int(value[1])
    pixel = int(healpy.ang2pix(2**order, ra[0], dec[0], nest=True, lonlat=True))
    number = survey.numbers(order, numpy.array([pixel]))[0]
    is_same = value[3] in ("blank", "no data") if numpy.isnan(number) else value[3] == str(int(number))
    if int(value[2]) != pixel or not is_same:
        trial.blame(f"{what}: '{text}' is said where pixel {order}/{pixel} has {number}")


def reads(trial, name):
    canvas = trial.browser.find_element(By.ID, "lines")
    script(trial, "arguments[0].addEventListener('pointermove', (event) => { window.at = [event.offsetX, event.offsetY]; })", canvas)
    ActionChains(trial.browser).move_to_element_with_offset(canvas, 60, 40).perform()
    reading_is(trial, f"{name}, under the pointer", script(trial, "return window.at"))
    canvas.send_keys(Keys.ARROW_LEFT, Keys.ARROW_UP)
    time.sleep(0.3)
    trial.wait("whole")
    if view_of(trial)[0] == VIEW[0]:
        trial.blame(f"{name}: arrow keys don't move the view")
    reading_is(trial, f"{name}, after arrow keys", script(trial, "return window.at"))
    mark = script(trial, "const mark = document.getElementById('mark'); return mark.hidden ? null : parseFloat(mark.style.left)")
    value = float(script(trial, "return document.getElementById('value').textContent").rsplit(" ", 1)[1])
    low, high = trial.levels(VIEW)
    if mark is None or abs(mark - 100 * min(1, max(0, (value - low) / (high - low)))) > 1:
        trial.blame(f"{name}: the colour bar's mark is at {mark} for {value} between {low} and {high}")
    ActionChains(trial.browser).move_to_element(trial.browser.find_element(By.ID, "title")).perform()
    if trial.text("position") or trial.text("value"):
        trial.blame(f"{name}: outside of the picture stands '{trial.text('position')}'")


def fingers(trial, kind, *points):
    touched = [{"x": x, "y": y, "id": at} for at, (x, y) in enumerate(points)]
    trial.browser.execute_cdp_cmd("Input.dispatchTouchEvent", {"type": kind, "touchPoints": touched})


def by_fingers(trial, name):
    """A tap reads, two fingers zoom, and one drags."""
    rect = trial.browser.find_element(By.ID, "lines").rect
    x, y = 150, 200
    fingers(trial, "touchStart", (x, rect["y"] + y))
    fingers(trial, "touchEnd")
    reading_is(trial, f"{name}, under a finger", (x, y))
    before = view_of(trial)
    middle = round(rect["width"] / 2), rect["y"] + 300
    fingers(trial, "touchStart", (middle[0] - 40, middle[1]), (middle[0] + 40, middle[1]))
    for apart in (50, 60, 70, 80):
        fingers(trial, "touchMove", (middle[0] - apart, middle[1]), (middle[0] + apart, middle[1]))
    fingers(trial, "touchEnd")
    wait_for(trial, f"{name}: two fingers leave a width of {view_of(trial)[2]}", lambda: 0.4 * before[2] < view_of(trial)[2] < 0.65 * before[2], 10)
    zoomed = view_of(trial)
    fingers(trial, "touchStart", middle)
    for far in (20, 40, 60):
        fingers(trial, "touchMove", (middle[0], middle[1] + far))
    fingers(trial, "touchEnd")
    wait_for(trial, f"{name}: a finger leaves the view at {view_of(trial)}", lambda: view_of(trial)[1] > zoomed[1], 10)
    trial.wait("whole")


def folds_away(trial, name):
    """On a small screen controls fold away, and what is touched is large enough."""
    rect = trial.browser.find_element(By.ID, "lines").rect
    if rect["height"] < 600:
        trial.blame(f"{name}: the sky gets {rect['height']} of 844 pixels")
    if trial.browser.find_element(By.ID, "controls").is_displayed():
        trial.blame(f"{name}: the controls aren't folded away")
    script(trial, "document.getElementById('fold').click()")
    small = script(trial, """return [...document.querySelectorAll("button, select, a.button, label.switch, input:not([type=checkbox])")]
        .map((one) => [one.id || one.textContent, one.getBoundingClientRect()]).filter(([, box]) => box.width > 0 && Math.min(box.width, box.height) < arguments[0])
        .map(([name, box]) => `${name} ${box.width} by ${box.height}`)""", LEAST_FINGER)
    if small or not trial.browser.find_element(By.ID, "controls").is_displayed():
        trial.blame(f"{name}: too small for a finger: {small}")
    script(trial, "document.getElementById('fold').click()")


def ruler(trial, name):
    """The scale bar is as long as it says, and the field as wide."""
    width = trial.browser.find_element(By.ID, "lines").rect["width"]
    pixel = numpy.degrees(4 * numpy.sin(numpy.radians(VIEW[2]) / 4) / width)
    bar = script(trial, "return document.getElementById('scale-bar').getBoundingClientRect().width")
    found = re.match(r"([\d.]+)°, ([\d.]+)° × ", script(trial, "return document.getElementById('scale-text').textContent"))
    if not found or abs(bar * pixel - float(found[1])) > pixel or abs(float(found[2]) - width * pixel) > 0.1:
        trial.blame(f"{name}: a bar of {bar} pixels of {pixel} degrees says '{found and found[0]}'")


def publication(trial, name, sent):
    """A leaf in view."""
    survey = trial.survey
    leaf = int(healpy.ang2pix(2**survey.top, *VIEW[:2], nest=True, lonlat=True)) + list(SIZES).index(name)
    kept = survey.file(leaf)
    before = int(trial.state()[1])
    sent.clear()
    trial.ask("PUT", "/" + tile_path(survey.top, leaf), survey.file(leaf, 15000))
    begun = time.monotonic()
    trial.ask("POST", "/publish")
    trial.wait("whole", str(before + 1))
    seconds = time.monotonic() - begun
    paths, size = [path for path, _ in sent], sum(size for _, size in sent)
    survey.edited[leaf] = 15000
    if name != "390 by 844":
        trial.compare(f"{name}, after a publication", VIEW, survey.deep)
    if size > MOST_BYTES_OF_A_PUBLICATION or "/Norder3/Allsky.fits" in paths:
        trial.blame(f"{name}: a publication of one leaf costs {size} bytes: {paths}")
    print(f"check-atlas: {name}: a publication costs a page {size / 1000:.0f} kB, and is seen after {seconds:.1f} s; fifty pages, {50 * size / 1e6:.1f} MB")
    del survey.edited[leaf]
    trial.ask("PUT", "/" + tile_path(survey.top, leaf), kept)
    trial.ask("POST", "/publish")
    trial.wait("whole", str(before + 2))


def frames(trial, name):
    """Milliseconds of the main thread for a frame of a view that moves, and how many come a second."""
    told = []
    for what, view in (("30 degrees", VIEW), ("whole sky", (40, 0, 360))):
        turn(trial, view, "grid=1&coverage=1&cells=0&changes=1&colours=dusk")
        trial.browser.execute_cdp_cmd("Performance.enable", {"timeDomain": "threadTicks"})
        # Something else may hold the machine up for a second, hardly for three.
        for _ in range(3):
            rate, spent = a_second_of_frames(trial)
            if rate >= LEAST_FRAMES_A_SECOND and spent <= MOST_MILLISECONDS_A_FRAME:
                break
        told.append(f"{what} {rate:.0f} frames a second, {spent:.0f} ms of the main thread each")
        if spent > MOST_MILLISECONDS_A_FRAME or rate < LEAST_FRAMES_A_SECOND:
            trial.blame(f"{name}: {told[-1]}")
    print(f"check-atlas: {name}: {'; '.join(told)}")


def a_second_of_frames(trial):
    """How many come a second, and milliseconds of the main thread for each."""
    before = thread_seconds(trial)
    count, milliseconds = trial.browser.execute_async_script(FRAMES)
    return 1000 * count / milliseconds, 1000 * (thread_seconds(trial) - before) / count


def thread_seconds(trial):
    return {one["name"]: one["value"] for one in trial.browser.execute_cdp_cmd("Performance.getMetrics", {})["metrics"]}["ThreadTime"]


# ---- once


def small_change(trial, sent):
    """One pixel more by one, which the mean of 256 doesn't show: the page finds it a little later, and slowly."""
    survey, view = trial.survey, (80, 20, 12)
    resize(trial, 700, 420, False)
    trial.open(trial.hash(view))
    leaf = int(healpy.ang2pix(2**survey.top, *view[:2], nest=True, lonlat=True))
    data = bytearray(survey.file(leaf))
    place = 2880 + 2 * (2**survey.bits + 1) * 2 ** (survey.bits - 1)
    data[place + 1] ^= 1
    before = int(trial.state()[1])
    trial.ask("PUT", "/" + tile_path(survey.top, leaf), bytes(data))
    sent.clear()
    begun = time.monotonic()
    trial.ask("POST", "/publish")
    trial.wait("whole", str(before + 1))
    wait_for(trial, "a small change isn't looked for", lambda: script(trial, "return document.body.dataset.sure") == "1", 25)
    rate = sum(size for _, size in sent) / (time.monotonic() - begun)
    is_said(trial, "a small change", "changed 1 tile of order 4", script(trial, "return document.getElementById('news').textContent"))
    if rate > MOST_BYTES_OF_A_PUBLICATION:
        trial.blame(f"looking for a small change costs {rate} bytes a second")
    print(f"check-atlas: a change that coarser tiles don't show is found after {time.monotonic() - begun:.1f} s, by {rate / 1000:.0f} kB a second")
    resize(trial, *SIZES["1280 by 800"])


def once(trial, sent, folder):
    small_change(trial, sent)
    on_a_slow_line(trial, sent)
    begins_as_told(trial)
    cuts_are_typed(trial)
    is_galactic(trial)
    goes_back(trial)
    saves(trial)
    draws_by_webgl(trial)
    wheels(trial)
    measures(trial)
    opens_files(trial, folder)
    names_are_known(trial)
    compares(trial, folder)
    shows_sources(trial, catalogue_of(folder))
    begins_anew(trial)


def on_a_slow_line(trial, sent):
    """4 Mbit/s and 80 ms: the whole sky by its coarsest tiles, before the mosaic is there."""
    trial.browser.execute_cdp_cmd("Network.enable", {})
    line = {"offline": False, "latency": 80, "downloadThroughput": 500_000, "uploadThroughput": 500_000}
    trial.browser.execute_cdp_cmd("Network.emulateNetworkConditions", line)
    for what, words in (("whole sky", trial.hash((40, 0, 360))), ("30 degrees", trial.hash(VIEW))):
        trial.browser.get("about:blank")
        sent.clear()
        trial.browser.get(f"{trial.base}/atlas/{words}")
        wait_for(trial, f"slow line, {what}: a picture", lambda: script(trial, "return document.body?.dataset.first"), 30)
        first = float(script(trial, "return document.body.dataset.first || 99000")) / 1000
        if first > MOST_FIRST_ON_A_SLOW_LINE:
            trial.blame(f"slow line, {what}: the first picture comes after {first} s")
        print(f"check-atlas: 4 Mbit/s, 80 ms, {what}: first picture after {first:.2f} s")
    trial.browser.get("about:blank")
    line.update({"latency": 0, "downloadThroughput": -1, "uploadThroughput": -1})
    trial.browser.execute_cdp_cmd("Network.emulateNetworkConditions", line)


def begins_as_told(trial):
    """hips_initial_ra, _dec, _fov and hips_pixel_cut, where the page's address says nothing."""
    trial.open("")
    words = parse_qs(script(trial, "return location.hash.slice(1)"))
    if view_of(trial) != (82.5, 19.5, 20.0) or script(trial, "return document.getElementById('low-value').value") != "-9000":
        trial.blame("without a view in its address the page begins with", view_of(trial), words)


def cuts_are_typed(trial):
    """Cuts that are numbers, and words on others; cuts that fit what is shown, as numpy finds them; a stretch and inverted colours."""
    turn(trial, VIEW)
    for name, texts in (("low", (("much", "no number"), ("1e9", "below the highest"), ("-20000.5", "-20000.5"))), ("high", (("1e4", "10000"),))):
        box = trial.browser.find_element(By.ID, f"{name}-value")
        for text, expected in texts:
            search(box, text)
            found = parse_qs(script(trial, "return location.hash.slice(1)"))[name][0]
            if (box.get_attribute("aria-invalid") == "true") == (found == expected) or expected not in (found + trial.text("cut-refused")):
                trial.blame("a cut of", text, "becomes", found, trial.text("cut-refused"))
    script(trial, """for (const [name, value] of [["fit", "90 %"], ["stretch", "log"]]) { const list = document.getElementById(name); list.value = value; list.dispatchEvent(new Event("input")); }
        document.getElementById("inverted").click()""")
    trial.wait("whole")
    picture, pixels = trial.shot(), trial.sky_of(VIEW)
    values = trial.survey.numbers(trial.survey.deep, healpy.ang2pix(2**trial.survey.deep, *pixels, nest=True, lonlat=True))
    low, high = (float(parse_qs(script(trial, "return location.hash.slice(1)"))[name][0]) for name in ("low", "high"))
    if not numpy.allclose((low, high), numpy.nanpercentile(values, (5, 95)), rtol=0.02):
        trial.blame("90 % of what is shown lie between", (low, high), "in place of", numpy.nanpercentile(values, (5, 95)))
    part = visualization.LogStretch(1000)(numpy.clip((values - low) / (high - low), 0, 1))
    grey = numpy.where(numpy.isnan(values), 0x17, 255 - numpy.round(255 * part))
    trial.judge("the log stretch, inverted", abs(picture[1:-1:2, 1:-1:2, 0].ravel() - grey) <= 1, 0.999)
    script(trial, "document.getElementById('inverted').click()")


def measures(trial):
    """From a place to another one, by keys; and the position that is copied, or stands in the box."""
    turn(trial, VIEW)
    canvas = trial.browser.find_element(By.ID, "lines")
    script(trial, "arguments[0].addEventListener('pointermove', (event) => { window.at = [event.offsetX, event.offsetY]; })", canvas)
    places = []
    for right, down, key in ((-200, 100, "m"), (150, -120, "c")):
        ActionChains(trial.browser).move_to_element_with_offset(canvas, right, down).perform()
        at, rect = script(trial, "return window.at"), canvas.rect
        places.append(SkyCoord(*trial.wcs((round(rect["height"]), round(rect["width"])), *VIEW).all_pix2world(*at, 0), unit="deg"))
        canvas.send_keys(key)
    said = re.match(r"([\d.]+)° from the mark, to ([\d.]+)°", script(trial, "return document.getElementById('distance').textContent"))
    expected = places[0].separation(places[1]).deg, places[0].position_angle(places[1]).deg
    if not said or abs(float(said[1]) - expected[0]) > 0.06 or abs(float(said[2]) - expected[1]) > 0.3:
        trial.blame("a distance of", expected, "is said as", said and said[0])
    place = trial.browser.find_element(By.ID, "place")
    wait_for(trial, "a position to copy", lambda: re.fullmatch(r"RA ([\d.]+) Dec ([\d.]+), ICRS", place.get_attribute("value")), 5)
    copied = SkyCoord(*re.findall(r"[\d.]+", place.get_attribute("value")), unit="deg")
    if copied.separation(places[1]).arcsec > 1:
        trial.blame("what is copied is", place.get_attribute("value"), "in place of", places[1])
    canvas.send_keys("m")


def opens_files(trial, folder):
    """A table, a region file and a coverage map from disk: rings, lines and an outline where astropy and healpy have them."""
    turn(trial, VIEW)
    before = trial.shot()
    cell = int(healpy.ang2pix(2**5, 76, 22, nest=True, lonlat=True))
    texts = {"stars.csv": "name,RA,Dec,mag\n\"A, first\",80,20,5.5\nB,05:36:00,+21:30:00,7\n", "circle.reg": "# Region file format: DS9\nfk5\ncircle(85,15,2d)\n",
             "field.json": f'{{"5": [{cell}]}}', "bad.csv": "a,b\n1,2\n"}
    for name, text in texts.items():
        (folder / name).write_text(text)
        trial.browser.find_element(By.ID, "file").send_keys(str(folder / name))
        wait_for(trial, f"{name} isn't read", lambda: trial.browser.find_element(By.ID, "file").get_attribute("value") == "", 5)
    is_said(trial, "a table without a position", "bad.csv: It has no columns of a position", script(trial, "return document.getElementById('file-refused').textContent"))
    is_said(trial, "files from disk", "stars.csv (2 sources)", script(trial, "return document.getElementById('opened').textContent"))
    trial.wait("whole")
    after = trial.shot()
    apart = (before != after).any(axis=2)
    rings = [(80, 20), (84, 21.5), (85, 17), (87.07, 15)] + [*zip(*healpy.vec2ang(healpy.boundaries(2**5, cell, step=2, nest=True).T, lonlat=True))]
    wcs = trial.wcs(after.shape[:2], *VIEW)
    for ra, dec in rings:
        column, line = numpy.round(wcs.all_world2pix(ra, dec, 0)).astype(int)
        if not apart[line - 5:line + 6, column - 5:column + 6].any():
            trial.blame("files from disk: nothing is drawn at", ra, dec)
    canvas, (column, line) = trial.browser.find_element(By.ID, "lines"), wcs.all_world2pix(80, 20, 0)
    ActionChains(trial.browser).move_to_element_with_offset(canvas, round(column - canvas.rect["width"] / 2), round(line - canvas.rect["height"] / 2)).click().perform()
    is_said(trial, "a source from disk", "A, first", trial.text("source"))
    for _ in range(3):
        script(trial, "document.querySelector('#opened button:last-child').click()")
    trial.wait("whole")
    if (trial.shot()[:-200] != before[:-200]).any():
        trial.blame("files that are closed are still drawn")


def names_are_known(trial):
    """By a resolver, where one is told."""
    trial.base, words = trial.base + "/atlas/?resolver=/resolver", trial.base
    trial.browser.get("about:blank")
    trial.browser.get(trial.base + trial.hash(VIEW))
    trial.wait("whole")
    place = trial.browser.find_element(By.ID, "place")
    for text, said in (("M 31", ""), ("Nothing 1", "No object is known as “Nothing 1”")):
        search(place, text)
        wait_for(trial, f"the name {text}", lambda said=said: view_of(trial)[:2] == (84, 21.5) and trial.text("refused") == said + ("." if said else ""), 10)
    trial.base = words


def wheels(trial):
    """From the whole sky to a part and back; `=` is the key of `+` without Shift."""
    resize(trial, 700, 420, False)
    turn(trial, (40, 0, 360))
    canvas = trial.browser.find_element(By.ID, "lines")
    for steps, direction, is_whole in ((2, -1, False), (4, 1, True)):
        for _ in range(steps):
            ActionChains(trial.browser, duration=0).scroll_from_origin(ScrollOrigin.from_element(canvas), 0, 200 * direction).perform()
        wait_for(trial, f"{steps} steps of the wheel by {direction} lead to {view_of(trial)}", lambda is_whole=is_whole: (view_of(trial)[2] == 360) == is_whole, 5)
    canvas.send_keys("=")
    wait_for(trial, f"the key = leads to {view_of(trial)}", lambda: view_of(trial)[2] < 180, 5)
    resize(trial, *SIZES["1280 by 800"])


def compares(trial, folder):
    """A second HiPS, without Moc.fits and with leaves alone, one of which is another: behind the line, in turn, and outlined."""
    survey, view = trial.survey, (80, 20, 12)
    ra, dec = trial.sky_of(view)
    leaf = int(healpy.ang2pix(2**survey.top, *view[:2], nest=True, lonlat=True))
    for one in numpy.unique(healpy.ang2pix(2**survey.top, ra, dec, nest=True, lonlat=True)).tolist():
        path = folder / "past" / tile_path(survey.top, one)
        path.parent.mkdir(parents=True, exist_ok=True)
        path.write_bytes(survey.file(one, 12000 if one == leaf else None))
    (folder / "past/properties").write_text(f"obs_title = Before\nhips_order = {survey.top}\nhips_tile_width = {2**survey.bits}\nhips_tile_format = fits\n")
    trial.page.folders["past"] = folder / "past"
    trial.open(trial.hash(view) + "&second=/past&changes=1")
    is_said(trial, "two states", f"1 tile of order {survey.top} differs in view", trial.text("differs"))
    survey.edited[leaf] = 12000
    for part in (0, 100):
        script(trial, "const line = document.getElementById('curtain'); line.value = arguments[0]; line.dispatchEvent(new Event('input'))", part)
        script(trial, f"if (document.getElementById('changes').checked !== {str(part == 0).lower()}) document.getElementById('changes').click()")
        trial.wait("whole")
        if part == 0:
            trial.marks_are_at(view, leaf)
            script(trial, "document.getElementById('changes').click()")
            trial.wait("whole")
        else:
            del survey.edited[leaf]
        trial.compare(f"two states, the line at {part} %", view, survey.deep, 0.98)
    before = trial.shot()
    script(trial, "document.getElementById('blink').click()")
    wait_for(trial, "the two states aren't shown in turn", lambda: (trial.shot() != before).any(), 4)
    search(trial.browser.find_element(By.ID, "second"), "https://elsewhere.example/hips")
    is_said(trial, "a HiPS from elsewhere", "from this server only", trial.text("second-refused"))
    search(trial.browser.find_element(By.ID, "second"), "/nowhere")
    wait_for(trial, "a HiPS that isn't there", lambda: "There is no properties file" in trial.text("second-refused"), 5)
    lies_behind(trial, view, leaf)


def lies_behind(trial, view, leaf):
    """The same HiPS as a background, through the survey and where this is blank."""
    survey = trial.survey
    trial.open(trial.hash(view) + "&background=/past")
    values = {}
    for behind in (False, True):
        survey.edited = {leaf: 12000} if behind else {}
        values[behind] = survey.numbers(survey.deep, healpy.ang2pix(2**survey.deep, *trial.sky_of(view), nest=True, lonlat=True))
    survey.edited = {}
    grey = lambda numbers, low, high: 255 * numpy.clip((numbers - low) / (high - low), 0, 1)  # noqa: E731
    behind = grey(values[True], *numpy.nanpercentile(values[True], (0.5, 99.5)))
    expected = behind + 0.6 * (grey(values[False], *trial.levels(view)) - behind)
    trial.judge("a background", abs(trial.shot()[1:-1:2, 1:-1:2, 0].ravel() - expected) <= 3, 0.99)


def is_galactic(trial):
    turn(trial, VIEW, "grid=1&galactic=1&coverage=0&cells=0&changes=0&colours=grey")
    canvas = trial.browser.find_element(By.ID, "lines")
    script(trial, "arguments[0].addEventListener('pointermove', (event) => { window.at = [event.offsetX, event.offsetY]; })", canvas)
    ActionChains(trial.browser).move_to_element_with_offset(canvas, 60, 40).perform()
    at, rect = script(trial, "return window.at"), canvas.rect
    ra, dec = trial.wcs((round(rect["height"]), round(rect["width"])), *VIEW).all_pix2world([at[0]], [at[1]], 0)
    there = SkyCoord(ra[0] * units.deg, dec[0] * units.deg, frame="icrs").galactic
    said = re.match(r"l ([\d.]+)°  b ([+−][\d.]+)°", script(trial, "return document.getElementById('position').textContent"))
    if not said or abs(float(said[1]) - there.l.deg) > 0.002 or abs(float(said[2].replace("−", "-")) - there.b.deg) > 0.002:
        trial.blame("galactic coordinates are", said and said[0], "in place of", there)
    place = trial.browser.find_element(By.ID, "place")
    place.send_keys("184.5 -5.8", Keys.ENTER)
    crab = SkyCoord(184.5 * units.deg, -5.8 * units.deg, frame="galactic").icrs
    wait_for(trial, f"a galactic position leads to {view_of(trial)}", lambda: numpy.allclose(view_of(trial)[:2], (crab.ra.deg, crab.dec.deg), atol=1e-4), 10)


def goes_back(trial):
    trial.open(trial.hash(VIEW))
    place = trial.browser.find_element(By.ID, "place")
    for text in ("81 20", "82 21"):
        place.clear()
        place.send_keys(text, Keys.ENTER)
        wait_for(trial, "a position", lambda text=text: view_of(trial)[:2] == tuple(map(float, text.split())), 10)
    for step, expected in ((trial.browser.back, (81, 20)), (trial.browser.back, VIEW[:2]), (trial.browser.forward, (81, 20)), (trial.browser.back, VIEW[:2])):
        step()
        wait_for(trial, f"Back and Forward lead to {view_of(trial)} in place of {expected}", lambda expected=expected: view_of(trial)[:2] == expected, 10)
    trial.wait("whole")
    trial.compare("after Back and Forward", VIEW, trial.survey.deep)


def saves(trial):
    """The picture, a cut-out of the view and the leaf under the pointer, as files; astropy places their pixels."""
    survey = trial.survey
    with tempfile.TemporaryDirectory() as name:
        folder = Path(name)
        trial.browser.execute_cdp_cmd("Browser.setDownloadBehavior", {"behavior": "allow", "downloadPath": name})
        canvas = trial.browser.find_element(By.ID, "lines")
        ActionChains(trial.browser).move_to_element_with_offset(canvas, 20, 20).perform()
        for button in ("save", "cut-out", "tile"):
            script(trial, "document.getElementById(arguments[0]).click()", button)
        wait_for(trial, f"saved: {os.listdir(folder)}", lambda: len([path for path in folder.iterdir() if path.suffix in (".png", ".fits")]) == 3)
        image = Image.open(folder / "atlas.png")
        if image.size != (round(canvas.rect["width"]), round(canvas.rect["height"])):
            trial.blame("the picture that is saved has", image.size)
        shown = numpy.asarray(image.convert("RGB"))[200:, :].astype(int)
        if (abs(shown - trial.shot()[200:, :].astype(int)).max(axis=2) > 1).mean() > 0.001:
            trial.blame("the picture that is saved is another")
        numbers_are_at(trial, "a cut-out", folder / "cut-out.fits", shown_order(trial) + survey.bits)
        leaf = int(script(trial, "return document.getElementById('tile').dataset.cell"))
        numbers_are_at(trial, "a tile", folder / tile_path(survey.top, leaf).replace("/", "_"), survey.deep)
        script(trial, "location.hash = arguments[0]", trial.hash((80, 20, 30)) + "&turn=40")
        trial.wait("whole")
        (folder / "cut-out.fits").unlink()
        script(trial, "document.getElementById('cut-out').click()")
        wait_for(trial, "a second cut-out", (folder / "cut-out.fits").exists)
        numbers_are_at(trial, "a turned cut-out", folder / "cut-out.fits", shown_order(trial) + survey.bits)


def numbers_are_at(trial, what, path, order):
    """Each pixel of a file has the number that stands where wcslib has it."""
    with fits.open(path) as file:
        file.verify("exception")
        data = file[0].data
        lines, columns = (axis.ravel() for axis in numpy.mgrid[0:data.shape[0], 0:data.shape[1]])
        ra, dec = WCS(file[0].header).all_pix2world(columns, lines, 0)
    pixels, which = numpy.unique(healpy.ang2pix(2**order, ra, dec, nest=True, lonlat=True), return_inverse=True)
    numbers = trial.survey.numbers(order, pixels)[which]
    found = data.ravel().astype(float)
    if what == "a tile":
        numbers = numpy.where(numpy.isnan(numbers), trial.survey.blank, numbers)
    # A pixel may have been edited by one.
    trial.judge(what, (abs(found - numbers) <= 1) | (numpy.isnan(found) & numpy.isnan(numbers)), 0.9999)


def draws_by_webgl(trial):
    """While the view moves: here by a processor, which draws the same as a card, only slowly."""
    resize(trial, 620, 360, False)
    trial.base, words = trial.base + "/atlas/?draw=gpu", trial.base
    try:
        for what, view in (("30 degrees", VIEW), ("whole sky", (40, 0, 360))):
            trial.browser.get("about:blank")
            trial.browser.get(trial.base + trial.hash(view))
            trial.wait("whole")
            order = shown_order(trial)
            script(trial, """window.still = setInterval(() => document.getElementById("lines").dispatchEvent(new WheelEvent("wheel", { deltaY: 0, cancelable: true })), 60)""")
            wait_for(trial, "WebGL isn't there, or isn't used", lambda: not script(trial, "return document.getElementById('moving').hidden"), 5)
            time.sleep(0.6)
            trial.compare(f"by WebGL, {what}", view, order + trial.survey.bits, 0.995)
            script(trial, "clearInterval(window.still)")
    finally:
        trial.base = words
        resize(trial, *SIZES["1280 by 800"])


def shows_sources(trial, catalogue):
    """Rings where the sources are, and the row of one that is clicked."""
    trial.page.folders["catalogue"] = catalogue
    view = (80, 20, 20)
    trial.open(trial.hash(view, "grid=0&coverage=0&cells=0&changes=0&colours=grey&catalogue=1"))
    wait_for(trial, "no catalogue is shown", lambda: script(trial, "return !document.getElementById('has-catalogue').hidden"), 10)
    is_said(trial, "the catalogue's name", "Made sources (3 sources)", script(trial, "return document.getElementById('catalogue-title').textContent"))
    time.sleep(0.6)
    picture = trial.shot()
    columns, lines = trial.wcs(picture.shape[:2], *view).all_world2pix([80, 83], [20, 22], 0)
    for column, line in zip(columns, lines):
        near = picture[round(line) - 9:round(line) + 10, round(column) - 9:round(column) + 10].astype(int)
        if ((near[:, :, 0] > 220) & (near[:, :, 2] < 120)).sum() < 10:
            trial.blame("no ring is at the source at", column, line)
    canvas = trial.browser.find_element(By.ID, "lines")
    ActionChains(trial.browser).move_to_element_with_offset(canvas, round(columns[1] - canvas.rect["width"] / 2), round(lines[1] - canvas.rect["height"] / 2)).click().perform()
    is_said(trial, "a source that is clicked", "second", trial.text("source"))
    is_said(trial, "a source that is clicked", "7.25 mag", trial.text("source"))
    trial.browser.find_element(By.ID, "close").click()
    if trial.browser.find_element(By.ID, "source").is_displayed():
        trial.blame("the row of a source isn't closed")
    turn(trial, (83, 22, 20), "grid=0&coverage=0&cells=0&changes=0&colours=grey&catalogue=1")
    ActionChains(trial.browser).move_to_element(trial.browser.find_element(By.ID, "title")).perform()
    canvas.send_keys(Keys.ENTER)
    is_said(trial, "a source that is picked by keys", "second", trial.text("source"))
    canvas.send_keys(Keys.ESCAPE)
    if trial.browser.find_element(By.ID, "source").is_displayed():
        trial.blame("the row of a source isn't closed by keys")
    turn(trial, view, "grid=0&coverage=0&cells=0&changes=0&colours=grey&catalogue=1")
    are_filtered(trial, [(round(column), round(line)) for column, line in zip(columns, lines)])
    del trial.page.folders["catalogue"]


def are_filtered(trial, places):
    """By a column's value, coloured by it, and listed."""
    ink = lambda column, line: trial.shot()[line - 9:line + 10, column - 9:column + 10].reshape(-1, 3).astype(int)  # noqa: E731
    is_yellow = lambda pixels: ((pixels[:, 0] > 220) & (pixels[:, 2] < 120)).sum() > 10  # noqa: E731
    box = trial.browser.find_element(By.ID, "filter")
    search(box, "mag < much")
    is_said(trial, "a filter that is none", "is a number", script(trial, "return document.getElementById('filter-refused').textContent"))
    search(box, "mag < 6")
    trial.wait("whole")
    if [is_yellow(ink(*place)) for place in places] != [True, False]:
        trial.blame("a filter leaves", [is_yellow(ink(*place)) for place in places])
    search(box, "")
    box.send_keys(Keys.TAB)
    script(trial, "const by = document.getElementById('by'); by.value = 'mag'; by.dispatchEvent(new Event('input')); document.getElementById('list').click()")
    trial.wait("whole")
    # The least and the greatest are viridis's ends.
    for place, end in zip(places, ((0x44, 0x01, 0x54), (0xFD, 0xE7, 0x25))):
        if (abs(ink(*place) - end).max(axis=1) < 40).sum() < 5:
            trial.blame("a source isn't coloured by its column at", place)
    is_said(trial, "the list of sources", "2 sources marked in view", trial.text("listed-count"))
    script(trial, "document.querySelectorAll('#rows button')[1].click()")
    wait_for(trial, f"a source of the list leads to {view_of(trial)}", lambda: numpy.allclose(view_of(trial)[:2], (83, 22), atol=1e-4), 5)
    is_said(trial, "a source of the list", "second", trial.text("source"))
    script(trial, "document.getElementById('list').click()")


def begins_anew(trial):
    """A restart without a publication is no change."""
    trial.open(trial.hash(VIEW))
    trial.stop()
    trial.wait("away")
    trial.start()
    trial.wait("whole", "0")
    news = script(trial, "return document.getElementById('news').textContent")
    if news:
        trial.blame("a server that begins anew without a publication:", news)


def catalogue_of(folder):
    """A catalogue of three sources, as `hipsctl catalog` makes it."""
    rows = ["80\t20\tA\t5\tfirst", "83\t22\tB\t7.25\tsecond", "200\t-60\tC\t9\tthird"]
    text = "# Completeness = 3 / 3\nra\tdec\tid\tmag\tnote\n" + "".join(f"{row}\n" for row in rows)
    (folder / "catalogue/Norder1").mkdir(parents=True)
    (folder / "catalogue/Norder1/Allsky.tsv").write_text(text)
    (folder / "catalogue/properties").write_text("obs_title = Made sources\ndataproduct_type = catalog\nhips_order = 1\nhips_cat_nrows = 3\n")
    (folder / "catalogue/metadata.xml").write_text('<VOTABLE><RESOURCE><TABLE><FIELD name="mag" datatype="double" unit="mag"/></TABLE></RESOURCE></VOTABLE>')
    return folder / "catalogue"
