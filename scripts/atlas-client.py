#!/usr/bin/python3
"""Tries the atlas page in Debian's chromium: atlas-client.py PROGRAM [PART]. Without a part all of them are tried, at once;
the part `bytes` measures what a publication costs.

hipsd serves surveys of each depth with known numbers (gradient_survey.py); `hipsctl page` serves the page, and the browser
runs without a window. Pixels of screenshots are compared with the numbers that healpy and astropy's WCS (wcslib) say are there: which
direction a pixel of the picture shows, which cell that is, and which number this has.

- Each survey as a whole and near, at the order of its leaves, and one at an order between; where the picture ends, and what is blank; what is said under the pointer.
- An edit changes nothing that is seen, its publication does, and the cells that changed are marked, those and no others.
- While 16 leaves in view are published together over and over, through a proxy that delays each reply at random, each picture shows
  one generation, that which the page names.
- A server that goes away is told of in words, and the picture stays; when it is back over its folder, that is shown.
- What each module of the page answers or does (atlas_modules.py, atlas_parts.py), and what whoever looks at the page does with it, by
  mouse, touch and keys, at three sizes (atlas_page.py, atlas_keys.py).
- An address without hipsd is told of in words; through the location of examples/nginx.conf the page is the same.

Ends with status 1 and says what is wrong.
"""

import io
import os
import random
import re
import shutil
import signal
import socket
import subprocess
import sys
import tempfile
import threading
import time
from http.client import HTTPConnection
from pathlib import Path
from urllib.parse import urlencode

import healpy
import numpy
from astropy.wcs import WCS
from PIL import Image
from selenium import webdriver
from selenium.webdriver.chrome.options import Options
from selenium.webdriver.chrome.service import Service
from selenium.webdriver.common.action_chains import ActionChains
from selenium.webdriver.common.by import By

import atlas_keys
import atlas_modules
import atlas_page
import atlas_parts
from gradient_survey import PAGE, SURVEYS, WIDE
from survey_files import tile_path

sys.path.insert(0, str(Path(__file__).parent.parent / "examples"))
from hipsctl.page import PAGE as PAGE_FOLDER, Handler, page_server  # noqa: E402

GROUND = (0x17, 0x1B, 0x26)
CHANGED = (0xFF, 0x7A, 0x1A)
PAPER = (0xF6, 0xF4, 0xEE)
MARGIN = 36
PATIENCE = 30
PLAIN = "grid=0&compass=0&coverage=0&cells=0&changes=0&catalogue=0&colours=grey"


class Delayed(Handler):
    """Replies come in another order than they were asked for."""

    most = 0.0
    # The paths that were asked for, and how many bytes each reply had.
    sent = []

    def pass_on(self, path):
        time.sleep(random.uniform(0, self.most))
        super().pass_on(path)

    def do_GET(self):
        """Also a resolver of names, of the form of Sesame's, which knows one; and the atlas's elements without its script."""
        if self.path == "/still":
            text, kind = (PAGE_FOLDER / "index.html").read_text().replace('<script type="module" src="atlas.js"></script>', '<base href="/atlas/">'), "text/html"
        elif self.path.startswith("/resolver"):
            text, kind = atlas_modules.SESAME.format(name="M31", ra="84", dec="21.5") if self.path == "/resolver?M%2031" else atlas_modules.NOTHING, "text/xml"
        else:
            return super().do_GET()
        body = text.encode()
        self.send_response(200)
        self.send_header("Content-Type", kind)
        self.send_header("Content-Length", str(len(body)))
        self.end_headers()
        return self.wfile.write(body)

    def ask(self, path):
        answer = super().ask(path)
        self.sent.append((path, len(answer[3])))
        return answer


class Trial:
    """A server of a survey, a server of the page, and what was found wrong."""

    def __init__(self, program, folder, browser):
        self.program, self.folder, self.browser = program, folder, browser
        self.wrong = []
        self.compared = self.apart = 0
        self.hipsd = self.page = None

    def blame(self, *words):
        self.wrong.append(" ".join(str(word) for word in words))
        print("check-atlas:", self.wrong[-1], file=sys.stderr)

    # ---- servers

    def serve(self, depth):
        """hipsd over the survey of that depth, and the page before it."""
        self.survey = SURVEYS.get(depth) or {"page": PAGE, "wide": WIDE}[depth]
        self.place = self.folder / str(depth)
        if not self.place.exists():
            self.survey.write(self.place)
        with socket.socket() as free:
            free.bind(("127.0.0.1", 0))
            self.address = f"127.0.0.1:{free.getsockname()[1]}"
        self.start()
        self.page = page_server(self.address, handler=Delayed)
        threading.Thread(target=self.page.serve_forever, daemon=True).start()
        self.base = f"http://127.0.0.1:{self.page.server_port}"

    def start(self):
        self.hipsd = subprocess.Popen([self.program, "serve", self.address, "65536", "24"], cwd=self.place,
                                      env={**os.environ, "HIPSD_LOG": "off"})
        until = time.monotonic() + 120
        while time.monotonic() < until and self.hipsd.poll() is None:
            try:
                socket.create_connection(self.address.split(":"), timeout=1).close()
                return
            except OSError:
                time.sleep(0.05)
        raise AssertionError("hipsd doesn't listen")

    def stop(self):
        """Ends the server of the survey."""
        if self.hipsd:
            self.hipsd.terminate()
            self.hipsd.wait()
        self.hipsd = None

    def end(self):
        self.stop()
        if self.page:
            self.page.shutdown()
            self.page.server_close()
        self.page = None

    def ask(self, method, path, body=b""):
        http = HTTPConnection(self.address, timeout=20)
        http.request(method, path, body, {"Connection": "close"})
        reply = http.getresponse()
        text = reply.read()
        http.close()
        if reply.status not in (200, 201, 204):
            self.blame(method, path, "is answered", reply.status, text)
        return text

    # ---- the page

    def open(self, words, wait="whole"):
        self.browser.get("about:blank")
        self.browser.get(f"{self.base}/atlas/{words}")
        self.wait(wait)

    def state(self):
        body = self.browser.find_element(By.TAG_NAME, "body")
        return body.get_attribute("data-state"), body.get_attribute("data-generation")

    def wait(self, state, generation=None):
        """Waits until the page says so, and has drawn it."""
        until = time.monotonic() + PATIENCE
        while time.monotonic() < until:
            now = self.state()
            if now[0] == state and generation in (None, now[1]):
                self.browser.execute_async_script("const done = arguments[0]; requestAnimationFrame(() => requestAnimationFrame(done))")
                return
            time.sleep(0.05)
        self.blame("the page is", self.state(), "and not", state, generation or "", "and says:", self.text("message"))

    def text(self, name):
        return self.browser.find_element(By.ID, name).text

    def shot(self):
        """The picture as the browser shows it, red, green and blue, line by line from the top."""
        box = self.browser.find_element(By.ID, "lines").rect
        page = Image.open(io.BytesIO(self.browser.get_screenshot_as_png())).convert("RGB")
        left, top = round(box["x"]), round(box["y"])
        return numpy.asarray(page.crop((left, top, left + round(box["width"]), top + round(box["height"]))))

    # ---- what the numbers say

    def wcs(self, shape, ra, dec, width):
        """The picture's projection by wcslib."""
        height, columns = shape
        found = WCS(naxis=2)
        found.wcs.crpix = [columns / 2 + 0.5, height / 2 + 0.5]
        if width > 180:
            degrees = 360 * numpy.sqrt(2) / numpy.pi / min(columns / 2 - MARGIN, height - 2 * MARGIN)
            found.wcs.ctype = ["RA---MOL", "DEC--MOL"]
            found.wcs.crval = [ra, 0]
        else:
            degrees = numpy.degrees(4 * numpy.sin(numpy.radians(width) / 4) / columns)
            found.wcs.ctype = ["RA---ZEA", "DEC--ZEA"]
            found.wcs.crval = [ra, dec]
        # Lines are counted downward.
        found.wcs.cdelt = [-degrees, -degrees]
        return found

    def sky_of(self, view):
        """The positions of each second pixel of each second line of the picture, but for its border."""
        rect = self.browser.find_element(By.ID, "lines").rect
        height, width = round(rect["height"]), round(rect["width"])
        lines, columns = (axis.ravel() for axis in numpy.mgrid[1:height - 1:2, 1:width - 1:2])
        return self.wcs((height, width), *view).all_pix2world(columns, lines, 0)

    def compare(self, what, view, order, least=0.9999):
        """Compares a screenshot with the numbers of that order's pixels, whose grey is that of the page."""
        survey, picture = self.survey, self.shot()
        ra, dec = self.sky_of(view)
        inside = numpy.isfinite(ra) & numpy.isfinite(dec)
        shown = picture[1:-1:2, 1:-1:2].reshape(-1, 3).astype(int)
        if view[2] > 180:
            self.judge(f"{what}, outside of the sky", (shown[~inside] == PAPER).all(axis=1), least)
        pixels = healpy.ang2pix(2**order, ra[inside], dec[inside], nest=True, lonlat=True)
        known, where = numpy.unique(pixels, return_inverse=True)
        values = survey.value(survey.numbers(order, known)[where])
        low, high = self.levels(view)
        grey = numpy.round(255 * numpy.clip((values - low) / (high - low), 0, 1))
        wanted = numpy.where(numpy.isnan(grey)[:, None], GROUND, grey[:, None])
        agree = (abs(shown[inside] - wanted) <= 1).all(axis=1)
        self.judge(what, agree, least)
        present = ~numpy.isnan(values)
        if len(set(grey[present])) < 4 and not survey.edited:
            self.blame(what, "has too few shades to tell")

    def marks_are_at(self, view, leaf):
        """The border of the changed cell is orange, and nothing else is."""
        survey, picture = self.survey, self.shot()
        ra, dec = healpy.vec2ang(healpy.boundaries(2**survey.top, leaf, step=400, nest=True).T, lonlat=True)
        columns, lines = numpy.round(self.wcs(picture.shape[:2], *view).all_world2pix(ra, dec, 0)).astype(int)
        inside = (columns >= 0) & (columns < picture.shape[1]) & (lines >= 0) & (lines < picture.shape[0])
        orange = is_orange(picture)
        self.judge("the mark of the changed cell", orange[lines[inside], columns[inside]], 0.99)
        near = numpy.zeros_like(orange)
        for column, line in zip(columns[inside], lines[inside]):
            near[max(0, line - 3):line + 4, max(0, column - 3):column + 4] = True
        if inside.sum() < 100 or (orange & ~near).any():
            self.blame("cells are marked that didn't change")

    def judge(self, what, agree, least):
        self.compared += len(agree)
        self.apart += (~agree).sum()
        if len(agree) == 0 or agree.mean() < least:
            self.blame(f"{what}: {(~agree).sum()} of {len(agree)} pixels aren't what the numbers say")

    def levels(self, view):
        """What is black and what is white: near, the least and the greatest number in view."""
        survey = self.survey
        if view[2] > 180:
            return survey.value(float(survey.low)), survey.value(float(survey.low + survey.rise))
        right, up = (axis.ravel() * view[2] / 2 for axis in numpy.mgrid[-1:1:24j, -0.7:0.7:24j])
        dec = numpy.clip(view[1] + up, -90, 90)
        ra = view[0] + right / numpy.cos(numpy.radians(view[1]))
        gradient = survey.gradient(healpy.ang2pix(2**survey.deep, ra, dec, nest=True, lonlat=True))
        return survey.value(float(gradient.min())), survey.value(float(gradient.max()))

    def hash(self, view, switches=PLAIN):
        low, high = self.levels(view)
        return "#" + urlencode({"ra": view[0], "dec": view[1], "width": view[2], "low": repr(low), "high": repr(high)}) + "&" + switches


# The middle of a picture of each survey near its leaves, and its width in degrees; and of one that is drawn at an order between.
BETWEEN = {32: ((84, 21, 25), 5)}
NEAR = {8: (200, -35, 12), 16: (83, 21, 9), 32: (84, 21, 3), 64: (20, 83, 6)}


def looks_at_each(trial):
    for depth, survey in SURVEYS.items():
        trial.serve(depth)
        whole, near = (40, 0, 360), NEAR[depth]
        trial.open(trial.hash(whole))
        trial.compare(f"{depth} bits, the whole sky", whole, 3 + survey.bits)
        trial.open(trial.hash(near))
        if trial.text("shown") != f"tiles of order {survey.top}":
            trial.blame(f"{depth} bits near: {trial.text('shown')} in place of order {survey.top}")
        trial.compare(f"{depth} bits, near", near, survey.deep)
        points_at(trial, depth, near)
        for view, order in [BETWEEN[depth]] if depth in BETWEEN else []:
            trial.open(trial.hash(view))
            if trial.text("shown") != f"tiles of order {order}":
                trial.blame(f"{depth} bits, {view[2]} degrees: {trial.text('shown')} in place of order {order}")
            trial.compare(f"{depth} bits, order {order}", view, order + survey.bits)
        trial.end()


def points_at(trial, depth, view):
    """The cell, the pixel and the exact number under the pointer."""
    survey = trial.survey
    canvas = trial.browser.find_element(By.ID, "lines")
    columns, lines = round(canvas.rect["width"]), round(canvas.rect["height"])
    trial.browser.execute_script("arguments[0].addEventListener('pointermove', (event) => { window.at = [event.offsetX, event.offsetY]; })", canvas)
    for right, down in ((0, 0), (101, 57), (-133, 88)):
        ActionChains(trial.browser).move_to_element_with_offset(canvas, right, down).perform()
        at = trial.browser.execute_script("return window.at")
        ra, dec = trial.wcs((lines, columns), *view).all_pix2world([at[0]], [at[1]], 0)
        pixel = int(healpy.ang2pix(2**survey.deep, ra[0], dec[0], nest=True, lonlat=True))
        number = int(survey.stored(numpy.array([pixel]))[0])
        cell = f"cell {survey.top}/{pixel // 4**survey.bits}, pixel {survey.deep}/{pixel}:"
        said = trial.text("value")
        if not said.startswith(cell) or str("blank" if number == survey.blank else number) not in said:
            trial.blame(f"{depth} bits: under the pointer stands '{said}' in place of '{cell} {number}'")


def is_orange(picture):
    return (abs(picture.astype(int) - CHANGED).max(axis=2) < 60)


def publishes(trial):
    """An edit and its publication while the page is open."""
    survey, view = trial.survey, NEAR[16]
    trial.open(trial.hash(view))
    leaf = int(healpy.ang2pix(2**survey.top, view[0], view[1], nest=True, lonlat=True))
    trial.ask("PUT", "/" + tile_path(survey.top, leaf), survey.file(leaf, 15000))
    time.sleep(1.5)
    trial.wait("whole", "0")
    trial.compare("an edit that isn't published", view, survey.deep)
    trial.ask("POST", "/publish")
    trial.wait("whole", "1")
    survey.edited[leaf] = 15000
    trial.compare("an edit that is published", view, survey.deep)
    trial.browser.execute_script("document.getElementById('changes').click()")
    trial.wait("whole", "1")
    trial.marks_are_at(view, leaf)
    # The same on the sky as a whole, for which the page is opened anew. That a leaf goes the coverage tells, so the mosaic needn't come.
    whole = (40, 0, 360)
    Delayed.sent.clear()
    trial.open(trial.hash(whole))
    trial.compare("the whole sky after it", whole, 3 + survey.bits)
    trial.ask("DELETE", "/" + tile_path(survey.top, leaf))
    trial.ask("POST", "/publish")
    trial.wait("whole", "2")
    kept, survey.leaves = survey.leaves, survey.leaves[survey.leaves != leaf]
    del survey.edited[leaf]
    trial.compare("a leaf that was taken away", whole, 3 + survey.bits)
    survey.leaves = kept
    mosaics = lambda: [path for path, _ in Delayed.sent].count("/Norder3/Allsky.fits")  # noqa: E731
    # Two edits of one leaf: the second one is looked for in the mosaic, at most every ten seconds by the page's clock, which is put forward.
    for number in (None, 14000):
        trial.ask("PUT", "/" + tile_path(survey.top, leaf), survey.file(leaf, number))
    trial.ask("POST", "/publish")
    trial.wait("loading", "2")
    time.sleep(1)
    if mosaics() != 1 or trial.text("state") != "next generation is coming":
        trial.blame(mosaics(), "mosaics come within a few seconds, and the page says:", trial.text("state"))
    trial.browser.execute_script("const now = performance.now.bind(performance); performance.now = () => now() + 10000")
    trial.wait("whole", "4")
    if mosaics() != 2:
        trial.blame(mosaics(), "mosaics come for three generations")
    survey.edited[leaf] = 14000
    trial.compare("a leaf that came back", whole, 3 + survey.bits)
    del survey.edited[leaf]


def storms(trial, seconds=10):
    """Publications of all leaves in view together, over and over; no picture shows two of them."""
    survey = trial.survey
    cell = int(healpy.ang2pix(4, *NEAR[16][:2], nest=True, lonlat=True))
    ra, dec = (float(angle) for angle in healpy.pix2ang(4, cell, nest=True, lonlat=True))
    view = (ra, dec, 10)
    leaves = range(16 * cell, 16 * cell + 16)
    trial.open(trial.hash(view))
    first = int(trial.state()[1])
    numbers = {first: None}
    until = time.monotonic() + seconds
    Delayed.most = 0.08

    def publish():
        while time.monotonic() < until:
            number = random.randint(*(round(level) for level in trial.levels(view)))
            files = {leaf: survey.file(leaf, number) for leaf in leaves}
            body = b"".join(b"put %d %d\n" % (leaf, len(file)) + file for leaf, file in files.items())
            numbers[max(numbers) + 16] = number
            trial.ask("POST", "/batch", body)
            trial.ask("POST", "/publish")
            time.sleep(0.5)

    publisher = threading.Thread(target=publish)
    publisher.start()
    seen, pictures = set(), 0
    while time.monotonic() < until + 1.5:
        before = int(trial.state()[1])
        picture = trial.shot()
        middle = picture[::4, ::4].reshape(-1, 3)
        if int(trial.state()[1]) != before or numbers.get(before) is None:
            continue
        pictures += 1
        seen.add(before)
        low, high = trial.levels(view)
        grey = round(255 * min(1, max(0, (numbers[before] - low) / (high - low))))
        trial.judge(f"generation {before} in a storm", (abs(middle.astype(int) - grey) <= 1).all(axis=1), 1.0)
    publisher.join()
    Delayed.most = 0.0
    if len(seen) < min(4, len(numbers) - 2):
        trial.blame(f"a storm of {len(numbers) - 1} publications, and the page showed {len(seen)} of them")
    trial.wait("whole", str(max(numbers)))
    print(f"check-atlas: a storm of {len(numbers) - 1} publications: {pictures} pictures of {len(seen)} generations, each of one")


def goes_away(trial):
    """The server ends, and comes back over its folder, without the edits."""
    view = NEAR[16]
    trial.open(trial.hash(view))
    before = trial.shot()
    trial.stop()
    trial.wait("away")
    if "The server answers properties by 502" not in trial.text("message"):
        trial.blame("a server that is gone is told of as:", trial.text("message"))
    told = trial.browser.find_element(By.ID, "message").rect
    after = trial.shot()
    below = round(told["y"] + told["height"] - trial.browser.find_element(By.ID, "lines").rect["y"]) + 10
    if not (before[below:] == after[below:]).all():
        trial.blame("a server that is gone takes the picture with it")
    trial.start()
    trial.wait("whole", "0")
    trial.compare("a server that came back", view, trial.survey.deep)
    if trial.text("message"):
        trial.blame("a server that came back, and still:", trial.text("message"))


def says_what_is_wrong(trial):
    trial.open("?survey=/atlas/nowhere", wait="away")
    if "there is no hipsd" not in trial.text("message"):
        trial.blame("an address without hipsd is told of as:", trial.text("message"))


NGINX = """worker_processes 1; pid {folder}/nginx.pid; error_log {folder}/nginx.log; events {{ }}
http {{ access_log off; client_body_temp_path {folder}/bodies; server {{ listen 127.0.0.1:{port};
    location /survey/ {{ proxy_pass http://{survey}/; }}
    {block}
}} }}
"""


def goes_through_nginx(trial):
    """The page and a catalogue as the locations of examples/nginx.conf serve them."""
    examples = Path(__file__).resolve().parent.parent / "examples"
    blocks = [text.split("\n", 1)[1].rsplit("\n", 1)[0] for text in re.findall(r"# (?:atlas|catalogue): begins\.(.*?)# \w+: ends\.", (examples / "nginx.conf").read_text(), re.DOTALL)]
    block = "\n".join(blocks)
    with tempfile.TemporaryDirectory() as name, socket.socket() as free:
        folder = Path(name)
        shutil.copytree(examples / "atlas", folder / "atlas")
        free.bind(("127.0.0.1", 0))
        port = free.getsockname()[1]
        free.close()
        atlas_page.catalogue_of(folder)
        for path in (folder, *folder.rglob("*")):
            path.chmod(0o755)
        block = block.replace("/usr/local/share/doc/hipsd/examples/atlas", str(folder / "atlas")).replace("/srv/catalogue", str(folder / "catalogue"))
        (folder / "nginx.conf").write_text(NGINX.format(folder=folder, port=port, survey=trial.address, block=block))
        subprocess.run(["nginx", "-c", folder / "nginx.conf", "-p", folder], check=True, stderr=subprocess.DEVNULL)
        base, trial.base = trial.base, f"http://127.0.0.1:{port}"
        trial.open(trial.hash(NEAR[16]))
        trial.compare("through nginx", NEAR[16], trial.survey.deep)
        if not trial.browser.execute_script("return !document.getElementById('has-catalogue').hidden"):
            trial.blame("through nginx the page finds no catalogue")
        os.kill(int((folder / "nginx.pid").read_text()), signal.SIGTERM)
        trial.base = base


def browser(width=900, height=640):
    options = Options()
    for word in ("headless=new", "no-sandbox", "disable-gpu", "disable-dev-shm-usage", "hide-scrollbars",
                 "force-device-scale-factor=1", "force-color-profile=srgb", f"window-size={width},{height}"):
        options.add_argument(f"--{word}")
    options.set_capability("goog:loggingPrefs", {"browser": "ALL"})
    return webdriver.Chrome(service=Service(shutil.which("chromedriver")), options=options)


def of_generations(trial):
    trial.serve(16)
    publishes(trial)
    storms(trial)
    goes_away(trial)
    says_what_is_wrong(trial)
    goes_through_nginx(trial)


def of_modules(trial):
    trial.serve("page")
    atlas_modules.tables(trial)
    atlas_parts.parts(trial)
    atlas_keys.keys(trial)


def of_sizes(trial):
    trial.serve("page")
    atlas_page.at_each_size(trial, Delayed.sent)


def of_visits(trial):
    trial.serve("page")
    atlas_page.once(trial, Delayed.sent, trial.folder)


def of_bytes(trial):
    """What publications of one leaf cost a page over leaves 512 pixels wide: of the same leaf three times, and of another one."""
    trial.serve("wide")
    leaf, other = (int(healpy.ang2pix(2**trial.survey.top, *place, nest=True, lonlat=True)) for place in ((80, 20), (84, 24)))
    number = 0
    for what, view in (("whole sky", (80, 20, 360)), ("10 degrees", (80, 20, 10))):
        trial.open(trial.hash(view))
        costs = []
        for one in (leaf, leaf, leaf, other):
            number += 1
            trial.browser.execute_script("const now = performance.now.bind(performance); performance.now = () => now() + 10000")
            Delayed.sent.clear()
            trial.ask("PUT", "/" + tile_path(trial.survey.top, one), trial.survey.file(one, 14000 + number))
            trial.ask("POST", "/publish")
            trial.wait("whole", str(number))
            costs.append(sum(size for _, size in Delayed.sent))
        print(f"check-atlas: {what}: publications of one leaf of 512 by 512 cost", *(f"{cost / 1e6:.2f}" for cost in costs), "MB")


PARTS = {"depths": looks_at_each, "generations": of_generations, "modules": of_modules, "sizes": of_sizes, "visits": of_visits}
MEASURES = {"bytes": of_bytes}


def tried(program, name):
    """Tries a part, with a browser and servers of its own."""
    signal.signal(signal.SIGTERM, signal.default_int_handler)
    begun = time.monotonic()
    with tempfile.TemporaryDirectory() as folder:
        window = browser()
        trial = Trial(program, Path(folder), window)
        try:
            (PARTS | MEASURES)[name](trial)
            for line in window.get_log("browser"):
                if "TypeError" in line["message"] or "Uncaught" in line["message"]:
                    trial.blame("the browser says:", line["message"])
        finally:
            trial.end()
            window.quit()
    print(f"check-atlas: {name}: {trial.compared} pixels of pictures compared, {trial.apart} apart, {round(time.monotonic() - begun)} seconds", flush=True)
    return not trial.wrong


def main():
    program = os.path.realpath(sys.argv[1])
    if sys.argv[2:]:
        sys.exit(0 if tried(program, sys.argv[2]) else 1)
    running = [subprocess.Popen([sys.executable, __file__, program, name]) for name in PARTS]
    try:
        if any([process.wait() for process in running]):
            sys.exit(1)
    finally:
        for process in running:
            process.terminate()
    print("check-atlas: the page shows what the numbers say")


if __name__ == "__main__":
    main()
