"""Runs the built program as its users do, and compares each line that it says on standard error with what it has to be. Then each call of
the log in the source is looked for: a run has to have said a line of it, but for those in UNSAID.

In the lines of this module `#` stands for a number that the run decides, a port or a time, and `~` for words or an order of the system.
`scripts/fast-clock.c` gives the program a clock that goes on at each reading, so that progress is said.
"""

import gzip
import http.client
import os
import re
import resource
import socket
import subprocess
import tempfile
import threading
import time
from contextlib import suppress
from functools import cache
from itertools import count, zip_longest
from pathlib import Path

from checks.cases import Case, needs
from checks.servers import PROGRAM, ROOT, SCRIPTS, TOP, break_off, connect, exchange, free_port, request
from survey_files import Survey, block, header, image, tile_path, write_files

SURVEY = Survey("log", "Survey log", top=4, low=3, width=2)
CONF = {"survey.conf": SURVEY.description()}
# A description of tiles of 512 by 512 pixels of 64 bits.
WIDE = Survey("log", "Survey log", top=4, low=3, width=512).description().replace(b"survey_bitpix = 16", b"survey_bitpix = 64")
TILE = image(2, 2, [1, 2, 3, 4], ("ORDER", 4), ("NPIX", 0))
VERSION, TOOLCHAIN = (
    re.search(rf'pub const {name}: &str = "(.*)";', (TOP / "crates/hipsd_run/src/version.rt").read_text())[1]
    for name in ("VERSION", "TOOLCHAIN")
)
# A clock that goes on by a second at each reading, so that what is said at most once a second is said of each part of a work.
SECOND = 1000

# What the program never says, or only where it has no memory.
UNSAID = {
    # It keeps the generation of the opening leaves.
    "state {k} was made from the opening leaves: {tiles} tiles built in {millis} ms",
    "out of memory: {refusal}",
    "place {place} ended after {served} connections: memory ran out",
}


def lines(level, target, *texts):
    return [f"[{level:5} {target}] {text}" for text in texts]


def error(target, *texts):
    return lines("ERROR", target, *texts)


def warn(target, *texts):
    return lines("WARN", target, *texts)


def info(target, *texts):
    return lines("INFO", target, *texts)


def debug(target, *texts):
    return lines("DEBUG", target, *texts)


THIS = info("hipsd_run::version", f"hipsd {VERSION}, toolchain {TOOLCHAIN}")


@cache
def fast_clock():
    """The library with the clock, in a folder that goes with the object."""
    folder = tempfile.TemporaryDirectory()
    library = Path(folder.name, "fast-clock.so")
    subprocess.run(["cc", "-shared", "-fPIC", "-O2", "-o", library, SCRIPTS / "fast-clock.c"], check=True)
    return folder, library


def read_until(process, text):
    """What the process says up to a line with this text."""
    said = b""
    for line in process.stderr:
        said += line
        if text in line:
            break
    return said


@needs("cc")
class Lines(Case):
    """Runs of the program, and all lines that they have said."""

    said, parts = set(), set()

    def setUp(self):
        super().setUp()
        self.numbers = count(1)

    def tearDown(self):
        self.parts.add(self.id())

    def survey(self, files=CONF):
        """A new folder with these files, by their paths."""
        return write_files(self.folder / f"survey{next(self.numbers)}", files)

    def start(self, words, folder, level="info", pace=None, **ends):
        """The program, started with these words over the folder, at this level where there is one; by a clock that goes on by so many
        milliseconds at each reading, or by the machine's own."""
        environment = {} if level is None else {"HIPSD_LOG": level}
        environment |= {"LD_PRELOAD": fast_clock()[1], "PACE": str(pace)} if pace is not None else {}
        process = subprocess.Popen([PROGRAM, *words], cwd=folder, env=environment, stderr=subprocess.PIPE, **ends)
        self.addCleanup(process.communicate)
        self.addCleanup(process.kill)
        return process

    def says(self, words, wanted, files=CONF, given=b"", folder=None, stdin=subprocess.PIPE, stdout=subprocess.DEVNULL, status=None, **how):
        """Runs the words over this folder, or a new one with these files, and compares what is said, and the status if one is named. Answers the
        folder."""
        folder = folder or self.survey(files)
        process = self.start(words, folder, stdin=stdin, stdout=stdout, **how)
        _, said = process.communicate(given if stdin == subprocess.PIPE else None, timeout=300)
        self.compare(words, said, wanted)
        if status is not None:
            self.assertEqual(process.returncode, status, words)
        return folder

    def compare(self, words, said, wanted):
        """Compares what a run with these words said with the lines that it has to say."""
        said = said.decode(errors="backslashreplace").splitlines()
        self.said.update(said)
        for at, (line, right) in enumerate(zip_longest(said, wanted)):
            pattern = re.escape(right or "").replace(r"\#", "[0-9]+").replace(r"\~", ".+")
            if line is None or right is None or not re.fullmatch(pattern, line):
                self.fail(f"{words} says as line {at + 1}\n  {line}\nin place of\n  {right}")

    def compare_sorted(self, said, wanted):
        """The same of places, whose lines come in any order."""
        self.compare(["serve"], b"\n".join(sorted(said.splitlines())), sorted(wanted))

    def listen(self, connections, places, address="127.0.0.1:0", folder=None, **how):
        """A server, once it says that it listens, with what it has said and its address; and what it has to have said."""
        process = self.start(["serve", address, str(connections), str(places)], folder or self.survey(), **how)
        said = read_until(process, b"listening at ")
        self.assertIn(b"listening at ", said)
        shown = address.replace(":0", ":#")
        wanted = THIS + LOADED + info("survey_commands::serve", f"{places} places, up to {connections} connections at each")
        port = said.rpartition(b":")[2].strip().decode()
        return process, said, f"127.0.0.1:{port}", wanted + info("tcp_link::listening", f"listening at {shown}")


# ---- words that are no command's

# What the program says of its commands: the words after each name, and what these may be; and of the numbers among these words: of which
# command, which word, the least and the greatest.
HELP = (TOP / "crates/hipsd_run/src/help.rt").read_text()
COMMANDS = {name: (words.strip(), bounds) for name, words, bounds in re.findall(r'\(\s*"(\w+)",\s*"([^"]*)",\s*"([^"]*)",?\s*\)', HELP)}
NUMBERS = [(name, int(at), *(2**64 - 1 if it == "u64::MAX" else int(it) for it in ends)) for name, at, *ends in
           re.findall(r'\("(\w+)", (\d+), ([\w:]+), ([\w:]+)\)', HELP)]


def usage(command):
    return f"hipsd {command} {COMMANDS[command][0]}".strip()


def help_lines(*texts):
    return error("hipsd_run::help", *texts)


class Commands(Lines):
    """What is said of words that are no command's, and at which level something is said."""

    def refused(self, words, *told):
        """These words are refused, and what is wrong with them is told."""
        self.says(words, help_lines(*told, f"the words are: {usage(words[0])} ({COMMANDS[words[0]][1]})"), status=1)

    def test_commands(self):
        self.assertEqual(list(COMMANDS), "serve session export verify make past catalog mirror probe".split())
        every = help_lines("the commands are:", *(f"  {usage(name)}" for name in COMMANDS)) + THIS
        nothing = help_lines("no command is named, or a word is not UTF-8") + every
        self.says([], nothing, status=1)
        self.says([b"probe", b"\xff"], nothing, status=1)
        self.says(["--version"], help_lines('there is no command "--version"') + every, status=1)
        for command, (words, _) in COMMANDS.items():
            wanted = len(words.split())
            for given in {wanted + 1, max(wanted - 1, 0)} - {wanted}:
                self.refused([command, *["1"] * given], f"{command} takes {wanted} words after its name, and here are {given}")

    def test_numbers(self):
        """Numbers in their bounds, which the program takes, and those beyond each of them."""
        self.assertEqual(len(NUMBERS), 11)
        for command in dict.fromkeys(name for name, *_ in NUMBERS):
            ends = {at: (least, greatest) for name, at, least, greatest in NUMBERS if name == command}
            names = COMMANDS[command][0].split()
            for inside in zip(*ends.values()):
                words = [str(inside[list(ends).index(at)]) if at in ends else "nowhere.invalid:1" for at in range(len(names))]
                ran = subprocess.run([PROGRAM, command, *words], cwd=self.survey(), stdin=subprocess.DEVNULL, capture_output=True, timeout=300)
                self.assertNotEqual(ran.returncode, 1, f"{command} {words}: {ran.stderr}")
            for word in (lambda least, _: least - 1), (lambda _, greatest: greatest + 1), (lambda *_: "01"), (lambda *_: "x"):
                words = [str(word(*ends[at])) if at in ends else "nowhere.invalid:1" for at in range(len(names))]
                told = []
                for at, (least, greatest) in ends.items():
                    is_number = words[at].isdigit() and words[at] != "01" and int(words[at]) < 2**64
                    bounds = f"{least} to {greatest}" if is_number else f"a number from {least} to {greatest}, in plain decimals"
                    told.append(f"{names[at]} = {words[at]}: {bounds}")
                self.refused([command, *words], *told)
        self.refused(["make", "0", "0"], "EDITS = 0: 1 to 4096")
        self.refused(["probe", "4", "1", "5", "0"], "k = 5: 0 to K, which is 4")

    def test_levels(self):
        known = "is none of off, error, warn, info, debug and trace: info is used"
        exported = info("shelf_io::logging", "2 of 2 files written, 0 were the same; 0 removed")
        self.says(["export"], exported)
        self.says(["export"], warn("hipsd", f'HIPSD_LOG = "loud" {known}') + exported, level="loud")
        self.says(["export"], warn("hipsd", f"HIPSD_LOG {known}") + exported, level=b"\xff")
        for level in ("off", "error", "warn"):
            self.says(["export"], [], level=level)
        for level in ("debug", "trace"):
            self.says(["export"], exported, level=level)
        # No request is said at info, which it is where no level is named.
        for level, said in ((None, []), ("loud", warn("hipsd", f'HIPSD_LOG = "loud" {known}')), ("info", [])):
            self.says(["session"], said, given=request(b"GET", b"/x"), level=level)
        self.says(["mirror", f"127.0.0.1:{free_port()}"], [], files={}, level="off")
        self.says(["serve", "nowhere.invalid:1", "1", "1"], [], level="off", status=8)


# ---- a survey's folder

# A line of the description that is replaced, by the beginning of its text, or added; and what is wrong then. L is its number.
DESCRIPTIONS = r"""
creator_did = ivo://example/P/log|||missing: creator_did
hips_order = 4|hips_ordr = 4||missing: hips_order (did you mean it by hips_ordr?)
survey_bitpix = 16|survey_bitpix = -32||line L, survey_bitpix = -32: it is 8, 16, 32 or 64; FLOATING
hips_order = 4|hips_order = 12||line L, hips_order = 12: an order is 3 to 11
hips_order_min = 3|hips_order_min = 4||line L, hips_order_min = 4: the lowest order is 0 to 3
hips_tile_width = 2|hips_tile_width = 3||line L, hips_tile_width = 3: a width is 2, 4, 8, 16, 32, 64, 128, 256 or 512
survey_bitpix = 16|survey_bitpix = 24||line L, survey_bitpix = 24: it is 8, 16, 32 or 64
survey_blank = -32768|survey_blank = 32768||line L, survey_blank = 32768: it is a whole number that survey_bitpix can hold
||survey_bscale = 0|line L, survey_bscale = 0: it is a real number that isn't 0, of at most 18 digits
||survey_bzero = x|line L, survey_bzero = x: it is a real number of at most 18 digits
||survey_version = 3|line L, survey_version = 3: a version is 1 or 2
||survey_rule = most|line L, survey_rule = most: a rule is mean or median
||survey_rule = mean|line L, survey_rule = mean: only survey_version = 2 has this key
||survey_rule = median|line L, survey_rule = median: only survey_version = 2 has this key
survey_blank = -32768|||missing: survey_blank
hips_order = 4|hips_order 4||line L, hips_order 4: there is no =
||dataproduct_type = cube|line L, dataproduct_type = cube: it is image
||hips_version = 1.3|line L, hips_version = 1.3: it is 1.4
||hips_frame = galactic|line L, hips_frame = galactic: it is equatorial
||hips_tile_format = png|line L, hips_tile_format = png: it is fits
||hips_order = 4|line L, hips_order = 4: the key stands in an earlier line
||survey_colour = red|line L, survey_colour = red: this version has no such key, and survey_ is for its own
||survey_rules = mean|line L, survey_rules = mean: this version has no such key; survey_rule is one
||hips order|line L, hips order: there is no =
||Hips = 1|line L, Hips = 1: a key is at most 64 of a to z, 0 to 9 and _, a letter first
||key =|line L, key =: a value is 1 to 1024 bytes, none of them a control character
"""
FLOATING = "floating-point tiles have to be made again, by HipsGen with hips_pixel_bitpix=16 or 32"


def card(number, text, tile=TILE):
    """A tile's file with another card at this place, from 1."""
    return tile[: 80 * (number - 1)] + text.ljust(80).encode() + tile[80 * number :]


# The bytes of a leaf's file, its fault, and what it looks like.
SHORT = "1 header 1: it ends within its header"
LEAVES = [
    (b"", SHORT, "an empty file"),
    (b"\x1f\x8b\x08", SHORT, "gzip"),
    (b"\x89PNG\r\n", SHORT, "a PNG image"),
    (b"\xff\xd8\xff\xe0", SHORT, "a JPEG image"),
    (bytes(8), SHORT, "zeros"),
    (gzip.compress(TILE), SHORT, "gzip"),
    (bytes(5760), SHORT, "zeros"),
    (b"<html>", SHORT, "none of FITS, gzip, PNG and JPEG"),
    (card(3, "NAXIS   = \0"), "1 header 2 170: byte 170 of the header isn't printable ASCII", "FITS"),
    (b"SIMPLE  " + b" " * 103_680, "1 header 3: the header has no card END", "FITS"),
    (card(8, "BLANK   =             -32768.0"), "1 header 4 8: card 8, BLANK = -32768.0: not a whole number", "FITS"),
    (card(1, "SIMPLE  = true"), "1 header 4 1: card 1, SIMPLE = true: neither T nor F", "FITS"),
    (card(7, "BZERO   = one / \\"), r"1 header 4 7: card 7, BZERO = one / \\: not a real number of at most 18 digits", "FITS"),
    (card(9, "NAXIS   = 2"), "1 header 5 9: card 9, NAXIS = 2: an earlier card has this keyword", "FITS"),
    (card(1, "COMMENT"), "2 simple: card 1 isn't SIMPLE = T", "none of FITS, gzip, PNG and JPEG"),
    (card(2, "BITPIX  = 32"), "3 bitpix 32: BITPIX = 32 isn't survey_bitpix", "FITS"),
    (card(2, "BITPIX  = -32"), "3 bitpix -32: BITPIX = -32, floating-point pixels: have HipsGen make it again with hips_pixel_bitpix=16 or 32", "FITS"),
    (card(2, "COMMENT"), "3 bitpix none: there is no card BITPIX", "FITS"),
    (card(3, "NAXIS   = 3"), "4 naxis 3: NAXIS = 3 isn't 2", "FITS"),
    (image(3, 2, [0] * 6), "5 width 1 3: NAXIS1 = 3 isn't hips_tile_width", "FITS"),
    (image(2, 3, [0] * 6), "5 width 2 3: NAXIS2 = 3 isn't hips_tile_width", "FITS"),
    (card(6, "BSCALE  = 2"), "6 scale: BSCALE isn't survey_bscale", "FITS"),
    (card(7, "BZERO   = 2"), "7 zero: BZERO isn't survey_bzero", "FITS"),
    (card(8, "BLANK   = 2"), "8 blank 2: BLANK = 2 isn't survey_blank", "FITS"),
    (TILE[:2880], "9 truncated 8: 8 bytes of pixels are missing", "FITS"),
    (TILE + bytes(2880), "10 trailing 2880: 2880 bytes too many follow the pixels", "FITS"),
]
# A command, a file in its way, and which call fails.
IN_THE_WAY = """
export|Moc.fits/file|can't read Moc.fits: it is no regular file
verify|Moc.fits/file|can't read Moc.fits: it is no regular file
export|Moc.fits.unfinished/file|can't remove Moc.fits.unfinished: Is a directory (os error 21)
export|Norder3/Dir0|can't make the folder Norder3/Dir0: File exists (os error 17)
export|Norder3|can't make the folder Norder3/Dir0: Not a directory (os error 20)
catalog 1 1|Norder0/Dir0/Npix0.tsv/file|can't move the whole file to Norder0/Dir0/Npix0.tsv: Is a directory (os error 21)
"""
ODD = "{} entries are named as FITS files and are none, as {}: a folder, a pipe or a link that leads nowhere counts as absent"


class Folders(Lines):
    """What is said of a survey's folder."""

    def test_descriptions(self):
        self.says(["verify"], error("shelf_io::logging", "there is no file survey.conf, which describes the survey"), files={}, status=2)
        for row in DESCRIPTIONS.strip().splitlines():
            old, new, more, told = row.split("|")
            text = SURVEY.description().decode()
            number = text.splitlines().index(old) + 1 if old else len(text.splitlines()) + 1
            text = text.replace(old, new, 1) if old else f"{text}{more}\n"
            told = told.replace("L,", f"{number},", 1).replace("FLOATING", FLOATING)
            self.says(["verify"], error("shelf_io::logging", f"survey.conf: {told}"), files={"survey.conf": text.encode()}, status=2)
        keys = "creator_did, obs_title, hips_release_date, hips_status, hips_order, survey_bitpix, survey_blank"
        self.says(["verify"], error("shelf_io::logging", f"survey.conf: missing: {keys}"), files={"survey.conf": b"# none"})
        extra = {"survey.conf": SURVEY.description() + b"hips_frames = equatorial\nobs_tilte = x\nhips_orrder_min = 0\nhips_tile_fromat = fits\nob_title = x\n"}
        likely = ("hips_frames", "hips_frame"), ("hips_orrder_min", "hips_order_min"), ("ob_title", "obs_title")
        known = warn("shelf_io::logging", *(f"survey.conf: the key {key} has no meaning here; {it} is a known one" for key, it in likely))
        self.says(["export"], known + info("shelf_io::logging", "2 of 2 files written, 0 were the same; 0 removed"), files=extra)

    def test_folders(self):
        leaf = tile_path(4, 0)
        for data, fault, look in LEAVES:
            said = f"{leaf} is no tile of this survey ({fault}); it has {len(data)} bytes and looks like {look}"
            self.says(["verify"], error("shelf_io::logging", said), files=CONF | {leaf: data}, status=3)
        near = "files that look like tiles and are none: {}, as {}; tile 7 would be Norder4/Dir0/Npix7.fits, and "
        near += "Dir is the greatest multiple of 10000 up to the number"
        above = "{} tiles are of an order above 4, that of the leaves, as {}: they aren't read, and export removes them"
        one, deep = "Norder4/Dir0/Npix07.fits", tile_path(5, 7)
        other = "no tile is of order 4, that of the leaves: with hips_order = {} in survey.conf the {} tiles of order {} would be the leaves"
        strays = "{} files aren't of this survey, and export removes them: {}"
        removed = warn("shelf_io::differences", strays.format(1, "1 tiles of order 5"))
        written = info("shelf_io::logging", "2 of 2 files written, 0 were the same; 1 removed")
        said = warn("shelf_io::near_leaf", near.format(1, one), other.format(5, 1, 5))
        self.says(["export"], said + removed + written, files=CONF | {one: b"", deep: b""})
        lower = {tile_path(3, npix): b"" for npix in range(3)} | {tile_path(2, 0): b"", "Norder3/Allsky.fits": b""}
        told = warn("shelf_io::near_leaf", other.format(3, 3, 3))
        told += warn("shelf_io::differences", strays.format(5, "3 tiles of order 3, 1 tiles of order 2, Norder3/Allsky.fits"))
        told += warn("shelf_io::differences", "1 files are missing, 1 differ, 5 aren't of this survey")
        self.says(["verify"], told, files=CONF | lower | {"Moc.fits": b""})
        odd = {one: b"", "Norder4/Dir10000/Npix7.fits": b"", deep: b"", tile_path(6, 9): b""}
        said = warn("shelf_io::near_leaf", near.format(2, "~"), above.format(2, "~"))
        right = SURVEY.files({0: [1, 2, 3, 4]})
        given = CONF | odd | {leaf: TILE, "properties": next(right), "Moc.fits": next(right)}
        folder = self.survey(given)
        # A link that leads nowhere is no file.
        (folder / "Norder3").mkdir()
        (folder / "Norder3/Allsky.link").symlink_to("nowhere")
        removed = warn("shelf_io::differences", strays.format(2, "1 tiles of order 6, 1 tiles of order 5"))
        self.says(["export"], said + removed + info("shelf_io::logging", "2 of 5 files written, 3 were the same; 2 removed"), folder=folder)
        self.says(["verify"], said[:1], folder=folder)

    def test_special_files(self):
        """Pipes, devices, links and files that are too large: none of them is waited for, read to its end, or written or removed behind."""

        def refused(words, at, make, fault, files=CONF):
            folder = self.survey(files)
            make(folder / at)
            self.says(words.split(), error("hipsd::faults", fault), folder=folder, given=b"5\t0\ta\t\n")

        def large(path):
            path.touch()
            os.truncate(path, 5 << 30)

        none = "it is no regular file"
        refused("export", "properties", os.mkfifo, f"can't read properties: {none}")
        refused("verify", "survey.conf", lambda path: path.symlink_to("/dev/zero"), f"can't read survey.conf: {none}", files={})
        refused("verify", "survey.conf", large, "can't read survey.conf: it has more than 536870912 bytes, as no file of a survey has", files={})
        victim = self.survey({"Dir0/Npix0.fits": b"", "Dir0/Npix0.tsv": b""})
        for words, at in (("export", "Norder3"), ("verify", "Norder3"), ("catalog 1 1", "Norder0"), ("verify", "other")):
            fault = f"can't enter {at}: it is a link, and no folder of a survey lies behind one"
            refused(words, at, lambda path: path.symlink_to(victim), fault)
        self.assertEqual(sorted(path.name for path in victim.glob("Dir0/*")), ["Npix0.fits", "Npix0.tsv"], "written behind a link to a folder")
        # A link to a file is that file.
        folder = self.survey(CONF | {"Norder4/Dir0/Npix1.fits/file": b"", "leaf": TILE})
        (folder / tile_path(4, 0)).symlink_to("../../leaf")
        (folder / tile_path(4, 2)).symlink_to("nowhere")
        os.mkfifo(folder / tile_path(4, 3))
        said = warn("std_link::listing", ODD.format(3, "~"))
        self.says(["export"], said + info("shelf_io::logging", "# of 5 files written, # were the same; 0 removed"), folder=folder)

    def test_too_many(self):
        """257 leaves of 512 by 512 pixels of 64 bits, of which none is read."""
        many = {tile_path(4, npix): b"" for npix in range(257)}
        said = f"the 257 leaves need {257 << 21} bytes, and {1 << 29} are allowed"
        self.says(["verify"], error("shelf_io::logging", said), files={"survey.conf": WIDE} | many)

    def test_folder_faults(self):
        folder = self.survey({})
        (folder / "survey.conf").symlink_to("survey.conf")
        loop = "Too many levels of symbolic links (os error 40)"
        self.says(["verify"], error("hipsd::faults", f"can't read survey.conf: {loop}"), folder=folder)
        folder = self.survey()
        (folder / "loop").symlink_to("loop")
        self.says(["verify"], error("hipsd::faults", f"can't look at loop: {loop}"), folder=folder, status=7)
        for row in IN_THE_WAY.strip().splitlines():
            words, path, fault = row.split("|")
            files = CONF | {tile_path(4, 0): TILE, path: b""}
            odd = warn("std_link::listing", ODD.format(1, "Moc.fits")) if path == "Moc.fits/file" else []
            self.says(words.split(), odd + error("hipsd::faults", fault), files=files, given=b"5\t0\ta\t\n", status=7)
        peer = Peer(replies({}))
        peer.start()
        said = info("hips_mirror::logging", BUILDING % 0, COPIED) + warn("std_link::listing", ODD.format(1, "Moc.fits"))
        said += error("hipsd::faults", "can't read Moc.fits: it is no regular file")
        self.says(["mirror", peer.address], said, files={"Moc.fits/file": b""})
        peer.join()
        # What isn't allowed is allowed to root.
        user = {} if not ROOT else {"user": 65534, "group": 65534, "extra_groups": []}
        for fault, closed, mode in (("create Moc.fits.unfinished", ".", 0o555), ("list Norder3", "Norder3", 0)):
            folder = self.survey(CONF)
            (folder / "Norder3").mkdir()
            (folder / closed).chmod(mode)
            self.says(["export"], error("hipsd::faults", f"can't {fault}: Permission denied (os error 13)"), folder=folder, **user)
            (folder / closed).chmod(0o755)

    def test_progress(self):
        leaves = {tile_path(4, npix): image(2, 2, [npix] * 4, ("ORDER", 4), ("NPIX", npix)) for npix in range(3)}
        # Three leaves, one tile above them, the mosaic, the coverage file and the properties.
        read = info("command_output::progress", *(f"leaves read: {at} of 3" for at in range(1, 4)))
        written = info("command_output::progress", *(f"files compared and written: {at} of 7" for at in range(1, 8)))
        said = read + written + info("shelf_io::logging", "4 of 7 files written, 3 were the same; 0 removed")
        folder = self.says(["export"], said, files=CONF | leaves, pace=SECOND)
        self.says(["verify"], read + info("command_output::progress", *(f"files compared: {at} of 7" for at in range(1, 8))), folder=folder, pace=SECOND)
        rows = b"1\t0\ta\t\n2\t1\tb\t\n"
        said = info("command_output::progress", "lines read: 1", "lines read: 2", "tiles written: 1", "tiles written: 2")
        self.says(["catalog", "1", "1"], said + info("catalog_command::logging", "2 rows in 2 tiles"), given=rows, pace=SECOND)
        # By a clock of 0.4 seconds each third part is said, of those that are counted from the last one that was.
        said = info("command_output::progress", "leaves read: 3 of 3", "files compared: 3 of 7", "files compared: 6 of 7")
        self.says(["verify"], said, folder=folder, pace=400)
        rows = b"".join(b"%d\t%d\ta%d\t\n" % (row, row, row) for row in range(7))
        said = info("command_output::progress", *(f"lines read: {at}" for at in (3, 6)), *(f"tiles written: {at}" for at in (3, 6)))
        self.says(["catalog", "1", "1"], said + info("catalog_command::logging", "7 rows in 7 tiles"), given=rows, pace=400)


# ---- inputs

# The lines, the number of the wrong one, and what is wrong with it.
ROWS = [
    (b"5\t0\ta", 1, 1, "a row has four fields with one TAB between each two"),
    (b"5\t0\ta\t\n05\t0\tb\t\n", 2, 2, "the rank is a number below 2^64 without a sign or leading zeros"),
    (b"5\t48\ta\t\n", 1, 3, "the second field is the number of a cell of the deepest order"),
    (b"5\t0\ta b\t\n", 1, 4, "an id is 1 to 64 characters of ASCII without blanks"),
    (b"5\t0\ta\t\x7f\n", 1, 5, "the last field is at most 256 bytes without control characters"),
    (b"5\t0\ta\t" + b"x" * 512 + b"\n", 1, 6, "a line has at most 512 bytes with its line feed"),
    (b"5\t0\ta\t\n6\t1\ta\t\n", 2, 7, "a row has this id already; a line `-` TAB ID takes it out"),
    (b"-\ta\n", 1, 9, "no row has the id that is to be taken out"),
    (b"5\t0\ta\t\n-\ta\n" * 1_000_000 + b"5\t0\ta\t\n", 2_000_001, 10, "an input has at most 2000000 lines"),
]


class Inputs(Lines):
    """What is said of the lines of a catalogue, and of records of the past."""

    def test_catalogues(self):
        for given, line, kind, fault in ROWS:
            given = given if given.endswith(b"\n") else given + b"\n"
            self.says(["catalog", "1", "1"], error("catalog_command::logging", f"line {line} (kind {kind}): {fault}"), given=given, level="error")
        full = b"".join(b"5\t0\t%d\t\n" % row for row in range(1_000_001))
        said = "line 1000001 (kind 8): a catalogue has at most 1000000 rows"
        self.says(["catalog", "1", "1"], error("catalog_command::logging", said), given=full, level="error")
        cut = "the last line has no line feed: the input may be cut off"
        self.says(["catalog", "1", "1"], error("catalog_command::logging", cut), given=b"5\t0\ta\t")
        self.says(["catalog", "1", "1"], info("catalog_command::logging", "1 rows in 1 tiles"), given=b"5\t0\ta\t\n")

    def test_records(self):
        tile = b"put 0 %d\n" % len(TILE) + TILE
        batch = b"batch %d\n" % len(tile) + tile
        reads = b"read 1 properties\nread 2 properties\nread 0 properties\nread 2 x\n"
        made = [f"state {k} was made from state {base}: {tiles} tiles built in # ms" for k, base, tiles in ((1, 0, 1), (2, 1, 1), (0, 0, 0))]
        self.says(["past", "2"], [], given=batch + batch + reads)
        self.says(["past", "2"], debug("past_reads::logging", *made), given=batch + batch + reads, level="debug")
        made = [line.replace("#", "1000") for line in made]
        self.says(["past", "2"], debug("past_reads::logging", *made), given=batch + batch + reads, level="debug", pace=SECOND)
        form = 'record 1, counted from 0, is malformed: its line must be "batch LENGTH" or "read K PATH", up to 128 bytes with its line feed, '
        form += "numbers in plain decimals, K below 2^32, LENGTH up to that of the longest batch of this survey"
        self.says(["past", "1"], error("survey_commands::past", form), given=b"read 1 x\nlook\n")
        self.says(["past", "1"], error("survey_commands::past", "the input ends within a record"), given=b"read 1 x\nread")
        spent = "the input goes on after 65536 records; one run takes no more"
        self.says(["past", "1"], error("survey_commands::past", spent), given=b"read 1 x\n" * 65_537)


# ---- connections

LEAF_ASKED = "/Norder4/Dir0/Npix0.fits"
LEAF = LEAF_ASKED.encode()
REMOVED = b"remove 0\n"
# Requests, and what is said of each, but for the microseconds.
REQUESTS = [
    (request(b"GET", b"/properties"), "GET /properties 200 380 @ -"),
    (request(b"HEAD", b"/properties"), "HEAD /properties 200 0 @ -"),
    (request(b"GET", LEAF), "GET /Norder4/Dir0/Npix0.fits 404 10 @ not_found"),
    (request(b"HEAD", LEAF), "HEAD /Norder4/Dir0/Npix0.fits 404 0 @ not_found"),
    (request(b"GET", b"/a%20b%22%5C%0a%ff%7e"), r"GET /a\x20b\"\\\n\xff~ 404 10 @ not_found"),
    (request(b"GET", b"*"), "GET - 404 10 @ not_found"),
    (request(b"PUT", LEAF, b"none"), "PUT /Norder4/Dir0/Npix0.fits 422 24 @ tile_refused_1_header_1"),
    (request(b"PUT", LEAF, TILE, b"If-Match: *"), "PUT /Norder4/Dir0/Npix0.fits 412 20 @ precondition_failed"),
    (request(b"PUT", LEAF, TILE), "PUT /Norder4/Dir0/Npix0.fits 201 0 @ -"),
    (request(b"PUT", LEAF, TILE), "PUT /Norder4/Dir0/Npix0.fits 204 0 @ -"),
    (request(b"POST", b"/batch", REMOVED * 2), "POST /batch 412 28 @ batch_1_precondition_failed"),
    (request(b"POST", b"/batch", b"sing"), "POST /batch 422 21 @ batch_refused_0_line"),
    (request(b"DELETE", LEAF), "DELETE /Norder4/Dir0/Npix0.fits 204 0 @ -"),
    (request(b"DELETE", LEAF), "DELETE /Norder4/Dir0/Npix0.fits 404 7 @ absent"),
    (request(b"PUT", LEAF, TILE), "PUT /Norder4/Dir0/Npix0.fits 201 0 @ -"),
    (request(b"POST", b"/publish"), "POST /publish 200 12 @ -"),
    (request(b"POST", b"/publish"), "POST /publish 200 10 @ -"),
    (request(b"POST", b"/pin"), "POST /pin 200 9 @ -"),
    (request(b"POST", b"/unpin"), "POST /unpin 200 9 @ -"),
    (request(b"PATCH", b"/pin"), "OTHER /pin 405 19 @ method_not_allowed"),
    (request(b"POST", LEAF), "POST /Norder4/Dir0/Npix0.fits 405 19 @ method_not_allowed"),
]


def accepted(line):
    """Whether the request of this line is an edit that was accepted."""
    return line.split()[0] in ("PUT", "DELETE") and line.split()[2] in ("201", "204")


PUBLISHED = info("hips_http::logging", "published 4 edits, 4 of 4 in all: 1 tiles built in # ms")
# Heads that are refused by their framing, with the code and its reason.
REFUSED = [
    (b"GET / HTTP/2.0\r\nHost: a\r\n\r\n", 505, "http_version_not_supported"),
    (b"GET / HTTP/1.1\r\n\r\n", 400, "bad_request"),
    (request(b"GET", b"/", b"", b"Transfer-Encoding: chunked"), 501, "not_implemented"),
    (b"PUT / HTTP/1.1\r\nHost: a\r\n\r\n", 411, "length_required"),
    (b"PUT / HTTP/1.1\r\nHost: a\r\nContent-Length: 10000000\r\n\r\n", 413, "content_too_large"),
    (b"GET / HTTP/1.1\r\nHost: " + b"a" * 8192 + b"\r\n\r\n", 431, "request_header_fields_too_large"),
]
# The edits of these requests, in their order.
EDITS = info("hips_http::room", *(f"edit {k} {did} {LEAF_ASKED[1:]}" for k, did in enumerate(("puts", "puts", "removes", "puts"), 1)))


class Sessions(Lines):
    """What is said of a connection over the standard ends."""

    def logged(self, clock=False):
        """What is said of REQUESTS at `debug`. By a clock of a second a publication takes one, and a request one more than what was timed
        within it."""
        said, done = [], iter(EDITS)
        for _, line in REQUESTS:
            published = [it.replace("#", "1000") for it in PUBLISHED] if clock else PUBLISHED
            said += published if "publish 200 12" in line else [next(done)] if accepted(line) else []
            seconds = 3 if "publish 200 12" in line else 2 if "publish 200 10" in line else 1
            said += debug("request", line.replace("@", f"{seconds}000000" if clock else "#"))
        return said

    def test_sessions(self):
        whole = b"".join(given for given, _ in REQUESTS)
        self.says(["session"], self.logged(), given=whole, level="debug")
        self.says(["session"], EDITS + PUBLISHED, given=whole)
        self.says(["session"], self.logged(clock=True), given=whole, level="debug", pace=SECOND)
        for head, code, reason in REFUSED:
            self.says(["session"], debug("request", f"- - {code} 0 # {reason}"), given=head, level="debug")
        unwritten = error("hipsd::faults", "can't write to the standard output: No space left on device (os error 28)")
        with open("/dev/full", "wb") as full:
            self.says(["export"], info("shelf_io::logging", "2 of 2 files written, 0 were the same; 0 removed") + unwritten, stdout=full, status=6)
        for given, line in (REQUESTS[0], REQUESTS[2], (REFUSED[0][0], "- - 505 0 @ http_version_not_supported")):
            with open("/dev/full", "wb") as full:
                self.says(["session"], debug("request", line.replace("@", "#")) + unwritten, given=given, level="debug", stdout=full)
        folder = os.open("/", os.O_RDONLY)
        unread = error("hipsd::faults", "can't read the standard input: Is a directory (os error 21)")
        self.says(["session"], unread, level="debug", stdin=folder, status=5)
        os.close(folder)

    def test_edits(self):
        """A batch, and edits that make a limit reach 80, 95 and 100 percent."""
        put = b"put 0 %d\n" % len(TILE) + TILE
        said = info("hips_http::room", "edits 1 to 3 are a batch")
        each = debug("hips_http::room", *(f"edit {k} {did} {LEAF_ASKED[1:]}" for k, did in enumerate(("puts", "removes", "puts"), 1)))
        given = request(b"POST", b"/batch", put + REMOVED + put)
        self.says(["session"], said, given=given)
        self.says(["session"], said + each + debug("request", "POST /batch 200 11 # -"), given=given, level="debug")
        full = "{} of {} ({} percent) are used. When all are, edits are answered 507: renew the server by rollover.sh"
        said = warn("hips_http::room", *(full.format(128 * batches, "65536 edits", mark) for batches, mark in ((410, 80), (487, 95), (512, 100))))
        self.says(["session"], said, given=request(b"POST", b"/batch", (put + REMOVED) * 64) * 513, level="warn")
        # Tiles of 512 by 512 pixels of 64 bits, of which 256 fit: 200 leaves, and then edits. All leaves are one file.
        cards = ("SIMPLE", "T"), ("BITPIX", 64), ("NAXIS", 2), ("NAXIS1", 512), ("NAXIS2", 512), ("BSCALE", "1.0E0"), ("BZERO", "0.0E0"), ("BLANK", -32768)
        wide = header(*cards) + block(bytes(8 << 18))
        folder = self.survey({"survey.conf": WIDE, tile_path(4, 0): wide})
        for npix in range(1, 200):
            (folder / tile_path(4, npix)).hardlink_to(folder / tile_path(4, 0))
        said = warn("hips_http::room", *(full.format(tiles << 21, "536870912 bytes of tiles", mark) for tiles, mark in ((205, 80), (244, 95), (256, 100))))
        self.says(["session"], said, given=request(b"PUT", LEAF, wide) * 57, folder=folder, level="warn")


# ---- servers

ROOM = "room: {} of 536870912 bytes of tiles ({} percent) and 0 of 65536 edits (0 percent) are used; {} more tiles of 1024 bytes fit"
LOADED = info("survey_commands::serve", "loaded 0 leaves in # ms: 2 files are served")
LOADED += warn("survey_commands::serve", "the folder has no leaf tiles, so the survey is empty: is it the right folder?")
LOADED += info("hips_http::room", ROOM.format(0, 0, 524_288))
GONE = "The edits since the start are lost unless a journal or a copy has them"
LIMIT = "that is its limit, or none is left"
FEW_LEFT = (
    "place 1 has taken 6 of 7 connections: after 1 more it ends. "
    "When all places have ended the server ends, and its edits are lost: run rollover.sh before"
)
BUSY = "all places have been busy for # s, and further clients wait: raise PLACES (64 at most), "
BUSY = warn("tcp_link::busy", BUSY + "or keep the proxy's connections below them (nginx: max_conns, keepalive)")
# The connections of a server: what each sends, what is said of its requests, and how it ends.
CONNECTIONS = [
    (request(b"GET", b"/x") + request(b"PUT", LEAF, TILE), ["GET /x 404 10 # not_found", "PUT /Norder4/Dir0/Npix0.fits 201 0 # -"], "Closed"),
    (request(b"GET", b"/y", b"", b"Connection: close"), ["GET /y 404 10 # not_found"], "Asked"),
    (REFUSED[0][0], ["- - 505 0 # http_version_not_supported"], "Refused(505)"),
    (b"GET /", [], "Cut"),
    (b"GET /", [], "ReadFault"),
    (request(b"HEAD", b"/z") * 65_537, ["HEAD /z 404 0 # not_found"] * 65_536, "Spent"),
    (request(b"POST", b"/publish"), ["POST /publish 200 12 # -"], "Closed"),
]
REFUSAL = "Address already in use (os error 98)"


def took(connections):
    """What a place says that took so many, all that it was to."""
    return info("hips_place::place", f"place # ended after {connections} connections: {LIMIT}")


def ended(end="Done"):
    return info("survey_commands::serve", f"all places have ended: {end}. {GONE}")


class Servers(Lines):
    """What is said by `serve`."""

    def test_servers(self):
        """One place, by a clock that stands still: 65,536 requests may keep it busy for long enough that the log says so."""
        process, said, address, wanted = self.listen(len(CONNECTIONS), 1, level="debug", pace=0)
        reader = threading.Thread(target=lambda: rest.append(process.stderr.read()))
        rest = []
        reader.start()
        for number, (requests, answers, end) in enumerate(CONNECTIONS, 1):
            if end == "ReadFault":
                one = connect(address)
                one.sendall(requests)
                break_off(one)
            else:
                exchange(address, requests)
            name = f"connection{{place=1 number={number}}}:"
            wanted += debug("client", f"{name} 127.0.0.1:#")
            published = f"{name} published 1 edits, 1 of 1 in all: 1 tiles built in # ms"
            wanted += info("hips_http::logging", published) if b"publish" in requests else []
            for answer in answers:
                wanted += info("hips_http::room", f"{name} edit 1 puts {LEAF_ASKED[1:]}") if accepted(answer) else []
                wanted += debug("request", f"{name} {answer}")
            wanted += debug("ended", f"{name} {end}")
            # 6 of 7 are the first that are 80 percent or more; 95 percent are all.
            wanted += warn("hips_place::place", FEW_LEFT) if number == 6 else []
        reader.join(60)
        self.compare(["serve"], said + rest[0], wanted + took(len(CONNECTIONS)) + ended())

    def test_places(self):
        """Four connections at once, each at a place of its own."""
        process, said, address, wanted = self.listen(1, 4, level="debug")
        clients = [connect(address) for _ in range(4)]
        for client in clients:
            client.sendall(request(b"GET", b"/x"))
            client.recv(4096)
        for client in clients:
            client.close()
        names = [f"connection{{place={at} number=1}}:" for at in range(1, 5)]
        wanted += debug("client", *(f"{name} 127.0.0.1:#" for name in names))
        wanted += debug("request", *(f"{name} GET /x 404 10 # not_found" for name in names)) + debug("ended", *(f"{name} Closed" for name in names))
        self.compare_sorted(said + process.stderr.read(), wanted + took(1) * 4 + ended())

    def test_shortages(self):
        """More places than descriptors: those without one are served once others have ended, or end themselves after five minutes."""
        short = warn("tcp_link::shortage", "can't accept, and tries again: Too many open files (os error 24)")
        failed = error("hips_place::place", "place # ended after 0 connections: accepting failed")
        # By the second clock two and a half minutes pass at each reading; so the last client is said to keep all places busy for minutes.
        for places, clients, pace, until, shown, end in [
            (4, 4, None, b"tries again", short + took(1) * 4, "Done"),
            (3, 2, 150_000, b"accepting failed", short * 2 + BUSY * 2 + failed + took(1) * 2, "Failed"),
        ]:
            # Two are for accepts, beside the standard ones and the listener's.
            process, said, address, wanted = self.listen(1, places, pace=pace, preexec_fn=lambda: resource.setrlimit(resource.RLIMIT_NOFILE, (6, 6)))
            patience = threading.Timer(30, process.kill)
            patience.start()
            said += read_until(process, until)
            for _ in range(clients):
                with suppress(OSError):
                    exchange(address, request(b"GET", b"/x"))
            said += process.stderr.read()
            patience.cancel()
            self.compare_sorted(said, wanted + shown + ended(end))

    def test_busy(self):
        """Two clients that stay and ask each second, at two places and at three. At two a third client waits, and after ten seconds the
        log says so, once."""
        listening = [self.listen(2, 2), self.listen(1, 3)]

        def asks(client):
            client.sendall(request(b"GET", b"/x"))
            client.recv(4096)

        stay = [connect(address) for _, _, address, _ in listening for _ in range(2)]
        for client in stay:
            asks(client)
        waits = connect(listening[0][2])
        waits.sendall(request(b"GET", b"/x"))
        for _ in range(13):
            for client in stay:
                asks(client)
            time.sleep(1)
        for client in stay:
            client.close()
        waits.recv(4096)
        waits.close()
        for (process, said, address, wanted), shown in zip(listening, (BUSY + took(2) * 2, took(1) * 3)):
            exchange(address, request(b"GET", b"/x"))
            self.compare(["serve"], said + process.stderr.read(), wanted + shown + ended())

    def test_publications(self):
        """Three connections at once. Which edits a publication counts as its own, and what a pin finds, another one's among them."""
        process, said, address, wanted = self.listen(1, 3)
        editor, other, reader = clients = [http.client.HTTPConnection(address, timeout=30) for _ in range(3)]

        def answered(client, method, path, body=None):
            client.request(method, path, body)
            return client.getresponse().read()

        for client in clients:
            answered(client, "GET", "/x")
        answered(editor, "PUT", LEAF_ASKED, TILE)
        texts = [answered(editor, "POST", "/publish"), answered(reader, "POST", "/pin")]
        answered(editor, "PUT", LEAF_ASKED, TILE)
        texts += [answered(other, "POST", "/publish"), answered(reader, "POST", "/publish")]
        self.assertEqual(texts, [b"published 1\n", b"pinned 1\n", b"published 2\n", b"already 2\n"])
        for client in clients:
            client.close()
        for number in (1, 2):
            name = "connection{place=~ number=1}:"
            wanted += info("hips_http::room", f"{name} edit {number} puts {LEAF_ASKED[1:]}")
            wanted += info("hips_http::logging", f"{name} published 1 edits, {number} of {number} in all: 1 tiles built in # ms")
        self.compare(["serve"], said + process.stderr.read(), wanted + took(1) * 3 + ended())

    def test_a_unix_socket(self):
        folder = self.survey()
        process, said, _, wanted = self.listen(1, 1, "./socket", folder, level="debug")
        with connect(str(folder / "socket")) as client:
            client.sendall(request(b"GET", b"/x"))
            client.recv(4096)
        name = "connection{place=1 number=1}:"
        wanted += debug("client", f"{name} unix") + debug("request", f"{name} GET /x 404 10 # not_found") + debug("ended", f"{name} Closed")
        self.compare(["serve"], said + process.stderr.read(), wanted + took(1) + ended())

    def test_addresses(self):
        """What can't be listened at ends `serve` before the survey is loaded."""
        form = "ADDRESS is an IP address or a host's name, with a port, as 127.0.0.1:8080, or the path of a Unix socket, with a /"
        for address, files in ("8080", CONF), ("8080", {}), ("127.0.0.1:65536", CONF), ("nowhere.invalid:1", CONF):
            self.says(["serve", address, "1", "1"], THIS + error("hipsd", f"""can't listen at "{address}": ~. {form}"""), files=files, status=8)
        nowhere = f"{self.folder}/none/socket"
        self.says(["serve", nowhere, "1", "1"], THIS + error("hipsd", f"can't listen at {nowhere}: No such file or directory (os error 2)"), status=8)
        with socket.create_server(("127.0.0.1", 0)) as taken:
            place = "127.0.0.1:%d" % taken.getsockname()[1]
            self.says(["serve", place, "1", "1"], THIS + error("hipsd", f"can't listen at {place}: {REFUSAL}"), status=8)
        port = free_port()
        named = sorted({place[:2] for *_, place in socket.getaddrinfo("localhost", port, type=socket.SOCK_STREAM)})
        taken = [socket.create_server(place, family=socket.AF_INET6 if ":" in place[0] else socket.AF_INET) for place in named]
        self.says(["serve", f"localhost:{port}", "1", "1"], THIS + error("hipsd", f"can't listen at localhost:{port}: {REFUSAL}"))
        for server in taken:
            server.close()
        absent = error("shelf_io::logging", "there is no file survey.conf, which describes the survey")
        self.says(["serve", "127.0.0.1:0", "1", "1"], THIS + absent, files={})

    def test_open_addresses(self):
        """Every address of the machine, by which others than a proxy may reach the server."""
        told = "whoever reaches this machine may edit the survey: listen at 127.0.0.1 or at the path of a Unix socket, behind a proxy"
        for host in ("0.0.0.0", "[::]") if socket.has_dualstack_ipv6() else ("0.0.0.0",):
            process, said, address, wanted = self.listen(1, 1, f"{host}:0")
            exchange(address, request(b"GET", b"/x"))
            self.compare(["serve"], said + process.stderr.read(), wanted + warn("tcp_link::listening", told) + took(1) + ended())

    def test_a_lost_address(self):
        """Another program takes the address while the survey is loaded: the pipe is full of progress until it has. That is said once."""
        leaves, port = 2000, free_port()
        files = {tile_path(4, npix): image(2, 2, [npix] * 4, ("ORDER", 4), ("NPIX", npix)) for npix in range(leaves)}
        process = self.start(["serve", f"127.0.0.1:{port}", "1", "2"], self.survey(CONF | files), pace=SECOND)
        said = read_until(process, b"leaves read")
        with socket.create_server(("127.0.0.1", port)):
            said += process.stderr.read()
        wanted = THIS + info("survey_commands::serve", f"loaded {leaves} leaves in # ms: # files are served")
        wanted += info("hips_http::room", ROOM.format(1024 * leaves, 0, 524_288 - leaves)) + info("survey_commands::serve", "2 places, up to 1 connections at each")
        wanted += error("tcp_link::listening", f"can't listen at 127.0.0.1:{port}: {REFUSAL}")
        wanted += error("hips_place::place", *["place # ended after 0 connections: accepting failed"] * 2) + ended("Failed")
        self.compare(["serve"], b"\n".join(line for line in said.splitlines() if b"::progress]" not in line), wanted)


# ---- copies

class Peer(threading.Thread):
    """A peer that answers each request of one connection by the next of these replies. None in place of one breaks the connection
    off."""

    def __init__(self, replies):
        super().__init__()
        self.server = socket.create_server(("127.0.0.1", 0))
        self.address = "127.0.0.1:%d" % self.server.getsockname()[1]
        self.replies = replies

    def run(self):
        client, _ = self.server.accept()
        with self.server, client:
            for reply in self.replies:
                head = b""
                while not head.endswith(b"\r\n\r\n"):
                    part = client.recv(1)
                    if not part:
                        return None
                    head += part
                if reply is None:
                    return break_off(client)
                client.sendall(reply)
        return None


def replied(body, code=b"200 OK", prefix=b"Survey-Prefix: 7\r\n"):
    return b"HTTP/1.1 %s\r\nContent-Length: %d\r\n%s\r\n%s" % (code, len(body), prefix, body)


ITSELF = "is this the address of hipsd itself?"
BUILDING = "leaves copied: all %d; the tiles above them are built next"
COPIED = "copied: the peer's Survey-Prefix 7; its mosaic and properties agree with its leaves"
DEEP = Survey("log", "Survey log", top=11, low=3, width=2)


def replies(leaves, last="unpin", **other):
    """The replies of a peer with these leaves, up to the last one, but for those that are given by their names."""
    right = {"pin": replied(b"pinned 7\n"), "properties": replied(SURVEY.properties(leaves)), "cover": replied(SURVEY.coverage(leaves))}
    right |= {f"leaf{npix}": replied(SURVEY.tile(leaves, 4, npix)) for npix in leaves}
    right |= {"mosaic": replied(SURVEY.mosaic(leaves)), "unpin": replied(b"released\n", prefix=b"")}
    names = list(right)
    return [(right | other)[name] for name in names[: names.index(last) + 1]]


class Copies(Lines):
    """What is said by `mirror`."""

    def test_large(self):
        """A copy of two leaves with 512 by 512 pixels, from a peer that goes then; and one whose second leaf is none."""
        survey = Survey("log", "Survey log", top=4, low=3, width=512)
        tiles = [image(512, 512, [npix] * 262_144, ("ORDER", 4), ("NPIX", npix)) for npix in (0, 1)]
        first = [replied(b"pinned 7\n"), replied(survey.properties([0, 1])), replied(survey.coverage([0, 1])), replied(tiles[0])]
        parts = info("command_output::progress", "leaves copied: 1 of 2", "leaves copied: 2 of 2")
        fault = "GET /Norder4/Dir0/Npix1.fits (request 4): the body is no tile of the survey: 1 header 1"
        for last, said in (
            (tiles[1], parts + error("hips_mirror::logging", "GET /Norder3/Allsky.fits (request 5): the connection ended within the reply")),
            (b"none", parts[:1] + error("hips_mirror::logging", fault)),
        ):
            peer = Peer([*first, replied(last)])
            peer.start()
            self.says(["mirror", peer.address], said, files={}, pace=SECOND)
            peer.join()

    def test_copies(self):
        leaves = {0: [1, 2, 3, 4]}

        def copied(wanted, pace=None, host="127.0.0.1", **given):
            peer = Peer(replies(leaves, **given))
            peer.start()
            address = peer.address.replace("127.0.0.1", host)
            self.says(["mirror", address], [line.replace("PEER", address) for line in wanted], files={}, pace=pace)
            peer.join()

        built = info("hips_mirror::logging", BUILDING % 1)

        def refused(text, told=(), **given):
            copied([*told, *error("hips_mirror::logging", text)], **given)

        whole = info("shelf_io::logging", "5 of 5 files written, 0 were the same; 0 removed")
        whole += info("survey_commands::mirror", "the folder has the copy: 5 files")
        same = info("hips_mirror::logging", COPIED)
        parts = info("command_output::progress", "leaves copied: 1 of 1") + built + same
        parts += info("command_output::progress", *(f"files compared and written: {at} of 5" for at in range(1, 6)))
        copied(built + same + whole)
        copied(built + same + whole, host="localhost")
        copied(parts + whole, pace=SECOND)
        pin, asked = "POST /pin (request 0)", f"GET {LEAF_ASKED} (request 3)"
        for code, advice in (
            (b"405 Method Not Allowed", ITSELF),
            (b"404 Not Found", "hipsd has this path, so is this its address?"),
            (b"502 Bad Gateway", "a proxy is there, and hipsd behind it doesn't answer; does it run?"),
            (b"503 Service Unavailable", "the server there is starting or busy; try again later"),
            (b"501 \xff", ITSELF),
        ):
            said = code.decode(errors="backslashreplace")
            refused(f"{pin} was answered {said}, and not 200: {advice}", pin=replied(b"", code=code))
        refused(f"{pin}: the body must be `pinned` and the Survey-Prefix: {ITSELF}", pin=replied(b"pinned 8\n"))
        refused(f"{pin}: what came is no HTTP reply: {ITSELF}", pin=b"SSH-2.0\r\n\r\n")
        refused(f"{pin} was answered by HTTP/1.0, and not HTTP/1.1: {ITSELF}", pin=replied(b"pinned 7\n").replace(b"1.1", b"1.0"))
        refused(f"{pin}: the reply must have one Survey-Prefix: {ITSELF}", pin=replied(b"pinned 7\n", prefix=b""))
        refused(f"{asked}: the reply must have one Content-Length, 67108864 at most: {ITSELF}", leaf0=b"HTTP/1.1 200 OK\r\n\r\n")
        refused(f"{asked}: the reply has Survey-Prefix 8, which isn't pinned: {ITSELF}", leaf0=replied(TILE, prefix=b"Survey-Prefix: 8\r\n"))
        refused(f"POST /unpin (request 5) was answered 204 No Content, and not 200: {ITSELF}", built, unpin=replied(b"released\n", code=b"204 No Content"))
        refused("GET /Moc.fits (request 2): the connection ended within the reply", cover=replied(SURVEY.coverage(leaves))[:-1], last="cover")
        uncounted = "the last line must be `survey_leaves = N`, with N in plain decimals"
        refused(f"GET /properties (request 1): {uncounted}", properties=replied(SURVEY.description()))
        order = SURVEY.properties(leaves).replace(b"hips_order = 4", b"hips_order = 12")
        refused("GET /properties (request 1): line 8, hips_order = 12: an order is 3 to 11", properties=replied(order))
        refused("GET /Moc.fits (request 2): the body isn't the coverage file of leaves of the survey's order", cover=replied(b"SIMPLE"))
        deep = {"properties": replied(DEEP.properties(range(65_536))), "cover": replied(DEEP.coverage(range(65_536)))}
        refused("GET /Moc.fits (request 2): 65536 leaves are too many: at most 65000 are copied, of at most 2^29 bytes", **deep)
        refused(f"GET {LEAF_ASKED} (request 3): the body is no tile of the survey: 9 truncated 8", leaf0=replied(TILE[:2880]))
        differs = "the body isn't the file that the leaves make"
        refused(f"GET /properties (request 1): {differs}", built, properties=replied(SURVEY.properties([0, 1])))
        refused(f"GET /Norder3/Allsky.fits (request 4): {differs}", built, mosaic=replied(SURVEY.mosaic({0: [1, 2, 3, 9]})))
        broken = "can't read what PEER sends: the connection broke off, or it was silent for too long"
        half = error("hips_mirror::logging", "GET /properties (request 1): the reply didn't come, or not whole")
        copied(half + error("hipsd::faults", broken), properties=None)
        # A peer that is silent.
        copied(half + error("hipsd::faults", broken), properties=b"")
        nobody = f"127.0.0.1:{free_port()}"
        said = error("tcp_link::dialing", f"can't connect to {nobody}: Connection refused (os error 111)")
        self.says(["mirror", nobody], said + error("hipsd::faults", f"can't send requests to {nobody}"), files={})


# ---- what no run said

CALL = re.compile(r"\b(error|warn|info|debug|trace)!\(\s*(?:\w+|&\w+|self\.\w+);\s*(?:target:\s*(\w+|\"\w+\"),\s*)?\"((?:[^\"\\]|\\.)*)\"")


class Unsaid(Lines):
    """Looks for a line of each call of the log in the source, where all of the runs above were made."""

    def test_each_call_has_a_line(self):
        others = [part for part in Lines.__subclasses__() if part is not Unsaid]
        if self.parts < {f"{part.__module__}.{part.__name__}.{name}" for part in others for name in dir(part) if name.startswith("test_")}:
            self.skipTest("not all runs were made")
        calls = 0
        for file in sorted((TOP / "crates").glob("*/src/**/*.rt")):
            if file.relative_to(TOP / "crates").parts[0].endswith("_tests"):
                continue
            text = file.read_text()
            for level, _, form in CALL.findall(text):
                calls += 1
                written = form.replace(r"\"", '"')
                parts = [re.escape(part) for part in re.split(r"\{[^}]*\}", written)]
                line = re.compile(rf"\[{level.upper():5} \S+\] (connection\S+ \S+ )?" + ".*".join(parts))
                with self.subTest(level=level, written=written, file=file.relative_to(TOP)):
                    self.assertTrue(written in UNSAID or any(line.fullmatch(it) for it in self.said), "no run says it")
            found = re.findall(r"\b(?:error|warn|info|debug|trace)!\(", text)
            self.assertEqual(len(found), len(CALL.findall(text)), f"a call of the log in {file} has another form")
        print(f"runs say what they must, by {calls - len(UNSAID)} of {calls} calls of the log")
