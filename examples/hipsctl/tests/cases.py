"""What tests of hipsctl begin with: a folder of its own for each, and the program run in this process or as another one."""

import contextlib
import importlib
import io
import os
import shutil
import socket
import struct
import subprocess
import sys
import tempfile
import time
import unittest
from importlib.util import find_spec
from pathlib import Path

PACKAGE = Path(__file__).resolve().parent.parent
run = importlib.import_module("hipsctl.__main__").run


# What hipsd says is seen by its statuses.
os.environ.setdefault("HIPSD_LOG", "off")


def needs(what, is_there):
    """Skips what can't be tried here, but not in the gate."""
    return unittest.skipUnless(is_there or os.environ.get("CI") == "true", f"there is no {what}")


PROGRAM = shutil.which(os.environ.get("HIPSD_PROGRAM", "hipsd"))
needs_hipsd = needs("hipsd", PROGRAM)
needs_astropy = needs("astropy and healpy", find_spec("astropy") and find_spec("healpy"))


def fits(numbers, width=8, **cards):
    """The file of a tile of 16 bits, with other cards than are usual."""
    cards = {"SIMPLE": "T", "BITPIX": 16, "NAXIS": 2, "NAXIS1": width, "NAXIS2": width, "BSCALE": "1.0E0", "BZERO": "0.0E0", "BLANK": -32768, **cards}
    head = "".join(f"{name:8}= {value:>20}".ljust(80) for name, value in cards.items()) + "END".ljust(80)
    data = struct.pack(f">{len(numbers)}h", *((number + 32768) % 65536 - 32768 for number in numbers))
    return (head + " " * (-len(head) % 2880)).encode() + data + bytes(-len(data) % 2880)


def survey_conf(**keys):
    """A description, with other keys than are usual."""
    known = {"creator_did": "ivo://example/P/one", "obs_title": "One", "hips_release_date": "2024-05-01T00:00Z", "hips_status": "public master clonable",
             "hips_order": 5, "hips_tile_width": 8, "survey_bitpix": 16, "survey_blank": -32768, **keys}
    return "".join(f"{key} = {value}\n" for key, value in known.items()).encode()


class Case(unittest.TestCase):
    def setUp(self):
        self.folder = Path(tempfile.mkdtemp())
        self.addCleanup(shutil.rmtree, self.folder)
        self.addCleanup(os.umask, os.umask(0o022))

    def ends(self, status, text, *words):
        """Runs hipsctl, which ends with this status and says this text; returns all that it says."""
        said = io.StringIO()
        with contextlib.redirect_stdout(said), contextlib.redirect_stderr(said):
            try:
                ended = run(list(map(str, words)))
            except SystemExit as end:
                ended = end.code
        self.assertEqual(ended, status, said.getvalue())
        self.assertIn(text, said.getvalue())
        return said.getvalue()

    def begin(self, *words, before="", **more):
        """The same as a process, whose umask is 077, after these commands of a shell."""
        words = [sys.executable, "-B", PACKAGE, *words]
        return subprocess.Popen(["bash", "-c", f'umask 077; {before} exec "$@"', "bash", *map(str, words)], cwd=self.folder,
                                stdout=subprocess.PIPE, stderr=subprocess.STDOUT, text=True, **more)

    def write(self, folder, files):
        for path, data in files.items():
            Path(folder, path).parent.mkdir(parents=True, exist_ok=True)
            Path(folder, path).write_bytes(data)

    def files(self, folder):
        """Names and bytes of all that is below a folder; of a link, where it leads."""
        found = sorted(path for path in Path(folder).rglob("*") if path.is_symlink() or not path.is_dir())
        return {str(path.relative_to(folder)): os.readlink(path) if path.is_symlink() else path.is_file() and path.read_bytes() for path in found}


class Served(Case):
    """A server of hipsd at a Unix socket, which ends with the test."""

    def begin_server(self, folder, **more):
        self.address = str(self.folder / "socket")
        self.server = subprocess.Popen([PROGRAM, "serve", self.address, "65536", "8"], cwd=folder, stdout=subprocess.DEVNULL,
                                       stderr=(self.folder / "log").open("wb"), env={**os.environ, "HIPSD_LOG": "info"}, **more)
        self.addCleanup(self.server.wait)
        self.addCleanup(self.server.kill)
        until = time.monotonic() + 30
        while time.monotonic() < until:
            with contextlib.suppress(OSError), socket.socket(socket.AF_UNIX) as one:
                one.connect(self.address)
                return
            time.sleep(0.02)
