"""What the checks are tests of: a folder of their own, the program and scripts that run there, and curl."""

import os
import shutil
import subprocess
import tempfile
import unittest
from concurrent.futures import ThreadPoolExecutor
from importlib.util import find_spec
from pathlib import Path

from checks.servers import PROGRAM, Server


def needs(*names):
    """Leaves out a test, or a class, for which a tool or a module of Python isn't installed. With CI=true it runs, and fails."""
    missing = [name for name in names if not shutil.which(name) and not find_spec(name)]
    return unittest.skipIf(missing and os.environ.get("CI") != "true", f"not installed here: {' '.join(missing)}")


def together(*works):
    """Does these at the same time. Answers what each of them answered."""
    with ThreadPoolExecutor(len(works)) as pool:
        return [each.result() for each in [pool.submit(work) for work in works]]


class Case(unittest.TestCase):
    """A folder of its own. What is entered ends with the test."""

    def setUp(self):
        self.folder = self.own_folder(self.enterContext)

    @staticmethod
    def own_folder(enter):
        folder = Path(enter(tempfile.TemporaryDirectory()))
        # nginx serves, and other users look.
        folder.chmod(0o755)
        return folder

    def serve(self, folder, *words, **more):
        return self.enterContext(Server(folder, *words, **more))

    def begin(self, *words, **more):
        """A process that ends with the test."""
        quiet = {"stdout": subprocess.DEVNULL, "stderr": subprocess.DEVNULL}
        process = subprocess.Popen(list(map(str, words)), **{**quiet, **more})
        self.addCleanup(process.wait)
        self.addCleanup(process.terminate)
        return process

    def runs(self, status, text, *words, cwd=None, given=b"", within=300, **environment):
        """Runs a command, which ends with this status and writes this text. Answers what it wrote on standard output, and on both."""
        words = [word if isinstance(word, bytes) else str(word) for word in words]
        ran = subprocess.run(words, cwd=cwd or self.folder, input=given, capture_output=True, timeout=within, env={**os.environ, **environment})
        said = (ran.stdout + ran.stderr).decode(errors="backslashreplace")
        self.assertEqual(ran.returncode, status, f"{words}: {said[-2000:]}")
        self.assertIn(text, said, words)
        return ran.stdout, said

    def hipsd(self, status, text, *words, **more):
        return self.runs(status, text, PROGRAM, *words, **more)

    def curl(self, code, *words):
        """The fields and the body of the reply that curl gets, which has this code."""
        head, body = self.folder / "reply.head", self.folder / "reply.body"
        body.write_bytes(b"")
        ran = subprocess.run(["curl", "-s", "-o", body, "-D", head, "-w", "%{http_code}", "--max-time", "20", *map(str, words)], capture_output=True, text=True)
        self.assertEqual(ran.stdout, str(code), f"curl {words}: {body.read_bytes()[:200]}")
        lines = (line.partition(":") for line in head.read_text().splitlines())
        return {name.lower(): value.strip() for name, _, value in lines if value}, body.read_bytes()


def files_of(folder):
    """The bytes of each file below a folder, by their paths."""
    return {str(path.relative_to(folder)): path.read_bytes() for path in Path(folder).rglob("*") if path.is_file()}
