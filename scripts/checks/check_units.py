"""Tries the units of examples/ and scripts/install.sh by systemd itself, by the steps for operators: a systemd of its own is booted twice, in
namespaces and over a layer above this machine's files that goes with the check (units/).

- hipsd@survey0 serves at a Unix socket that the proxy's group alone reaches, nginx is before it. hipsd-backup.service makes a copy.
- rollover.sh renews the server as hipsd@survey1; the next copy is of that. hipsd-renew.service sees that it has room. A restart drains it
  first, and says what is lost. Then it is lost with its folder, and goes on from the copy by the commands of OPERATING.
- After the second boot the renewed server runs, with the edits that it began with, and nginx goes to it. Then it is renewed at a port
  (hipsd.tcp.conf): rollover.sh stops where hipsd.tcp.nft doesn't name that. It goes back to a Unix socket, and hipsd-renew.service renews
  it before its connections are taken.
"""

import os
import shutil
import subprocess
from pathlib import Path

from checks.cases import Case, needs
from checks.servers import PROGRAM, TOP
from survey_files import Survey, write_files

SURVEY = Survey("units", "Survey units", top=5, low=3, width=8)
NAMESPACES = ["unshare", "-m", "-p", "-f", "-n", "-u", "-i", "-C", "--kill-child"]


@needs("nginx", "nft", "openssl", "setpriv", "/lib/systemd/systemd")
class Units(Case):
    """Where no such namespaces can be made all is left out."""

    def own_group(self):
        """A control group for all that is booted."""
        found = subprocess.run(["findmnt", "-n", "-t", "cgroup2", "-o", "TARGET"], capture_output=True, text=True).stdout.split()
        try:
            group = Path(found[0], f"check-units.{os.getpid()}")
            group.mkdir()
        except (IndexError, OSError):
            self.skipTest("no control group of its own can be made here")
        self.addCleanup(lambda: subprocess.run(["find", group, "-depth", "-type", "d", "-exec", "rmdir", "{}", "+"], stderr=subprocess.DEVNULL))
        return group

    def test_two_boots(self):
        group = self.own_group()
        if subprocess.run([*NAMESPACES, "true"], stderr=subprocess.DEVNULL).returncode:
            self.skipTest("no namespaces of its own can be made here")
        out = self.folder / "out"
        shutil.copytree(Path(__file__).parent / "units", out)
        write_files(out, {f"{leaf}.fits": SURVEY.leaf(leaf, range(leaf, leaf + 64)) for leaf in (8, 9, 10)} | {"survey.conf": SURVEY.description()})
        (self.folder / "layer").mkdir()
        enter = 'echo $$ >"$0/cgroup.procs" && exec timeout -s KILL 600 "$@"'
        layer = [*NAMESPACES, "--mount-proc", "bash", out / "layer.sh", PROGRAM, TOP, self.folder]
        ran = subprocess.run(["sh", "-c", enter, group, *layer], stdin=subprocess.DEVNULL, capture_output=True, text=True)
        if not (out / "layered").exists():
            self.skipTest("no layer above this machine's files can be made here")
        said = ran.stdout + ran.stderr + "".join(path.read_text() for path in (out / "log",) if path.exists())
        for part in (1, 2):
            self.assertTrue((out / f"done{part}").exists(), f"boot {part} doesn't come to its end: {said}")
        wrong = out / "wrong"
        self.assertFalse(wrong.exists(), wrong.exists() and wrong.read_text())
