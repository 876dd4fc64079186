"""Tries what an operator uses beside the program: what export and verify do to a folder, the service of systemd (by
systemd's own verifiers, since systemd isn't running here), the man page, scripts/install.sh, and the shell of all scripts.
"""

import os
import re
import subprocess
from pathlib import Path

from checks.cases import Case, files_of, needs
from checks.servers import DOCS, EXAMPLES, PROGRAM, SCRIPTS, TOP, free_port
from survey_files import Survey, write_files

SURVEY = Survey("operate", "Survey operate", top=5, low=3, width=8)
LEAF = "Norder5/Dir0/Npix7.fits"
FILE = SURVEY.leaf(7, range(64))
NAMESPACES = Path(__file__).parent / "namespaces"


def may(*words):
    """Whether a namespace of this kind can be made here."""
    return subprocess.run(["unshare", *words], capture_output=True).returncode == 0


class Folder(Case):
    """What export and verify do to a folder, and say of it."""

    def setUp(self):
        super().setUp()
        self.shelf = SURVEY.write(self.folder / "shelf", {7: range(64)})
        self.exports(" of 6 files written")

    def exports(self, text):
        self.assertEqual(self.hipsd(0, text, "export", cwd=self.shelf)[0], b"exported 6\n")

    def written(self):
        """When each file of the folder was written, and its number on the disk."""
        return {str(path.relative_to(self.shelf)): (path.stat().st_mtime_ns, path.stat().st_ino) for path in self.shelf.rglob("*") if path.is_file()}

    def test_an_export_writes_what_differs(self):
        """A file that is right stays as it is, so that rsync and backups see what has changed."""
        then, right = self.written(), files_of(self.shelf)
        self.exports("0 of 6 files written, 6 were the same; 0 removed")
        self.assertEqual(self.written(), then)
        (self.shelf / "properties").unlink()
        mosaic = bytearray(right["Norder3/Allsky.fits"])
        # As long as before, and other bytes.
        mosaic[4000:4001] = b"x"
        write_files(self.shelf, {"Moc.fits": right["Moc.fits"] + b"x", "Norder3/Allsky.fits": bytes(mosaic), "Norder5/Dir20000/Npix20001.fits": FILE,
                                 "Norder3/Dir0/Npix5.fits": FILE})
        self.exports("3 of 6 files written, 3 were the same; 1 removed")
        (self.shelf / "Norder5/Dir20000/Npix20001.fits").unlink()
        self.assertTrue(files_of(self.shelf) == right, "an export leaves a file that differs")
        mended = {"properties", "Moc.fits", "Norder3/Allsky.fits"}
        self.assertEqual({path: it for path, it in self.written().items() if path not in mended}, {path: it for path, it in then.items() if path not in mended})
        self.hipsd(0, "", "verify", cwd=self.shelf)
        # A leaf with a card of its own, in the place of its end card, is written again without it.
        write_files(self.shelf, {LEAF: FILE[:800] + b"CTYPE1  = 'RA---HPX'".ljust(80) + b"END".ljust(80) + FILE[960:]})
        self.exports("1 of 6 files written, 5 were the same; 0 removed")
        self.assertTrue(files_of(self.shelf) == right, "an export leaves a card that it doesn't write")

    def test_files_that_look_like_leaves(self):
        odd = ("Norder5/Dir0/Npix007.fits", "Norder5/Dir10000/Npix7.fits", "Norder5/Dir0/Npix8.fits.gz", "Norder5/Dir10000/Npix12288.fits")
        others = {"Norder5/Dir0/Npix8.png": b"", "note.fits": b"", "Norder6/Dir0/Npix1.fits": FILE}
        write_files(self.shelf, others | {path: FILE for path in odd})
        said = self.hipsd(9, "files that look like tiles and are none: 4, as Norder5/Dir", "verify", cwd=self.shelf)[1]
        self.assertIn("1 tiles are of an order above 5, that of the leaves, as Norder6/Dir0/Npix1.fits", said)
        for path in (*odd, *others):
            (self.shelf / path).unlink()
        self.assertNotIn("WARN", self.hipsd(0, "", "verify", cwd=self.shelf)[1])

    def test_a_full_disk(self):
        """On a small disk of its own."""
        disk = self.folder / "disk"
        disk.mkdir()
        if not may("-m", "mount", "-t", "tmpfs", "none", disk):
            self.skipTest("no disk of its own can be made here")
        self.runs(7, "can't write Norder3/Allsky.fits.unfinished: No space left on device", "unshare", "-m", "bash", "-c",
                  'mount -t tmpfs -o size=64k none "$1" && cp -r survey.conf Norder5 "$1" && cd "$1" || exit; "$2" export; status=$?;'
                  'if find . -name "*.unfinished" | grep .; then exit 1; fi; exit $status', "bash", disk, PROGRAM, cwd=self.shelf)


VERSION, TOOLCHAIN = (re.search(rf'(?m)^pub const {name}: .* = "(.*)";$', (TOP / "crates/hipsd_run/src/version.rt").read_text())[1]
                      for name in ("VERSION", "TOOLCHAIN"))


class Names(Case):
    """What the program says of itself, and names with several addresses."""

    def test_version(self):
        """The log has version and toolchain, as the manual page has and `rt` where it is here."""
        self.hipsd(1, f"hipsd {VERSION}, toolchain {TOOLCHAIN}", "--version")
        self.hipsd(8, f"hipsd {VERSION}, toolchain {TOOLCHAIN}", "serve", 8080, 1, 1)
        self.runs(0, "", SCRIPTS / "install.sh", "/usr", DESTDIR=str(self.folder), PROGRAM=str(PROGRAM))
        page = " ".join((self.folder / "usr/share/man/man1/hipsd.1").read_text().split())
        self.assertIn(f"version {VERSION},", page)
        self.assertIn(f"built with {TOOLCHAIN}.", page)

    @needs("rt")
    def test_toolchain(self):
        """Two kits of one logic prove the same."""
        told = self.runs(0, "", "rt", "version")[1].splitlines()[0]
        self.assertEqual(told.partition(" ")[2], TOOLCHAIN.partition(" ")[2], f"the program names {TOOLCHAIN}, and rt is {told}")
        if told != TOOLCHAIN:
            print(f"the program names {TOOLCHAIN}, and rt is {told}")

    def test_a_name_with_two_addresses(self):
        """`mirror` and `serve` take the one that they can have."""
        if not may("-m", "mount", "--bind", "/etc/hosts", "/etc/hosts"):
            self.skipTest("no names of its own can be made here")
        (self.folder / "hosts").write_text("127.0.0.1 two.test\n127.0.0.2 two.test\n")
        words = [self.folder / "hosts", PROGRAM, free_port(), self.folder / "copies"]
        self.runs(0, "", "unshare", "-m", "bash", NAMESPACES / "two-addresses.sh", *words, cwd=SURVEY.write(self.folder / "survey"))


class Installed(Case):
    """All goes below a folder, and nothing is left of it."""

    def setUp(self):
        super().setUp()
        self.root = self.folder / "root"
        for _ in range(2):
            self.install(0, "/usr")
        self.usr, self.doc = self.root / "usr", self.root / "usr/share/doc/hipsd"

    def install(self, status, *words, **environment):
        return self.runs(status, "", SCRIPTS / "install.sh", *words, **{"PROGRAM": str(PROGRAM), "DESTDIR": str(self.root), **environment})[1]

    def test_files(self):
        self.hipsd(0, "", "export", cwd=SURVEY.write(self.folder / "survey"))
        self.runs(0, "", self.usr / "bin/hipsd", "export", cwd=self.folder / "survey")
        units = [f"lib/systemd/system/{name}" for name in ("hipsd@.service", "hipsd-backup.service", "hipsd-backup.timer")]
        for name in ("share/man/man1/hipsd.1", *units, "lib/sysusers.d/hipsd.conf"):
            self.assertTrue((self.usr / name).stat().st_size, name)
        for page in ("README", "SECURITY", "docs/OPERATING", "docs/FORMATS"):
            here = self.doc / f"{page}.md"
            for link in re.findall(r"\]\(([A-Za-z./]+)(?:#[^)]*)?\)", here.read_text()):
                self.assertTrue((here.parent / link).exists(), f"{page}.md links to {link}, which isn't installed")
        self.runs(0, "catalog", self.usr / "bin/hipsctl", "--help")
        for script in ("edit.sh", "look-back.sh", "backup.sh", "rollover.sh"):
            self.assertTrue(os.access(self.doc / "examples" / script, os.X_OK), script)
        for path, text in files_of(self.usr).items():
            if path.startswith(("share/man", "lib")):
                self.assertNotRegex(text, rb"@(PREFIX|VERSION|REVISION|TOOLCHAIN)@", path)
        service, backup = ((self.usr / unit).read_text() for unit in units[:2])
        self.assertRegex(service, "(?m)^ExecStart=/usr/bin/hipsd serve /run/hipsd/%i ")
        self.assertRegex(backup, "(?m)^ExecStart=/usr/share/doc/hipsd/examples/backup.sh ")
        self.assertIn("=/usr/bin/hipsd ", backup)

    @needs("mandoc")
    def test_manual(self):
        for page in (DOCS / "hipsd.1", self.usr / "share/man/man1/hipsd.1"):
            self.assertEqual(self.runs(0, "", "mandoc", "-T", "lint", "-W", "all", page)[1], "")

    @needs("systemd-analyze")
    def test_services(self):
        """systemd takes them, and finds what they are exposed to small."""
        tunnel, unit = self.folder / "hipsd-tunnel@copy.service", self.folder / "hipsd@survey1.service"
        units = self.usr / "lib/systemd/system"
        tunnel.write_text((units / "hipsd-tunnel@.service").read_text())
        # It looks for the program where the service says.
        unit.write_text(re.sub(r"=(\+*)/usr/", rf"=\1{self.usr}/", (units / "hipsd@.service").read_text()))
        for one in (tunnel, unit):
            self.assertEqual(self.runs(0, "", "systemd-analyze", "verify", "--man=no", one)[1], "")
        said = subprocess.run(["systemd-analyze", "security", "--offline=true", unit], capture_output=True, text=True).stdout
        self.assertLessEqual(float(re.search(r"exposure level for .*: (\d+\.\d)", said)[1]), 0.8)
        text = unit.read_text()
        for line in ("RestartPreventExitStatus=1 2 3 8\n", "Description=.*not with the edits", "TasksMax=", "MemoryMax=70%", "MemorySwapMax=0",
                     "SocketBindDeny=any", "RestrictAddressFamilies=AF_UNIX"):
            self.assertRegex(text, f"(?m)^{line}")
        self.assertRegex((EXAMPLES / "hipsd.tcp.conf").read_text(), "(?m)^SocketBindAllow=tcp:8080-8081$")
        (self.root / "etc").mkdir()
        self.runs(0, "Creating user 'hipsd'", "systemd-sysusers", "--dry-run", f"--root={self.root}", self.usr / "lib/sysusers.d/hipsd.conf")

    def test_words(self):
        nothing = self.folder / "none"
        self.assertNotEqual(subprocess.run([SCRIPTS / "install.sh", "/usr", "/local"], capture_output=True).returncode, 0)
        self.assertNotEqual(subprocess.run([SCRIPTS / "install.sh", "relative"], capture_output=True).returncode, 0)
        absent = {**os.environ, "PROGRAM": str(self.folder / "nothing"), "DESTDIR": str(nothing)}
        self.assertNotEqual(subprocess.run([SCRIPTS / "install.sh"], capture_output=True, env=absent).returncode, 0)
        self.assertFalse(nothing.exists(), "it begins where there is no program")

    def test_removal(self):
        (self.usr / "bin/note").write_text("note\n")
        self.install(0, "--remove", "/usr")
        self.assertEqual(list(files_of(self.root)), ["usr/bin/note"])
        self.install(1, "--remove", "/usr")


@needs("shellcheck")
class Shell(Case):
    """The scripts that operators and editors run, and those that try them."""

    def test_shellcheck(self):
        scripts = [path for folder in (EXAMPLES, SCRIPTS) for path in sorted(folder.rglob("*.sh"))]
        self.runs(0, "", "shellcheck", "-x", *scripts, within=600)
