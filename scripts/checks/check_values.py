"""Compares tables of tests, and of the program's output, with what others make of them: Python, cell by cell, or healpy. Each script prints
its table, and with --check looks whether it stands where the test has it.
"""

from checks.cases import Case, needs
from checks.servers import SCRIPTS


class Values(Case):
    """The scripts that are named *-values.py, and those of made surveys."""

    def test_of_python(self):
        for name in ("made-survey.py", "made-summary.py", "size-values.py"):
            with self.subTest(name):
                self.runs(0, "", SCRIPTS / name, "--check")

    @needs("healpy")
    def test_of_healpy(self):
        for name in ("healpix-values.py", "pyramid-values.py"):
            with self.subTest(name):
                self.runs(0, "", SCRIPTS / name, "--check")
