#!/usr/bin/python3
"""Prints the rows of the table MADE of crates/run_tests/src/make.rt, and one of scripts/checks/check_statuses.py, with NUMBER, EDITS
and the line that `hipsd make` writes. The surveys are made here from docs/DEFINITIONS.md and docs/FORMATS.md, cell by cell, with nothing of
the program, by survey_files.py.

With --check it compares the rows with those that stand there, and ends with status 1 where one differs or is missing.
With two numbers, NUMBER and EDITS, it prints that line alone.
"""

import sys
from pathlib import Path

from survey_files import Survey

TOP_FOLDER = Path(__file__).parent.parent
# In the second of the first table the eighth edit takes a leaf away, in the third three leaves have one parent.
TABLES = (
    ("crates/run_tests/src/make.rt", "make {} {}||0|{}^|none", ((0, 1), (1479, 8), (26741, 8))),
    ("scripts/checks/check_statuses.py", "{} {}|{}", ((7, 4096),)),
)
MADE = Survey("make", "Made survey", top=5, low=3, width=32)


def summary(number, edits):
    x, accepted, leaves = number, 0, {}
    for i in range(1, edits + 1):
        x = (x * 6364136223846793005 + 1442695040888963407) % 2**64
        leaf = (x >> 33) % 12288
        if i % 8 == 0:
            accepted += leaf in leaves
            leaves.pop(leaf, None)
        else:
            accepted += 1
            leaves[leaf] = [((x >> 40) + s) % 4096 for s in range(1024)]
    made = list(MADE.files(leaves))
    total = sum(sum(text) for text in made)
    return f"edits {accepted} of {edits} leaves {len(leaves)} files {len(made)} prefix {accepted} sum {total}"


def main():
    made = [(name, form.format(*row, summary(*row))) for name, form, rows in TABLES for row in rows]
    if sys.argv[1:] == ["--check"]:
        missing = [row for name, row in made if row not in (TOP_FOLDER / name).read_text()]
        print("\n".join(missing))
        sys.exit(1 if missing else 0)
    print("\n".join(row for name, row in made))


if len(sys.argv) == 3:
    print(summary(int(sys.argv[1]), int(sys.argv[2])))
else:
    main()
