#!/usr/bin/python3
"""Prints what the program size_run has to print, computed here with nothing of the program: counts and sums of what it makes.

With --check it compares them with crates/size_run/stdout, and ends with status 1 where a line differs.
"""

import sys
from pathlib import Path

STDOUT = Path(__file__).parent.parent / "crates/size_run/stdout"
TOP = 11


def above(leaves, top=TOP):
    """The cells of the orders above these leaves, all orders together."""
    count, cells = 0, set(leaves)
    for _ in range(top):
        cells = {cell // 4 for cell in cells}
        count += len(cells)
    return count


def store():
    keys = {i * 7919 % 1000003 for i in range(1, 1000001)}
    return f"store {len(keys)} sum {sum(keys)} without one {len(keys) - 1}"


def plan():
    leaves = range(0, 65536 * 256, 256)
    steps = above(leaves)
    return f"plan {len(leaves)} steps {4 * steps} then {5 * steps}"


def cover():
    """No four of the leaves have one parent, so each is a row: 4 * 4^11 and its number. A file has two blocks of cards."""
    leaves = range(0, 3 * 65000, 3)
    rows = [4 * 4**TOP + leaf for leaf in leaves]
    size = 2 * 2880 + -(-8 * len(rows) // 2880) * 2880
    return f"cover {len(rows)} sum {sum(rows)} file {size}\nlisted {len(leaves)} sum {sum(leaves)}"


def level():
    cells = {4 * i // 4 for i in range(70000)}
    return f"level {len(cells)} tiles {len(cells)} by many {len(cells)}"


def mosaic():
    """27 columns and 29 lines of squares of four numbers, 768 of them a tile, the others blank: 0x8000."""
    bytes_of_all = 768 * (1 + 2 + 3 + 5) + (27 * 29 - 768) * 4 * 0x80
    return f"mosaic {bytes_of_all} patched {bytes_of_all}"


def catalog():
    """A catalogue has at most 1,000,000 rows, and 8 is the kind of a line that brings one more."""
    lines = [f"{number}\t0\t{number}\t\n" for number in range(1000000, 2000001)]
    return f"catalog bytes {sum(map(len, lines))} status 16 row {len(lines)} 8"


def survey():
    """Beside the tiles there are the mosaic, the coverage file and the properties."""
    first = set(range(8192))
    removed = set(range(0, 8192, 8))
    left = first - removed
    body = "".join(f"remove {leaf}\n" for leaf in sorted(removed))
    files = len(left) + above(left) + 3
    return [
        f"survey leaves {len(first)} files {len(first) + above(first) + 3} steps {above(first)}",
        f"batch {len(removed)} bytes {len(body)}",
        f"published leaves {len(left)} files {files} steps {above(removed)}",
        f"state edits {len(removed)} tip {len(removed)}",
        f"exported {files}",
        f"loaded leaves {len(left)} files {files}",
    ]


def main():
    text = "\n".join([store(), plan(), cover(), level(), mosaic(), catalog(), *survey()]) + "\n"
    if sys.argv[1:] != ["--check"]:
        print(text, end="")
        return 0
    same = STDOUT.read_text() == text
    print(f"size-values: {len(text.splitlines())} lines {'stand in' if same else 'differ from'} the output of size_run")
    return 0 if same else 1


if __name__ == "__main__":
    sys.exit(main())
