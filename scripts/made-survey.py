#!/usr/bin/python3
"""Prints the table SCRIPTS of crates/run_tests/src/script.rt: number, edits, length, sum of the bytes, sum of each byte times
its place. The scripts are made here from docs/FORMATS.md, "The made survey", with nothing of the program.

With --check it compares the rows with the table that stands there, and ends with status 1 where one differs or is missing.
With two numbers, NUMBER and EDITS, it writes that script to standard output.
"""

import struct
import sys
from pathlib import Path

TEST = Path(__file__).parent.parent / "crates/run_tests/src/script.rt"
ROWS = ((0, 1), (0, 8), (7, 64), (7, 4096))
PUBLISH = b"POST /publish HTTP/1.1\r\nHost: make\r\n\r\n"


def card(keyword, value):
    return f"{keyword:8}= {value:>20}".ljust(80)


def tile_file(order, npix, numbers):
    values = {
        "SIMPLE": "T",
        "BITPIX": 16,
        "NAXIS": 2,
        "NAXIS1": 32,
        "NAXIS2": 32,
        "BSCALE": "1.0E0",
        "BZERO": "0.0E0",
        "BLANK": -32768,
        "ORDER": order,
        "NPIX": npix,
    }
    cards = "".join(card(keyword, value) for keyword, value in values.items()) + "END"
    data = struct.pack(f">{len(numbers)}h", *numbers)
    return cards.ljust(2880).encode() + data + bytes(-len(data) % 2880)


def requests(i, x):
    leaf = (x >> 33) % 12288
    path = f"/Norder5/Dir{leaf // 10000 * 10000}/Npix{leaf}.fits"
    if i % 8 == 0:
        edit = f"DELETE {path} HTTP/1.1\r\nHost: make\r\n\r\n".encode()
    else:
        head = f"PUT {path} HTTP/1.1\r\nHost: make\r\nContent-Length: 5760\r\n\r\n"
        edit = head.encode() + tile_file(5, leaf, [((x >> 40) + s) % 4096 for s in range(1024)])
    return edit + (PUBLISH if i % 64 == 0 else b"")


def script(number, edits):
    text = bytearray()
    x = number
    for i in range(1, edits + 1):
        x = (x * 6364136223846793005 + 1442695040888963407) % 2**64
        text += requests(i, x)
    return bytes(text + PUBLISH)


def row(number, edits):
    text = script(number, edits)
    placed = sum((place + 1) * byte for place, byte in enumerate(text)) % 2**64
    return f"{number} {edits}|{len(text)} {sum(text)} {placed}"


def main():
    rows = [row(number, edits) for number, edits in ROWS]
    if sys.argv[1:] == ["--check"]:
        table = TEST.read_text()
        missing = [line for line in rows if line not in table]
        print("\n".join(missing))
        sys.exit(1 if missing else 0)
    print("\n".join(rows))


if len(sys.argv) == 3:
    sys.stdout.buffer.write(script(int(sys.argv[1]), int(sys.argv[2])))
else:
    main()
