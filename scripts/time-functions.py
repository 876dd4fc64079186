#!/usr/bin/env python3
"""time-functions.py CRATE [COUNT]: which functions of a crate took longest when its checks last went through them.

A check keeps what it makes of each function in the crate's out/incremental, one file after another, so that the time between
two files is what the second took, by the clock on the wall. Beside the seconds stand their share of all and the megabytes of
the largest of what is kept (its steps, `Lts`), which no other program on the machine changes. It says something where the
crate was checked as a whole with one job, as by `rt check --jobs 1` or `rt test --jobs 1`.
"""

import re
import sys
from collections import Counter
from pathlib import Path

ROOT = Path(__file__).resolve().parent.parent
# Between two runs of the prover more time passes than this; within one less.
PAUSE = 150


def functions(sources):
    """The names of the functions, as module and function."""
    found = set()
    for file in sources.rglob("*.rt"):
        module = ".".join(file.relative_to(sources).with_suffix("").parts)
        found |= {(module, name) for name in re.findall(r"\bfn (\w+)", file.read_text())}
    return found


def function_of(name, known):
    """The function that a kept file belongs to; those that the prover makes by itself, as what is dropped, have none."""
    parts = re.sub(r"^Rattle-\w+?-proofs\.", "", name).split(".")
    for end in range(len(parts), 0, -1):
        word = re.split(r"[+-]", parts[end - 1])[0]
        for start in range(1, end + 1):
            if (".".join(parts[:start]), word) in known:
                return f"{'.'.join(parts[:start])}::{word}"
    return "drops and the rest"


def main(crate, count):
    folder = ROOT / "crates" / crate
    known = functions(folder / "src")
    kept = sorted((file.stat().st_mtime, file.name, file.stat().st_size) for file in folder.glob("out/incremental/*/*.oantt"))
    seconds, sizes, before = Counter(), Counter(), None
    for time, name, size in kept:
        function = function_of(name, known)
        if before is not None and time - before < PAUSE:
            seconds[function] += time - before
        if name.endswith(".Lts.oantt"):
            sizes[function] += size
        before = time
    whole = sum(seconds.values()) or 1
    print(f"{whole:.0f} seconds, {sum(sizes.values()) / 1e6:.0f} MB of steps, {len(known)} functions")
    for function, took in seconds.most_common(count):
        print(f"{took:7.1f} s {100 * took / whole:5.1f}% {sizes[function] / 1e6:6.1f} MB  {function}")


if __name__ == "__main__":
    main(sys.argv[1], int(sys.argv[2]) if len(sys.argv) > 2 else 20)
