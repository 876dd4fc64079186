#!/usr/bin/env python3
"""time-gate.py [NAME=VALUE ..] [COMMAND ..]: runs the command, `rt ci` if none is given, with these variables set, at the top of the repository.
time-gate.py --pid NUMBER: watches an `rt` that runs already, until it ends.
time-gate.py --memory: runs nothing, and prints how much memory a plain `rt ci` plans for each crate's proof, the most first.

In the end it prints a table: by crate, the seconds of processor that its proof, its tests and its edits took. Each process below
the command is looked at twice a second, so what it did right before its end is missing: how much that is stands below the table.
What a crate's proof, tests and edits are is told by rattle's own words and by the folder it runs in.
Then come the dearest edits: those stand in functions that take long to prove, and would do as well in smaller ones.
"""

import os
import re
import resource
import shutil
import signal
import subprocess
import sys
import time
from collections import Counter
from pathlib import Path

ROOT = Path(__file__).resolve().parent.parent
EVERY = 0.5
DEAREST = 20
TICKS = os.sysconf("SC_CLK_TCK")


def processes():
    """Each process that can be read: its parent, when it started, and the seconds of processor that it has had."""
    found = {}
    for name in os.listdir("/proc"):
        if name.isdigit():
            try:
                stat = Path(f"/proc/{name}/stat").read_text(errors="replace").rpartition(")")[2].split()
            except OSError:
                continue
            found[int(name)] = (int(stat[1]), stat[19], (int(stat[11]) + int(stat[12])) / TICKS)
    return found


def below(found, top):
    """The processes that stand below the top one, those nearer to it first."""
    children = {}
    for pid, (parent, *_) in found.items():
        children.setdefault(parent, []).append(pid)
    order = [top]
    for pid in order:
        order += children.get(pid, [])
    return order[1:]


def purpose(pid):
    """What a process works at, as crate and phase, if it tells."""
    try:
        words = Path(f"/proc/{pid}/cmdline").read_text(errors="replace").split("\0")
        folder = os.readlink(f"/proc/{pid}/cwd")
    except OSError:
        return None
    if "--crate-name" in words[:-1] and os.path.basename(words[0]).startswith("rattle"):
        is_edit = "/rt-edit-" in folder
        return words[words.index("--crate-name") + 1], "edits" if is_edit else "tests" if "--test" in words else "proof"
    ran = next((word for word in words if "/rt-run-" in word), None)
    return (os.path.basename(ran), "runs") if ran else None


def edit_in(crate, folder):
    """The edit that was made in this copy of the crate's text; the proof that the edits begin with has none."""
    for edit in sorted((ROOT / "crates" / crate / "must-fail").glob("*.edit")):
        lines = edit.read_text().splitlines()
        file, new = (next(line[len(word):] for line in lines if line.startswith(word)) for word in ("file: ", "new: "))
        try:
            if new in Path(folder, file).read_text() and new not in (ROOT / "crates" / crate / file).read_text():
                return edit.stem
        except OSError:
            return None
    return None


def edit_of(pid, crate):
    """The edit that a process tries, if it still runs."""
    try:
        return edit_in(crate, os.readlink(f"/proc/{pid}/cwd"))
    except OSError:
        return None


class Sampler:
    """What every process below the top one has been seen to take."""

    def __init__(self, top):
        self.top, self.purposes, self.seconds, self.edits = top, {}, {}, {}

    def look(self):
        found = processes()
        for pid in below(found, self.top):
            parent, started, seconds = found[pid]
            key = pid, started
            if not self.purposes.get(key):
                # Whoever tells nothing of itself, as a compiler that rattle calls, works for its parent.
                above = self.purposes.get((parent, found[parent][1])) if parent in found else None
                self.purposes[key] = purpose(pid) or above
            crate, phase = self.purposes[key] or ("", "")
            if phase == "edits" and key not in self.edits:
                self.edits[key] = edit_of(pid, crate)
            self.seconds[key] = seconds

    def sums(self):
        sums = Counter()
        for key, seconds in self.seconds.items():
            sums[self.purposes[key] or ("rt", "itself")] += seconds
        return sums


    def dearest(self):
        """The edits that took longest, as crate, edit and seconds."""
        tried = Counter()
        for key, edit in self.edits.items():
            if edit:
                tried[self.purposes[key][0], edit] += self.seconds[key]
        return tried.most_common(DEAREST)


def rows(sums):
    """The rows of the table, in the order of crates.txt."""
    yield "| Crate | Proof | Tests | Edits |"
    yield "|---|---|---|---|"
    for name in re.findall(r"^(\w+)[^:\n]*:", (ROOT / "crates.txt").read_text(), re.M):
        proof, tests, edits = (sums[name, phase] for phase in ("proof", "tests", "edits"))
        if not proof + tests + edits:
            continue
        count = len(list((ROOT / "crates" / name / "must-fail").glob("*.edit")))
        shown = f"{count} edits, {edits:.0f}" if edits else "none"
        if name.endswith("_tests"):
            yield f"| `{name}` | | {proof + tests:.0f} | {shown} |"
        else:
            yield f"| `{name}` | {proof:.0f} | {f'{tests:.0f}' if tests else 'none'} | {shown} |"


def count_lines(crate, ending):
    """How many lines the files of a crate have whose names end so."""
    folder = ROOT / "crates" / crate
    return sum(path.read_bytes().count(b"\n") for part in ("src", "specs", "proofs") for path in (folder / part).rglob(f"*{ending}"))


def planned():
    """The bytes that `rt ci` plans for each crate's proof: 1 GB, 1 MB for each line of its code, 0.2 MB for each of its specs and proofs,
    0.08 MB for each line of code of the crates below, and for the libraries of the toolchain that it loads five times their size, up to
    2.5 GB."""
    libraries = Path(shutil.which("rt") or sys.exit("time-gate.py: there is no rt on the path")).resolve().parent.parent / "rlibs"
    uses = {name: below.split() for name, below in re.findall(r"^(\w+)[^:\n]*:(.*)$", (ROOT / "crates.txt").read_text(), re.M)}
    for crate in uses:
        loads = {crate}
        while more := {name for it in loads for name in uses.get(it, [])} - loads:
            loads |= more
        loaded = [libraries / f"{name}.rlib/toolchain/checked.a" for name in loads - uses.keys() - {"core"}]
        yield crate, (
            1e9 + 1e6 * count_lines(crate, ".rt") + 2e5 * count_lines(crate, ".antt")
            + 8e4 * sum(count_lines(name, ".rt") for name in loads & uses.keys() - {crate})
            + min(5 * sum(path.stat().st_size for path in loaded if path.is_file()), 2.5e9)
        )


def report(sampler, minutes, whole):
    sums = sampler.sums()
    print("\n".join(rows(sums)))
    for (crate, edit), seconds in sampler.dearest():
        print(f"{seconds:6.0f}  {crate}/{edit}")
    phase = lambda wanted: sum(seconds for (_, it), seconds in sums.items() if it == wanted)
    tests = phase("tests") + sum(seconds for (name, it), seconds in sums.items() if it == "proof" and name.endswith("_tests"))
    proofs = phase("proof") + phase("tests") - tests
    print(f"\nCrates {proofs:.0f}, tests {tests:.0f}, edits {phase('edits'):.0f}, programs and tests as they ran {phase('runs'):.0f}, the rest {sums['rt', 'itself']:.0f}.")
    seen = sum(sums.values())
    if whole is None:
        print(f"{seen:.0f} processor seconds seen in {minutes:.1f} minutes.")
        return
    print(f"{whole:.0f} processor seconds in {minutes:.1f} minutes, {whole / minutes / 60:.2f} processors; {whole - seen:.0f} of them were not seen.")


def main(words):
    begun = time.monotonic()
    if words == ["--memory"]:
        for crate, memory in sorted(planned(), key=lambda pair: -pair[1]):
            print(f"{memory / 1e9:4.1f} GB  {crate}")
        return 0
    if words[:1] == ["--pid"]:
        command, sampler = None, Sampler(int(words[1]))
        is_there = Path(f"/proc/{words[1]}").exists
    else:
        given = [word for word in words if re.match(r"[A-Z_]+=", word)]
        settings = dict(word.split("=", 1) for word in given)
        command = subprocess.Popen([word for word in words if word not in given] or ["rt", "ci"], cwd=None if words[len(given):] else ROOT, env={**os.environ, **settings})
        # What is asked to end lets the command end first, so that the table comes in any case.
        for ending in (signal.SIGINT, signal.SIGTERM):
            signal.signal(ending, lambda number, _: command.send_signal(number))
        # The command is counted with what stands below it.
        sampler, is_there = Sampler(os.getpid()), lambda: command.poll() is None
    while is_there():
        sampler.look()
        time.sleep(EVERY)
    used = resource.getrusage(resource.RUSAGE_CHILDREN)
    report(sampler, (time.monotonic() - begun) / 60, used.ru_utime + used.ru_stime if command else None)
    return command.returncode if command else 0


if __name__ == "__main__":
    sys.exit(main(sys.argv[1:]))
