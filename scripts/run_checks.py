#!/usr/bin/python3
"""Runs the checks of the built program: those that don't measure time side by side, one for each processor, and then the others one by
one. Prints a line for each, with its seconds and what it left out, and of one that fails all that it said. The status is 1 if one failed,
couldn't be started or ran no test.

    scripts/run_checks.py [PROGRAM] [NAME[.CLASS[.TEST]] ..]

PROGRAM is a path with a slash, or crates/hipsd/out/hipsd, which scripts/build.sh makes. With names only these run: NAME is that of
checks/check_NAME.py, or stands in SCRIPTS. What starts something ends it, and nothing is written outside folders of its own.
Where a tool isn't installed, what needs it fails if CI=true, and is left out otherwise.
"""

import os
import re
import signal
import subprocess
import sys
import time
from concurrent.futures import ThreadPoolExecutor
from contextlib import suppress
from pathlib import Path

FOLDER = Path(__file__).resolve().parent
SCRIPTS = {"atlas": ["./check-atlas.sh"], "headline": ["./quote-headline.py", "--check"], "docs": ["./check-docs.py"]}
# What needs no built program.
UNBUILT = {"headline", "docs", "fits", "refusals", "values"}
# Those that measure how long an answer or a picture takes run alone.
ALONE = ["attacks", "atlas"]
# What takes longest begins first.
LONGEST = ["atlas", "size", "log", "renewal", "edits", "values", "units", "mirror", "catalog", "serve"]
MOST_SECONDS = 1200
RUNNING = set()


def words_of(name, program):
    if name in SCRIPTS:
        return [*SCRIPTS[name], *[program] * (name == "atlas")]
    return ["/usr/bin/python3", "-W", "ignore", "-m", "unittest", "-v", f"checks.check_{name}"]


def ran(words, program):
    """The status of a check, and what it wrote on standard output and on standard error."""
    try:
        process = subprocess.Popen(words, cwd=FOLDER, env={**os.environ, "HIPSD_PROGRAM": program, "PYTHONUNBUFFERED": "1"},
                                   stdin=subprocess.DEVNULL, stdout=subprocess.PIPE, stderr=subprocess.PIPE, text=True, start_new_session=True)
    except OSError as error:
        return 1, "", str(error)
    RUNNING.add(process)
    try:
        printed, said = process.communicate(timeout=MOST_SECONDS)
    except subprocess.TimeoutExpired:
        os.killpg(process.pid, signal.SIGKILL)
        printed, said = process.communicate()
        said += f"it takes more than {MOST_SECONDS} s"
    RUNNING.remove(process)
    return process.returncode, printed, said


def run(name, program):
    """Runs a check, says how it went, and answers whether it passed."""
    begun = time.monotonic()
    status, printed, said = ran(words_of(name, program), program)
    count = re.findall(r"(?m)^Ran (\d+ tests?) in ", said)
    passed = status == 0 and count != ["0 tests"]
    left_out = re.findall(r"(?m)^.*\.\.\. skipped .*$", said)
    print(", ".join([f"gate: {'ok' if passed else 'FAILED'} {name}", *count, f"{time.monotonic() - begun:.0f} s"]), *printed.splitlines(),
          *(left_out if passed else said.splitlines()), sep="\n    ", flush=True)
    return passed


def main(words):
    begun = time.monotonic()
    program = str(Path(words.pop(0) if words and "/" in words[0] else FOLDER.parent / "crates/hipsd/out/hipsd").resolve())
    names = words or [*SCRIPTS, *(path.stem.removeprefix("check_") for path in (FOLDER / "checks").glob("check_*.py"))]
    if not os.access(program, os.X_OK) and not UNBUILT.issuperset(names):
        sys.exit(f"gate: FAILED: there is no {program}, which scripts/build.sh makes")
    names.sort(key=lambda name: LONGEST.index(name) if name in LONGEST else len(LONGEST))
    alone = [name for name in names if name.partition(".")[0] in ALONE]
    beside = [name for name in names if name not in alone]
    processors = len(os.sched_getaffinity(0))
    with ThreadPoolExecutor(processors) as pool:
        try:
            passed = [*pool.map(lambda name: run(name, program), beside), *(run(name, program) for name in alone)]
        except KeyboardInterrupt:
            for process in list(RUNNING):
                with suppress(ProcessLookupError):
                    os.killpg(process.pid, signal.SIGINT)
            raise
    failed = [name for name, is_right in zip(beside + alone, passed) if not is_right]
    print(f"gate: {len(names)} checks, {time.monotonic() - begun:.0f} s on {processors} processors")
    sys.exit(f"gate: FAILED: {' '.join(failed)}" if failed else 0)


if __name__ == "__main__":
    main(sys.argv[1:])
