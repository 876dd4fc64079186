#!/usr/bin/env python3
"""Prints an index of the sources: `definitions`, each with its file and the sentence above it, or `contracts`, each public
function with its file, the first sentence of its comment and the names of its clauses. Words behind it choose lines that have all
of them: `scripts/index.py contracts survey_core batch`.
"""

import re
import signal
import sys
from pathlib import Path

ROOT = Path(__file__).resolve().parent.parent
DEFINED = re.compile(r"^ *(?:(?:abbrev|unfoldable) (?:pub )?|pub record |pub data )(\S+)", re.M)
# The head of an impl or a trait; that of a public function, or of one that a trait asks for.
PLACE = re.compile(r"^(?:pub )?(?:trait |impl(?:<.*?>)? (?:.* for )?)(\w+)")
FUNCTION = re.compile(r"^( *)(?:pub |final )*fn (\w+)")
CLAUSE = re.compile(r"^ +ensures\*? (\w+) \{")
# Where a contract ends: at its body, which begins on a line of its own or behind a head without clauses, or at a semicolon.
END = re.compile(r"^ *\{$|.*\};$|(?! *(?:ensures|requires)\b)(?!.*(?: = |record \{)).*[{;]$")


def first_sentence(lines, mark):
    words = " ".join(line.strip().removeprefix(mark).strip() for line in lines)
    return re.split(r"(?<=[.;]) ", words)[0].rstrip(".;")


def definitions():
    for file in sorted((ROOT / "crates").glob("*/specs/*.antt")):
        for paragraph in file.read_text().split("\n\n"):
            name = DEFINED.search(paragraph)
            if name:
                above = [line for line in paragraph[: name.start()].split("\n") if line.strip().startswith("--")]
                yield f"{file.relative_to(ROOT)}: {name[1]}: {first_sentence(above, '--')}"


def functions(lines):
    """Yields the name, the comment and the clauses of each function that has a comment for its callers."""
    place, comment, name, clauses = "", [], None, []
    for line in lines:
        place = PLACE.match(line)[1] if PLACE.match(line) else place
        head = FUNCTION.match(line)
        if line.strip().startswith("///"):
            comment.append(line)
        elif comment and head:
            name = f"{place}::{head[2]}" if head[1] else head[2]
        elif not name and not line.strip().startswith("#["):
            comment = []
        clauses.extend(CLAUSE.findall(line) if name else [])
        if name and END.match(line):
            yield name, comment, clauses
            comment, name, clauses = [], None, []


def contracts():
    for file in sorted((ROOT / "crates").glob("*/src/**/*.rt")):
        for name, comment, clauses in functions(file.read_text().split("\n")):
            names = ", ".join(clauses) or "no named clause"
            yield f"{file.relative_to(ROOT)}: {name}: {first_sentence(comment, '///')} ({names})"


def main():
    kinds = {"definitions": definitions, "contracts": contracts}
    if len(sys.argv) < 2 or sys.argv[1] not in kinds:
        raise SystemExit("usage: scripts/index.py definitions|contracts [WORD..]")
    # Whoever reads only the first lines ends it.
    signal.signal(signal.SIGPIPE, signal.SIG_DFL)
    for line in kinds[sys.argv[1]]():
        if all(word in line for word in sys.argv[2:]):
            print(line)


if __name__ == "__main__":
    main()
