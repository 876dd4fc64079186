#!/usr/bin/env python3
"""Fills docs/HEADLINE.md with the definitions and clauses that it names, word for word from their files, and docs/PROVED.md and
README.md with how many lines are to be read (in README.md rounded to a hundred).

Before each block of code stands a line with its file in code, a colon and the names, with commas between them. Of a definition by
cases `NAME (CASE; CASE)` quotes these alone. The page ends with a table of the definitions of this repository that a quoted one uses
and that aren't quoted: a file in bold, then a row `- NAME: SENTENCE` for each of its names.

With --check nothing is written, and these are faults: a block that differs from its file or names none, a definition that is used
and neither quoted nor in the table, a row of the table that nothing uses, and a count that isn't the present one.

With --count it prints how many lines a reader has to read who follows the definitions to their ends, and in which files; and how
many lines the real ends have, of whose bytes no clause speaks. Comments and empty lines don't count.
"""

import re
import sys
from pathlib import Path

ROOT = Path(__file__).resolve().parent.parent
HEADLINE = ROOT / "docs" / "HEADLINE.md"
PROVED = ROOT / "docs" / "PROVED.md"
README = ROOT / "README.md"
QUOTE = re.compile(r"^(`(\S+)`: (.+)\n)```\n(?:.*\n)*?```\n", re.M)
TABLE = "\n## What they use\n"
ROW = re.compile(r"^- `([^`]+)`: .+$|^\*\*`([^`]+)`\*\*$", re.M)
# The traits of the ends and of boards, whose members the clauses name without an import.
TRAITS = [(f"crates/{file}.rt", name) for file, name in [
    ("survey_link/src/source", "Source"), ("survey_link/src/sink", "Sink"), ("survey_link/src/shelf", "Shelf"),
    ("survey_link/src/door", "Door"), ("reader_pin/src/board", "Board"),
]]
# The real ends: main, sockets, streams and folders.
ENDS = ["hipsd/src/*.rt", "tcp_link/src/*.rt", "std_link/src/stream.rt", "std_link/src/here.rt", "std_link/src/folder_shelf.rt"]
# What these pages say of the counts.
COUNTS = re.compile(r"([\d,]+) lines in ([\d,]+) definitions.*?([\d,]+) lines of code.*?([\d,]+) lines of this", re.S)
ROUNDED = re.compile(r"I/O code \(([\d,]+) lines\)")
COUNTED = "{:,} lines in {:,} definitions and clauses; {:,} lines of code of the real ends; {:,} lines of this repository in all"
DEFINED = re.compile(r"^ *(?:(?:abbrev|unfoldable) (?:pub )?|pub record |pub data )(\S+)", re.M)
CONSTRUCTOR = re.compile(r"^  +(\w+) :", re.M)
# `use Rattle.CRATE.specs.FILE.{NAME, NAME as OTHER}` or `.. as OTHER`. Behind `declared` stand types of the code.
IMPORT = re.compile(r"use Rattle\.(\w+)\.specs\.([\w.]+?)(?:\.\{([^}]*)\}| as (\w+)|)(?:;|$)", re.M)
WORD = re.compile(r"[^\W\d][\w']*(?:-\w+)*")


def text_of(file):
    return (ROOT / file).read_text()


def definition(text, name):
    """Returns a definition with the comment above it, up to the next empty line."""
    for paragraph in text.split("\n\n"):
        if name in DEFINED.findall(paragraph):
            return paragraph.strip("\n")
    return None


def clause(text, name):
    """Returns a clause of a contract, up to what follows it; FUNCTION.NAME is that of a function."""
    function, _, name = name.rpartition(".")
    if function:
        found = re.search(rf"^ *(?:pub )?(?:final )?fn {re.escape(function)}\b.*?(?=^ *\{{|;\n)", text, re.S | re.M)
        text = found[0] + "\n" if found else ""
    found = re.search(rf"^ +ensures {re.escape(name)} \{{.*?(?=^ +(?:ensures|//)|^ *\{{|^\n|\Z)", text, re.S | re.M)
    return found[0].rstrip("\n") if found else None


def declared(text, name):
    """Returns a type of the code, with its variants or fields."""
    found = re.search(rf"^(?:pub(?:\(crate\))? )?(?:enum|struct|trait) {name}\b.*?^\}}", text, re.S | re.M)
    return found[0] if found else None


def bare(name):
    """Returns the name of a definition of which only some cases are quoted."""
    return name.partition(" (")[0]


def cases(part, name):
    """Returns a definition with only the cases of NAME (CASE; CASE)."""
    heading, *equations = re.split(rf"^(?={re.escape(bare(name))} )(?!\S+ :)", part, flags=re.M)
    wanted = name.partition(" (")[2].rstrip(")").split("; ")
    kept = [each.rstrip("\n") for each in equations if set(WORD.findall(each.partition("=")[0])) & set(wanted)]
    return heading + "\n".join(kept) if len(kept) == len(wanted) else None


def quoted(file, name):
    text = text_of(file)
    part = definition(text, bare(name)) if file.endswith(".antt") else clause(text, name) or declared(text, name)
    if part is not None and bare(name) != name:
        part = cases(part, name)
    if part is None:
        raise SystemExit(f"docs/HEADLINE.md: {file} has no {name}")
    return part


def without_comments(part):
    return [line for line in part.split("\n") if line.strip() and not line.lstrip().startswith(("--", "//"))]


def owner(file, name):
    """Returns the definition that a name of a file belongs to: a constructor is its type's."""
    for paragraph in text_of(file).split("\n\n"):
        if "pub data " in paragraph and name in CONSTRUCTOR.findall(paragraph):
            return DEFINED.findall(paragraph)[0]
    return name


def meanings(file):
    """Returns what the names in a file stand for, where this repository defines it: a file and the name there."""
    text = text_of(file)
    found = {}
    if file.endswith(".antt"):
        for name in DEFINED.findall(text):
            found[name] = (file, name)
    for crate, path, names, alias in IMPORT.findall(text):
        if not (ROOT / "crates" / crate).exists():
            continue
        parts = path.split(".")
        pairs = [each.strip().partition(" as ") for each in names.split(",") if each.strip()]
        if parts[0] == "declared":
            parts = [part for part in parts[1:] if part != "TheVariants"]
            target = (f"crates/{crate}/src/{'/'.join(parts[:-1])}.rt", parts[-1])
            found.update({name: target for name in [alias] * bool(alias) + [other or name for name, _, other in pairs]})
        else:
            target = f"crates/{crate}/specs/{'/'.join(parts)}.antt"
            found.update({other or name: (target, owner(target, name)) for name, _, other in pairs})
    return found


def used(part, names):
    """Returns the definitions that a part uses, without the names that it binds itself."""
    code = "\n".join(without_comments(part))
    bound = set(re.findall(r"^ +pub ([\w']+) :", code, re.M))
    for group in re.findall(r"[({]((?:[\w']+ )+):|λ ((?:[\w']+ )*[\w']+)\.", code):
        bound.update(group[0].split() + group[1].split())
    # What follows a full stop is a field.
    words = {it[0] for it in WORD.finditer(code) if code[max(it.start() - 1, 0)] != "."}
    return {names[word] for word in words - bound if word in names}


def filled(quote):
    heading, file, names = quote.groups()
    return heading + "```\n" + "\n\n".join(quoted(file, name) for name in names.split(", ")) + "\n```\n"


def quotations(text):
    return [(file, name) for _, file, names in QUOTE.findall(text) for name in names.split(", ")]


def table(text):
    rows, file = [], None
    for name, heading in ROW.findall(text.partition(TABLE)[2]):
        if heading:
            file = f"crates/{heading}"
        else:
            rows.append((file, name))
    return rows


def faults_of(text):
    if len(re.findall(r"^```", text, re.M)) != 2 * len(QUOTE.findall(text)):
        yield "a block of code has no line with its file and names above it"
    here, cited = quotations(text), {}
    for file, name in here:
        for target in used(quoted(file, name), meanings(file)):
            cited.setdefault(target, name)
    rows = table(text)
    here = {(file, bare(name)) for file, name in here}
    for file, name in sorted(set(cited) - here - set(rows)):
        yield f"{cited[file, name]} uses {name} of {file}, which is neither quoted nor in the table"
    for file, name in sorted((set(rows) - set(cited)) | (set(rows) & here)):
        yield f"the row of {name} of {file} has to go: nothing quoted uses it, or it is quoted"
    for file, name in sorted({row for row in rows if rows.count(row) > 1}):
        yield f"{name} of {file} has two rows"


def all_parts(text):
    """Returns what is quoted, and all that it rests on: each part by its file and its name."""
    parts, open_ = {}, [(file, bare(name)) for file, name in quotations(text)] + TRAITS
    # Of a definition of which only some cases are quoted the others don't count.
    partly = {(file, bare(name)): name for file, name in quotations(text)}
    while open_:
        file, name = open_.pop()
        if (file, name) not in parts:
            parts[file, name] = quoted(file, partly.get((file, name), name))
            # A type of the code has no definitions behind it.
            if file.endswith(".antt") or "ensures" in parts[file, name]:
                open_.extend(used(parts[file, name], meanings(file)))
    return parts


def counts(parts):
    lines = sum(len(without_comments(part)) for part in parts.values())
    code = sum(len(without_comments(file.read_text())) for end in ENDS for file in (ROOT / "crates").glob(end))
    return lines, len(parts), code, lines + code


def with_numbers(page, pattern, *numbers):
    """Returns the text of a page with these numbers in the groups of the pattern."""
    text = page.read_text()
    found = pattern.search(text)
    if not found:
        raise SystemExit(f"{page.relative_to(ROOT)} doesn't say how many lines are to be read")
    for group in range(len(numbers), 0, -1):
        text = f"{text[:found.start(group)]}{numbers[group - 1]:,}{text[found.end(group):]}"
    return text


def print_count(parts):
    for file in sorted({file for file, _ in parts}):
        print(f"{file}: {', '.join(sorted(name for other, name in parts if other == file))}")
    print(COUNTED.format(*counts(parts)))


def main():
    headline = QUOTE.sub(filled, HEADLINE.read_text())
    parts = all_parts(headline)
    if sys.argv[1:] == ["--count"]:
        print_count(parts)
        return 0
    faults = [f"docs/HEADLINE.md: {fault}" for fault in faults_of(headline)]
    numbers = counts(parts)
    pages = {HEADLINE: headline, PROVED: with_numbers(PROVED, COUNTS, *numbers), README: with_numbers(README, ROUNDED, round(numbers[-1], -2))}
    for page, text in pages.items():
        if sys.argv[1:] != ["--check"]:
            page.write_text(text)
        elif page.read_text() != text:
            faults.append(f"{page.relative_to(ROOT)}: a quotation or a count differs from the files: run scripts/quote-headline.py")
    print("\n".join(faults), end="\n" if faults else "")
    return 1 if faults else 0


if __name__ == "__main__":
    sys.exit(main())
