#!/usr/bin/env python3
"""Looks through the documents for what no longer is: dead links, names of files, functions, types and clauses that are gone, and texts
that the program no longer logs. It counts the words of each page that has a limit, and looks whether docs/PROVED.md names each ported
crate that the program stands on, and each `unsafe`. Prints a line for each fault; the status is 1 if there is one.

A text of the log is quoted as: a warning `TEXT`, an error `TEXT`, or, of `info`, a line of the log `TEXT`. Numbers and single capital
letters in it stand for what the program puts there, `..` for any words; its end may be left out.
"""

import re
import subprocess
import sys
from pathlib import Path

ROOT = Path(__file__).resolve().parent.parent
MOST_WORDS = {
    "README.md": 1100,
    "CONTRIBUTING.md": 1500,
    "docs/HEADLINE.md": 3500,
    "docs/PROVED.md": 2600,
    "docs/DEFINITIONS.md": 1800,
    "docs/FORMATS.md": 4200,
    "docs/ARCHITECTURE.md": 2800,
    "docs/DECISIONS.md": 3000,
    "docs/OPERATING.md": 3500,
    "docs/hipsd.1": 1200,
    "bench/RESULTS.md": 600,
}
# Words in a path that stand for others.
PLACEHOLDERS = ("NEW", "NAME", "NUMBER", "FILE", "..")
# Files that documents name and the repository doesn't have: one of a survey's folder, and one of a change that was tried.
ELSEWHERE = {"survey.conf", "must-fail/expectation-is-overlooked.edit"}
FILE = re.compile(r"[\w*.-]+(?:/[\w*.-]+)*\.(?:rt|antt|edit|sh|py|c|md|conf|service|timer|html|js|css)")
# A page of claims names a function or a definition, and behind it clauses or fields of it.
CLAUSES = re.compile(r"`(?:\w+::)*(\w+)`((?: and|,)? `[a-z]\w*`(?:(?:,| and) `[a-z]\w*`)*)")
PAGES_OF_CLAIMS = {"docs/HEADLINE.md", "docs/PROVED.md"}
# Pages on the sources: each single word in code is a name there, but for these of the language, its library and tools of others.
PAGES_ON_SOURCES = PAGES_OF_CLAIMS | {"docs/ARCHITECTURE.md", "docs/DEFINITIONS.md"}
OTHERS_NAMES = set("abbrev unfoldable record result unsafe Model Wait IfSome OnErr write_vectored astropy fitsverify healpy".split())
DEFINED = re.compile(r"^ *(?:(?:abbrev|unfoldable) (?:pub )?|pub record |pub data )(\S+)", re.M)
LEVELS = {"a warning": "warn", "an error": "error", "a line of the log": "info"}
QUOTED = re.compile(rf"\b({'|'.join(LEVELS)}) `([^`]+)`")
# A call of the log with its level and text, and the text of an error.
LOGGED = re.compile(r'\b(error|warn|info)!\(\s*rt;\s*"((?:[^"\\]|\\.)*)"')
ERROR = re.compile(r'#\[error\("((?:[^"\\]|\\.)*)"')
FILLED_IN = re.compile(r"\{[^{}]*\}|\b(?:[0-9]+|[A-Z])\b")
ITEM = re.compile(r"([A-Za-z_]\w*)::(?:<.*>::)?([A-Za-z_]\w*)(?:\(.*\))?")


def tracked():
    listed = subprocess.run(["git", "ls-files"], cwd=ROOT, capture_output=True, text=True, check=True)
    return [path for path in listed.stdout.splitlines() if (ROOT / path).exists()]


def without_blocks(text):
    return re.sub(r"```.*?```", "", text, flags=re.S)


def names_in_code(paths):
    """Returns what the sources declare: functions, types, variants and fields; and the types and modules alone."""
    declared, owners = set(), set()
    for path in paths:
        if path.endswith(".rt"):
            text = (ROOT / path).read_text()
            owners.update(re.findall(r"\b(?:struct|enum|trait|mod|type) (\w+)", text))
            declared.update(re.findall(r"\b(?:fn|struct|enum|trait|mod|type|const|static) (\w+)", text))
            declared.update(re.findall(r"^ +(?:pub )?(\w+)(?:[:,(]| \{)", text, flags=re.M))
            owners.add(Path(path).stem)
    owners.update(path.split("/")[1] for path in paths if path.startswith("crates/"))
    return declared, owners


def names_of_clauses(paths):
    """Returns the names of all clauses of each function, and of all fields of each definition, by its name."""
    clauses = {}
    for path in paths:
        if path.endswith(".rt"):
            text = (ROOT / path).read_text()
            # A contract reaches from the function's head to its body, or to the next function.
            for name, contract in re.findall(r"\bfn (\w+)(.*?)(?=\n *\{\n|\bfn |\Z)", text, flags=re.S):
                clauses.setdefault(name, set()).update(re.findall(r"\bensures\*? (\w+) \{", contract))
        elif path.endswith(".antt") and "/specs/" in path:
            for paragraph in (ROOT / path).read_text().split("\n\n"):
                for name in re.findall(r"^pub record (\w+)", paragraph, flags=re.M):
                    clauses.setdefault(name, set()).update(re.findall(r"^ +pub (\w+) :", paragraph, flags=re.M))
    return clauses


def log_texts(paths):
    """Returns the texts of each level, with a mark where the program fills something in."""
    texts, errors = {level: set() for level in LEVELS.values()}, set()
    for path in paths:
        if path.endswith(".rt"):
            source = (ROOT / path).read_text()
            errors.update(FILLED_IN.sub("#", text) for text in ERROR.findall(source))
            for level, text in LOGGED.findall(source):
                texts[level].add(FILLED_IN.sub("#", text))
    # A text may end with that of an error.
    return {
        level: all_texts | {text[:-1] + error for text in all_texts if text.endswith("#") for error in errors}
        for level, all_texts in texts.items()
    }


def is_logged(quoted, text):
    """Returns whether this is how the text begins, but for the words that are left out."""
    pieces = [re.escape(FILLED_IN.sub("#", piece.strip())) for piece in quoted.split("..")]
    return re.match(".*".join(pieces), text)


def log_faults(prose, texts):
    for words, quoted in QUOTED.findall(prose):
        if not any(is_logged(quoted, text) for text in texts[LEVELS[words]]):
            yield f"the program doesn't log {words} `{quoted}`"


def crates():
    """Returns the crates of this repository, and those of the toolchain that they stand on, but for its standard library."""
    lines = [line.partition("#")[0].partition(":") for line in (ROOT / "crates.txt").read_text().split("\n")]
    own = {name.split()[0] for name, colon, _ in lines if colon}
    return own, {word for _, _, below in lines for word in below.split()} - own - {"core"}


def trust_faults(paths, prose):
    for name in sorted(crates()[1]):
        if f"`{name}`" not in prose:
            yield f"the ported crate {name} isn't among what is trusted"
    for path in paths:
        if path.endswith(".rt") and re.search(r"\bunsafe\b", (ROOT / path).read_text()) and path.removeprefix("crates/") not in prose:
            yield f"the unsafe of {path} isn't among what is trusted"


def all_names(paths, declared, owners, clauses):
    """Returns all of these, what the specs define, and the crates that crates.txt names, the toolchain's too."""
    names = declared | owners | set(clauses).union(*clauses.values()) | OTHERS_NAMES
    for path in paths:
        if path.endswith(".antt") and "/specs/" in path:
            names.update(DEFINED.findall((ROOT / path).read_text()))
    own, ported = crates()
    return names | own | ported


def is_file(name, paths):
    # A name may leave out the folders above it, and `*` stands for any text within a name.
    pattern = re.compile("(?:^|/)" + re.escape(name).replace(r"\*", "[^/]*") + "$")
    return any(pattern.search(path) for path in paths)


def clause_faults(prose, clauses):
    for name, named in CLAUSES.findall(prose):
        for clause in re.findall(r"`(\w+)`", named):
            # A function may stand behind another one, which is no clause of it.
            if name in clauses and clause not in clauses[name] and clause not in clauses:
                yield f"{name} has no clause {clause}"


def anchors(page):
    """Returns the anchors of a page's headings, as they are made of their words."""
    headings = re.findall(r"^#+ (.+)$", without_blocks(page.read_text()), flags=re.M)
    return {re.sub(r"[^\w\- ]", "", heading.lower()).replace(" ", "-") for heading in headings}


def link_faults(document, prose):
    for link, anchor in re.findall(r"\]\(([^)#\s]*)(?:#([^)]*))?\)", prose):
        page = (ROOT / document).parent / link if link else ROOT / document
        if "://" not in link and not page.exists():
            yield f"the link {link} leads nowhere"
        elif anchor and page.suffix == ".md" and anchor not in anchors(page):
            yield f"the page of the link {link}#{anchor} has no such heading"


def faults_of(document, paths, texts, declared, owners, clauses, names):
    text = (ROOT / document).read_text()
    words = len(text.split())
    if words > MOST_WORDS.get(document, words):
        yield f"{words} words, {MOST_WORDS[document]} at most"
    if not document.endswith(".md"):
        return
    prose = without_blocks(text)
    yield from link_faults(document, prose)
    yield from log_faults(prose, texts)
    if document in PAGES_OF_CLAIMS:
        yield from clause_faults(prose, clauses)
    if document == "docs/PROVED.md":
        yield from trust_faults(paths, prose)
    if document in PAGES_ON_SOURCES:
        yield from (f"there is no {word}" for word in re.findall(r"`([^\W_]\w*[^\W_])`", prose) if word not in names)
    for code in re.findall(r"`([^`\n]+)`", prose):
        if any(word in code for word in PLACEHOLDERS):
            continue
        if FILE.fullmatch(code) and code not in ELSEWHERE and not is_file(code, paths):
            yield f"there is no file {code}"
        item = ITEM.fullmatch(code)
        if item and item[1] in owners and item[2] not in declared:
            yield f"there is no {code}"


def main():
    paths = tracked()
    declared, owners = names_in_code(paths)
    clauses = names_of_clauses(paths)
    names = all_names(paths, declared, owners, clauses)
    texts = log_texts(paths)
    found = 0
    for document in sorted(path for path in paths if path.endswith(".md") or path in MOST_WORDS):
        for fault in faults_of(document, paths, texts, declared, owners, clauses, names):
            found += 1
            print(f"{document}: {fault}")
    print(f"documents: {found} faults")
    return 1 if found else 0


if __name__ == "__main__":
    sys.exit(main())
