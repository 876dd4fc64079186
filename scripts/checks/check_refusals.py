"""Reads the crates' sources: where one answers that there is no memory, a call that takes memory was refused just before.

A contract can't say it, since there may be no memory at any call. So each place that makes such an answer, an `AllocError` or an
`OutOfMemory`, has to stand in an arm of a `match`, or behind an `if` by `is_err`, for one that came, with no condition of its own; in an
`impl From` for one; or in one of the functions of EXCEPTIONS. An arm `Err(_)` or `None` is for one where what was called, by its name, has
no other error.
"""

import re
import unittest
from collections import Counter

from checks.servers import TOP

# What fails of the library, and by its own word of a caller, only where there is no memory.
TAKES = set("append clone extend_from_slice format! insert new push push_str reserve resize to_string vec! with_capacity".split())
# Where else such an answer is made: how often, and for what.
EXCEPTIONS = {
    ("allsky_mosaic", "bands_by_many"): (1, "what a thread answered, which has no other error"),
    ("hips_catalog", "take"): (1, "the last of some that were made just before"),
    ("hips_http", "session_in"): (1, "a buffer for which there was no memory"),
    ("hipsd", "exit_code"): (1, "the words or the ends, for which there was no memory"),
    ("leaf_store", "put"): (1, "2^64 entries"),
    ("shared_history", "after"): (2, "2^64 states"),
    ("shared_history", "begin"): (1, "a log that another writer had, never"),
    ("shared_history", "newer"): (2, "of two histories the one that began with the other"),
    ("survey_commands", "serve_script"): (1, "a session of its own words, which end as they should"),
    ("survey_commands", "serve_status"): (1, "doors that weren't opened"),
    ("tcp_link", "want"): (1, "a refusal of the system's that says so"),
}
NAMES = {"AllocError", "OutOfMemory"}
TOKEN = re.compile(r"""//[^\n]*|b?"(?:\\.|[^"\\])*"|b?'(?:\\.|[^'\\])'|'\w+|=>|->|::|[=!]=|&&|\|\||\w+!?(?!=)|\w+|[^\s\w]""")
# What the prover alone reads, and what ends it.
SILENT = {"ghost": ";", "requires": "}", "ensures": "}"}
# What begins a type, or what has types and no answers.
DECLARES = {"fn", "impl", "struct", "enum", "use", "type", "trait"}


def tokens_of(text):
    """The words of a source, each with its line: no comments, ghosts and clauses."""
    found = [(each.group(), text.count("\n", 0, each.start()) + 1) for each in TOKEN.finditer(text) if not each.group().startswith("//")]
    ends, depth = None, 0
    for word, line in found:
        if ends is None and word in SILENT:
            ends, depth = SILENT[word], 0
        elif ends is None:
            yield word, line
        else:
            depth += (word == "{") - (word == "}")
            if depth == 0 and word == ends:
                ends = None


class Block:
    """What stands in a pair of brackets: what led to it; the pattern of the arm that is read; the words of the statement so far."""

    def __init__(self, bracket, head):
        self.bracket, self.head, self.pattern, self.words = bracket, head, None, []
        self.matches = bracket == "{" and "match" in head
        self.declares = bool(DECLARES.intersection(head))


def called(words):
    """What an expression calls last, outside its brackets."""
    depth, name = 0, None
    for before, word in zip(["", *words], words):
        if word in "([{":
            if depth == 0 and re.fullmatch(r"\w+!?", before):
                name = before
            depth += 1
        elif word in ")]}":
            depth -= 1
    return name


class Source:
    """Reads a source, and keeps where it answers so with nothing refused: the function, and the line."""

    def __init__(self, text, takes):
        self.takes, self.faults, self.blocks = takes, [], [Block("", [])]
        words = [*tokens_of(text), ("", 0)]
        for (word, line), (then, _) in zip(words, words[1:]):
            # Behind a `>` it ends a type.
            if word in NAMES and then != ">" and not self.is_told() and not self.is_refused():
                self.faults.append((self.function(), line))
            self.read(word)

    def read(self, word):
        block = self.blocks[-1]
        if word in "([{":
            self.blocks.append(Block(word, list(block.words)))
        elif word in ")]}":
            ended = self.blocks.pop()
            block = self.blocks[-1]
            block.words = [] if word == "}" else [*block.words, ended.bracket, *ended.words, word]
            if word == "}" and block.matches and not ended.head:
                block.pattern = None
        elif word == "=>" and block.matches:
            block.pattern, block.words = block.words, []
        elif word == ";" or word == "," and block.matches:
            block.pattern, block.words = None if block.matches else block.pattern, []
        else:
            block.words.append(word)

    def is_told(self):
        """Whether the name stands in a pattern or a type, and makes nothing."""
        for block in reversed(self.blocks):
            if block.declares and block.bracket in "([" or DECLARES.intersection(block.words) or {"struct", "enum", "use"}.intersection(block.head):
                return True
            if block.matches:
                return block.pattern is None
            if block.head[-1:] == ["matches!"]:
                return True
            if block.bracket not in ("(", "["):
                return "let" in block.words and "=" not in block.words[block.words.index("let"):]
        return True

    def is_refused(self):
        """Whether a refusal of memory came here."""
        for number, block in reversed(list(enumerate(self.blocks))):
            if block.matches:
                return self.is_for_one(block.pattern, block.head)
            if block.bracket == "{" and {"if", "else", "while", "for"}.intersection(block.head):
                return block.head[-4:] == [".", "is_err", "(", ")"] and self.fails_so(called(block.head[:-4]))
            if block.head[-1:] == ["map_err"]:
                return self.fails_so(called(block.head[:-2]))
            if block.bracket == "{" and "fn" in block.head:
                return "From" in self.blocks[number - 1].head
        return False

    def is_for_one(self, pattern, head):
        if "if" in pattern:
            return False
        if NAMES.intersection(pattern):
            return True
        return pattern in (["Err", "(", "_", ")"], ["None"]) and self.fails_so(called(head))

    def fails_so(self, name):
        return name in TAKES or self.takes.get(name, False)

    def function(self):
        heads = [block.head for block in self.blocks if "fn" in block.head and block.bracket == "{"]
        return heads[-1][heads[-1].index("fn") + 1] if heads else ""


def takes_of(texts):
    """Of each function whether all of that name fail only where there is no memory."""
    takes = {}
    for text in texts:
        for name, answer in re.findall(r"\bfn (\w+)[^{;]*?-> ([^{;]*?)\s*(?:\{|;|requires|ensures|where|ghost)", text):
            takes[name] = takes.get(name, True) and bool(re.search(r"\bAllocError>+$", answer))
    return takes


class Refusals(unittest.TestCase):
    def test_sources(self):
        crates = [crate for crate in sorted((TOP / "crates").iterdir()) if not crate.name.endswith(("_tests", "_story"))]
        texts = {crate.name: {path: path.read_text() for path in sorted(crate.glob("src/**/*.rt"))} for crate in crates}
        rows = (row.partition(":") for row in (TOP / "crates.txt").read_text().splitlines() if not row.startswith("#"))
        below = {crate: libraries.split() for crate, _, libraries in rows}
        faults, excepted = [], Counter()
        for crate, sources in texts.items():
            # A name is its own crate's, or else of those that it stands on.
            takes = takes_of(text for library in below[crate] for text in texts.get(library, {}).values()) | takes_of(sources.values())
            for path, text in sources.items():
                for name, line in Source(text, takes).faults:
                    excepted[crate, name] += 1
                    faults += [f"{path.relative_to(TOP)}:{line}: {name}"] * ((crate, name) not in EXCEPTIONS)
        self.assertFalse(faults, "no memory is answered where none was refused:\n" + "\n".join(faults))
        self.assertEqual(dict(excepted), {place: count for place, (count, _) in EXCEPTIONS.items()}, "how often each exception is one")

    def test_planted(self):
        """What is refused and what isn't, in a function that has nothing else."""
        takes = {"taken": True, "read": False}
        for is_right, body in [
            (True, "match taken(len) { Ok(it) => Ok(it), Err(_) => Err(AllocError), }"),
            (True, "match read(len) { Err(ReadFault::OutOfMemory) => Err(AllocError), _ => Ok(()) }"),
            (True, "match read(len) { Err(ReadFault::OutOfMemory) => { self.count += 1; return Err(AllocError); } _ => Ok(()) }"),
            (True, "if self.rows.reserve(1).is_err() { return Err(RowStop::OutOfMemory); } Ok(())"),
            (True, "self.rows.push(row).map_err(|_| RowStop::OutOfMemory)"),
            (True, "let said: Result<(), AllocError> = read(self); if let Err(RowStop::OutOfMemory) = said { self.stop(); } Ok(())"),
            (False, "if self.rows.len() > 4096 { return Err(AllocError); } Ok(())"),
            (False, "match read(len) { Ok(it) => Ok(it), Err(_) => Err(AllocError), }"),
            (False, "match taken(len) { Ok(it) if it.len() > 64 => Err(RowStop::OutOfMemory), Ok(it) => Ok(it), Err(_) => Err(AllocError), }"),
            (False, "match taken(len) { Ok(it) => Err(RowStop::OutOfMemory), Err(_) => Err(AllocError), }"),
            (False, "match taken(len) { Err(AllocError) if len > 64 => Err(AllocError), _ => Ok(()) }"),
            (False, "match taken(len) { Err(AllocError) => { if len > 64 { return Err(AllocError); } Ok(()) } _ => Ok(()) }"),
            (False, "match self.len { 4096 => Err(AllocError), _ => self.more(), }"),
            (False, "if taken(len).is_err() || len > 64 { return Err(AllocError); } Ok(())"),
            (False, "if taken(len).is_ok() { Ok(()) } else { return Err(AllocError); }"),
            (False, "read(len).map_err(|_| RowStop::OutOfMemory)"),
            (False, "self.rows.get(1).ok_or(AllocError)"),
            (False, "Err(AllocError)"),
            (False, "taken(len)?; Err(RowStop::OutOfMemory)"),
        ]:
            with self.subTest(body):
                faults = Source("impl Wide { fn grow(&mut self, len: usize) -> Result<(), AllocError> { " + body + " } }", takes).faults
                self.assertEqual(faults, [] if is_right else [("grow", 1)])
