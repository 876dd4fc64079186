"""Compares what `hipsd past` answers with what the edits make, which is computed here cell by cell, with nothing of the program, by
survey_files.py and docs/FORMATS.md, "Past records".
"""

import os
import random
import subprocess

from checks.cases import Case
from checks.servers import PROGRAM
from survey_files import Survey, image, tile_path

SMALL = Survey("past", "Survey past", top=5, low=2, width=4)
TINY = Survey("tiny", "Survey tiny", top=4, low=3, width=2)
FULL = Survey("full", "Survey full", top=3, low=3, width=512)
MOST_RECORDS, MOST_EDITS, MOST_CHARGE = 65_536, 65_536, 2**29
EXISTS, ABSENT, EDITS, BYTES = 1, 2, 3, 4


def file_of(survey, numbers):
    """The file of a tile as an editor sends it."""
    return image(survey.width, survey.width, numbers)


def room(survey):
    """The greatest length of a batch body: four times one block more than the longest file that can be a tile."""
    return 4 * (106_560 + -(-2 * survey.width**2 // 2880) * 2880)


def batch(*entries):
    """A record that brings these entries."""
    body = b"".join(entries)
    return b"batch %d\n" % len(body) + body


def put(word, leaf, file):
    return b"%s %d %d\n" % (word.encode(), leaf, len(file)) + file


class History:
    """The states of a survey: its opening leaves, and the leaves after each batch, by their numbers of edits."""

    def __init__(self, survey, opening):
        self.survey = survey
        self.states = {0: opening}
        self.edits = 0
        self.charge = len(opening) * self.of_a_tile()

    def of_a_tile(self):
        return max(1024, 2 * self.survey.width**2)

    def judge(self, edits):
        """The leaves after a batch of words, leaves and numbers; or the place and the number of the first fault."""
        leaves, charge = dict(self.states[self.edits]), self.charge
        for at, (word, leaf, numbers) in enumerate(edits):
            charge += 0 if word == "remove" else self.of_a_tile()
            if word == "add" and leaf in leaves:
                return at, EXISTS
            if word in ("replace", "remove") and leaf not in leaves:
                return at, ABSENT
            if self.edits + at == MOST_EDITS:
                return at, EDITS
            if charge > MOST_CHARGE:
                return at, BYTES
            if word == "remove":
                del leaves[leaf]
            else:
                leaves[leaf] = numbers
        self.edits += len(edits)
        self.states[self.edits] = leaves
        self.charge = charge
        return None

    def batch_answer(self, edits):
        fault = self.judge(edits)
        return b"edits %d\n" % self.edits if fault is None else b"refused %d edit %d\n" % fault

    def read_answer(self, edits, path):
        if edits > self.edits:
            return b"future %d\n" % self.edits
        if edits not in self.states:
            return b"split %d\n" % edits
        file = self.survey.file(self.states[edits], path)
        return b"absent\n" if file is None else b"file %d\n" % len(file) + file


# ---- histories that look random


def bad_batch(chance, survey):
    """The entries of a body that is refused, and its answer."""
    whole = [put("put", chance.randrange(64), file_of(survey, [1] * survey.width**2)) for _ in range(chance.randrange(3))]
    at, leaves = len(whole), 12 * 4**survey.top
    file = file_of(survey, [1] * survey.width**2)
    last, text = chance.choice(
        [
            (b"sing 7\n", "line"),
            (b"remove 07\n", "line"),
            (b"remove %d\n" % leaves, "line"),
            (b"put 7 %d\n" % len(file) + file[:-1], "short"),
            (put("add", 7, b"SIMPLE"), "1 header 1"),
            (put("put", 7, file[: 2880 + 2 * survey.width**2 - 3]), "9 truncated 3"),
            (put("put", 7, file.replace(b"NAXIS1", b"NAXIS3")), "5 width 1 none"),
        ]
    )
    return [*whole, last], b"refused %d %s\n" % (at, text.encode())


def good_batch(chance, survey, history):
    """The entries of a body that is one, and its answer."""
    edits, entries = [], []
    for _ in range(chance.choice((1, 1, 2, 5))):
        word = chance.choice(("put", "put", "put", "add", "replace", "remove", "remove"))
        there = sorted(history.states[history.edits])
        likely = there if word in ("replace", "remove") and there and chance.random() < 0.9 else range(64)
        leaf = chance.choice(likely) if chance.random() < 0.9 else chance.randrange(12 * 4**survey.top)
        numbers = [chance.choice((-32768, 0, chance.randrange(-9, 9))) for _ in range(survey.width**2)]
        edits.append((word, leaf, numbers))
        entries.append(b"remove %d\n" % leaf if word == "remove" else put(word, leaf, file_of(survey, numbers)))
    return entries, history.batch_answer(edits)


def some_path(chance, survey):
    """A path of a file, more often than not."""
    order = chance.randrange(survey.low, survey.top + 1)
    leaf = chance.choice((chance.randrange(64), chance.randrange(12 * 4**survey.top)))
    tile = tile_path(order, leaf // 4 ** (survey.top - order))
    odd = ["", " properties", "survey.conf", "/properties", tile_path(1, 0), "Norder5/Dir0/Npix07.fits", "x" * 110]
    return chance.choice([tile] * 5 + ["properties", "Moc.fits", "Norder3/Allsky.fits", chance.choice(odd)])


def some_records(chance, survey, opening, count):
    """Records that look random, each with its answer."""
    history = History(survey, opening)
    for _ in range(count):
        kind = chance.random()
        if kind < 0.3:
            entries, answer = good_batch(chance, survey, history)
            yield batch(*entries), answer
        elif kind < 0.4:
            entries, answer = bad_batch(chance, survey)
            yield batch(*entries), answer
        else:
            edits = chance.choice((chance.choice(list(history.states)), chance.randrange(history.edits + 2)))
            path = some_path(chance, survey)
            yield b"read %d %s\n" % (edits, path.encode()), history.read_answer(edits, path)


# ---- limits


def edits_at_their_limit():
    """Pairs of edits, 128 of them a batch, up to 65,534; then one edit and one; then none."""
    history = History(TINY, {})
    numbers = [1, 2, 3, 5]
    pair = [("put", 0, numbers), ("remove", 0, None)]
    entries = [put("put", 0, file_of(TINY, numbers)[:2888]), b"remove 0\n"]
    while history.edits < MOST_EDITS - 2:
        count = min(128, (MOST_EDITS - 2 - history.edits) // 2)
        answer = history.batch_answer(pair * count)
        history.states = {history.edits: history.states[history.edits]}
        yield batch(*entries * count), answer
    three = [*pair, pair[0]]
    yield batch(*entries, entries[0]), history.batch_answer(three)
    yield batch(*entries), history.batch_answer(pair)
    yield batch(entries[0]), history.batch_answer(pair[:1])
    yield batch(entries[1]), history.batch_answer(pair[1:])
    yield b"read %d properties\n" % MOST_EDITS, history.read_answer(MOST_EDITS, "properties")


def bytes_at_their_limit():
    """Tiles of half a megabyte, one a batch, until there is room for one; then two, one, and one."""
    history = History(FULL, {})
    numbers = [7] * FULL.width**2
    one, entry = ("put", 0, numbers), put("put", 0, file_of(FULL, numbers))
    while history.charge < MOST_CHARGE - history.of_a_tile():
        answer = history.batch_answer([one])
        history.states = {history.edits: history.states[history.edits]}
        yield batch(entry), answer
    for edits in ([one, one], [one], [one], [("add", 0, numbers)], [("remove", 0, None)]):
        entries = [b"remove 0\n" if word == "remove" else put(word, leaf, entry[entry.index(b"\n") + 1 :]) for word, leaf, _ in edits]
        yield batch(*entries), history.batch_answer(edits)


# ---- the program

LINES = (
    (b"look\n", 17),
    (b"look", 4),
    (b"\n", 17),
    (b"read 1\n", 17),
    (b"read  properties\n", 17),
    (b"read 00 properties\n", 17),
    (b"read +0 properties\n", 17),
    (b"read 4294967296 properties\n", 17),
    (b"read 18446744073709551616 properties\n", 17),
    (b" read 0 properties\n", 17),
    (b"Read 0 properties\n", 17),
    (b"batch\n", 17),
    (b"batch 5 \nremov", 17),
    (b"batch 05\nremov", 17),
    (b"batch %d\nremov" % (room(TINY) + 1), 17),
    (b"batch %d\nremov" % room(TINY), 4),
    (b"read 0 " + b"x" * 121 + b"\n", 17),
    (b"read 0 " + b"x" * 121, 17),
    (b"read 0 " + b"x" * 120, 4),
    (b"sing a song" * 11, 4),
    (b"sing a song" * 12, 17),
)


class Past(Case):
    """Runs of `hipsd past` over a survey in a folder."""

    def start(self, held, **ends):
        environment = {**os.environ, "HIPSD_LOG": "off"}
        past = subprocess.Popen([PROGRAM, "past", str(held)], cwd=self.survey, env=environment, stdin=subprocess.PIPE, **ends)
        self.addCleanup(past.communicate)
        self.addCleanup(past.kill)
        return past

    def over(self, survey, opening=()):
        """The survey with these leaves is that of the runs that follow."""
        self.survey = survey.write(self.folder / f"survey{len(list(self.folder.iterdir()))}", opening)

    def ends(self, held, records, output, status):
        """These bytes have that output, and the run that status."""
        past = self.start(held, stdout=subprocess.PIPE)
        got, _ = past.communicate(records)
        self.assertEqual(past.returncode, status, records[:60])
        self.assertTrue(got == output, f"{records[:60]}: {len(got)} bytes in place of {len(output)}, or others")

    def answers(self, held, records):
        """Records, one after another, have their answers; each is compared once it is there."""
        past = self.start(held, stdout=subprocess.PIPE)
        for number, (record, answer) in enumerate(records):
            past.stdin.write(record)
            past.stdin.flush()
            got = past.stdout.read(len(answer))
            self.assertTrue(got == answer, f"record {number}, {record[:60]}: {got[:60]} in place of {answer[:60]}")
        past.stdin.close()
        self.assertEqual((past.stdout.read(), past.wait()), (b"", 0))
        past.stdin = None

    def test_lines(self):
        self.over(TINY)
        first, absent = b"read 0 \nread 0 " + b"x" * 120 + b"\nread 4294967295 \n", b"absent\nabsent\nfuture 0\n"
        for line, status in LINES:
            with self.subTest(line=line[:40]):
                self.ends(1, first + line, absent, status)
                self.ends(8, line, b"", status)
        self.ends(1, b"batch 0\n", b"refused 0 line\n", 0)
        self.ends(1, batch(b"remove 0\n" * 1025), b"refused 1024 many\n", 0)

    def test_a_wrong_line_is_answered_at_once(self):
        """Though the input goes on."""
        self.over(TINY)
        past = self.start(1, stdout=subprocess.DEVNULL)
        past.stdin.write(b"read 0 \nread 1\n")
        past.stdin.flush()
        self.assertEqual(past.wait(20), 17)

    def test_histories(self):
        """Histories that look random, over a survey with leaves and over one without, where one, three and eight states are held: batches of which
        some are refused, and files of states in any order. Then the same inputs, cut at places that look random."""
        for seed in range(6):
            chance = random.Random(seed)
            opening = {leaf: [leaf % 7] * SMALL.width**2 for leaf in range(seed % 2 * 40)}
            held = (1, 3, 8)[seed // 2]
            self.over(SMALL, opening)
            records = list(some_records(chance, SMALL, opening, 150))
            with self.subTest(seed=seed, held=held):
                self.answers(held, records)
            inputs = [record for record, _ in records]
            ends = [sum(len(record) for record in inputs[:count]) for count in range(len(inputs) + 1)]
            whole = b"".join(inputs)
            for at in sorted(chance.sample(range(len(whole)), 10)):
                count = max(i for i, end in enumerate(ends) if end <= at)
                with self.subTest(seed=seed, at=at):
                    self.ends(held, whole[:at], b"".join(answer for _, answer in records[:count]), 0 if at in ends else 4)

    def test_records_up_to_their_number(self):
        self.over(TINY)
        records, answers = b"read 0 x\n" * MOST_RECORDS, b"absent\n" * MOST_RECORDS
        self.ends(1, records, answers, 0)
        self.ends(1, records + b"read 0 x\n", answers, 12)
        self.ends(1, records + b"r", answers, 12)

    def test_edits_up_to_their_limit(self):
        self.over(TINY)
        self.answers(1, edits_at_their_limit())

    def test_bytes_up_to_their_limit(self):
        self.over(FULL)
        self.answers(1, bytes_at_their_limit())
