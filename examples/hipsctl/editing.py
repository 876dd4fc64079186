"""Edits and publications, sent to a server: each one surely once, or it is said that this isn't known."""

import os
import re
import sys
import time
from functools import partial

from hipsctl import files, survey
from hipsctl.client import BUSY, UNANSWERED, Busy, NoAnswer, add_server, patiently, server_of
from hipsctl.command import Command
from hipsctl.headers import cards_of, real, value_of, with_card
from hipsctl.messages import Refused, say, shown
from hipsctl.refusals import explained
from hipsctl.survey import MOST_EDITS, Size, leaf_of, tile_of

MOST_ENTRIES = 1024
# No leaf can be removed twice in one batch: this one is refused in any state, changes nothing, and is answered with the number of edits.
NOTHING = b"remove 0\nremove 0\n"
SETTLED = 2


class Sender:
    """Sends edits to a server, and knows how many it has accepted."""

    def __init__(self, told):
        if os.environ.get("HIPSD_JOURNAL"):
            raise Refused("HIPSD_JOURNAL is set, and hipsctl keeps no journal: examples/edit.sh does")
        self.server, self.tries, self.edits, self.sent = server_of(told), told.tries, None, 0
        self.described = survey.keys_of(self.server.get("properties", told.tries).body.decode(errors="replace"))
        try:
            self.order = int(self.described["hips_order"])
            self.size = Size(int(self.described["hips_tile_width"]), int(self.described["survey_bitpix"]))
        except (KeyError, ValueError):
            raise Refused(f"what {self.server.name} answers is no survey of hipsd", 4) from None

    def once(self, method, path, body, fields):
        """A reply of the server itself."""
        try:
            reply = self.server.ask(method, path, body, fields, seconds=600)
        except NoAnswer as fault:
            raise (Busy(str(fault)) if fault.unsent else fault) from None
        if reply.code in BUSY:
            raise Busy(f"{reply.code} {reply.text}")
        if reply.code in UNANSWERED:
            raise NoAnswer(f"{reply.code} {reply.text}")
        return reply

    def count(self):
        """How many edits the server has accepted."""
        try:
            reply = patiently(self.server.name, self.tries, partial(self.once, "POST", "batch", NOTHING, ()))
        except NoAnswer as fault:
            raise Refused(f"{self.server.name} doesn't say how many edits it has: {fault}", 6 if self.sent else 4) from None
        count = reply.number("Survey-Edits")
        if count is None:
            raise Refused(explained(reply, []), 4)
        return count

    def edit(self, method, path, body=None, fields=(), edits=1):
        """Sends so many edits in one request, and returns the reply; None where none came, and the number of edits shows that they are
        accepted."""
        if self.edits is None:
            self.edits = self.count()

        def once():
            try:
                return self.once(method, path, body, fields)
            except NoAnswer as fault:
                self.sent += 1
                # What was on its way is judged by then.
                time.sleep(SETTLED)
                now = self.count()
                if now == self.edits:
                    raise Busy(f"no answer: {fault}; the number of edits is the same") from None
                if now == self.edits + edits:
                    say(f"no answer came ({fault}), but the server has {edits:,} edits more: they are accepted")
                    return None
                raise Refused(f"no answer came ({fault}). The server had {self.edits:,} edits, and has {now:,}: so it isn't known whether these {edits:,} are accepted"
                              if now > self.edits else f"no answer came, and the server has started again: it has {now:,} edits, and had {self.edits:,}", 6) from None

        reply = patiently(self.server.name, self.tries, once)
        accepted = reply is None or 200 <= reply.code < 300
        if accepted:
            now = self.edits + edits if reply is None else reply.number("Survey-Edits")
            if now is not None and now < self.edits + edits:
                raise Refused(f"the server has started again meanwhile: it had {self.edits:,} edits, and has {now:,} with these {edits:,}. What was sent before is lost", 5)
            self.edits = self.edits + edits if now is None else now
        return reply


# ---- put, add, replace and remove


def add_put(kind, parser):
    add_server(parser)
    parser.add_argument("-0", "--null", action="store_true", help="the lines of standard input end with a NUL in place of a line end")
    what = "LEAF" if kind == "remove" else "LEAF=FILE"
    parser.add_argument("tiles", nargs="+", metavar=what, help=f"a leaf by its number, or the path of its tile{'' if kind == 'remove' else ', and a FITS file'}; "
                        + ("" if kind == "remove" else "or a folder, which has tiles at their paths; ") + f"or -, for lines {what} of standard input")


def run_put(kind, told):
    if "-" in told.tiles:
        data = sys.stdin.buffer.read()
        lines = [os.fsdecode(line) for line in data.split(b"\0" if told.null else b"\n") if line]
        told.tiles = [other for word in told.tiles for other in (lines if word == "-" else [word])]
    pairs = list(pairs_of(kind, told.tiles))
    sender = Sender(told)
    leaves = {}
    for text, path, above in pairs:
        leaf = leaf_of(text, sender.order)
        if leaf in leaves:
            raise Refused(f"the leaf {leaf} is there twice", 2)
        if path is not None:
            (above.open(path) if above else files.open_file(path)).close()
        leaves[leaf] = path, above
    if not leaves:
        raise Refused("there is nothing to send", 2)
    tiles = ((leaf, path, b"" if path is None else read_tile(sender, path, above)) for leaf, (path, above) in leaves.items())
    send_all(sender, kind, tiles, len(leaves))
    say_accepted(sender, len(leaves))


def say_accepted(sender, count):
    print(f"{count:,} edits accepted, {sender.edits:,} of {MOST_EDITS:,} in all. Readers see them after: hipsctl publish")


def pairs_of(kind, words):
    """Leaf, file and the folder above it of each edit."""
    for word in words:
        leaf, equals, path = word.partition("=")
        if kind == "remove":
            yield word, None, None
        elif equals and (leaf.isdecimal() or tile_of(leaf)) and path:
            yield leaf, path, None
        elif os.path.isdir(word):
            folder = files.Folder(word)
            found = [path for path, _ in folder.entries() if tile_of(path)]
            top = max((tile_of(path)[0] for path in found), default=0)
            if not found:
                raise Refused(f"there are no tiles in {shown(word)}, as Norder5/Dir0/Npix7.fits", 2)
            yield from ((path, path, folder) for path in sorted(found) if tile_of(path)[0] == top)
        else:
            raise Refused(f"'{shown(word)}' is no LEAF=FILE, and no folder", 2)


def send_all(sender, kind, edits, count):
    """Sends edits, each a leaf, the name of a file and its bytes, in as few batches as they fit."""
    done, batch, begun = 0, [], time.monotonic()
    told_at = begun

    def send():
        nonlocal done, told_at
        try:
            send_batch(sender, kind, batch)
        except Refused as refused:
            raise Refused(f"{refused}" + (f"\n    {done:,} of {count:,} edits were accepted before, and the others aren't" if done else ""),
                          5 if done and refused.status in (1, 4) else refused.status) from None
        except SystemExit:
            say(f"{done:,} of {count:,} edits are accepted, and perhaps the next {len(batch):,}")
            raise
        done += len(batch)
        batch.clear()
        if time.monotonic() > told_at + 5 and done < count:
            told_at = time.monotonic()
            say(f"{done:,} of {count:,} edits accepted, {(told_at - begun) * (count - done) / done:,.0f} s to go")

    size = 0
    for leaf, path, data in edits:
        length = len(data) + 40
        if batch and (len(batch) == MOST_ENTRIES or size + length > sender.size.longest_body):
            send()
            size = 0
        batch.append((leaf, path, data))
        size += length
    send()


def send_batch(sender, kind, batch):
    """One request for one edit or for several."""
    named = [(f"{kind} {leaf}" + ("" if path is None else f"={shown(path)}"), data) for leaf, path, data in batch]
    if len(batch) == 1:
        leaf, _, data = batch[0]
        fields = {"add": [("If-None-Match", "*")], "replace": [("If-Match", "*")]}.get(kind, [])
        reply = sender.edit("DELETE" if kind == "remove" else "PUT", survey.tile_path(sender.order, leaf), None if kind == "remove" else data, fields)
    else:
        body = b"".join(b"%s %d%s\n%s" % (kind.encode(), leaf, b"" if kind == "remove" else b" %d" % len(data), data) for leaf, _, data in batch)
        reply = sender.edit("POST", "batch", body, edits=len(batch))
    if reply is not None and not 200 <= reply.code < 300:
        raise Refused(explained(reply, named))


def read_tile(sender, path, above):
    """The file of a tile; where its scale is the survey's in other digits, as astropy writes them, it gets the survey's."""
    with above.open(path) if above else files.open_file(path) as file:
        data = files.unpacked(file, path, sender.size.longest_body).getvalue()
    try:
        return mended(data, sender.described)
    except Refused as fault:
        raise Refused(f"{shown(path)}: {fault}") from None


def mended(data, described):
    cards, begin = cards_of(data)
    for name, key in (("BSCALE", "survey_bscale"), ("BZERO", "survey_bzero")):
        own, other = value_of(cards, name), described.get(key)
        if own and other and real(own, name) != real(other, key) and float(real(own, name)) == float(real(other, key)):
            head = with_card(cards, name, other)
            data = head + data[begin:]
            cards, begin = cards_of(data)
    return data


# ---- batch and publish


def run_batch(told):
    body = sys.stdin.buffer.read()
    if not body:
        raise Refused("batch reads its edits from standard input, and there are none", 2)
    sender = Sender(told)
    entries = entries_of(body)
    reply = sender.edit("POST", "batch", body, edits=len(entries))
    if reply is not None and reply.code != 200:
        raise Refused(explained(reply, entries))
    say_accepted(sender, len(entries))


def entries_of(body):
    """The entries of a batch up to the first malformed one: a name and the bytes of the tile."""
    found, at = [], 0
    while line := re.compile(rb"(remove) ([0-9]+)\n|(put|add|replace) ([0-9]+) ([0-9]+)\n").match(body, at):
        end = line.end() + int(line[5] or 0)
        found.append((f"{(line[1] or line[3]).decode()} {(line[2] or line[4]).decode()}, entry {len(found)} from 0", body[line.end() : end]))
        at = end
    return found


def run_publish(told):
    sender = Sender(told)

    def once():
        try:
            return sender.once("POST", "publish", b"", ())
        except NoAnswer as fault:
            # Published twice is published once.
            raise Busy(str(fault)) from None

    reply = patiently(sender.server.name, sender.tries, once)
    if reply.code != 200:
        raise Refused(explained(reply, []))
    print(reply.text)


def add_nothing(parser):
    add_server(parser)


TEXTS = {
    "put": "Gives leaves these tiles, whether they had some or not.",
    "add": "Gives leaves these tiles, if none of them has one.",
    "replace": "Gives leaves these tiles, if all of them have some.",
    "remove": "Takes the tiles of leaves away.",
}
MANY = """
Several are sent in batches, as many as fit into one: a batch is accepted as a whole or not at all. Readers see edits after the next
publication. An edit that surely wasn't accepted is sent again; what has no answer is asked about by the number of edits, and then it is
sent again, or taken as accepted, or it is said that nobody knows.
"""
COMMANDS = {kind: Command(text + "\n" + MANY, partial(add_put, kind), partial(run_put, kind)) for kind, text in TEXTS.items()} | {
    "batch": Command("Sends the edits of a batch's body, on standard input: all of them or none.\n", add_nothing, run_batch),
    "publish": Command("Shows readers all edits so far, in one new generation.\n", add_nothing, run_publish),
}
