"""Tries edit.sh and look-back.sh: what they refuse, the journal, and a bad day. A server that has started again, one that has edits of
others, one over a copy, one that isn't there yet or is busy; refusals in words; earlier states by their times, and as a folder.
"""

import os
import re
import shutil
import tempfile
import threading
import time
from functools import partial
from http.server import BaseHTTPRequestHandler, HTTPServer
from pathlib import Path

from checks.cases import Case, together
from checks.servers import EXAMPLES, Server, ask, free_port
from survey_files import Survey

SURVEY = Survey("edited", "Survey edited", top=5, low=3, width=8)
TILES = [SURVEY.leaf(7, range(i, i + 64)) for i in range(4)]
# A batch that puts leaf 9, and removes leaf 8.
BATCH = b"put 9 %d\n" % len(TILES[0]) + TILES[0] + b"remove 8\n"


def path_of(leaf):
    return f"Norder5/Dir0/Npix{leaf}.fits"


class Replies(BaseHTTPRequestHandler):
    """Answers the requests that change something by the server's list, and then as a server of no edits would."""

    def do_GET(self):
        self.reply(200, b"hips_order = 5\n")

    def do_POST(self):
        self.rfile.read(int(self.headers["Content-Length"]))
        self.reply(412, b"batch 1 precondition failed\n")

    def do_PUT(self):
        self.rfile.read(int(self.headers["Content-Length"]))
        self.server.seen.append(self.command)
        code, body = self.server.replies.pop(0) if self.server.replies else (201, b"")
        if code:
            self.reply(code, body)
        self.close_connection = True

    def reply(self, code, body):
        self.send_response(code)
        self.send_header("Survey-Edits", "0")
        self.send_header("Content-Length", str(len(body)))
        self.end_headers()
        self.wfile.write(body)

    def log_message(self, *words):
        pass


class Day(Case):
    """A server and a journal for each test."""

    def setUp(self):
        super().setUp()
        self.journal = self.folder / "journal"
        for number, tile in enumerate(TILES):
            (self.folder / f"tile{number}").write_bytes(tile)

    def serve(self, address=None, survey=None):
        self.server = super().serve(survey or SURVEY.write(self.folder / "survey"), address=address)
        self.base = self.server.base

    def again(self):
        """The server ends, and begins anew over its folder."""
        self.server.end()
        self.serve()

    def script(self, status, text, name, *words, **more):
        known = {"HIPSD": self.base, "HIPSD_TRIES": "1", "HIPSD_LOG": "warn"}
        return self.runs(status, text, EXAMPLES / name, *words, **{**known, **more})

    def edit(self, *words, status=0, text="", **more):
        """What edit.sh with the journal says, where it ends with this status."""
        return self.script(status, text, "edit.sh", *words, **{"HIPSD_JOURNAL": str(self.journal), **more})[1]

    def put(self, leaf, tile=0, **more):
        return self.edit("put", leaf, self.folder / f"tile{tile}", **more)

    def look(self, *words, status=0, text="", journal=None):
        """What look-back.sh writes."""
        return self.script(status, text, "look-back.sh", journal or self.journal, *words, cwd=self.server.folder)[0]

    def served(self, path, address=None):
        """A file of the newest generation; None where there is none."""
        status, _, body = ask(address or self.server.address, "GET", path)
        self.assertIn(status, (200, 404), path)
        return body if status == 200 else None

    def other(self, leaf, tile):
        """An edit of somebody without a journal."""
        self.assertIn(ask(self.server.address, "PUT", path_of(leaf), TILES[tile])[0], (201, 204))

    def behind(self, handler, **more):
        """The address of a server of this handler, which ends with the test."""
        server = HTTPServer(("127.0.0.1", 0), handler)
        vars(server).update(more)
        threading.Thread(target=server.serve_forever, args=(0.02,), daemon=True).start()
        self.addCleanup(server.server_close)
        self.addCleanup(server.shutdown)
        return server

    def entries(self):
        return sorted(path.name for path in self.journal.glob("*.edit"))

    def answers(self):
        return [path.read_text().rstrip("\n") for path in sorted(self.journal.glob("*.answer"))]


class Words(Day):
    """Each command, without a journal."""

    def edit(self, *words, **more):
        return super().edit(*words, **{"HIPSD_JOURNAL": "", **more})

    def test_refused_words(self):
        """What is wrong is said before anything is sent."""
        self.serve()
        tile, nothing = self.folder / "tile0", self.folder / "nothing"
        for text, *words in (
            ("put LEAF FILE",), ("'sing' is no command", "sing"), ("put wants LEAF FILE, and has no LEAF FILE", "put"),
            ("put wants LEAF FILE, and has no FILE", "put", 7), ("remove wants LEAF, and has no LEAF", "remove"), ("publish takes 0 words", "publish", "now"),
            ("at least one PATH", "read"), (f"there is no file {nothing}", "put", 7, nothing), ("is no FITS file", "put", 7, self.folder / "survey/survey.conf"),
            ("'7.5' is no number of a leaf", "put", 7.5, tile), ("'07' is no number of a leaf", "remove", "07"),
            ("12288 is no leaf: leaves are of order 5, 0 to 12287", "put", 12288, tile), ("'../properties' is no path", "read", "../properties"),
            ("there are none", "batch"),
        ):
            with self.subTest(words=words):
                self.edit(*words, status=2, text=text)
        status, fields, _ = ask(self.server.address, "DELETE", path_of(7))
        self.assertEqual((status, fields["Survey-Edits"]), (404, "0"))

    def test_commands(self):
        self.serve()
        self.put(8, text="Survey-Edits: 1")
        self.edit("add", 8, self.folder / "tile0", status=1, text="412")
        self.edit("replace", 8, self.folder / "tile0", text="Survey-Edits: 2")
        self.edit("publish", text="published 2")
        self.edit("get", "properties", text="survey_leaves = 1")
        self.assertRegex(self.edit("batch", given=BATCH), "(?m)^accepted 2$")
        self.edit("publish", text="published 4")

    def test_files_of_one_generation(self):
        """At their paths, all or none."""
        self.serve()
        self.put(9)
        self.edit("publish")
        where = self.folder / "read"
        where.mkdir()
        paths = ["properties", "Norder3/Dir0/Npix0.fits", "Norder4/Dir0/Npix2.fits", "Moc.fits", "Norder4/Dir0/Npix2.fits"]
        self.edit("read", *paths, cwd=where)
        for path in paths:
            self.assertEqual((where / path).read_bytes(), self.served(path), path)
        where = self.folder / "none"
        where.mkdir()
        self.edit("read", "properties", "Norder3/Dir0/Npix5.fits", "Moc.fits", cwd=where, status=1, text="Norder3/Dir0/Npix5.fits is answered 404")
        self.assertEqual(list(where.iterdir()), [])


class Silent(BaseHTTPRequestHandler):
    """Hands on GET and POST, takes a PUT to the server's own port, and ends the connection without a word."""

    def pass_on(self):
        status, fields, body = ask(self.server.behind, self.command, self.path[1:], self.rfile.read(int(self.headers["Content-Length"] or 0)))
        if self.command == "PUT":
            self.close_connection = True
            return
        self.send_response(status)
        self.send_header("Content-Length", str(len(body)))
        if "Survey-Edits" in fields:
            self.send_header("Survey-Edits", fields["Survey-Edits"])
        self.end_headers()
        self.wfile.write(body)

    do_GET = do_POST = do_PUT = pass_on

    def log_message(self, *words):
        pass


class Journal(Day):
    """Edits outlive the server's end, also one that was accepted and not answered, and one that was never sent isn't made up."""

    SHOWN = "properties", path_of(7), "Norder3/Dir0/Npix0.fits"

    def filled(self):
        """A journal of six entries and a refused one, which end with a publication; the files that are served then."""
        self.serve()
        self.put(8, text="201")
        self.edit("add", 7, self.folder / "tile0", text="201")
        self.edit("add", 7, self.folder / "tile1", status=1, text="412")
        self.edit("batch", given=BATCH)
        self.edit("publish", text="published 4")
        self.put(7, tile=1, text="204")
        self.edit("publish", text="published 5")
        return [self.served(path) for path in self.SHOWN]

    def test_what_is_written(self):
        self.filled()
        self.assertEqual((self.journal / "00000002.body").read_bytes(), TILES[0])
        self.assertEqual((self.journal / "00000004.body").read_bytes(), BATCH)
        self.assertRegex((self.journal / "00000002.edit").read_text(), rf"^add {path_of(7)} \S*Z\n$")
        self.assertEqual((self.journal / "00000002.answer").read_text(), "201 2\n")
        # What can't be written there isn't sent.
        edit = [EXAMPLES / "edit.sh", "put", "11", self.folder / "tile0"]
        self.runs(153, "", "bash", "-c", 'ulimit -f 2; exec "$@"', "bash", *edit, HIPSD=self.base, HIPSD_JOURNAL=str(self.journal), HIPSD_TRIES="1")
        status, fields, _ = ask(self.server.address, "DELETE", path_of(11))
        self.assertEqual((status, fields["Survey-Edits"]), (404, "5"))

    def test_it_is_on_the_disk_before_it_is_sent(self):
        """What is called of these two, in order."""
        calls, called = self.folder / "calls", self.folder / "called"
        calls.mkdir()
        for tool in ("sync", "curl"):
            (calls / tool).write_text(f'#!/bin/sh\necho "{tool} $*" >>"{called}"\nexec "{shutil.which(tool)}" "$@"\n')
            (calls / tool).chmod(0o755)
        self.base, self.journal = "http://127.0.0.1:1", self.folder / "traced"
        self.edit("publish", status=1, PATH=f"{calls}:{os.environ['PATH']}")
        self.assertEqual(self.answers(), ["unsent"])
        words = [re.sub("^curl .*", "curl", line.replace(f"{self.folder}/", "")).replace(str(self.folder), ".") for line in called.read_text().splitlines()]
        self.assertEqual(words, ["sync .", "sync traced/00000001.edit.new", "sync traced", "curl", "sync traced/00000001.answer.new", "sync traced"])

    def test_earlier_states(self):
        """Files of earlier states, by the journal."""
        before = self.filled()
        listed = re.sub(r"(?m) \S*Z ", " ", self.look().decode()).splitlines()
        self.assertEqual(listed, [f"1 put {path_of(8)}", f"2 add {path_of(7)}", "4 batch", "4 published", f"5 put {path_of(7)}", "5 published"])
        self.look(1, path_of(7), status=1, text=f"after 1 edits there was no {path_of(7)}")
        for edits, tile in ((2, 0), (4, 0), (5, 1)):
            self.assertEqual(self.look(edits, path_of(7)), TILES[tile], f"after {edits} edits")
        self.assertIn(b"survey_leaves = 0\n", self.look(0, "properties"))
        self.assertIn(b"survey_leaves = 1\n", self.look(1, "properties"))
        self.assertEqual([self.look(5, path) for path in self.SHOWN], before)
        self.look(3, "properties", status=1, text="there was no state of 3 edits")
        self.look(6, "properties", status=1, text="fewer than 6 edits")
        self.look("05", "properties", status=2, text="is no number of edits")
        self.look(5, "../properties", status=2, text="is no path")
        self.look(5, status=2, text="JOURNAL EDITS PATH")
        self.look(journal=self.folder / "nothing", status=2, text="there is no folder")
        # An edit whose answer is missing was accepted where the numbers say so, and not where they don't. One that is missing itself is told.
        for number in (2, 3, 7):
            (self.journal / f"{number:08}.answer").unlink()
        self.assertEqual(self.look(4, path_of(7)), TILES[0], "with an answer missing")
        (self.journal / "00000006.answer").unlink()
        self.look(text="nobody knows whether the server took them: 00000006")
        (self.journal / "00000001.edit").unlink()
        self.look(4, path_of(7), status=1, text="00000004: the server had 4 edits")

    def test_a_replay(self):
        """The server that has these edits takes none; a fresh one has them again."""
        before = self.filled()
        self.edit("replay", self.journal, self.base, status=1, text="is no fresh one: it has accepted 5 edits")
        self.again()
        self.edit("replay", self.journal, self.base, text="7 entries: 6 sent again")
        self.assertEqual([self.served(path) for path in self.SHOWN], before)
        # An edit that is accepted, whose reply never comes: a server that takes it and says nothing.
        silent = self.behind(Silent, behind=self.server.address)
        self.base = f"http://127.0.0.1:{silent.server_port}"
        self.put(100, status=1, text=f"it stands in {self.journal}/00000008.edit")
        silent.shutdown()
        silent.server_close()
        self.put(101, status=1)
        self.again()
        said = self.edit("replay", self.journal, self.base, status=1, text=f"put {path_of(100)}: was never answered, is 201 6")
        self.assertRegex(said, "(?m)^[89] entries: 7 sent again, .* 1 answered otherwise")

    def test_several_editors(self):
        """The journal has their edits in the server's order. Where the folder has changed the answers of a replay differ, and that is said."""
        self.serve()
        together(*(partial(self.put, leaf) for leaf in range(20, 26)))
        self.assertEqual(self.answers(), [f"201 {number}" for number in range(1, 7)])
        self.journal = self.folder / "small"
        self.put(9)
        self.edit("add", 7, self.folder / "tile0", text="Survey-Edits: 8")
        self.server.end()
        self.serve(survey=SURVEY.write(self.folder / "changed", {7: range(64)}))
        self.edit("replay", self.journal, self.base, status=1, text=f"add {path_of(7)}: was 201 8, is 412 1")


class Anew(Day):
    """A server that has started again has none of the edits, and counts from one again."""

    def test_nothing_is_sent(self):
        self.serve()
        self.put(1)
        self.put(2)
        self.edit("publish")
        self.again()
        self.put(3, status=1, text="has started again")
        self.edit("publish", status=1, text="edit.sh replay")
        self.assertEqual(len(self.entries()), 3, "an entry was made of what wasn't sent")
        self.edit("replay", self.journal, self.base, text="3 entries: 3 sent again")
        self.put(3, text="Survey-Edits: 3")
        self.edit("publish", text="published 3")
        for edits in (1, 2, 3):
            self.assertIn(f"survey_leaves = {edits}\n".encode(), self.look(edits, "properties"))

    def test_edits_of_others(self):
        """They are counted, and how to go on is said."""
        self.serve()
        self.put(1, tile=1)
        self.put(2, tile=2)
        self.again()
        self.other(2, 0)
        answer = self.edit("replay", self.journal, self.base, status=1, text="it has accepted 1 edits")
        self.assertIn(f"edit.sh replay {self.journal} {self.base} 1", answer)
        self.edit("replay", self.journal, self.base, 2, status=1, text="it has accepted 1 edits")
        self.edit("replay", self.journal, self.base, 1, status=1, text=f"put {path_of(2)}: was 201 2, is 204 3")
        self.edit("publish", text="published 3")
        for leaf in (1, 2):
            self.assertEqual(self.served(path_of(leaf))[2880:], TILES[leaf][2880:], "the journal's tiles stand")
        self.look(text="others have edited")

    def test_states_on_both_sides_of_a_replay(self):
        """One was never answered, and wasn't taken; the next server takes it, and counts the later ones otherwise."""
        self.serve()
        self.put(1)
        self.put(3)
        (self.journal / "00000002.edit").rename(self.journal / "00000003.edit")
        (self.journal / "00000002.body").rename(self.journal / "00000003.body")
        (self.journal / "00000002.answer").rename(self.journal / "00000003.answer")
        (self.journal / "00000002.edit").write_text(f"put {path_of(2)}\n")
        (self.journal / "00000002.body").write_bytes(TILES[2])
        self.again()
        self.edit("replay", self.journal, self.base, status=1, text="was 201 2, is 201 3")
        self.put(4)
        for leaf in (1, 2, 3, 4):
            self.look(leaf - 1, path_of(leaf), status=1, text="there was no")
            self.assertTrue(self.look(leaf, path_of(leaf)).startswith(b"SIMPLE"))
        # Once more: the answers are those of the last server.
        self.again()
        self.edit("replay", self.journal, self.base, text="4 entries: 4 sent again")


class Copied(Day):
    """A server is lost with its folder, and another one goes on from a copy: the journal's entries that the copy lacks are replayed."""

    def copy(self):
        """A copy of what is published: its folder, and the number of its edits as an operator reads it in the log."""
        link = self.folder / "kept"
        environment = {"HIPSD_LOG": "info", "HIPSD_SERVERS": str(self.folder), "HIPSD_UNITS": str(self.folder)}
        prefix, = re.findall(r"copied: the peer's Survey-Prefix (\d+)", self.script(0, "", "backup.sh", self.server.address, link, **environment)[1])
        return link.resolve(), int(prefix)

    def lost(self, copy):
        """The server ends, and one begins over the copy."""
        self.server.end()
        self.serve(survey=copy)

    def tiles(self):
        """The tiles of all leaves that are edited here, as published."""
        self.edit("publish", HIPSD_JOURNAL="")
        return {leaf: self.served(path_of(leaf)) for leaf in range(1, 10)}

    def rest(self, edits, *later, status=0, text=""):
        """The rest of the journal, which is the journal from then on."""
        new = Path(tempfile.mkdtemp(dir=self.folder)) / "rest"
        self.edit("rest", self.journal, edits, new, *later, status=status, text=text)
        self.assertEqual(list(new.parent.iterdir()), [new] if status == 0 else [], "a part of a journal is left")
        if status == 0:
            self.journal = new

    def replay(self, *others, text):
        self.edit("replay", self.journal, self.base, *others, text=text)

    def test_an_older_edit_undoes_no_newer_one(self):
        self.serve()
        for leaf in (1, 2):
            self.put(leaf)
        self.other(1, 3)
        self.edit("publish")
        copy, edits = self.copy()
        self.assertEqual(edits, 3)
        self.put(2, tile=1)
        self.edit("remove", 1)
        self.put(3)
        self.edit("publish")
        self.put(4)
        then = self.tiles()
        self.lost(copy)
        self.put(5, status=1, text="edit.sh rest")
        self.rest(edits, text="the last 5 of 8 entries")
        self.put(5, status=1, text="has to be replayed first")
        self.replay(text="5 entries: 5 sent again, the others weren't accepted; 0 answered otherwise")
        self.assertEqual(self.tiles(), then)
        self.put(5, text="Survey-Edits: 5")
        self.assertEqual(self.entries()[-1], "00000009.edit")

    def test_a_batch(self):
        self.serve()
        self.put(1)
        self.put(2)
        self.edit("publish")
        copy, edits = self.copy()
        self.edit("batch", given=b"add 3 %d\n" % len(TILES[1]) + TILES[1] + b"remove 1\nreplace 2 %d\n" % len(TILES[2]) + TILES[2], text="accepted 3")
        self.edit("add", 3, self.folder / "tile0", status=1)
        self.edit("add", 1, self.folder / "tile3")
        then = self.tiles()
        self.lost(copy)
        self.rest(edits, text="the last 3 of 6 entries")
        self.replay(text="3 entries: 2 sent again, the others weren't accepted; 0 answered otherwise")
        self.assertEqual(self.tiles(), then)

    def test_a_second_loss(self):
        """Of the server over the first copy, of which there is a second one."""
        self.serve()
        for leaf in (1, 2, 3):
            self.put(leaf)
        self.edit("publish")
        first, edits = self.copy()
        self.put(4)
        self.put(5)
        self.lost(first)
        self.rest(edits)
        self.replay(text="2 entries: 2 sent again")
        self.put(1, tile=1)
        self.edit("publish")
        self.other(4, 2)
        self.edit("publish")
        second, edits = self.copy()
        self.assertEqual(edits, 4)
        self.put(6)
        then = self.tiles()
        self.lost(second)
        self.rest(edits, status=1, text="the numbers of several servers")
        self.rest(edits, 0, text="the last 1 of 6 entries")
        self.replay(text="1 entries: 1 sent again, the others weren't accepted; 0 answered otherwise")
        self.assertEqual(self.tiles(), then)

    def test_replayed_since_the_copy(self):
        """Two replays went to servers later than the one that was copied, whose numbers begin at one again."""
        self.serve()
        self.other(9, 1)
        for leaf in (1, 2):
            self.put(leaf)
        self.edit("publish")
        copy, edits = self.copy()
        self.put(1, tile=1)
        then = self.tiles()
        self.server.end()
        shutil.rmtree(self.server.folder)
        self.serve()
        self.edit("replay", self.journal, self.base, status=1, text="was 201 2, is 201 1")
        self.put(3)
        self.again()
        self.edit("replay", self.journal, self.base, text="5 entries: 5 sent again")
        self.lost(copy)
        self.rest(edits, status=1, text=f"edit.sh rest {self.journal} 3 ")
        self.rest(edits, 2, text="the last 2 of 5 entries")
        self.replay(text="2 entries: 2 sent again")
        self.assertEqual(self.tiles(), {**then, 3: self.served(path_of(3))})
        self.assertIsNotNone(self.served(path_of(3)))

    def test_after_others(self):
        """The edits of others stand before it."""
        self.serve()
        self.put(1)
        self.edit("publish")
        copy, edits = self.copy()
        self.put(1, tile=1)
        self.put(2)
        self.lost(copy)
        self.other(2, 3)
        self.rest(edits)
        self.edit("replay", self.journal, self.base, status=1, text="it has accepted 1 edits")
        self.edit("replay", self.journal, self.base, 1, status=1, text=f"put {path_of(2)}: was 201 -, is 204 3")
        self.assertEqual(self.tiles()[2][2880:], TILES[0][2880:], "the journal's tile stands")

    def test_without_an_answer(self):
        """One before the copy isn't sent again, since the copy has it if it was accepted; one behind the copy is."""
        self.serve()
        for leaf in (1, 2, 3):
            self.put(leaf)
        self.edit("publish")
        copy, edits = self.copy()
        self.put(4)
        self.put(5)
        for number in (1, 5):
            (self.journal / f"{number:08}.answer").unlink()
        then = self.tiles()
        self.lost(copy)
        self.rest(edits, text="the last 2 of 6 entries")
        self.edit("replay", self.journal, self.base, status=1, text=f"put {path_of(4)}: was never answered, is 201 1")
        self.assertEqual(self.tiles(), then)

    def test_the_words(self):
        self.serve()
        self.put(1)
        there = self.folder / "there"
        there.mkdir()
        dangling = self.folder / "dangling"
        dangling.symlink_to(self.folder / "nothing")
        for new in (self.journal, there, dangling):
            self.edit("rest", self.journal, 1, new, status=2, text="is there already")
        self.assertEqual(list(there.iterdir()), [])
        self.edit("rest", self.folder / "nothing", 1, self.folder / "new", status=2, text="there is no folder")
        self.edit("rest", self.journal, "01", self.folder / "new", status=2, text="is no number of edits")
        self.edit("rest", self.journal, status=2, text="rest wants FOLDER EDITS NEW, and has no EDITS NEW")
        (self.journal / "00000002.edit").write_text("sing\n")
        self.rest(1, status=1, text="is no entry of a journal")


class Again(Day):
    """An edit that changed nothing is sent again, and no other."""

    def stub(self, *replies):
        server = self.behind(Replies, replies=list(replies), seen=[])
        self.base = f"http://127.0.0.1:{server.server_port}"
        return server

    def test_a_server_that_comes(self):
        address = f"127.0.0.1:{free_port()}"
        self.base = f"http://{address}"
        late = threading.Timer(1.5, self.serve, (address,))
        self.addCleanup(late.join)
        late.start()
        self.put(1, text="Survey-Edits: 1", HIPSD_TRIES="6")

    def test_no_room_at_the_moment(self):
        for codes in ((503, 503), (429,)):
            with self.subTest(codes=codes):
                server = self.stub(*((code, b"later\n") for code in codes))
                began = time.monotonic()
                self.put(1, text=f"trying again in {len(codes)} seconds", HIPSD_TRIES="3", HIPSD_JOURNAL="")
                self.assertGreater(time.monotonic() - began, 0.9 * (2 ** len(codes) - 1), "the pauses are shorter than they are said")
                self.assertEqual(server.seen, ["PUT"] * (1 + len(codes)))
        server = self.stub((503, b"later\n"))
        self.put(1, status=1, text="the server is busy or paused", HIPSD_JOURNAL="")
        self.assertEqual(server.seen, ["PUT"])

    def test_a_fate_that_is_not_known(self):
        for code in (None, 502, 504):
            with self.subTest(code=code):
                server = self.stub((code, b""))
                self.put(1, status=1, text="it isn't known whether it was accepted", HIPSD_TRIES="6", HIPSD_JOURNAL="")
                self.assertEqual(server.seen, ["PUT"])

    def test_a_replay_that_breaks_off(self):
        """No entry is sent after one that the server has no room for at the moment."""
        self.stub()
        self.put(1)
        self.put(2)
        self.put(3)
        server = self.stub((201, b""), (503, b"later\n"))
        self.edit("replay", self.journal, self.base, status=1, text="replay all journals from the first on")
        self.assertEqual(server.seen, ["PUT"] * 2)
        self.assertFalse(list(self.journal.glob("*.again")), "a replay that broke off counts")

    def test_refusals_in_words(self):
        for reply, text in (
            ((507, b"limit 3\n"), "65,536 edits were accepted"), ((507, b"limit 4\n"), "rollover.sh"), ((401, b"who\n"), "~/.netrc"),
            ((422, b"tile refused 3 bitpix -32\n"), "real numbers"), ((422, b"tile refused 9 truncated 12\n"), "12 bytes of its pixels are missing"),
            ((422, b"batch refused 3 7 zero\n"), "the file of entry 3, from 0, is no tile of this survey: BZERO"),
            ((422, b"batch refused 3 line\n"), "entry 3, from 0, is no line"), ((412, b"batch 3 precondition failed\n"), "entry 3 of the batch"),
            ((507, b"batch 3 limit 4\n"), "fill the memory that a server has"), ((422, b"tile refused 1 header 4 a[$(exit)]\n"), "no value of its kind"),
        ):
            with self.subTest(reply=reply):
                self.stub(reply)
                self.put(1, status=1, text=text, HIPSD_JOURNAL="")

    def test_refusals_of_a_server(self):
        self.serve()
        real = self.folder / "tile9"
        card = f"{'BLANK':8}= {-32768:>20}"
        real.write_bytes(TILES[0].replace(card.encode(), f"{'BLANK':8}= {'-32768.0':>20}".encode()))
        answer = self.put(1, tile=9, status=1, text="card 8 has no value of its kind: BLANK   =             -32768.0")
        self.assertIn("hipsctl import", answer)
        self.edit("replace", 1, self.folder / "tile0", status=1, text="the leaf has no tile")
        self.edit("remove", 1, status=1, text="the leaf has no tile")
        self.put(1)
        self.edit("add", 1, self.folder / "tile0", status=1, text="the leaf has a tile already")


class Back(Day):
    """Earlier states, by their times and as folders."""

    def test_times(self):
        self.serve()
        for leaf in (1, 2, 3):
            self.put(leaf)
        for number, when in (1, "2026-11-29T10:00:00"), (2, "2026-11-30T12:00:00"), (3, "2026-11-30T12:00:01"):
            entry = self.journal / f"{number:08}.edit"
            line = entry.read_text()
            self.assertRegex(line, rf"^put {path_of(number)} \d{{4}}(-\d\d){{2}}T(\d\d:){{2}}\d\dZ\n$")
            entry.write_text(f"put {path_of(number)} {when}Z\n")
        self.assertEqual(self.look().decode().splitlines()[1], f"2 2026-11-30T12:00:00Z put {path_of(2)}")
        for when, leaves in (
            ("2026-11-29", 0), ("2026-11-29T10:00", 1), ("2026-11-30", 1), ("2026-11-30T12:00", 2), ("2026-11-30T12:00:00Z", 2),
            ("2026-11-30T12:01", 3), ("2027-01-01", 3),
        ):
            with self.subTest(when=when):
                self.assertIn(f"survey_leaves = {leaves}\n".encode(), self.look("--at", when, "properties"))
        for when in ("yesterday", "2026-11-30T12", "2026-11-30 12:00", "2026-11-30T12:00\n"):
            self.look("--at", when, "properties", status=2, text="is no time")
        # An older journal has no times: what came before the first one isn't known.
        (self.journal / "00000001.edit").write_text(f"put {path_of(1)}\n")
        self.assertIn(b"survey_leaves = 2\n", self.look("--at", "2026-11-30T12:00", "properties"))
        self.look("--at", "2026-11-30", "properties", status=1, text="no time")

    def test_a_folder_of_a_state(self):
        """It is served as the survey was then: whole cells, single ones, and one that was changed since."""
        self.serve()
        for leaf in (*range(16, 20), 7, 12287):
            self.put(leaf, tile=leaf % 4)
        self.edit("publish")
        paths = ["properties", "Moc.fits", "Norder3/Allsky.fits", path_of(16), path_of(19), path_of(7), "Norder5/Dir10000/Npix12287.fits",
                 "Norder4/Dir0/Npix4.fits", "Norder3/Dir0/Npix1.fits", path_of(8)]
        then = [self.served(path) for path in paths]
        self.put(7, tile=3)
        self.edit("remove", 12287)
        self.put(8)
        self.edit("publish")
        self.assertNotEqual([self.served(path) for path in paths], then)
        past = self.folder / "past"
        self.look(6, "--folder", past, text="6 leaf tiles")
        other = self.enterContext(Server(past))
        self.assertEqual([self.served(path, other.address) for path in paths], then)
        self.look(6, "--folder", past, status=2, text="is there already")
        self.look(99, "--folder", self.folder / "none", status=1, text="fewer than 99 edits")
        self.assertFalse(list(self.folder.glob("none*")), "something of a state that there wasn't is left")
        self.look(0, "--folder", self.folder / "begin", text="0 leaf tiles")
