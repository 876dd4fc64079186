"""Refuses memory to two proved programs (refuse-memory.c): to the scenario of three boards that crates/board_tests plays, and to a server
with one place. The first is crates/board_tests/out/board_tests, or the one in the environment variable BOARD_TESTS.
"""

import os
import re
import subprocess

from checks.cases import Case, needs
from checks.servers import PROGRAM, SCRIPTS, TOP, exchange, request, wait_until
from survey_files import Survey

BOARD_TESTS = os.environ.get("BOARD_TESTS") or TOP / "crates/board_tests/out/board_tests"
SURVEY = Survey("memory", "Survey memory", top=5, low=3, width=8)
# The frame's buffer takes more than that, and nothing before it does.
FROM = 400_000
PIN = request(b"POST", b"/pin", b"", b"Connection: close")
LISTENING = re.compile(r"listening at (\S+:\d+)\n")
SERVED, REFUSED, LET_GO = "200", "503", "let go"


@needs("cc")
class Memory(Case):
    """Each request for memory is refused in a run of its own."""

    def setUp(self):
        super().setUp()
        self.library = self.folder / "refuse.so"
        self.runs(0, "", "cc", "-O2", "-shared", "-fPIC", "-o", self.library, SCRIPTS / "refuse-memory.c")

    def refusing(self, number, *words, least=0, **more):
        """Starts the words with this request refused, counted from the first for so many bytes on."""
        self.told, self.said = self.folder / "told", self.folder / "said"
        with self.said.open("wb") as said:
            return subprocess.Popen(["sh", "-c", 'told=$0; exec env "$@" 3>"$told"', self.told, f"LD_PRELOAD={self.library}", f"FROM={least}",
                                     f"REFUSE={number}", *words], stderr=said, **more)

    def refused(self):
        """How many requests were refused in the last run."""
        return len(self.told.read_bytes().splitlines())

    def test_boards(self):
        """In the scenario each call of a board that is refused is made again. Whatever was refused, all calls have to be answered in the end, with
        as many edits and as many published as where nothing is refused, and the history that all boards have seen then has to explain each
        answer: each accepted event stands in it once, and no refused call left one. The program tests that itself, and stops where it isn't so.
        A run may end with an error only where the survey isn't open yet: it says `begun` after that."""
        wanted, _ = self.runs(0, "refused 0\n", BOARD_TESTS)
        again = wanted.replace(b"refused 0\n", b"refused 1\n")
        counts, number = {"before the survey was open": 0, "with a call made again": 0, "with nothing changed": 0}, 0
        kinds = dict(zip([(1, b""), (0, again), (0, wanted)], counts))
        while True:
            number += 1
            self.assertLess(number, 10_000, "the scenario doesn't come to an end")
            process = self.refusing(number, BOARD_TESTS, stdout=subprocess.PIPE)
            output = process.communicate(timeout=60)[0]
            if not self.refused():
                break
            kind = kinds.get((process.returncode, output))
            self.assertIsNotNone(kind, f"with request {number} refused: {process.returncode}, {output}, {self.said.read_text()}")
            counts[kind] += 1
        # The last run had no request left to refuse.
        self.assertEqual((process.returncode, output), (0, wanted))
        print(f"{number - 1} requests of the scenario were refused: {counts}")

    def serve_refused(self, number):
        """How many requests were refused from the server's frame on, what its two connections were answered, and its status."""
        process = self.refusing(number, PROGRAM, "serve", "127.0.0.1:0", "2", "1", cwd=self.survey, least=FROM, stdout=subprocess.DEVNULL)
        self.addCleanup(process.kill)
        wait_until(lambda: LISTENING.search(self.said.read_text()), self.said.read_text, process=process)
        answers, address = [], LISTENING.search(self.said.read_text())[1]
        for _ in range(2):
            try:
                reply = exchange(address, PIN)
            except ConnectionError:
                reply = b""
            answers.append(reply.split()[1].decode() if reply else LET_GO)
        status = process.wait(60)
        return self.refused(), answers, status

    def test_a_server(self):
        """It takes two connections, one after another. A connection is served, or it is let go with nothing written and the server ends by 11 and
        never by 8, since its door hasn't failed. If the frame isn't to be had, the first connection is let go and the second one is served."""
        self.survey = SURVEY.write(self.folder / "survey")
        ends = []
        for number in range(1, 1000):
            refused, answers, status = self.serve_refused(number)
            if not refused:
                break
            ends.append(status)
            # Let go: for want of the frame of the first connection, or of the accept of the first or of the second.
            may_be = (status == 11 and answers in ([LET_GO, SERVED], [LET_GO, LET_GO], [SERVED, LET_GO]) if LET_GO in answers
                      else status == 0 and answers.count(REFUSED) <= 1)
            self.assertTrue(may_be, f"with request {number} refused: {answers}, status {status}")
        self.assertEqual((answers, status), ([SERVED, SERVED], 0), "with none refused")
        self.assertIn(11, ends)
        self.assertEqual(self.serve_refused(1), (1, [LET_GO, SERVED], 11), "with no frame for the first connection")
        print(f"{len(ends)} requests of a server were refused: {ends.count(11)} ended it by 11, and {ends.count(0)} changed no status")
