"""Runs the program at the sizes at which surveys are used.

A body that answers 'out of memory' from some size on meets its contract, and no small test sees it. Each run here goes to a limit, or well
beyond all other tests, and is compared with what Python makes of the same input.
"""

import http.client
import struct
import subprocess
from collections import defaultdict
from itertools import groupby

from checks.cases import Case, files_of
from checks.servers import PROGRAM, connect, replies, request
from survey_files import Survey, block, header, image, tile_path, write_files

TINY = Survey("size", "Survey size", top=4, low=3, width=2)
MANY = Survey("many", "Survey many", top=5, low=3, width=8)
WIDE = Survey("wide", "Survey wide", top=4, low=3, width=512)
DEEP = Survey("deep", "Survey deep", top=8, low=0, width=2)
MOST_EDITS, MOST_CHARGE = 65_536, 2**29


def in_a_row(replies):
    """The replies, each with how many times it comes one after another."""
    return [(reply, len(list(same))) for reply, same in groupby(replies)]


class Size(Case):
    """Servers, copies, records and catalogues at their limits."""

    def asks(self, connection, method, path, body=None):
        connection.request(method, "/" + path, body)
        reply = connection.getresponse()
        return reply.status, reply.read()

    def puts(self, address, requests):
        """The replies to these requests, which one connection sends in groups."""
        found, requests = [], list(requests)
        with connect(address, seconds=120) as link, link.makefile("rb") as reader:
            for at in range(0, len(requests), 16):
                group = requests[at : at + 16]
                link.sendall(b"".join(group))
                found += replies(reader, len(group))
        return found

    def test_a_leaf_of_the_default_width(self):
        """Tiles of 512 pixels, the width that a description has if it names none, in each width of a number: PUT, publication, and each file
        by `serve` and `past`. Those of 64 bits have 2 MiB, and 26 MB as a mosaic."""
        for bitpix in (16, 32, 64):
            with self.subTest(bitpix):
                self.leaf_of(WIDE._replace(name=f"wide{bitpix}", bitpix=bitpix))

    def leaf_of(self, survey):
        leaves, leaf = {300: [(s % 251 - 100) << survey.bitpix - 9 for s in range(512 * 512)]}, tile_path(4, 300)
        wanted = dict(zip(survey.paths(leaves), survey.files(leaves)))
        description = b"".join(line for line in survey.description().splitlines(True) if b"hips_tile_width" not in line)
        folder, file = write_files(self.folder / survey.name, {"survey.conf": description}), image(512, 512, leaves[300], bitpix=survey.bitpix)
        connection = http.client.HTTPConnection(self.serve(folder, places=4).address, timeout=120)
        self.addCleanup(connection.close)
        self.assertEqual(self.asks(connection, "PUT", leaf, file)[0], 201)
        self.assertEqual(self.asks(connection, "POST", "publish"), (200, b"published 1\n"))
        for path, file_there in wanted.items():
            self.assertTrue(self.asks(connection, "GET", path) == (200, file_there), path)
        entry = b"put 300 %d\n" % len(file) + file
        records = b"batch %d\n" % len(entry) + entry + b"".join(b"read 1 %s\n" % path.encode() for path in wanted)
        answers = b"edits 1\n" + b"".join(b"file %d\n" % len(there) + there for there in wanted.values())
        self.assertTrue(self.hipsd(0, "", "past", 1, given=records, cwd=folder)[0] == answers, f"past of {survey.name}")

    def test_edits_up_to_their_limit(self):
        """65,536 edits by two connections, of which each is accepted; and no more."""
        server = self.serve(TINY.write(self.folder / "survey"), places=4)
        puts = [request(b"PUT", f"/{tile_path(4, leaf)}".encode(), image(2, 2, [1, 2, 3, 5])) for leaf in range(3072)]
        first = self.puts(server.address, (puts[i % 3072] for i in range(40_000)))
        self.assertEqual(in_a_row(first), [((201, b""), 3072), ((204, b""), 40_000 - 3072)])
        second = self.puts(server.address, (puts[i % 3072] for i in range(30_000)))
        self.assertEqual(in_a_row(second), [((204, b""), MOST_EDITS - 40_000), ((507, b"limit 3\n"), 70_000 - MOST_EDITS)])
        published, (code, body) = self.puts(server.address, [request(b"POST", b"/publish"), request(b"GET", b"/Norder4/Dir0/Npix3071.fits")])
        self.assertEqual(published, (200, b"published %d\n" % MOST_EDITS))
        self.assertEqual((code, body), (200, TINY.tile({3071: [1, 2, 3, 5]}, 4, 3071)))
        leaves = {leaf: [1, 2, 3, 5] for leaf in range(3072)}
        paths = list(TINY.paths(leaves))
        found = self.puts(server.address, (request(b"GET", f"/{path}".encode()) for path in paths))
        for path, reply, file in zip(paths, found, TINY.files(leaves)):
            self.assertTrue(reply == (200, file), path)

    def test_a_batch_up_to_its_limit(self):
        """1,024 edits are one batch, and one more is none."""
        leaves = {leaf: [leaf % 100, 1, 2, 3] for leaf in range(1500)}
        server = self.serve(TINY.write(self.folder / "survey", leaves), places=4)
        removes = [b"remove %d\n" % leaf for leaf in leaves]
        batches = [request(b"POST", b"/batch", b"".join(removes[:count])) for count in (1025, 1024)]
        refused, accepted, _, paths = self.puts(server.address, [*batches, request(b"POST", b"/publish"), request(b"GET", b"/properties")])
        self.assertEqual((refused[0], accepted), (422, (200, b"accepted 1024\n")))
        self.assertEqual(paths, (200, TINY.properties(dict(list(leaves.items())[1024:]))))

    def test_a_probe_up_to_its_limit(self):
        """65,536 leaves are one tile of order 0, and no more are taken."""
        leaves = {3 * 65_536 + i: [i % 1000, i % 7, -32768, -i % 500] for i in range(65_536)}
        records = b"".join(struct.pack(">q4h", leaf, *numbers) for leaf, numbers in leaves.items())
        wanted = DEEP.tile(leaves, 0, 3)[2880:2888]
        self.assertEqual(self.hipsd(0, "", "probe", 8, 1, 0, 3, given=records)[0], wanted)
        self.assertEqual(self.hipsd(12, "", "probe", 8, 1, 0, 3, given=records + records[:16])[0], b"")

    def test_bytes_up_to_their_limit(self):
        """Tiles of 2 MiB: 256 of them have 2^29 bytes, which are accepted, and no other is."""
        description = WIDE.description().replace(b"survey_bitpix = 16", b"survey_bitpix = 64")
        server = self.serve(write_files(self.folder / "survey", {"survey.conf": description}), places=4)
        cards = [("SIMPLE", "T"), ("BITPIX", 64), ("NAXIS", 2), ("NAXIS1", 512), ("NAXIS2", 512), ("BLANK", -32768)]
        tile = header(*cards) + block(struct.pack(">q", 7) * 512 * 512)
        room = MOST_CHARGE // (8 * 512 * 512)
        connection = http.client.HTTPConnection(server.address, timeout=120)
        self.addCleanup(connection.close)
        found = [self.asks(connection, "PUT", tile_path(4, leaf), tile) for leaf in [*range(room), 0]]
        self.assertEqual(in_a_row(found), [((201, b""), room), ((507, b"limit 4\n"), 1)])

    def test_connections_up_to_their_number(self):
        """A place takes 1, 4,096, 50,000 or 65,536 connections, answers each, and then the server ends."""
        folder = TINY.write(self.folder / "survey")
        wanted = TINY.properties({})
        for most in (1, 4096, 50_000, 65_536):
            server = self.serve(folder, most, 1)
            for number in range(most):
                # (other addresses of the loopback, since one has too few ports)
                with connect(server.address, f"127.0.1.{1 + number // 8192}") as link:
                    link.sendall(b"GET /properties HTTP/1.0\r\n\r\n")
                    got = b""
                    while part := link.recv(65536):
                        got += part
                self.assertTrue(got.startswith(b"HTTP/1.1 200 ") and got.endswith(wanted), f"connection {number + 1} of {most}: {got}")
            self.assertEqual(server.process.wait(60), 0)

    def copy(self, survey, leaves):
        """A copy of a server of these leaves has each file, and no other; and so has its folder after `export`."""
        folder = survey.write(self.folder / "survey", leaves)
        server = self.serve(folder, places=4)
        copy = self.folder / "copy"
        copy.mkdir()
        self.hipsd(0, "", "mirror", server.address, cwd=copy)
        server.end()
        files = dict(zip(survey.paths(leaves), survey.files(leaves)))
        self.hipsd(0, f"exported {len(files)}\n", "export", cwd=folder)
        description = {"survey.conf": survey.description()}
        for found, wanted in ((files_of(copy), files), (files_of(folder), description | files)):
            self.assertEqual(sorted(found), sorted(wanted))
            for path, file in wanted.items():
                self.assertTrue(found[path] == file, path)

    def test_a_copy_of_many_leaves(self):
        """More than 10,000 files."""
        self.copy(MANY, {leaf: [leaf % 1000 + s for s in range(64)] for leaf in range(12_288) if leaf % 5})

    def test_a_copy_of_wide_tiles(self):
        """A file of 26 MB among them."""
        self.copy(WIDE._replace(bitpix=64), {7: [s % 300 for s in range(512 * 512)]})

    def test_past_states_all_along(self):
        """64,512 edits in batches of 128 and 1,024; files as of earlier edits all along, the mosaic of 400 kB now and then; reads
        up to 65,536 records, and no more."""
        survey, most, records = Survey("along", "Survey along", top=5, low=3, width=16), 1024, 0
        ends = {"stdin": subprocess.PIPE, "stdout": subprocess.PIPE, "stderr": subprocess.DEVNULL}
        past = subprocess.Popen([PROGRAM, "past", "8"], cwd=survey.write(self.folder / "survey"), **ends)
        self.addCleanup(past.stdout.close)
        self.addCleanup(past.wait)
        self.addCleanup(past.kill)
        states, leaves = [(0, {})], {}

        def answers(record, wanted):
            nonlocal records
            records += 1
            past.stdin.write(record)
            past.stdin.flush()
            self.assertTrue(past.stdout.read(len(wanted)) == wanted, record[:60])

        def batch(entries):
            body, edits = b"".join(entries), states[-1][0] + len(entries)
            answers(b"batch %d\n" % len(body) + body, b"edits %d\n" % edits)
            states.append((edits, dict(leaves)))

        for turn in range(32):
            some = [(turn * most + i) * 11 % 12288 for i in range(most)]
            for first in range(0, most, 128):
                entries = []
                for leaf in some[first : first + 128]:
                    leaves[leaf] = [turn + s for s in range(256)]
                    file = image(16, 16, leaves[leaf])[: 2880 + 512]
                    entries.append(b"put %d %d\n" % (leaf, len(file)) + file)
                batch(entries)
            gone = sorted(leaves.keys() - set(some))
            for leaf in gone:
                del leaves[leaf]
            if gone:
                batch([b"remove %d\n" % leaf for leaf in gone])
            edits, there = states[len(states) * 5 // 7]
            leaf = sorted(there)[turn]
            for path in ["properties", "Moc.fits", tile_path(5, leaf), tile_path(3, leaf // 16)] + ["Norder3/Allsky.fits"] * (turn % 8 == 7):
                file = survey.file(there, path)
                answers(b"read %d %s\n" % (edits, path.encode()), b"file %d\n" % len(file) + file)
        read, file = b"read 0 properties\n", survey.file({}, "properties")
        while records < 65_536:
            answers(read, b"file %d\n" % len(file) + file)
        past.stdin.write(read)
        past.stdin.close()
        self.assertEqual((past.stdout.read(), past.wait()), (b"", 12))

    def catalogue(self, deepest, most, rows):
        """The tiles of these rows, whose ranks differ."""
        text = "".join("%d\t%d\t%s\t%s\n" % row for row in rows).encode()
        output, _ = self.hipsd(0, "", "catalog", deepest, most, given=text, within=600)
        tiles, taken = defaultdict(list), defaultdict(int)
        for rank, npix, name, rest in sorted(rows):
            order = 0
            while order < deepest and taken[order, npix >> 2 * (deepest - order)] == most:
                order += 1
            cell = order, npix >> 2 * (deepest - order)
            taken[cell] += 1
            tiles[cell].append(f"{rank}\t{npix}\t{name}\t{rest}\n")
        self.assertEqual(output, b"rows %d tiles %d\n" % (len(rows), len(tiles)))
        found = files_of(self.folder)
        self.assertEqual(len(found), len(tiles))
        for (order, npix), lines in tiles.items():
            path = tile_path(order, npix).replace(".fits", ".tsv")
            self.assertTrue(found[path].decode() == "rank\tnpix\tid\trest\n" + "".join(lines), path)

    def test_a_catalogue_of_a_million_rows(self):
        """1,000,000 rows, each better than those before it, with fields of all widths, in tiles of 200 down to order 7."""
        rows = []
        for number in range(1_000_000):
            npix = (number * 2_654_435_761 >> 4) % (12 * 4**7)
            name = f"{number:x}".rjust(1 + number % 64, "n")[-64:]
            name = name if len(name) >= 5 else f"{number:05x}"
            rows.append((2**64 - 1 - number * 9_000_000_000_000, npix, name, "r" * (number % 257)))
        self.catalogue(7, 200, rows)

    def test_a_catalogue_of_one_cell(self):
        """250,000 rows of one cell of order 11, each better than those before it, and one amid them, in tiles of 4,096."""
        cell, count = 12 * 4**11 - 1, 250_000
        rows = [(2 * (count - number), cell, str(number), "") for number in range(count)]
        self.catalogue(11, 4096, [*rows, (count + 1, cell, "amid", "")])
