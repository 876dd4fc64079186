"""Says how the server does: who serves and since when, how full it is, what isn't published, and how old the newest copy is.

The server is that to which nginx goes, or --server. With --check it is one line and a status for Nagios: 0 all is well, 1 look at it
soon, 2 look at it now, 3 that isn't known. With --prom a file for the textfile collector of Prometheus is written too.
"""

import os
import re
import socket
import struct
import subprocess
import time
from datetime import datetime, timezone
from pathlib import Path

from hipsctl import files, survey
from hipsctl.client import DEFAULT, NoAnswer, Server
from hipsctl.editing import NOTHING
from hipsctl.messages import Refused, shown
from hipsctl.survey import MOST_EDITS, Size

LEVELS = ("OK", "WARNING", "CRITICAL", "UNKNOWN")
DAY, MINUTE = 86_400, 60
FULL, VERY_FULL = 0.80, 0.95


def add_words(parser):
    parser.add_argument("--server", metavar="ADDRESS", help="its HOST:PORT, or the path of its Unix socket")
    parser.add_argument("--check", action="store_true", help="one line and a status, for Nagios")
    parser.add_argument("--prom", metavar="FILE", type=Path, help="write a file for Prometheus, whose name ends with .prom")
    parser.add_argument("--site", metavar="FILE", type=Path, default="/etc/nginx/hipsd.server.conf", help="by which nginx goes to the server")
    parser.add_argument("--sockets", metavar="FOLDER", default="/run/hipsd", help="where servers listen")
    parser.add_argument("--copies", metavar="LINK", type=Path, default="/var/lib/hipsd-backup/survey", help="to the newest copy")
    parser.add_argument("--oldest", metavar="MINUTES", type=int, default=132, help="how old the newest copy may be, 132 if not said")
    parser.add_argument("--certificate", metavar="FILE", type=Path, default="/etc/ssl/certs/hipsd.pem")
    parser.add_argument("--pause", metavar="FILE", type=Path, default="/run/hipsd.paused", help="which has nginx refuse edits while it is there")


def run(told):
    report = Report()
    address = told.server or address_of(told.site)
    report.server(address)
    report.servers(told.sockets)
    report.pause(told.pause)
    report.copy(told.copies, told.oldest * MINUTE)
    report.certificate(told.certificate)
    if told.prom:
        above, name = os.path.split(told.prom)
        with files.Folder(above or ".") as folder:
            folder.write(name, report.metrics().encode())
    if told.check:
        bad = [text for level, text in report.lines if level == report.level and level] or [text for _, text in report.lines][:2]
        print(f"HIPSD {LEVELS[report.level]} - {'; '.join(bad)}")
        return report.level
    for level, text in report.lines:
        print(text if not level else f"{text}   <- {'look at it now' if level == 2 else 'look at it'}")
    return 0 if report.values.get("hipsd_up") else 4


def address_of(site):
    """Where nginx goes."""
    try:
        found = set(re.findall(r"(?m)^ *server ([^ ;]+)[ ;]", site.read_text()))
    except FileNotFoundError:
        return os.environ.get("HIPSD_SOCKET") or os.environ.get("HIPSD") or DEFAULT
    if len(found) != 1:
        raise Refused(f"{site} names {len(found)} servers: name one by --server", 3)
    return found.pop()


def age(seconds):
    """A span of time, as a person says it."""
    for unit, length in (("days", DAY), ("hours", 3600), ("minutes", MINUTE)):
        if seconds >= 2 * length:
            return f"{seconds // length:.0f} {unit}"
    return f"{max(0, seconds):.0f} seconds"


def connections(path):
    """How many connections to a Unix socket have a place, how many wait for one, and whether somebody listens there."""
    rows = [line.split() for line in Path("/proc/net/unix").read_text().splitlines()[1:]]
    here = [row for row in rows if len(row) == 8 and row[7] == path]
    return sum(row[5] == "03" for row in here), sum(row[5] == "02" for row in here), any(row[3] == "00010000" for row in here)


def begin_of(process):
    """When a process began."""
    ticks = int(Path(f"/proc/{process}/stat").read_text().rpartition(")")[2].split()[19])
    booted = int(re.search("(?m)^btime ([0-9]+)", Path("/proc/stat").read_text())[1])
    return booted + ticks / os.sysconf("SC_CLK_TCK")


class Report:
    """Lines with their levels, and numbers with their names."""

    def __init__(self):
        self.lines, self.values = [], {}

    @property
    def level(self):
        return max((level for level, _ in self.lines), default=3)

    def say(self, text, level=0, **values):
        self.lines.append((level, text))
        self.values |= {f"hipsd_{name}": value for name, value in values.items()}

    def server(self, address):
        """Who serves, and how full it is."""
        server = Server(address)
        busy = connections(server.socket)[:2] if server.socket else None
        try:
            head = server.ask("GET", "properties")
            count = server.ask("POST", "batch", NOTHING).number("Survey-Edits")
        except NoAnswer as fault:
            self.say(f"{server.name} doesn't answer: {fault}", 2, up=0)
            return
        described, published = survey.keys_of(head.body.decode(errors="replace")), head.number("Survey-Prefix")
        try:
            size, leaves = Size(int(described["hips_tile_width"]), int(described["survey_bitpix"])), int(described["survey_leaves"])
        except (KeyError, ValueError):
            self.say(f"what {server.name} answers is no survey: {head.code} {head.text}", 2, up=0)
            return
        self.process(server, busy, shown(described.get("obs_title", "")))
        if count is None or published is None:
            self.say("it doesn't say how many edits it has accepted: is it a proxy?", 3, up=1)
            return
        # Each edit counts as a tile beside those that are there now: at most so much is taken.
        taken, room = leaves + count, size.room
        share = max(count / MOST_EDITS, taken / room)
        self.say(f"{count:,} of {MOST_EDITS:,} edits, and at most {taken:,} of {room:,} tiles, of {size}: room is left for {max(0, min(MOST_EDITS - count, room - taken)):,} edits",
                 2 if share >= VERY_FULL else 1 if share >= FULL else 0, up=1, edits=count, edits_most=MOST_EDITS, tiles=taken, tiles_most=room, leaves=leaves)
        self.say(f"{count - published:,} edits aren't published", edits_unpublished=count - published)

    def process(self, server, busy, title):
        """Which process listens, since when, and how many of its places have a connection."""
        if not server.socket:
            self.say(f"{title} at {server.name}")
            return
        with socket.socket(socket.AF_UNIX) as one:
            one.connect(server.socket)
            number, *_ = struct.unpack("3i", one.getsockopt(socket.SOL_SOCKET, socket.SO_PEERCRED, 12))
        try:
            words = Path(f"/proc/{number}/cmdline").read_bytes().split(b"\0")
            started = begin_of(number)
            places = int(words[words.index(b"serve") + 3])
        except (OSError, ValueError, IndexError):
            self.say(f"{title} at {server.name}; {busy[0]} connections are open", places_busy=busy[0])
            return
        when = datetime.fromtimestamp(started, timezone.utc)
        self.say(f"{title} at {server.name}, process {number}, for {age(time.time() - started)} (since {when:%Y-%m-%d %H:%M} UTC)", start_time_seconds=int(started))
        self.say(f"{busy[0]} of {places} places have a connection" + (f", and {busy[1]} clients wait" if busy[1] else ""), int(busy[0] >= places),
                 places_busy=busy[0], places=places)

    def servers(self, folder):
        """How many servers listen."""
        try:
            found = sorted(name for name in os.listdir(folder) if connections(os.path.join(folder, name))[2])
        except OSError:
            return
        if found:
            self.say(f"{len(found)} servers listen in {folder}: {', '.join(map(shown, found))}"
                     + (": a renewal is in progress, or was ended" if len(found) > 1 else ""), int(len(found) > 1), servers=len(found))

    def pause(self, path):
        """A pause, which a renewal takes for some minutes."""
        try:
            seconds = time.time() - path.stat().st_mtime
        except FileNotFoundError:
            self.values["hipsd_paused"] = 0
            return
        self.say(f"edits are paused for {age(seconds)} by {shown(path)}: a renewal is in progress, or was ended", 2 if seconds > 10 * MINUTE else 1, paused=1)

    def copy(self, link, oldest):
        """The newest copy."""
        try:
            target = os.readlink(link)
        except OSError:
            if link.parent.exists():
                self.say(f"there is no copy at {shown(link)}", 1)
            return
        found = re.search(r"\.([0-9]{8}T[0-9]{6}Z)$", target)
        if not found or not link.exists():
            self.say(f"{shown(link)} leads to no copy: {shown(target)}", 2)
            return
        made = datetime.strptime(found[1], "%Y%m%dT%H%M%SZ").replace(tzinfo=timezone.utc).timestamp()
        seconds = time.time() - made
        self.say(f"the newest copy is {age(seconds)} old: {shown(target)}" if seconds >= 0 else f"the newest copy is of the future: {shown(target)}; is the clock right?",
                 int(not 0 <= seconds <= oldest), copy_timestamp_seconds=int(made))

    def certificate(self, path):
        """When the certificate ends."""
        if not path.exists():
            return
        told = subprocess.run(["openssl", "x509", "-noout", "-enddate", "-in", path], capture_output=True, text=True)
        try:
            end = datetime.strptime(told.stdout.strip(), "notAfter=%b %d %H:%M:%S %Y GMT").replace(tzinfo=timezone.utc).timestamp()
        except ValueError:
            self.say(f"{shown(path)} is no certificate", 2)
            return
        left = end - time.time()
        self.say(f"the certificate ends in {age(left)}" if left > 0 else "the certificate has ended", 2 if left < 3 * DAY else int(left < 14 * DAY),
                 certificate_end_timestamp_seconds=int(end))

    def metrics(self):
        return "".join(f"# TYPE {name} gauge\n{name} {value}\n" for name, value in sorted(self.values.items()))
