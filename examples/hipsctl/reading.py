"""Reads files of a survey from a server."""

import os
import sys
from pathlib import Path

from hipsctl import files
from hipsctl.client import NoAnswer, add_server, server_of
from hipsctl.command import Command
from hipsctl.exporting import WHOLE
from hipsctl.messages import Refused, shown
from hipsctl.survey import tile_of


def checked(path):
    """Refuses what is no path of a survey's file."""
    if path not in WHOLE and not tile_of(path):
        raise Refused(f"'{shown(path)}' is no path of a survey's file", 2)
    return path


def add_get(parser):
    add_server(parser)
    parser.add_argument("-o", "--output", metavar="FILE", type=Path, help="the file to write, in place of standard output")
    parser.add_argument("path", metavar="PATH", help="as Norder5/Dir0/Npix7.fits, properties or Moc.fits")


def run_get(told):
    path = checked(told.path)
    if told.output is None and path != "properties" and sys.stdout.isatty():
        raise Refused("a FITS file isn't shown on a terminal: name a file by --output", 2)
    body = server_of(told).get(path, told.tries).body
    if told.output is not None:
        above, name = os.path.split(told.output)
        with files.Folder(above or ".") as folder:
            folder.write(name, body)
    elif sys.stdout.isatty():
        print("\n".join(shown(line) for line in body.decode(errors="replace").splitlines()))
    else:
        sys.stdout.buffer.write(body)


def add_read(parser):
    add_server(parser)
    parser.add_argument("--into", metavar="FOLDER", default=".", help="in place of the current folder")
    parser.add_argument("paths", nargs="+", metavar="PATH", help="as for get")


def run_read(told):
    for path in told.paths:
        checked(path)
    server, got, prefixes = server_of(told), {}, set()
    try:
        with server.connected() as one:
            reply = server.on(one, "POST", "pin")
            if reply.code != 200:
                raise Refused(f"nothing is written, since {server.name} can't be held: {reply.code} {reply.text}. (A pin needs hipsd's own address: a proxy keeps none.)")
            for path in told.paths:
                reply = server.on(one, "GET", path)
                if reply.code != 200:
                    raise Refused(f"nothing is written, since {path} is answered {reply.code} {reply.text}")
                got[path] = reply.body
                prefixes.add(reply.number("Survey-Prefix"))
    except NoAnswer as fault:
        raise Refused(f"nothing is written: {fault}", 4) from None
    if len(prefixes) != 1:
        raise Refused("nothing is written, since the replies are of several generations", 4)
    with files.Folder(told.into) as folder:
        for path, body in got.items():
            folder.write(path, body)
    print(f"{len(got):,} files as of edit {prefixes.pop() or 0:,}")


COMMANDS = {
    "get": Command("Reads a file of the newest generation.\n", add_get, run_get),
    "read": Command("Reads files of one generation, each to its path below a folder.\n\nIf one can't be read, none is written. The server is hipsd itself, "
                    "since a proxy keeps no generation\nfor a connection.\n", add_read, run_read),
}
