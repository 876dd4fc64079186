#!/usr/bin/python3 -BP
"""The command line of hipsctl."""

import argparse
import os
import signal
import sys

sys.path.insert(0, os.path.dirname(os.path.dirname(os.path.realpath(__file__))))

from hipsctl import catalog, checking, editing, exporting, hipsgen, mirroring, page, reading, tiling, watching  # noqa: E402 (found by the line above)
from hipsctl.command import Command  # noqa: E402
from hipsctl.messages import STATUSES, Refused, say, shown  # noqa: E402

COMMANDS = editing.COMMANDS | reading.COMMANDS | {
    name: Command(module.__doc__, module.add_words, module.run)
    for name, module in {"tile": tiling, "status": watching, "check": checking, "import": hipsgen, "export": exporting, "mirror": mirroring,
                         "catalog": catalog, "page": page}.items()
}


def command_line():
    statuses = "".join(f"  {status:3}  {meaning}\n" for status, meaning in STATUSES.items())
    parser = argparse.ArgumentParser(
        prog="hipsctl", description="Tools for whoever edits or runs a survey of hipsd.", epilog=f"exit statuses:\n{statuses}",
        formatter_class=argparse.RawDescriptionHelpFormatter, allow_abbrev=False,
    )
    commands = parser.add_subparsers(dest="command", required=True, metavar="COMMAND")
    for name, command in COMMANDS.items():
        summary, _, text = command.text.partition("\n")
        one = commands.add_parser(name, help=summary.rstrip("."), description=f"{summary}\n{text}", allow_abbrev=False,
                                  formatter_class=argparse.RawDescriptionHelpFormatter)
        command.add_words(one)
        one.set_defaults(run=command.run)
    return parser


def run(words):
    """Runs a command, and returns its exit status."""
    told = command_line().parse_args(words)
    try:
        return told.run(told) or 0
    except Refused as refused:
        say(refused)
        return refused.status
    except OSError as fault:
        say(f"{shown(fault.filename)}: {fault.strerror}" if fault.filename is not None else fault)
    except MemoryError:
        say("out of memory")
    return 3


def main():
    os.umask(0o022)
    sys.stdout.reconfigure(errors="backslashreplace")
    for number in (signal.SIGHUP, signal.SIGINT, signal.SIGTERM):
        # What was begun is taken back then.
        signal.signal(number, lambda number, _: sys.exit(128 + number))
    return run(sys.argv[1:])


if __name__ == "__main__":
    sys.exit(main())
