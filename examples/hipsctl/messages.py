"""What hipsctl says, and its exit statuses."""

import os
import re
import shlex
import sys

STATUSES = {
    0: "done",
    1: "refused, and nothing is changed; check: the folder has a fault",
    2: "invalid command line",
    3: "a file can't be read or written, or memory ran out",
    4: "hipsd failed, or gave no answer",
    5: "a part is done, as is said",
    6: "no answer came, and it isn't known whether it was done",
    130: "interrupted (129: hung up, 143: terminated)",
}


class Refused(Exception):
    """Why nothing is done, in lines for the user."""

    def __init__(self, text, status=1):
        super().__init__(text)
        self.status = status


def say(text):
    """A line of standard error."""
    print(f"hipsctl: {text}", file=sys.stderr, flush=True)


def shown(text):
    """A text of others in one line, with escapes for control characters and for bytes that are no text."""
    return "".join(sign if sign.isprintable() else sign.encode("unicode_escape").decode() for sign in os.fsdecode(text))


def quoted(path):
    """A path as a word of a shell's command."""
    text = os.fsdecode(path)
    if text.isprintable():
        return shlex.quote(text)
    return "$'" + "".join(chr(byte) if re.match(rb"[\w./-]", bytes([byte])) else f"\\x{byte:02x}" for byte in os.fsencode(text)) + "'"


def listed(lines, most=20):
    """These lines, or as many of them as are read."""
    return "\n    ".join([*lines[:most], *([f"and {len(lines) - most:,} more"] if len(lines) > most else [])])
