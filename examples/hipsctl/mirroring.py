"""Copies what a running server has published into a folder, with its survey.conf, and removes nothing of value unasked.

ADDRESS is that of hipsd itself, since a proxy keeps no pin: an address with a port, or the path of its Unix socket. If leaves would go,
or a survey with another creator_did or hips_order, nothing is done without --remove.
"""

import struct
from pathlib import Path

from hipsctl import exporting, files, survey
from hipsctl.client import Server
from hipsctl.messages import Refused, shown


def add_words(parser):
    exporting.add_removal(parser)
    parser.add_argument("address", metavar="ADDRESS", help="of the server")
    parser.add_argument("folder", metavar="FOLDER", type=Path)


def run(told):
    server = Server(told.address)
    published = survey.keys_of(server.get("properties").body.decode(errors="replace"))
    try:
        order, lowest = int(published["hips_order"]), int(published["hips_order_min"])
        leaves = leaves_of(server.get("Moc.fits").body, order)
    except (KeyError, ValueError, struct.error):
        raise Refused(f"what {told.address} answers is no survey of hipsd", 4) from None
    if not told.dry_run:
        told.folder.mkdir(mode=0o755, exist_ok=True)
    with files.Folder(told.folder) as folder:
        there = exporting.survey_files(folder)
        print(f"{shown(published.get('obs_title', ''))}, hips_order = {order}: {len(leaves):,} leaf tiles are published.")
        change = exporting.Change(there, exporting.wanted(order, lowest, leaves), order)
        change.tell(told)
        change.may_go_on(told, bool(there) and is_another(folder, published))
        if not told.dry_run:
            exporting.done(told.folder, folder, "mirror", told.address)
            with folder.open("properties") as file:
                folder.write("survey.conf", b"".join(line for line in file if not line.startswith(b"survey_leaves = ")))


def is_another(folder, published):
    """Whether a folder's survey has another name or order than what is published."""
    for name in ("survey.conf", "properties"):
        try:
            own = survey.read_keys(folder, name)
        except FileNotFoundError:
            continue
        if any(own.get(key) != published.get(key) for key in ("creator_did", "hips_order")):
            return True
    return False


def leaves_of(data, order):
    """The leaves that a coverage file has."""
    rows = next(int(data[at + 10 : at + 30]) for at in range(2880, 5760, 80) if data[at : at + 8] == b"NAXIS2  ")
    found = set()
    for number in struct.unpack_from(f">{rows}Q", data, 5760):
        at = (number.bit_length() - 3) // 2
        if not 0 <= at <= order:
            raise ValueError
        first = (number - 4 * 4**at) << 2 * (order - at)
        found.update(range(first, first + 4 ** (order - at)))
    return found
