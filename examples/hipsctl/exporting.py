"""Writes every file of a survey into its folder, and removes nothing of value unasked.

What would be written and removed is listed first. Tiles of orders above the leaves are made of these, so they go if the survey hasn't
them. But if leaves would go, or all that is there since it is of another survey or another hips_order, nothing is done without --remove.

What is written belongs to the owner of the folder and has mode 0644; a file that was there keeps its owner and mode.
"""

import contextlib
import os
from collections import Counter
from pathlib import Path

from hipsctl import files, survey
from hipsctl.messages import Refused, listed, say, shown
from hipsctl.program import hipsd

WHOLE = ("properties", "Moc.fits", "Norder3/Allsky.fits")


def add_words(parser):
    add_removal(parser)
    parser.add_argument("folder", metavar="FOLDER", type=Path)


def add_removal(parser):
    which = parser.add_mutually_exclusive_group()
    which.add_argument("--remove", action="store_true", help="what the survey doesn't have goes, leaves too")
    which.add_argument("--dry-run", action="store_true", help="list all that would go and come, and do nothing")


def run(told):
    with files.Folder(told.folder) as folder:
        status, said = verified(told.folder)
        if status == 0:
            print(said.strip())
            return
        described = survey.read_keys(folder, "survey.conf")
        order, lowest = int(described["hips_order"]), int(described.get("hips_order_min", "3"))
        there = survey_files(folder)
        leaves = {tile[1] for tile in map(survey.tile_of, there) if tile and tile[0] == order}
        print(f"hips_order = {order}: {len(leaves):,} leaf tiles are there. Files that differ are written again, leaf tiles too.")
        change = Change(there, wanted(order, lowest, leaves), order)
        change.tell(told)
        of_another = not leaves and bool(change.go)
        if of_another and change.deepest >= 3:
            say(f"with hips_order = {change.deepest} in survey.conf the tiles of order {change.deepest} would be the leaves")
        change.may_go_on(told, of_another)
        if not told.dry_run:
            done(told.folder, folder, "export")


def verified(place):
    """What `hipsd verify` says of a folder; anything but that files differ is a refusal."""
    status, said = hipsd(place, "verify")
    if status not in (0, 9):
        raise Refused(f"nothing is exported, since hipsd verify ends with status {status}: {shown(said.strip())}", 4)
    return status, said


def survey_files(folder):
    """The files below a folder at paths that a survey's files have, and what the system says of each."""
    return {path: status for path, status in folder.entries() if path in WHOLE or survey.tile_of(path)}


def wanted(order, lowest, leaves):
    """The paths of all files of a survey with these leaves."""
    found = {"properties", "Moc.fits"} | ({"Norder3/Allsky.fits"} if leaves else set())
    cells = set(leaves)
    for at in range(order, lowest - 1, -1):
        found.update(survey.tile_path(at, cell) for cell in cells)
        cells = {cell >> 2 for cell in cells}
    return found


class Change:
    """What goes and comes where a folder gets the files of a survey."""

    def __init__(self, there, those, order):
        self.go, self.come, self.order = sorted(set(there) - those), sorted(those - set(there)), order
        self.deepest = max((tile[0] for tile in map(survey.tile_of, self.go) if tile), default=0)

    def tell(self, told):
        for what, paths in (("come", self.come), ("go", self.go)):
            if paths:
                print(f"    would {what}:" if told.dry_run else f"    {what if told.remove or what == 'come' else 'would go'}:")
            kinds = Counter(f"tiles of order {survey.tile_of(path)[0]}" if survey.tile_of(path) else path for path in paths)
            for kind, count in sorted(kinds.items(), key=lambda one: (one[0].rstrip("0123456789"), len(one[0]), one[0])):
                print(f"        {kind}: {count:,}")
        if told.dry_run and self.go:
            print("    would go:", *map(shown, self.go), sep="\n        ")

    def may_go_on(self, told, of_another):
        """Refuses to remove leaves, or another survey."""
        lost = [path for path in self.go if of_another or (survey.tile_of(path) or (0,))[0] >= self.order]
        if lost and not told.remove and not told.dry_run:
            raise Refused("nothing is written or removed; with --remove these files go:\n    " + listed([shown(path) for path in lost]))


def done(place, folder, *words):
    """Has hipsd write into the folder; each file keeps its owner and mode, and what is new belongs to the folder's owner."""
    before = dict(folder.below())
    status, said = hipsd(place, *words)
    for path, now in folder.below():
        was = before.get(path)
        if (path in WHOLE or path.startswith("Norder")) and not (was and os.path.samestat(was, now)):
            with contextlib.suppress(OSError):
                folder.keep(path, was)
    if status:
        raise Refused(f"hipsd {words[0]} ends with status {status}: {shown(said.strip())}", 4)
    print(said.strip() or f"{shown(place)} is a copy of what is published")
