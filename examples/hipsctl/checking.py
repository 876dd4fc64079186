"""Looks through a survey folder before it is served, and lists all that is wrong with it.

It judges survey.conf and each leaf tile as hipsd does, names keys that look like others misspelt, tiles that aren't read, and what the
service's user can't read, and says how many edits are left.
"""

import difflib
import grp
import os
import pwd
import re
import stat
from pathlib import Path

from hipsctl import files, hipsgen, survey
from hipsctl.headers import REAL, real, value_of
from hipsctl.messages import Refused, shown
from hipsctl.survey import DEPTHS, MOST_EDITS, ORDERS, WIDTHS, Size

REQUIRED = ("creator_did", "obs_title", "hips_release_date", "hips_status", "hips_order", "survey_bitpix", "survey_blank")
WHOLE = re.compile("[+-]?[0-9]{1,19}")
VALUES = {
    "hips_order": ORDERS, "hips_order_min": range(4), "hips_tile_width": WIDTHS, "survey_bitpix": DEPTHS, "survey_version": (1, 2), "survey_rule": ("mean", "median"),
    "dataproduct_type": ("image",), "hips_version": ("1.4",), "hips_frame": ("equatorial",), "hips_tile_format": ("fits",),
}
# What HiPS 1.0 knows besides (section 4.4.1), and what this project reads.
KNOWN = {*REQUIRED, *VALUES, "survey_bscale", "survey_bzero"} | set("""
addendum_did bib_reference bib_reference_url client_application client_category client_sort_key dataproduct_subtype data_bunit em_max em_min
hips_body hips_builder hips_copyright hips_creation_date hips_creator hips_data_range hips_doi hips_estsize hips_hierarchy hips_initial_dec
hips_initial_fov hips_initial_ra hips_master_url hips_nb_tiles hips_overlay hips_pixel_bitpix hips_pixel_cut hips_pixel_scale hips_progenitor_url
hips_sampling hips_service_url hips_skyval moc_access_url moc_order moc_sky_fraction obs_ack obs_collection obs_copyright obs_copyright_url
obs_description obs_initial_dec obs_initial_fov obs_initial_ra obs_regime prov_progenitor publisher_did publisher_id s_pixel_scale t_max t_min
""".split())
MOST_COPIED = 65_000
LIKE = 0.85


def add_words(parser):
    parser.add_argument("--user", default="hipsd", metavar="NAME", help="of the service, hipsd if not said")
    parser.add_argument("folder", metavar="FOLDER", type=Path)


def run(told):
    faults, notes = [], []
    with files.Folder(told.folder) as folder:
        found = description(folder, faults, notes)
        if not faults:
            tiles(folder, found, faults, notes)
        if told.folder.is_symlink():
            told.folder = Path(os.path.realpath(told.folder))
        readable(told, folder, faults, notes)
    for kind, texts in (("fault", faults), ("note", notes)):
        for text in texts[:20]:
            print(f"{kind}: {text}")
        if len(texts) > 20:
            print(f"{kind}: and {len(texts) - 20:,} more")
    return 1 if faults else 0


def description(folder, faults, notes):
    """The keys of survey.conf."""
    try:
        with folder.open("survey.conf") as file:
            data = files.unpacked(file, "survey.conf", 2**20).getvalue()
    except FileNotFoundError:
        raise Refused("there is no survey.conf") from None
    found = {}
    for number, line in enumerate(data.split(b"\n"), 1):
        line = line.removesuffix(b"\r").strip(b" \t")
        if not line or line.startswith(b"#"):
            continue
        name, equals, value = (part.strip(b" \t") for part in line.partition(b"="))
        key, text = shown(name), value.decode(errors="surrogateescape")
        if not (equals and re.fullmatch(rb"[a-z][a-z0-9_]{0,63}", name) and 1 <= len(value) <= 1024 and all(byte >= 32 and byte != 127 for byte in value)):
            faults.append(f"survey.conf: line {number} is no 'key = value' of small letters, digits and _: {shown(line)}")
            continue
        if key in found:
            faults.append(f"survey.conf: line {number}: {key} is there twice")
        found.setdefault(key, text)
        fault = fault_of(key, text)
        if fault:
            faults.append(f"survey.conf: line {number}, {key} = {shown(text)}: {fault}")
        similar = [] if re.sub("_[0-9]+$", "", key) in KNOWN or key.startswith("survey_") and fault else difflib.get_close_matches(key, KNOWN, 1, LIKE)
        if similar:
            notes.append(f"survey.conf: line {number}: nobody reads {key}, which looks like {similar[0]}")
    faults += [f"survey.conf: {key} is missing" for key in REQUIRED if key not in found]
    if "survey_rule" in found and found.get("survey_version", "1") == "1":
        faults.append("survey.conf: survey_rule needs survey_version = 2")
    if not faults:
        depth, blank = int(found["survey_bitpix"]), int(found["survey_blank"])
        low, high = (0, 255) if depth == 8 else (-(2 ** (depth - 1)), 2 ** (depth - 1) - 1)
        if not low <= blank <= high:
            faults.append(f"survey.conf: survey_blank = {blank} is no number of {depth} bits, {low} to {high}")
    return found


def fault_of(key, text):
    """What is wrong with a value, if anything."""
    if key in VALUES:
        of_numbers = not isinstance(VALUES[key][0], str)
        if not (WHOLE.fullmatch(text) and int(text) in VALUES[key] if of_numbers else text in VALUES[key]):
            return "it must be " + (f"{VALUES[key][0]} to {VALUES[key][-1]}" if isinstance(VALUES[key], range) else " or ".join(map(str, VALUES[key])))
    elif key in ("survey_bscale", "survey_bzero"):
        if not REAL.fullmatch(text) or key == "survey_bscale" and not real(text, key):
            return "it must be a number" + (" other than 0" if key == "survey_bscale" else "")
    elif key == "survey_blank":
        return None if WHOLE.fullmatch(text) else "it must be a whole number"
    elif key.startswith("survey_"):
        similar = difflib.get_close_matches(key, KNOWN, 1, 0.5)
        return "there is no such key" + (f": is it {similar[0]}?" if similar else "")
    return None


def tiles(folder, found, faults, notes):
    """Whether the leaves fit, and which tiles aren't read."""
    order, size = int(found["hips_order"]), Size(int(found.get("hips_tile_width", "512")), int(found["survey_bitpix"]))
    leaves, deeper, odd = [], {}, []
    for path, status in sorted(folder.entries()):
        tile = survey.tile_of(path)
        if stat.S_ISLNK(status.st_mode) and not stat.S_ISREG(status_at(folder, path)) and path.startswith("Norder"):
            faults.append(f"{shown(path)} is a link to a folder, or to nothing: hipsd doesn't start")
        elif tile and tile[0] == order:
            leaves.append((path, status))
        elif tile and tile[0] > order:
            deeper.setdefault(tile[0], []).append(path)
        elif not tile and re.search(r"(^|/)Npix[^/]*\.fits", path) and path.startswith("Norder"):
            odd.append(path)
    for path, status in leaves:
        fault = leaf_fault(folder, path, status, size, found)
        if fault:
            faults.append(fault)
    left = size.room - len(leaves)
    if left < 0:
        faults.append(f"{len(leaves):,} leaf tiles of {size} are more than the {size.room:,} that fit")
    else:
        notes.append(f"{len(leaves):,} leaf tiles of order {order}, {size}: {min(left, MOST_EDITS):,} edits are left")
    if len(leaves) > MOST_COPIED:
        notes.append(f"more than {MOST_COPIED:,} leaves can't be copied or renewed")
    for other, paths in sorted(deeper.items()):
        hint = f"; with hips_order = {other} they would be the leaves" if not leaves else ""
        notes.append(f"{len(paths):,} tiles are of order {other}: they aren't read, and export removes them{hint}")
    if odd:
        notes.append(f"{len(odd):,} files look like tiles and are none, as {shown(odd[0])}")
    if not leaves:
        notes.append("there is no leaf tile")


def status_at(folder, path):
    try:
        return os.stat(path, dir_fd=folder.number).st_mode
    except OSError:
        return 0


def leaf_fault(folder, path, status, size, found):
    """What hipsd refuses a leaf for."""
    if stat.S_ISLNK(status.st_mode):
        return None
    try:
        tile = hipsgen.tile_at(folder, path)
    except (Refused, OSError) as fault:
        return str(fault)
    blank = value_of(tile.cards, "BLANK")
    if blank is not None and not WHOLE.fullmatch(blank):
        return f"{path}: BLANK is {blank}, which is no whole number: hipsctl import mends what HipsGen wrote"
    first = hipsgen.Tile(size, found.get("survey_bscale"), found.get("survey_bzero"), int(found["survey_blank"]), [], b"")
    fault = tile.differs(first)
    return f"{path}: {fault.replace('in the first tile', 'in survey.conf').replace('the first tile', 'survey.conf')}" if fault else None


def readable(told, folder, faults, notes):
    """What the service's user can't read."""
    try:
        user = pwd.getpwnam(told.user)
        groups = {user.pw_gid, *(group.gr_gid for group in grp.getgrall() if told.user in group.gr_mem)}
        number, who = user.pw_uid, f"the user {told.user}"
    except KeyError:
        number, groups, who = -1, set(), "others"
        notes.append(f"there is no user {shown(told.user)} here: what others can't read is named")

    def may(status, bits):
        shift = 6 if status.st_uid == number else 3 if status.st_gid in groups else 0
        return number == 0 or (status.st_mode >> shift) & bits == bits

    above = told.folder.absolute()
    for parent in reversed(above.parents):
        if not may(parent.stat(), 1):
            faults.append(f"{who} can't enter {shown(parent)} (mode {stat.filemode(parent.stat().st_mode)})")
    closed = [] if may(folder.status, 5) else [(".", folder.status)]
    for path, status in folder.below():
        relevant = path == "survey.conf" or path.startswith("Norder")
        if relevant and not stat.S_ISLNK(status.st_mode) and not may(status, 5 if stat.S_ISDIR(status.st_mode) else 4):
            closed.append((path, status))
    if closed:
        path, status = closed[0]
        faults.append(f"{who} can't read {len(closed):,} files or folders, as {shown(path)} ({stat.filemode(status.st_mode)}, user {status.st_uid}): "
                      "sudo chmod -R a+rX FOLDER")
