"""Has tools of others, fitsverify and astropy, check the FITS files that this repository writes: one tile file of each depth is printed by
a test of format_tests, and two coverage files by a test of edit_tests, both `prints_files_for_tools_of_others`.
"""

import re

from checks.cases import Case, needs
from checks.servers import TOP


def cover(top, leaves):
    """The cover by its definition: a cell is a row where all leaves under it are there, and not all under its parent."""
    full = {top: set(leaves)}
    for order in range(top - 1, -1, -1):
        below = full[order + 1]
        full[order] = {cell for cell in {leaf // 4 for leaf in below} if all(4 * cell + i in below for i in range(4))}
    return sorted(4 * 4**order + cell for order in full for cell in full[order] if order == 0 or cell // 4 not in full[order - 1])


@needs("rt", "fitsverify", "astropy")
class Fits(Case):
    """What the tests print, as files."""

    def printed(self, crate, kind, *wanted):
        """What a crate's tests print; and the path of each file of a kind, once fitsverify accepts it, by its number."""
        text, _ = self.runs(0, "", "rt", "try", "--test", "--seconds", "900", cwd=TOP / "crates" / crate, within=900)
        files = re.findall(rf"(?m)^\s*{kind}-(\d+) ([0-9a-f]+)$", text.decode())
        self.assertEqual([number for number, _ in files], list(wanted), "the test printed no files")
        paths = {}
        for number, digits in files:
            paths[int(number)] = self.folder / f"{kind}-{number}.fits"
            paths[int(number)].write_bytes(bytes.fromhex(digits))
            self.runs(0, "", "fitsverify", "-q", paths[int(number)])
        return text.decode(), paths

    def test_tiles(self):
        from astropy.io import fits

        for depth, path in self.printed("format_tests", "tile", "8", "16", "32", "64")[1].items():
            with fits.open(path, do_not_scale_image_data=True) as file:
                file.verify("exception")
                header, numbers = file[0].header, file[0].data
                self.assertEqual((len(file), numbers.shape), (1, (2, 2)))
                self.assertEqual([header[name] for name in ("BITPIX", "BLANK", "BSCALE", "BZERO", "ORDER", "NPIX")], [depth, 0, 0.0025, -7.0, 3, 767])
                self.assertEqual(numbers.astype(numbers.dtype.newbyteorder(">")).tobytes(), bytes(range(4 * depth // 8)))

    def test_coverage(self):
        from astropy.io import fits

        text, paths = self.printed("edit_tests", "moc", "4", "6")
        surveys = dict(re.findall(r"(?m)^\s*leaves-(\d+)((?: \d+)*)$", text))
        for top, path in paths.items():
            with fits.open(path) as file:
                file.verify("exception")
                self.assertEqual((len(file), file[0].data), (2, None))
                header, rows = file[1].header, [int(row) for row in file[1].data["UNIQ"]]
                self.assertEqual([header[name] for name in ("PIXTYPE", "ORDERING", "COORDSYS", "MOCORDER")], ["HEALPIX", "NUNIQ", "C", top])
                self.assertEqual(rows, cover(top, map(int, surveys[str(top)].split())))
