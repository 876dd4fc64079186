"""Files and folders, opened so that nobody else decides what is read or written.

Below a Folder no link is followed, whoever changes the folder meanwhile. Only regular files are read. What is written has mode 0644,
or 0755 if it is a folder, and within a folder of another user that user owns it.
"""

import bz2
import errno
import gzip
import io
import lzma
import os
import secrets
import shutil
import stat
import zlib

from hipsctl.messages import Refused, shown

PACKED = {b"\x1f\x8b": gzip.open, b"BZ": bz2.open, b"\xfd7": lzma.open}


def open_file(path, above=None):
    """A regular file to read; below a folder that is open, it is no link."""
    link = 0 if above is None else os.O_NOFOLLOW
    file = open(os.open(path, os.O_RDONLY | os.O_NONBLOCK | os.O_CLOEXEC | link, dir_fd=above), "rb")
    if stat.S_ISREG(os.fstat(file.fileno()).st_mode):
        return file
    file.close()
    raise Refused(f"{shown(path)} is no regular file")


def unpacked(file, path, most):
    """The bytes of a file, at most so many, unpacked if it is packed."""
    opener = PACKED.get(file.peek(2)[:2])
    kept = io.BytesIO()
    try:
        with opener(file) if opener else file as source:
            while part := source.read(min(2**20, most + 1 - kept.tell())):
                kept.write(part)
                if kept.tell() > most:
                    raise Refused(f"{shown(path)} {'unpacks to' if opener else 'has'} more than {most:,} bytes")
    except (EOFError, gzip.BadGzipFile, zlib.error, lzma.LZMAError) as fault:
        raise Refused(f"{shown(path)} isn't packed whole: {fault}") from None
    return kept


class Folder:
    """An open folder."""

    def __init__(self, path, above=None):
        link = 0 if above is None else os.O_NOFOLLOW
        self.number = os.open(path, os.O_RDONLY | os.O_DIRECTORY | os.O_CLOEXEC | link, dir_fd=above)
        self.status = os.fstat(self.number)

    def __enter__(self):
        return self

    def __exit__(self, *_):
        self.close()

    def close(self):
        os.close(self.number)

    def folder(self, path, make=False):
        """A folder below this one; what is missing of it is made on request."""
        name, _, rest = path.partition("/")
        if make:
            try:
                os.mkdir(name, 0o755, dir_fd=self.number)
                self.own(name)
            except FileExistsError:
                pass
        try:
            below = Folder(name, self.number)
        except OSError as fault:
            raise Refused(f"{shown(name)} is a link, or no folder") if fault.errno in (errno.ELOOP, errno.ENOTDIR) else fault
        if not rest:
            return below
        with below:
            return below.folder(rest, make)

    def within(self, path, make=False):
        """The folder of a path below this one, and the last name."""
        above, _, name = path.rpartition("/")
        return self.folder(above, make) if above else Folder(".", self.number), name

    def open(self, path):
        """A regular file below this folder, to read."""
        above, name = self.within(path)
        with above:
            try:
                return open_file(name, above.number)
            except OSError as fault:
                raise Refused(f"{shown(path)} is a link") if fault.errno == errno.ELOOP else fault

    def own(self, name):
        """What was made here by root belongs to the owner of the folder."""
        if os.geteuid() == 0:
            os.chown(name, self.status.st_uid, self.status.st_gid, dir_fd=self.number, follow_symlinks=False)

    def write(self, path, data):
        """Writes a file below this folder as a whole."""
        above, name = self.within(path, make=True)
        with above:
            unfinished = f".unfinished.{secrets.token_hex(8)}"
            flags = os.O_WRONLY | os.O_CREAT | os.O_EXCL | os.O_NOFOLLOW | os.O_CLOEXEC
            try:
                with open(os.open(unfinished, flags, 0o644, dir_fd=above.number), "wb") as file:
                    file.write(data)
                above.own(unfinished)
                os.rename(unfinished, name, src_dir_fd=above.number, dst_dir_fd=above.number)
            except BaseException:
                above.remove(unfinished)
                raise

    def remove(self, name):
        """Removes what is in this folder, if it is there."""
        try:
            os.unlink(name, dir_fd=self.number)
        except FileNotFoundError:
            pass
        except IsADirectoryError:
            shutil.rmtree(name, dir_fd=self.number)

    def move(self, path, folder):
        """Moves a file below this folder to the same path below another one, whose folders are there."""
        (here, name), (there, _) = self.within(path), folder.within(path)
        with here, there:
            os.rename(name, name, src_dir_fd=here.number, dst_dir_fd=there.number)

    def below(self):
        """The paths of all that is below this folder, and what the system says of each; no link is followed."""
        for above, folders, names, number in os.fwalk(".", dir_fd=self.number):
            for name in folders + names:
                yield os.path.join(above, name)[2:], os.stat(name, dir_fd=number, follow_symlinks=False)

    def entries(self):
        """What of it is no folder."""
        return ((path, status) for path, status in self.below() if not stat.S_ISDIR(status.st_mode))

    def files(self):
        """The regular files."""
        return ((path, status) for path, status in self.below() if stat.S_ISREG(status.st_mode))

    def keep(self, path, was):
        """Gives what this process made below this folder the owner and the mode of what was there, if anything was."""
        above, name = self.within(path)
        with above:
            file = os.open(name, os.O_RDONLY | os.O_NOFOLLOW | os.O_NONBLOCK | os.O_CLOEXEC, dir_fd=above.number)
        try:
            now, old = os.fstat(file), was and stat.S_ISREG(was.st_mode)
            if now.st_uid != os.geteuid() or stat.S_ISREG(now.st_mode) and now.st_nlink > 1:
                return
            if stat.S_ISREG(now.st_mode):
                os.fchmod(file, stat.S_IMODE(was.st_mode) & 0o777 if old else 0o644)
            if os.geteuid() == 0:
                owner = was if old else self.status
                os.fchown(file, owner.st_uid, owner.st_gid)
        finally:
            os.close(file)
