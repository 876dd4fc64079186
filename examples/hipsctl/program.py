"""hipsd, which HIPSD_PROGRAM names or the path has."""

import os
import shutil
import subprocess

from hipsctl.messages import Refused, shown


def path_of_hipsd():
    name = os.environ.get("HIPSD_PROGRAM", "hipsd")
    program = shutil.which(name)
    if not program:
        raise Refused(f"there is no program {shown(name)}: HIPSD_PROGRAM may name it")
    return os.path.realpath(program)


def hipsd(folder, *words, data=None, **more):
    """Runs it in a folder, and returns its status and its standard output; its log goes to standard error."""
    known = {"HIPSD_LOG": "warn", **os.environ}
    done = subprocess.run([path_of_hipsd(), *map(str, words)], cwd=folder, input=data, stdout=subprocess.PIPE, env=known, **more)
    return done.returncode, done.stdout.decode()
