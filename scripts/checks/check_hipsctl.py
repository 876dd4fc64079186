"""Runs the tests that stand beside hipsctl."""

import sys

from checks.servers import EXAMPLES

sys.path.insert(0, str(EXAMPLES))


def load_tests(loader, *_):
    return loader.discover(str(EXAMPLES / "hipsctl/tests"), top_level_dir=str(EXAMPLES))
