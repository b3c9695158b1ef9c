"""Tests of the package; `python3 -m unittest discover -s python/tests -t python` runs them from the repository."""

import os
import unittest

TOP = os.path.dirname(os.path.dirname(os.path.dirname(os.path.abspath(__file__))))


def built_program():
    """The program to test with: that of HOT_PROGRAM, else the one that `./hot` or `.ci/run` built."""
    program = os.environ.get("HOT_PROGRAM") or os.path.join(TOP, "crates", "hot", "out", "hot")
    return program if os.access(program, os.X_OK) else None


with_program = unittest.skipUnless(built_program(), "the program is not built: ./hot builds it")
