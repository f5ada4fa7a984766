"""Tests tools/jobfile.py and the examples with the job program: python3 tests/jobfile PROGRAM

Prints a line `ok NAME` for each check. At the first that fails there is a message on standard error and status 1.
"""

import os
import sys
import tempfile

FOLDER = os.path.dirname(os.path.abspath(__file__))
sys.path.insert(1, os.path.dirname(FOLDER))

from checking import modules_of, status_of  # noqa: E402
from running import Bench  # noqa: E402


def main():
    if len(sys.argv) != 2:
        print("usage: python3 tests/jobfile PROGRAM", file=sys.stderr)
        return 2
    with tempfile.TemporaryDirectory() as folder:
        return status_of(modules_of(FOLDER), Bench(sys.argv[1], folder))


if __name__ == "__main__":
    sys.exit(main())
