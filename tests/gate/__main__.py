"""Checks the repository's own files: python3 tests/gate

Once rt ci has passed: python3 tests/gate refusals <SAID, what it said, and after make archive program python3 tests/gate walks.

Prints a line `ok NAME` for each check. At the first that fails there is a message on standard error and status 1.
"""

import os
import sys

FOLDER = os.path.dirname(os.path.abspath(__file__))
sys.path.insert(1, os.path.dirname(FOLDER))

from checking import modules_of, status_of  # noqa: E402

AFTER = ["refusals", "walks"]  # what needs what rt said or left


def main():
    if len(sys.argv) == 2 and sys.argv[1] in AFTER:
        return status_of(sys.argv[1:])
    if len(sys.argv) == 1:
        return status_of([name for name in modules_of(FOLDER) if name not in AFTER])
    print("usage: python3 tests/gate [refusals | walks]", file=sys.stderr)
    return 2


if __name__ == "__main__":
    sys.exit(main())
