"""What the checks in Python share: every function check_.. of a folder's modules is run, and yields the names of what it has checked."""

import importlib
import os
import subprocess
import sys


class Failed(Exception):
    pass


def expect(holds, *what):
    if not holds:
        raise Failed(" ".join(map(str, what)))


def modules_of(folder):
    return sorted(name[:-3] for name in os.listdir(folder) if name.endswith(".py") and name != "__main__.py")


def checks_of(modules):
    """The functions check_.. that these modules define themselves."""
    for module in map(importlib.import_module, modules):
        for name, part in vars(module).items():
            if name.startswith("check_") and part.__module__ == module.__name__:
                yield part


def status_of(modules, *arguments):
    """Runs the checks, prints a line `ok NAME` for each, and answers the status. At the first that fails there is a message on standard error."""
    try:
        for check in checks_of(modules):
            for name in check(*arguments):
                print("ok", name, flush=True)
    except (Failed, OSError, subprocess.TimeoutExpired) as failure:
        print(f"FAILED: {failure}", file=sys.stderr)
        return 1
    return 0
