"""The files of the repository."""

import os

from checking import Failed

ROOT = os.path.dirname(os.path.dirname(os.path.dirname(os.path.abspath(__file__))))


def contents(path):
    try:
        with open(os.path.join(ROOT, path), encoding="utf-8") as file:
            return file.read()
    except (OSError, UnicodeDecodeError) as error:
        raise Failed(f"{path}: {error}") from None


def crate_lines():
    """The line of crates.txt for each crate."""
    lines = [line.partition("#")[0].strip() for line in contents("crates.txt").split("\n")]
    return {line.replace(":", " ").split()[0]: line for line in lines if line}


def listed_crates():
    return list(crate_lines())


def crates_below(crate):
    """The crates of the repository that a crate uses, directly or by others, and itself."""
    lines, found, left = crate_lines(), set(), [crate]
    while left:
        name = left.pop()
        if name in lines and name not in found:
            found.add(name)
            left += lines[name].partition(":")[2].split()
    return found
