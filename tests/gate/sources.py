"""The sources as a reader meets them: no long lines in code and definitions, file names that tell crates apart, folders that can be taken in."""

import glob
import os

from checking import expect
from files import ROOT, contents

WIDTH = 160  # characters of a line
SHARED = 12  # files of shared proofs in a folder
# What every crate has, and the call of an engine, which is the same thing in each engine.
EVERYWHERE = {"lib.rt", "Lib.antt", "call.rt"}


def sources(pattern):
    return sorted(glob.glob(pattern, root_dir=ROOT, recursive=True))


def check_lines():
    paths = sources("crates/*/src/*.rt") + sources("crates/*/specs/*.antt")
    long = [f"{path}:{at}" for path in paths for at, line in enumerate(contents(path).split("\n"), 1) if len(line) > WIDTH]
    expect(not long, "lines of more than", WIDTH, "characters:", ", ".join(long))
    yield f"the lines of {len(paths)} files of code and definitions have at most {WIDTH} characters"


def check_names():
    homes = {}
    for path in sources("crates/*/src/*.rt") + sources("crates/*/specs/*.antt") + sources("crates/*/proofs/*.antt"):
        homes.setdefault(os.path.basename(path), set()).add(path.split(os.sep)[1])
    shared = [f"{name} ({', '.join(sorted(crates))})" for name, crates in sorted(homes.items()) if len(crates) > 1 and name not in EVERYWHERE]
    expect(not shared, "crates have files of one name:", "; ".join(shared))
    yield f"{len(homes)} file names, no two crates with one"


def check_folders():
    folders = {}
    for path in sources("crates/*/proofs/*.antt"):
        folders.setdefault(os.path.dirname(path), set()).add(path)
    full = [f"{folder} ({len(paths) - 1})" for folder, paths in folders.items() if len(paths) - 1 > SHARED]
    expect(not full, "more than", SHARED, "shared proof files in", ", ".join(full))
    yield f"{len(folders)} folders with at most {SHARED} files of shared proofs"
