"""Checks docs/ARCHITECTURE.md's list of definitions to believe: every file that the outside contracts reach stands on it.

A contract reaches the definitions that it names, and a definition reaches those that it names itself. A name is looked up in
the file's own definitions and in its `use` lines; the code's types (`declared`) and the toolchain's libraries end a way.
"""

import glob
import os
import re

from checking import expect
from files import ROOT, contents, listed_crates

# The outside calls, beside those of crates/nezgrak that are marked #[unsafe(no_mangle)].
CALLS = [
    ("crates/layout/src/layout.rt", "new"),
    ("crates/contraction/src/contraction.rt", "of"),
    ("crates/contraction/src/contraction.rt", "new"),
    ("crates/contraction/src/contraction.rt", "with_c"),
    ("crates/plain/src/call.rt", "contract"),
    ("crates/delay/src/call.rt", "delay"),
    ("crates/tiled/src/call.rt", "run"),
    ("crates/tiled/src/call.rt", "state"),
    ("crates/job/src/run.rt", "run"),
]
# What the theorems say: all definitions of these files.
STATEMENTS = [
    "crates/questions/specs/QuestionsWithoutC.antt",
    "crates/meaning/specs/Demand2.antt",
    "crates/addresses/specs/RunningAddresses.antt",
    "crates/block/specs/Stretches.antt",
    "crates/plain/specs/PlainDemand.antt",
    "crates/plain/specs/PlainWithoutC.antt",
    "crates/scores/specs/GreatestScore.antt",
    "crates/delay/specs/ExactScores.antt",
    "crates/tiles/specs/TileWalk.antt",
    "crates/tiled/specs/Demand3.antt",
    "crates/tiled/specs/EmptyTiles.antt",
    "crates/tiled/specs/TilesWithoutC.antt",
    "crates/states/specs/StateLetters.antt",
    "crates/edges/specs/Pinned.antt",
]
USE = re.compile(r"^(?:ghost )?use Rattle\.(\w+)\.specs\.([\w.]+)\.\{([^}]*)\}", re.M)
START = re.compile(r" *(?:(?:(?:pub|abbrev|unfoldable|record|data) +)+|(?=\S+ : ))([^\s:]+)")
CONSTRUCTORS = re.compile(r" +([^():→]+) : ")
NAME = re.compile(r"(?<![.\w])[^\s(){}\[\];,.:=λ→×]+")


def used_names(text):
    """Each name that the `use` lines bring from a crate, with the file of specs/ that defines it and its name there."""
    names, crates = {}, listed_crates()
    for crate, module, entries in USE.findall(text):
        if crate in crates and not module.startswith("declared."):
            for entry in entries.split(","):
                there, _, here = entry.strip().partition(" as ")
                names[here or there] = (f"crates/{crate}/specs/{module.replace('.', '/')}.antt", there)
    return names


def indent(line):
    return len(line) - len(line.lstrip(" "))


class Definitions:
    """A file of specs/: the text of each definition, for each name of it the definition that has it, and which of these other files can use."""

    def __init__(self, path):
        self.path, self.texts, self.home, self.shared = path, {}, {}, set()
        text = re.sub(r"--.*", "", contents(path))
        self.used = used_names(text)
        around, name = "", None  # the line of the module that it stands in, and the definition
        for line in filter(str.strip, text.split("\n")):
            start, inside = START.match(line), name and indent(line) > depth
            if start and not inside:
                around = around if indent(line) else ""
                name, depth = start[1], indent(line)
                self.home[name], self.texts[name] = name, around
                if "pub" in start[0].split():
                    self.shared.add(name)
            elif line.startswith("module "):
                around, name = line, None
            elif inside and "data " in self.texts[name] and CONSTRUCTORS.match(line):
                self.home.update((constructor, name) for constructor in CONSTRUCTORS.match(line)[1].split())
            if name:
                self.texts[name] += "\n" + line

    def names(self):
        """The names that other files can use, constructors too."""
        return [name for name, home in self.home.items() if home in self.shared]

    def reaches(self, name):
        """The definitions that a definition names: the file of each, and its name there."""
        expect(name in self.home, self.path, "does not define", name)
        known = self.used | {word: (self.path, word) for word in self.home}
        return [known[word] for word in NAME.findall(self.texts[self.home[name]]) if word in known]


def contract_of(path, function):
    """The definitions that a function's contract names."""
    text = contents(path)
    head = re.search(rf"^ *pub (?:extern \"C\" )?fn {function}\(.*?^ *{{$", text, re.M | re.S)
    expect(head and "ensures" in head[0], path, "has no contract of", function)
    used = used_names(text)
    return [used[word] for word in NAME.findall(head[0][head[0].index("ensures") :]) if word in used]


def flat_calls():
    for path in sorted(glob.glob("crates/nezgrak/src/*.rt", root_dir=ROOT)):
        for function in re.findall(r"#\[unsafe\(no_mangle\)\]\npub extern \"C\" fn (\w+)\(", contents(path)):
            yield path, function


def reached_from(names):
    """The files whose definitions are reached, each with the first name that was."""
    files, seen, reached = {}, set(), {}
    while names:
        path, name = names.pop()
        if (path, name) not in seen:
            seen.add((path, name))
            reached.setdefault(path, name)
            if path not in files:
                files[path] = Definitions(path)
            names += files[path].reaches(name)
    return reached


def names_once(files):
    """In what a reader has to believe, a name stands for one thing."""
    places = {}
    for path in files:
        for name in Definitions(path).names():
            places.setdefault(name, []).append(path)
    twice = [f"{name} ({', '.join(paths)})" for name, paths in sorted(places.items()) if len(paths) > 1]
    expect(not twice, "these names are defined twice in the files to believe:", "; ".join(twice))
    yield f"the {len(places)} names of the definitions to believe are defined once each"


def listed():
    """The files on the numbered list; a name alone stands in the folder of the one before it."""
    section = contents("docs/ARCHITECTURE.md").partition("## What to believe\n")[2].partition("\n## ")[0]
    files, folder = [], ""
    for item in re.findall(r"^\d+\. .*(?:\n .*)*", section, re.M):
        for name in re.findall(r"`([\w/]+\.antt)`", item):
            folder = os.path.dirname(name) or folder
            files.append(os.path.join(folder, os.path.basename(name)))
    return files


def check_reading_list():
    flat = list(flat_calls())
    expect(len(flat) >= 7, "crates/nezgrak/src has", len(flat), "functions that are marked #[unsafe(no_mangle)]")
    calls = CALLS + flat
    names = [name for call in calls for name in contract_of(*call)]
    names += [(path, name) for path in STATEMENTS for name in Definitions(path).texts]
    reached, on_list = reached_from(names), listed()
    missing = [f"{path} (for {name})" for path, name in sorted(reached.items()) if path not in on_list]
    expect(not missing, "docs/ARCHITECTURE.md does not list", ", ".join(missing))
    yield f"the reading list has the {len(reached)} files that {len(calls)} calls and {len(STATEMENTS)} statements reach"
    yield from names_once(on_list)
    for path in on_list:
        contents(path)
    yield f"the {len(on_list)} files of the reading list exist"
