"""The must-fail edits as files: rt passes over what it does not know, so that a file in the wrong place is tried by nobody. An edit that it cannot apply is bad
to it, and counts for nothing."""

import os
import re

from checking import expect
from files import ROOT, contents, listed_crates

# What it is about, which rt does not read, then the file and each text in it with what stands there instead.
EDIT = re.compile(r"(?!file: |old: |new:).+\.\n(?:file: .+\n(?:old: .+\nnew:.*(?:\n|$))+)+")


def edit_files():
    """Every file that is called an edit or stands below a folder must-fail, whichever folder that is."""
    for folder, folders, names in os.walk(ROOT):
        folders[:] = sorted(name for name in folders if name not in (".git", "target", "out"))
        folder = os.path.relpath(folder, ROOT)
        for name in sorted(names):
            if re.search(r"\.edits?\b", name) or "must-fail" in folder.split(os.sep):
                yield os.path.join(folder, name)


def edits():
    """The crate and the name of each edit."""
    crates = listed_crates()
    for path in edit_files():
        found = re.fullmatch(r"crates/(\w+)/must-fail/(\w+)\.edit", path)
        expect(found and found[1] in crates, f"{path} is not crates/NAME/must-fail/EDIT.edit of a listed crate: nothing tries it")
        yield found[1], found[2]


def edited(crate, name):
    """The crate's files that an edit changes, each with its text then. A later pair applies to what the earlier ones made."""
    edit, texts, path = f"crates/{crate}/must-fail/{name}.edit", {}, None
    for line in contents(edit).split("\n"):
        if line.startswith("file: "):
            path = f"crates/{crate}/{line[6:].strip()}"
            texts.setdefault(path, contents(path))
        elif line.startswith("old: "):
            old = line[5:]
            times = texts[path].count(old)
            expect(times == 1, f"{edit}: in {path} this stands {times} times, and not once:", old)
        elif line.startswith("new:"):
            texts[path] = texts[path].replace(old, line[4:].removeprefix(" "))
    return texts


def check_edits():
    count = 0
    for crate, name in edits():
        path = f"crates/{crate}/must-fail/{name}.edit"
        expect(EDIT.fullmatch(contents(path)), path, "is not one sentence and then file, old and new lines")
        count += 1
    yield f"{count} must-fail edits stand where they are tried and say what they do"


def check_edits_apply():
    texts = 0
    for crate, name in edits():
        changed = edited(crate, name)
        expect(any(text != contents(path) for path, text in changed.items()), f"{crate}/{name} changes nothing")
        texts += len(changed)
    yield f"what the must-fail edits change stands once each, in {texts} files"
