"""What the documents say of the crates is there: the files that they name, the must-fail edits, how many edits there are and which of them are wrong rules."""

import glob
import os
import re

from checking import expect
from edits import edits
from files import ROOT, contents
from refusals import changes_rule

PATH = re.compile(r"\bcrates/[\w/.*-]*[\w*/]")
EDIT = re.compile(r"(?:(\w+)/)?(\w+)")


def documents():
    return ["README.md", *sorted(glob.glob("docs/**/*.md", root_dir=ROOT, recursive=True))]


def check_paths():
    count = 0
    for document in documents():
        for path in PATH.findall(contents(document)):
            if "CRATE" not in path:
                expect(glob.glob(path, root_dir=ROOT), document, "names", path, "which is not there")
                count += 1
    expect(count, "no document names a file of crates/")
    yield f"the {count} files of crates/ that the documents name exist"


def named_edits(text, heads=".*"):
    """The edits in the last column of the tables whose last column is called edit; a name without a crate has that of the one before."""
    for table in re.findall(rf"^\|{heads} edit \|\n\|[-|]+\|\n((?:\|.*\n)+)", text, re.M):
        crate = None
        for row in table.splitlines():
            for crate_here, name in EDIT.findall(row.rstrip(" |").rpartition("| ")[2].replace("*", "")):
                crate = crate_here or crate
                yield crate, name


def difference(one, other):
    return ", ".join(f"{crate}/{name}" for crate, name in sorted(set(one) - set(other)))


def check_named_edits():
    there, named = set(edits()), list(named_edits(contents("docs/DECISIONS.md")))
    expect(named and there.issuperset(named), "docs/DECISIONS.md names edits that are not there:", difference(named, there))
    yield f"the {len(named)} must-fail edits that docs/DECISIONS.md names exist"
    said = re.search(r"(\d+) small wrong changes", contents("README.md"))
    expect(said and int(said[1]) == len(there), "README.md does not say that there are", len(there), "must-fail edits")
    yield f"README.md: {len(there)} must-fail edits"


def check_wrong_rules():
    """An edit of a definition is a wrong rule, and stands in the table of these."""
    there = {edit for edit in edits() if changes_rule(*edit)}
    named = set(named_edits(contents("docs/DECISIONS.md"), r" wrong rule \|.*"))
    expect(there <= named, "docs/DECISIONS.md has no wrong rule for", difference(there, named))
    expect(named <= there, "docs/DECISIONS.md has wrong rules whose edits change no definition:", difference(named, there))
    said = re.search(r"^(\d+) of them put a wrong rule", contents("README.md"), re.M)
    expect(said and int(said[1]) == len(there), "README.md does not say that", len(there), "must-fail edits put a wrong rule into a definition")
    yield f"README.md and docs/DECISIONS.md: {len(there)} wrong rules"
