"""Why each must-fail edit was refused, by what rt ci said of it: python3 tests/gate refusals <SAID. A fact must fail. That the proofs no longer fit the code is no reason.

rt ci has a line for each edit: the first thing that its check found and that is more than a name that the edit took away, cut off after 160 characters. A wrong
rule has to be refused by a case that quotes the rule. Where that line tells of something else, or of a proof that is left with a gap, the crate is checked once
more with the edit, in a copy, and all that the check says is read.
"""

import os
import re
import shutil
import subprocess
import sys
import tempfile

from checking import Failed
from edits import edited, edits
from files import ROOT, contents, crate_lines, crates_below

SAID = re.compile(r"^rt: must-fail (\w+)/(\w+)\.edit: (.*)$", re.M)
REFUSED = "refused, as it must be: "
# An error: its file, the declaration that it is about, what it says, and the lines in which that goes on.
ERROR = re.compile(r"^(?:\./)?(\S+?):\d+:\d+: error: (?:`([^`]*)`: )?(.*(?:\n  .*)*)", re.M)
# What only follows from another error, and a gap, of which nothing is said but that it is there.
FOLLOWS = re.compile(r"`[^`]*` was not admitted|\d+ declarations? that depends? on ")
GAP = re.compile(r"`[^`]*` is not admitted: unsolved")
# A line that is cut off before it says whether a name is gone.
CUT = re.compile(r"(?:`[^`]*`: )?(?:record|module) `[^`]*$|`[^`]*$")
# What is said of a proof that was written for other code: names that are gone, terms where something else belongs.
MISFIT = re.compile(
    r"(?:`[^`]*`: )?(?:"
    r"record `[^`]*`\s+has no field"
    r"|module `[^`]*`\s+has no"
    r"|`[^`]*` is (?:not in scope|not a constructor|declared but not defined)"
    r"|a dimension .*is expected"
    r"|this (?:clause|is applied to) )"
)
# The proofs of cases that quote the rules.
CASES = re.compile(r"proofs/\w+Cases\.antt$")
# What is said of a function whose proof the toolchain makes by itself.
UNPROVED = re.compile(r"note: (?:\./)?src/\S+: it is not proved that ")


def is_misfit(path, declaration, message):
    """Beside what is said: no proof, no declaration (it does not parse, or what it uses is gone), or the list of what a function's proof needs."""
    return not path.startswith("proofs/") or not declaration or declaration.endswith("_spec") or MISFIT.match(message)


def flaw(crate, name, said):
    """What is wrong with the reason for which an edit was refused, if anything is."""
    if not said.startswith(REFUSED):
        return said or "rt ci said nothing of it"
    reason = said.removeprefix(REFUSED)
    error = ERROR.match(reason)
    has_gap = error and (GAP.match(error[3]) or CUT.match(error[3]))
    if error and not has_gap and is_misfit(*error.groups()):
        return f"the proofs no longer fit: {reason}"
    if not error and not UNPROVED.match(reason):
        return f"no error shows a fact that fails: {reason}"
    of_rule = changes_rule(crate, name)
    if not has_gap and not (of_rule and not (error and CASES.match(error[1]))):
        return None
    facts = facts_that_fail(crate, name)
    if of_rule and not any(CASES.match(path) for path in facts):
        return "it changes a definition and its code, and no case that quotes the rule refuses it"
    return None if facts else f"no error shows a fact that fails: {reason}"


def changes_rule(crate, name):
    """A wrong rule is put into the definition and the code together: the functions still meet their contracts."""
    return "\nfile: specs/" in contents(f"crates/{crate}/must-fail/{name}.edit")


def facts_that_fail(crate, name):
    """The files of proofs/ with a fact that fails, by all that a check of the crate with this edit says."""
    lines, below = crate_lines(), crates_below(crate)
    with tempfile.TemporaryDirectory(prefix="nezgrak-edit-") as room:
        for it in below:
            for part in "src", "specs", "proofs":
                if os.path.isdir(there := os.path.join(ROOT, "crates", it, part)):
                    shutil.copytree(there, os.path.join(room, "crates", it, part))
        for path, text in {**edited(crate, name), "crates.txt": "".join(f"{lines[it]}\n" for it in sorted(below))}.items():
            with open(os.path.join(room, path), "w", encoding="utf-8") as file:
                file.write(text)
        how = {"stdin": subprocess.DEVNULL, "stdout": subprocess.PIPE, "stderr": subprocess.STDOUT, "encoding": "utf-8", "errors": "replace"}
        ended = subprocess.run(["rt", "check"], cwd=os.path.join(room, "crates", crate), check=False, **how)
    errors = [error for error in ERROR.findall(ended.stdout) if not FOLLOWS.match(error[2])] if ended.returncode == 1 else []
    return [path for path, *more in errors if not is_misfit(path, *more)]


def check_refusals():
    said = {(crate, name): what for crate, name, what in SAID.findall(sys.stdin.read())}
    tried = list(edits())
    flaws = [f"{crate}/{name}: {what}" for crate, name in tried if (what := flaw(crate, name, said.get((crate, name), "")))]
    if flaws:
        raise Failed(f"{len(flaws)} must-fail edits are not refused by a fact:\n" + "\n".join(flaws))
    for crate, name in tried:
        yield f"{crate}/{name}: refused by a fact"
