#!/usr/bin/env python3
"""Brings the repository's own definitions, lemmas, fields and constructors to snake case, once, after port.py.

usage: python3 tools/port_names.py [--list]        at the top of the repository

A name that a file of specs/ or proofs/ declares and that has a dash or begins in lower case and has a capital (front-none, labelsIn) is written in snake case
(front_none, labels_in) wherever it stands as a whole word: in specs/, proofs/ and the ghost text of src/. Goals and steps that Rattle names, functions of src/,
and strings keep their names. --list prints the names and changes nothing. A second run changes nothing.
"""

import glob
import os
import re
import sys

# Words of a name that are not its own in snake case.
SPECIAL = {"eqℤ→eq": "eq_ℤ→eq", "eqℤ": "eq_ℤ", "sumℤ": "sum_ℤ", "get_d_tabulate": "get_or_tabulate", "get_d_front": "get_or_front", "getD-firstOf": "get_or_first_of", "getD-numbers": "get_or_numbers"}
# Lemmas and fields that would meet a definition (or, bit_and and bit_or, the library's): a lemma with its function's name gets _lem.
APART = {
    it: it.replace("-", "_") + "_lem"
    for it in """answer-text as-label at-end called-with column-copied column-stored cross-sum delay-refused in-set in-run in-side job-text letter-in letters-same
    of-each panel-width place-in plan-cut points-fit refused-text report-text row-place rows-added side-packed signed-address tile-sum bit-and bit-or""".split()
}
APART |= {"eight-letters": "eight_letters_fit", "of-d": "of_own_d", "of-tiles": "of_tile_questions", "with-c": "with_a_c", "placeOut": "place_of_output", "nextPlace": "place_after"}
# The same of the unfinished crates for fixed point.
APART |= {it: it.replace("-", "_") + "_lem" for it in "column-scored done-sum fixed-answers greatest-entry least-entry lone-small score-by sum-by tile-terms word-by".split()}
APART |= {"of-b": "of_b_case", "too-high": "too_high_case", "too-low": "too_low_case", "withoutC": "with_no_c", "sumBy": "sum_of_by"}

WORD = re.compile(r"[^\s(){}.;,@\"«»\[\]\\]+")
DECLARED = re.compile(r"\s*(?:(?:pub|abbrev|unfoldable) )*([^\s(){}.;,@\"«»\[\]\\:=λ|]+) :(?:\s|$)(.*)")
CAMEL = re.compile(r"[a-z][^\s-]*[A-Z]")


def read(path):
    with open(path, encoding="utf-8", newline="") as it:
        return it.read()


def antt_files():
    found = []
    for folder in "specs", "proofs":
        found += glob.glob(f"crates/*/{folder}/**/*.antt", recursive=True)
    return sorted(found)


def rt_files():
    return sorted(glob.glob("crates/*/src/**/*.rt", recursive=True))


def snake(name):
    if name in SPECIAL:
        return SPECIAL[name]
    if name in APART:
        return APART[name]
    parts = re.sub(r"([a-z0-9])([A-Z]+)", lambda m: m[1] + "_" + (m[2].lower() if len(m[2]) == 1 or name[0].islower() else m[2]), name) if CAMEL.match(name) else name
    return re.sub(r"[-·]", "_", parts).replace("′", "'")


def wanted(name):
    return name in SPECIAL or ("-" in name.strip("-") and not name.startswith("◌")) or bool(CAMEL.match(name))


def declared():
    """The names that are declared, without those that are only answers to goals."""
    names = {}
    for path in antt_files():
        for line in read(path).split("\n"):
            line = line.split(" -- ")[0]
            found = DECLARED.match(line)
            if found and not found[2].startswith(("tie.", "goal.")) and not line.lstrip().startswith("--"):
                names.setdefault(found[1], set()).add(path)
    return names


def imported():
    """The names that come from the library."""
    names = set()
    for path in antt_files() + rt_files():
        for module, them in re.findall(r"use ([A-Za-z][\w.]*?)\.\{([^}]*)\}", read(path)):
            own = re.match(r"Rattle\.(\w+)", module)
            if not own or not os.path.isdir(os.path.join("crates", own[1])):
                names |= {it.strip().split(" as ")[-1] for it in them.split(",")}
    return names


def renamed(text, names, is_rt):
    """The text with the names turned, but for comments and strings, and for what stands behind `tie.`."""
    out = []
    comment = "//" if is_rt else "--"
    for line in text.split("\n"):
        code, mark, rest = line, "", ""
        at = 0
        while True:
            at = line.find(comment, at)
            if at < 0:
                break
            if (at == 0 or line[at - 1] in " \t") and line[:at].count('"') % 2 == 0:
                code, mark, rest = line[:at], comment, line[at + len(comment) :]
                break
            at += 1
        code = WORD.sub(lambda m: names.get(m[0], m[0]) if not code[: m.start()].endswith(("tie.", "goal.")) else m[0], code)
        rest = re.sub(r"`([^`]*)`", lambda m: "`" + WORD.sub(lambda w: names.get(w[0], w[0]), m[1]) + "`", rest)
        out.append(code + mark + rest)
    return "\n".join(out)


def main(words):
    there = declared()
    library = imported()
    names, met = {}, []
    for name in sorted(there):
        if wanted(name) and name not in library:
            new = snake(name)
            if new in there or new in library or new in names.values():
                met.append(f"{name} -> {new}: {'declared too' if new in there else 'of the library' if new in library else 'twice'}: {sorted(there[name])[:3]}")
            names[name] = new
    if "--list" in words:
        for name, new in names.items():
            print(name, new)
        print("\n".join(["meets:", *met]), file=sys.stderr)
        print(sorted(it for it in there if wanted(it) and it in library), file=sys.stderr)
        return 0
    for path in antt_files() + rt_files():
        text = read(path)
        new = renamed(text, names, path.endswith(".rt"))
        if new != text:
            with open(path, "w", encoding="utf-8", newline="") as it:
                it.write(new)
    print(f"{len(names)} names")
    return 0


if __name__ == "__main__":
    raise SystemExit(main(sys.argv[1:]))
