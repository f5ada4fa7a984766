#!/usr/bin/env python3
"""Lists the places of src/ that docs/DESIGN-PASS.md counts, a line for each: point, file, line, what stands there.

    tools/places.py            the counts
    tools/places.py 3          the places of one point
"""
import pathlib
import re
import sys

TOP = pathlib.Path(__file__).resolve().parent.parent
NUMBER = r"(?:u8|u16|u32|u64|usize|i32|i64)"


def functions(text):
    """Each function: its line, name, parameters, clauses and body."""
    for found in re.finditer(r"^( *)(?:pub )?(?:extern \"C\" )?fn (\w+)", text, re.M):
        start, indent = found.end(), found.group(1)
        body = text.find(f"\n{indent}{{\n", start)
        end = text.find(f"\n{indent}}}", body)
        one_line = re.match(r"[^\n]*\{\n", text[start:])
        if one_line:
            body = start + one_line.end() - 3
            end = text.find(f"\n{indent}}}", body)
        head = text[start:body]
        depth, at = 0, head.find("(")
        close = at
        for close in range(at, len(head)):
            depth += {"(": 1, ")": -1}.get(head[close], 0)
            if depth == 0:
                break
        params = [p.strip() for p in re.split(r",(?![^\[<(]*[\]>)])", head[at + 1 : close]) if p.strip()]
        yield text[:start].count("\n") + 1, found.group(2), params, head[close + 1 :], text[body + len(indent) + 3 : end]


def shape(body):
    """A body with its names, numbers and types put in order of appearance, so that twins have one shape."""
    seen = {}
    words = re.sub(r"//[^\n]*", "", body)
    words = re.sub(rf"\b{NUMBER}\b", "T", words)
    keep = {"let", "mut", "while", "for", "in", "if", "else", "return", "match", "T", "as", "true", "false"}
    return re.sub(r"\w+", lambda m: m[0] if m[0] in keep else seen.setdefault(m[0], f"v{len(seen)}"), " ".join(words.split()))


def conjuncts(clauses):
    """The facts that the clauses of a function join, each with its names of variables left as they are."""
    for clause in re.findall(r"requires(?: \w+)? \{(.*?)\}\n", clauses, re.S):
        for fact in re.split(r"\n? *× ", clause.strip()):
            yield " ".join(fact.split()).strip("() ")


def all_places():
    places = {point: [] for point in range(1, 9)}
    bodies, facts = {}, {}
    for path in sorted(TOP.glob("crates/*/src/*.rt")):
        name, text = str(path.relative_to(TOP)), path.read_text()

        def add(point, line, what):
            places[point].append((name, line, what))

        lines = text.split("\n")
        for at, line in enumerate(lines, 1):
            if re.match(r"\s*(pub )?enum ", line):
                add(1, at, line.strip())
            if re.match(r"\s*pub \w+: bool,|\s*(pub )?number: u32,", line):
                add(1, at, "field " + line.strip())
            if re.match(r"\s*(while|loop)\b", line):
                add(3, at, line.strip())
        for found in re.finditer(r"pub struct (\w+)[^{;]*\{(.*?)\n\}", text, re.S):
            if re.search(r": \[", found[2]) and re.search(r"count: usize", found[2]):
                add(6, text[: found.start()].count("\n") + 1, "struct " + found[1])
        for line, fn, params, clauses, body in functions(text):
            flat = " ".join(body.split())
            if re.search(r"-> u32", clauses) and re.search(r"refusal|status|ask\b|sooner", fn):
                add(1, line, f"fn {fn} answers a number")
            if any(re.match(r"(letter|number): u|o: usize", p) for p in params):
                add(1, line, f"fn {fn} takes a number for a kind")
            if any(re.match(r"named: bool", p) for p in params):
                add(1, line, f"fn {fn} takes a flag beside C")
            if re.fullmatch(rf"\w+ as {NUMBER}", flat):
                add(4, line, f"fn {fn} converts")
            if re.fullmatch(r"if [^{}]* \{ \w+ \} else \{ \w+ \}", flat):
                add(4, line, f"fn {fn} chooses one of two")
            if re.match(r"match \w+ \{", flat) and re.search(rf"-> (bool|{NUMBER})\b", clauses):
                add(4, line, f"fn {fn} goes through the variants")
            if len(params) > 7:
                add(5, line, f"fn {fn} takes {len(params)} parameters")
            if any("[" in p for p in params) and any(re.match(r"(n|m|count|len|filled|labels): (usize|u32)", p) for p in params):
                add(6, line, f"fn {fn} takes a length beside a slice or an array")
            if re.search(r"if [^{}]*\{ (?:return )?(\w+)\(([^()]*)\);? \} else \{ (?!\1)\w+\(\2\);? \}", flat):
                add(7, line, f"fn {fn} chooses what to run")
            if len(flat) > 30:
                bodies.setdefault(shape(body), []).append((name, line, fn))
            for fact in set(conjuncts(clauses)):
                facts.setdefault(fact, []).append((name, line, fn))
    for group in bodies.values():
        if len(group) > 1:
            for name, line, fn in group:
                places[2].append((name, line, f"fn {fn}, of one shape with {', '.join(g[2] for g in group if g[:2] != (name, line))}"))
    for fact, where in sorted(facts.items()):
        if len(where) > 2:
            places[5].append((where[0][0], where[0][1], f"{len(where)} functions require {fact}"))
    for path in sorted(TOP.glob("crates/*/proofs/**/Answers.antt")):
        places[8].append((str(path.relative_to(TOP)), 1, f"{path.read_text().count(chr(10))} lines"))
    return places


def main():
    places = all_places()
    if len(sys.argv) > 1:
        for name, line, what in places[int(sys.argv[1])]:
            print(f"{name}:{line}: {what}")
    else:
        for point, found in places.items():
            print(f"{point}: {len(found)}")


main()
