"""The examples: text, job file and answer fit together."""

import os

from checking import expect
from running import ROOT, contents

JOBS = os.path.join(ROOT, "examples", "jobs")
EXAMPLES = ["bat_call", "diagonal", "empty_layer", "matrix", "matrix_three_tiles", "refused", "reversed"]
EXAMPLES += ["shared_floor_one", "shared_floor_two"]


def check_examples(bench):
    found = sorted({name.rsplit(".", 1)[0] for name in os.listdir(JOBS)} - {"README"})
    expect(found == EXAMPLES, "the examples are", found)
    for name in EXAMPLES:
        text, job, out = (os.path.join(JOBS, name + end) for end in (".txt", ".job", ".out"))
        data, answer = contents(job), contents(out).decode()
        expect(contents(text).startswith(b"# "), f"{name}.txt does not begin with a comment")

        made = os.path.join(bench.folder, "example.job")
        expect(bench.process("make", text, made).returncode == 0 and contents(made) == data, name, "is made otherwise")
        yield f"{name}: make"

        found = bench.answer(b"", job)
        expect(found == answer, f"{name}.job: the program prints", found)
        yield f"{name}: answer to the file"
        found = bench.answer(data)
        expect(found == answer, f"{name}.job on standard input: the program prints", found)
        yield f"{name}: answer to standard input"

        shown = bench.process("show", job)
        expect(shown.returncode == 0 and shown.stdout.isascii(), name, "is not shown:", shown.stderr)
        expect(bench.process("make", "-", input=shown.stdout).stdout == data, name, "is shown otherwise")
        yield f"{name}: show, then make"

        ran = bench.process("run", text, "--program", bench.program)
        expect(ran.returncode == 0 and ran.stdout.decode() == answer, name, "runs to", ran.stdout, ran.stderr)
        yield f"{name}: run"
