"""Random job files and the largest one come back from show and make as they were."""

import random

from checking import expect
from files import C, byte_words, go, job_with, layout, words
from running import brief


TENSORS, TENSORS_WITH_C = (b"A", b"B", b"D"), (b"A", b"B", b"C", b"D")


def random_words(rng, tensor):
    count = rng.choice([0, 1, 4096, rng.randrange(4097)] + [rng.randrange(40)] * 26)
    top = rng.choice([2, 256, 2**32])  # few different values give long runs
    if tensor != b"C" and rng.random() < 0.5:
        return byte_words(tensor, [rng.randrange(min(top, 256)) for _ in range(count)])
    return words(tensor, [rng.randrange(top) for _ in range(count)])


def random_job(rng, letters):
    job = b""
    for tensor in rng.choice([TENSORS, TENSORS_WITH_C]):
        rank = rng.choice([0, 1, 8, rng.randrange(9)])
        extents = [rng.choice([0, 1, rng.randrange(2**32), 2**32 - 1]) for _ in range(rank)]
        strides = [rng.choice([0, -1, rng.randrange(-(2**31), 2**31), -(2**31), 2**31 - 1]) for _ in range(rank)]
        job += layout(tensor, bytes(rng.choices(letters, k=rank)), extents, strides, rng.randrange(2**32))
        job += random_words(rng, tensor)
    sizes = [rng.randrange(2**16) for _ in range(3)]
    return job + go(rng.randrange(2**32), rng.randrange(2**32), *sizes, rng.randrange(2**32), rng.randrange(2**32))


def check_round_trips(bench):
    rng = random.Random(1)
    for title, letters in (("printable letters", bytes(range(32, 127))), ("letters of any byte", bytes(range(256)))):
        for n in range(300):
            job = random_job(rng, letters)
            expect(bench.again(job) == job, "show, then make changes", brief(job))
            expect(n >= 50 or bench.reads(job), "the program does not read", brief(job))
        yield f"300 random job files, {title}: show, then make"
    largest = b"".join(
        layout(tensor, b"abcdefgh", [2**32 - 1] * 8, [-(2**31)] * 8, 2**32 - 1)
        + words(tensor, [rng.randrange(2**32) for _ in range(4096)])
        for tensor in TENSORS_WITH_C
    ) + go(*[2**32 - 1] * 2, *[65535] * 3, *[2**32 - 1] * 2)
    expect(len(largest) == 65900 and bench.reads(largest), "the program does not read the largest job file")
    shown = bench.process("show", "-", input=largest).stdout
    made = bench.process("make", "-", "-", input=shown).stdout
    expect(made == largest, "show, then make changes the largest job file")
    yield "the largest job file: show, then make"
    for more in (1, 100000):
        message = bench.again(largest + bytes(more))
        expect("byte 65900, record go: " in message and "refused 22\n" in message, "with", more, "bytes more:", message)
        expect(bench.answer(largest + bytes(more)) == "refused 22\n", "with", more, "bytes more the program reads on")
    yield "the largest job file with bytes after it"


EMPTY_ROWS = {"A_layout": layout(b"A", b"ik", [0, 3], [1, 2], 50), "D_layout": layout(b"D", b"ij", [0, 2], [0, 0], 99)}
NO_TERMS = {
    "A_layout": layout(b"A", b"ik", [2, 0], [1, 2]),
    "A_words": words(b"A", []),
    "B_layout": layout(b"B", b"kj", [0, 2], [0, 0]),
    "go": go(1, 3, 1, 1, 2, 0, 3),
}
EMPTY_C = {"C_layout": layout(b"C", b"ji", [2, 0], [1, 1], 7), "C_words": words(b"C", [])}
# A title, the records that are others than those of GOOD, and the program's answer.
EMPTY_LAYERS = [
    ("no entries in the output", EMPTY_ROWS, "tiles 0 of 0\n100 -\n200 -\n300 -\n400 -\n"),
    ("an output without words", {**EMPTY_ROWS, "D_words": byte_words(b"D", [])}, "tiles 0 of 0\n"),
    ("sums over no values", NO_TERMS, "tiles 3 of 4\n300 f\n600 f\n900 f\n400 o\n"),
    ("no entries in the output and in C", {**EMPTY_ROWS, **EMPTY_C}, "tiles 0 of 0\n100 -\n200 -\n300 -\n400 -\n"),
    ("sums over no values, with C", {**NO_TERMS, **C}, "tiles 3 of 4\n30 f\n30 f\n60 f\n400 o\n"),
]
DIAGONAL = {**C, "C_layout": layout(b"C", b"jij", [2, 2, 2], [2, 0, -1])}
THREE_TILES, ANSWER = {"go": go(1, 2, 1, 1, 2, 0, 3)}, "tiles 3 of 8\n31 f\n22 p\n300 o\n400 o\n"
OF_C = [
    ("all tiles", {**C, "go": go(1, 2, 1, 1, 2, 0, 8)}, "tiles 8 of 8\n31 f\n34 f\n48 f\n50 f\n"),
    ("three tiles", {**C, **THREE_TILES}, ANSWER),
    ("three tiles over its diagonal", {**DIAGONAL, **THREE_TILES}, ANSWER),
    ("tiles done before", {**C, "go": go(1, 2, 1, 1, 2, 2, 3)}, "tiles 5 of 8\n110 f\n212 f\n43 p\n400 o\n"),
    ("no words in D", {**C, "D_words": words(b"D", [])}, "refused 8\n"),
    ("no words in C", {**C, "C_words": words(b"C", [])}, "refused 8\n"),
    ("another letter", {**C, "C_layout": layout(b"C", b"ik", [2, 3], [0, 0])}, "refused 30\n"),
    ("a letter too few", {**C, "C_layout": layout(b"C", b"ii", [2, 2], [0, 0])}, "refused 30\n"),
    ("another extent", {**C, "C_layout": layout(b"C", b"ji", [2, 3], [0, 0])}, "refused 6\n"),
]


def shown_and_run(bench, table):
    """Titles, records and answers: each job is shown, and made and run of what is shown."""
    for title, records, answer in table:
        job = job_with(**records)
        text = bench.process("show", "-", input=job).stdout
        expect(bench.process("make", "-", "-", input=text).stdout == job, title, "is shown as", text)
        ran = bench.process("run", "-", "--program", bench.program, input=text)
        expect(ran.stdout.decode() == answer, title, "runs to", ran.stdout, ran.stderr)
        yield f"{title}: show, then make and run"


def check_empty_layers(bench):
    """Labels of extent 0 are written, shown and run as any others."""
    for name in shown_and_run(bench, EMPTY_LAYERS):
        yield f"an empty layer, {name}"


def check_c(bench):
    """C's records are written, shown and run."""
    for name in shown_and_run(bench, OF_C):
        yield f"C, {name}"
