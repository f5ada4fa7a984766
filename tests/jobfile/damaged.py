"""Job files that are cut off or damaged: show refuses what the program refuses, with the same number."""

import os
import random
import re

from checking import expect
from examples import EXAMPLES, JOBS
from files import C, GOOD, byte_words, job_with, layout, records_with, words
from running import READING, brief, contents


def expect_refused(bench, job, message, byte=None, record=None):
    """The message of show has the number of the program's answer, and the place."""
    found = re.fullmatch(r".*: byte (\d+), record ([A-D] layout|[A-D] words|go): .*: refused (\d+)\n", message)
    expect(found, "show says", message, "of", brief(job))
    answer = bench.answer(job)
    expect(answer == f"refused {found[3]}\n", "show says", message, "but the program says", answer)
    expect(int(found[3]) in READING, "show refuses with", found[3])
    expect(byte is None or int(found[1]) == byte, "show says", message, "and not byte", byte)
    expect(record is None or found[2] == record, "show says", message, "and not record", record)
    return int(found[3])


def check_truncations(bench):
    """Cut after B's words a file lacks D's layout, as C's need not be there."""
    for title, changed in (("", {}), (" with C", C)):
        records = records_with(**changed)
        job = b"".join(records.values())
        ends = [(sum(map(len, list(records.values())[: n + 1])), name) for n, name in enumerate(records)]
        between = job.index(b"LD" if not changed else b"LC")
        for length in range(len(job)):
            message = bench.again(job[:length])
            expect(isinstance(message, str), "show takes the first", length, "bytes of", brief(job))
            record = next(name for end, name in ends if length < end)
            record = "D layout" if between <= length < between + 2 else record
            number = expect_refused(bench, job[:length], message, length, record)
            expect(number == 21, "cut off after", length, "bytes the number is", number)
        yield f"{len(job)} truncations{title}: byte, record and number"
    for length in (0, 30, between + 1, len(job) - 1):
        ended = bench.process("show", bench.put("cut.job", job[:length]))
        expect(ended.returncode == 1 and not ended.stdout, "show takes", length, "bytes")
        expect_refused(bench, job[:length], ended.stderr.decode(), length)
    yield "truncations in processes of their own"


def refused_at(bench, table):
    """Titles, job files, and the number, byte and record that refuse each."""
    for title, job, number, byte, record in table:
        message = bench.again(job)
        expect(isinstance(message, str), title, "is shown")
        expect(expect_refused(bench, job, message, byte, record) == number, title, "gives", message)
        yield f"refused {number}: {title}"


def check_places(bench):
    """Files that are refused for each reason: number, byte and record, also where more than one reason applies."""
    whole = job_with()
    a_words = whole.index(b"WA")
    d_layout = whole.index(b"LD")
    table = [
        ("a mark out of order", job_with(A_layout=layout(b"B", b"", [], [])), 20, 0, "A layout"),
        ("an unknown mark", job_with(A_words=b"XX"), 20, a_words, "A words"),
        ("byte words of another tensor", job_with(A_words=byte_words(b"B", [1])), 20, a_words, "A words"),
        ("a mark in small letters", whole[:-24] + b"go" + whole[-22:], 20, len(whole) - 24, "go"),
        ("a wrong mark, cut off", whole[:d_layout] + b"LA", 20, d_layout, "D layout"),
        ("half a mark", whole[:d_layout] + b"X", 21, d_layout + 1, "D layout"),
        ("no rank", whole[:d_layout] + b"LD", 21, d_layout + 2, "D layout"),
        ("rank 9", job_with(D_layout=b"LD\x09"), 1, d_layout + 2, "D layout"),
        ("rank 255, cut off", b"LA\xff", 1, 2, "A layout"),
        ("rank 8, cut off", b"LA\x08abcdefgh", 21, 11, "A layout"),
        ("half a word count", whole[:a_words] + b"WA\xff\xff\xff", 21, a_words + 5, "A words"),
        ("4,097 words, cut off", whole[:a_words] + b"YA\x01\x10\0\0", 23, a_words + 2, "A words"),
        ("4,097 words", job_with(A_words=words(b"A", [0] * 4097)), 23, a_words + 2, "A words"),
        ("4,096 words, cut off", whole[:a_words] + b"YA\x00\x10\0\0", 21, a_words + 6, "A words"),
        ("a byte after go", whole + b"\0", 22, len(whole), "go"),
        ("a second job", whole + whole, 22, len(whole), "go"),
        ("a long tail", whole + bytes(200000), 22, len(whole), "go"),
        ("a text", GOOD.encode(), 20, 0, "A layout"),
    ]
    yield from refused_at(bench, table)


def check_places_of_c(bench):
    """The records of C where they may not stand, alone, as bytes, too large and cut off."""
    lc, wc = C.values()
    yc = byte_words(b"C", [10, 20])

    def job_of(c_layout, c_words):
        return job_with(C_layout=c_layout, C_words=c_words)

    without, whole = job_with(), job_of(lc, wc)
    b_layout, b_words, c_layout, c_words = (whole.index(mark) for mark in (b"LB", b"YB", b"LC", b"WC"))
    d_layout, d_words, end = c_words + len(wc), without.index(b"WD"), without.index(b"GO")
    table = [
        ("a layout of C without words", job_of(lc, b""), 20, c_words, "C words"),
        ("words of C without a layout", job_of(b"", wc), 20, c_layout, "D layout"),
        ("byte words of C", job_of(lc, yc), 20, c_words, "C words"),
        ("byte words of C without a layout", job_of(b"", yc), 20, c_layout, "D layout"),
        ("words of C before its layout", job_of(wc, lc), 20, c_layout, "D layout"),
        ("words of C twice", job_of(lc, wc + wc), 20, d_layout, "D layout"),
        ("two layouts of C", job_of(lc + lc, wc), 20, c_words, "C words"),
        ("C twice", job_of(lc + wc, lc + wc), 20, d_layout, "D layout"),
        ("C before B", without[:b_layout] + lc + wc + without[b_layout:], 20, b_layout, "B layout"),
        ("C between B's records", without[:b_words] + lc + wc + without[b_words:], 20, b_words, "B words"),
        ("C between D's records", without[:d_words] + lc + wc + without[d_words:], 20, d_words, "D words"),
        ("C after D", without[:end] + lc + wc + without[end:], 20, end, "go"),
        ("C after go", without + lc + wc, 22, len(without), "go"),
        ("a layout of D after one of C, cut off", whole[:c_words] + b"LD", 20, c_words, "C words"),
        ("C in small letters", whole.replace(b"LC", b"lc"), 20, c_layout, "D layout"),
        ("half a mark of C", whole[: c_layout + 1], 21, c_layout + 1, "D layout"),
        ("no rank of C", whole[: c_layout + 2], 21, c_layout + 2, "C layout"),
        ("rank 9 of C", whole[: c_layout + 2] + b"\x09", 1, c_layout + 2, "C layout"),
        ("4,097 words of C", job_of(lc, words(b"C", [0] * 4097)), 23, c_words + 2, "C words"),
        ("4,096 words of C, cut off", whole[:c_words] + b"WC\x00\x10\0\0", 21, c_words + 6, "C words"),
        ("a byte after go, with C", whole + b"\0", 22, len(whole), "go"),
    ]
    yield from refused_at(bench, table)


def check_damage(bench):
    rng = random.Random(2)
    examples = [contents(os.path.join(JOBS, name + ".job")) for name in EXAMPLES]
    shown = 0
    for _ in range(500):
        job = bytearray(rng.choice(examples))
        job[rng.randrange(len(job))] ^= rng.randrange(1, 256)
        job = bytes(job)
        found = bench.again(job)
        if isinstance(found, str):
            expect_refused(bench, job, found)
        else:
            shown += 1
            expect(found == job, "show, then make changes", brief(job))
            expect(bench.reads(job), "show takes what the program does not read:", brief(job))
    expect(50 < shown < 450, shown, "of 500 damaged job files are shown")
    yield "500 damaged job files: shown, or the number of the program"
