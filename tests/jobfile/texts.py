"""Texts that make refuses, with the line and the reason, and texts that it takes."""

import os
import random
import re

from checking import expect
from files import C, GOOD, GOOD_WITH_C, byte_words, go, job_with, layout, words
from running import brief


def changed(line, text, whole=GOOD):
    lines = whole.split("\n")
    lines[line - 1] = text
    return "\n".join(lines)


def changed_with_c(line, text):
    return changed(line, text, GOOD_WITH_C)


NOT_UTF8 = GOOD.encode().replace(b"words D", b"# \xff\nwords D")

# A title, a text, the line of the message and a word of it.
BAD_TEXTS = [
    ("an empty text", "", 1, "missing"),
    ("comments only", "# a\n\n# b\n", 1, "missing"),
    ("an unknown statement", changed(3, "tensor B kj"), 3, "unknown statement 'tensor'"),
    ("a statement in capitals", changed(1, GOOD.split("\n")[0].upper()), 1, "unknown statement 'LAYOUT'"),
    ("statements out of order", changed(1, "layout B kj extents 3 2 strides 1 3"), 1, "out of order"),
    ("words before the layout", changed(3, "words B 1"), 3, "'layout B' is due"),
    ("bytes of another tensor", changed(4, "bytes A 1"), 4, "'words B' is due"),
    ("a tensor that is not there", changed(5, "layout E -"), 5, "'layout D' is due"),
    ("a layout without a tensor", changed(1, "layout"), 1, "'layout A' is due"),
    ("words twice", changed(3, "words A 7"), 3, "out of order"),
    ("go too early", changed(5, "go rows 1 cols 1 depth 1"), 5, "out of order"),
    ("no go", changed(7, ""), 6, "'go' is missing"),
    ("no words of D", GOOD[: GOOD.index("words D")] + "\n\n# the end\n", 5, "'words D' is missing"),
    ("a statement after go", GOOD + "\n\nlayout A -\n", 10, "after 'go'"),
    ("two gos", GOOD + "go rows 1 cols 1 depth 2\n", 8, "after 'go'"),
    ("an unknown statement after go", GOOD + "end\n", 8, "unknown statement"),
    ("an indented start", "  layout A -\n" + GOOD, 1, "indented"),
    ("an indented statement", changed(3, "  layout B kj"), 3, "'layout' is not a number"),
    ("a layout without letters", changed(1, "layout A"), 1, "letters are missing"),
    ("nine letters", changed(1, "layout A abcdefghi extents 1*9 strides 1*9"), 1, "9 letters"),
    ("a letter of two bytes", changed(1, "layout A \u00e9k extents 2 3 strides 1 2"), 1, "printable ASCII"),
    ("a control character", changed(1, "layout A i\x01 extents 2 3 strides 1 2"), 1, "printable ASCII"),
    ("half an escape", changed(1, "layout A \\x4 extents 2 strides 1"), 1, "printable ASCII"),
    ("too few extents", changed(1, "layout A ik extents 2 strides 1 2"), 1, "'extents' takes 2 numbers, not 1"),
    ("too many strides", changed(3, "layout B kj extents 3 2 strides 1 3 5"), 3, "'strides' takes 2 numbers, not 3"),
    ("extents without letters", changed(5, "layout D - extents 2"), 5, "'extents' takes 0 numbers, not 1"),
    ("no extents", changed(5, "layout D ij strides 1 2"), 5, "'extents' is missing"),
    ("no strides", changed(5, "layout D ij extents 1 2 base 3"), 5, "'strides' is missing"),
    ("two bases", changed(5, "layout D - base 3 4"), 5, "'base' takes 1 number, not 2"),
    ("a repeated key in a layout", changed(5, "layout D - base 3 base 3"), 5, "repeated key 'base'"),
    ("an unknown key in a layout", changed(5, "layout D - offset 3"), 5, "unknown key 'offset'"),
    ("a number without a key", changed(5, "layout D - 3"), 5, "no key"),
    ("an extent below 0", changed(1, "layout A ik extents -1 3 strides 1 2"), 1, "outside 0 to 4294967295"),
    ("an extent above", changed(1, "layout A ik extents 4294967296 3 strides 1 2"), 1, "outside"),
    ("a stride above", changed(1, "layout A ik extents 2 3 strides 1 2147483648"), 1, "outside -2147483648"),
    ("a stride below", changed(1, "layout A ik extents 2 3 strides -2147483649 1"), 1, "to 2147483647"),
    ("a base below 0", changed(5, "layout D - base -1"), 5, "base '-1' is outside"),
    ("a word above", changed(2, "words A 4294967296"), 2, "word '4294967296' is outside"),
    ("a word below", changed(2, "words A -2147483649"), 2, "outside -2147483648 to 4294967295"),
    ("a byte word above", changed(4, "bytes B 0x100"), 4, "outside 0 to 255"),
    ("a byte word below 0", changed(4, "bytes B -1"), 4, "outside 0 to 255"),
    ("a word that is no number", changed(2, "words A 1 two 3"), 2, "'two' is not a number"),
    ("a broken number", changed(2, "words A 1.5"), 2, "not a number"),
    ("a number with a sign only", changed(2, "words A -"), 2, "not a number"),
    ("a number with no hex digits", changed(2, "words A 0x"), 2, "not a number"),
    ("digits of another script", changed(2, "words A \u0663"), 2, "not a number"),
    ("a number of 5,000 digits", changed(2, "words A " + "9" * 5000), 2, "not a number"),
    ("a mistake on a later line", changed(2, "words A 1\n  2\n\n  # 3\n  4 x"), 6, "'x' is not a number"),
    ("a repeat without a count", changed(2, "words A 7*"), 2, "'' is not a number"),
    ("a repeat without a value", changed(2, "words A *7"), 2, "'' is not a number"),
    ("a repeat of 0", changed(2, "words A 7*0"), 2, "repeat count '0' is outside 1 to 4096"),
    ("a repeat too long", changed(2, "words A 7*999999999999"), 2, "repeat count"),
    ("a repeat of a repeat", changed(2, "words A 7*2*2"), 2, "not a number"),
    ("4,097 words", changed(2, "words A 7*4096\n 8"), 3, "more than 4,096 words"),
    ("4,097 words one by one", changed(2, "words A" + " 1" * 4097), 2, "more than 4,096 words"),
    ("a key missing in go", changed(7, "go rows 1 depth 2"), 7, "'cols' is missing"),
    ("an empty go", changed(7, "go"), 7, "'rows' is missing"),
    ("a repeated key in go", changed(7, "go rows 1 cols 1 depth 2 rows 1"), 7, "repeated key 'rows'"),
    ("an unknown key in go", changed(7, "go rows 1 cols 1 depth 2 gamma 3"), 7, "unknown key 'gamma'"),
    ("a key without a number", changed(7, "go rows cols 1 depth 2"), 7, "'rows' takes 1 number, not 0"),
    ("a key with two numbers", changed(7, "go rows 1 2 cols 1 depth 2"), 7, "'rows' takes 1 number, not 2"),
    ("rows above", changed(7, "go rows 65536 cols 1 depth 2"), 7, "rows '65536' is outside 0 to 65535"),
    ("a budget below 0", changed(7, "go rows 1 cols 1 depth 2\n  budget -1"), 8, "outside 0 to 4294967295"),
    ("alpha above", changed(7, "go rows 1 cols 1 depth 2 alpha 0x100000000"), 7, "outside"),
    ("a text that is not UTF-8", NOT_UTF8, 6, "not UTF-8"),
    ("a zero byte", changed(3, "\0"), 3, "unknown statement"),
    ("no words of C", changed_with_c(6, ""), 7, "'layout D' stands where 'words C' is due"),
    ("no layout of C", changed_with_c(5, ""), 6, "'words C' stands where 'layout C' is due"),
    ("byte words of C", changed_with_c(6, "bytes C 10 20"), 6, "C has no byte words; 'words C' is due"),
    ("byte words of C without a layout", changed(5, "bytes C"), 5, "'bytes C' stands where 'layout C' is due"),
    ("C after D", changed(7, "layout C -\nwords C 1\ngo"), 5, "'layout D' stands where 'layout C' is due"),
    ("C before B", changed(3, "layout C -\nwords C 1\nlayout B -"), 3, "'layout C' stands where 'layout B' is due"),
    ("C between B's statements", changed(4, "layout C -"), 4, "'layout C' stands where 'words B' is due"),
    ("C twice", changed_with_c(6, "words C 1\nlayout C -"), 7, "'layout C' stands where 'layout D' is due"),
    ("two layouts of C", changed_with_c(6, "layout C -"), 6, "'layout C' stands where 'words C' is due"),
    ("words of C twice", changed_with_c(6, "words C 1\nwords C 1"), 7, "'words C' stands where 'layout D' is due"),
    ("a text that ends in C", GOOD_WITH_C[: GOOD_WITH_C.index("words C")], 5, "'words C' is missing"),
    ("a text that ends after C", GOOD_WITH_C[: GOOD_WITH_C.index("layout D")], 6, "'layout D' is missing"),
    ("a text that ends after B", GOOD[: GOOD.index("layout D")], 4, "'layout D' is missing"),
    ("C in small letters", changed(5, "layout c -"), 5, "'layout c' stands where 'layout D' is due"),
    ("C as a key", changed(7, "go C 1"), 7, "unknown key 'C'"),
    ("nine letters of C", changed_with_c(5, "layout C abcdefghi extents 1*9 strides 1*9"), 5, "9 letters"),
    ("4,097 words of C", changed_with_c(6, "words C 7*4096 8"), 6, "more than 4,096 words"),
    ("a word of C above", changed_with_c(6, "words C 4294967296"), 6, "word '4294967296' is outside"),
]


# A title, a text and the job file.
GOOD_TEXTS = [
    ("defaults", GOOD, job_with()),
    (
        "all keys of go",
        changed(7, "go budget 9 done 8 depth 7 cols 6 rows 5 beta 4 alpha 3"),
        job_with(go=go(3, 4, 5, 6, 7, 8, 9)),
    ),
    ("keys of a layout in another order", changed(1, "layout A ik base 0 strides 1 2 extents 2 3"), job_with()),
    ("hexadecimal", changed(6, "words D 0x64 0Xc8 0x12C 0x0000190"), job_with()),
    (
        "negative numbers",
        changed(6, "words D -1 -0x1 -2147483648 -0"),
        job_with(D_words=words(b"D", [2**32 - 1, 2**32 - 1, 2**31, 0])),
    ),
    (
        "negative factors",
        changed(7, "go rows 1 cols 1 depth 2 alpha -1 beta -2147483648"),
        job_with(go=go(2**32 - 1, 2**31, 1, 1, 2, 0, 2**32 - 1)),
    ),
    (
        "repeats",
        changed(6, "words D 7*3 -1*2 0x10*0x2"),
        job_with(D_words=words(b"D", [7] * 3 + [2**32 - 1] * 2 + [16] * 2)),
    ),
    (
        "repeated extents",
        changed(5, "layout D abcdefgh extents 2*8 strides 0*7 -5"),
        job_with(D_layout=layout(b"D", b"abcdefgh", [2] * 8, [0] * 7 + [-5])),
    ),
    ("4,096 words", changed(6, "words D 1*4000 2*96"), job_with(D_words=words(b"D", [1] * 4000 + [2] * 96))),
    ("no words", changed(6, "bytes D"), job_with(D_words=byte_words(b"D", []))),
    ("no letters", changed(5, "layout D -"), job_with(D_layout=layout(b"D", b"", [], []))),
    (
        "no letters, a base",
        changed(5, "layout D - base 4294967295"),
        job_with(D_layout=layout(b"D", b"", [], [], 2**32 - 1)),
    ),
    ("no letters, empty lists", changed(5, "layout D - extents strides"), job_with(D_layout=layout(b"D", b"", [], []))),
    (
        "letters that are bytes",
        changed(5, "layout D \\x2d\\xFF- extents 1 2 3 strides 4 5 6"),
        job_with(D_layout=layout(b"D", b"-\xff-", [1, 2, 3], [4, 5, 6])),
    ),
    (
        "letters that are words of the text",
        changed(5, "layout D base extents 1*4 strides 1*4"),
        job_with(D_layout=layout(b"D", b"base", [1] * 4, [1] * 4)),
    ),
    (
        "what the engine refuses",
        changed(5, "layout D ij extents 0 65537 strides 0 0 base 99"),
        job_with(D_layout=layout(b"D", b"ij", [0, 65537], [0, 0], 99)),
    ),
    (
        "an empty layer",
        changed(5, "layout D ij extents 0 2 strides 0 0 base 99"),
        job_with(D_layout=layout(b"D", b"ij", [0, 2], [0, 0], 99)),
    ),
    (
        "comments, blank and indented lines",
        changed(6, "words D 100 # x\n\n\t200#y\n# z\n  300\n\n   \n 400 # \u00e9") + "\n# end\n",
        job_with(),
    ),
    ("line ends of another system", GOOD.replace("\n", "\r\n"), job_with()),
    ("a byte order mark", "\ufeff" + GOOD, job_with()),
    ("no last line end", GOOD.rstrip("\n"), job_with()),
    ("C", GOOD_WITH_C, job_with(**C)),
    (
        "C without letters and words",
        changed_with_c(5, "layout C - base 5").replace("words C 10 20", "words C"),
        job_with(C_layout=layout(b"C", b"", [], [], 5), C_words=words(b"C", [])),
    ),
    (
        "4,096 words of C",
        changed_with_c(6, "words C -1*4095\n  0x7"),
        job_with(**{**C, "C_words": words(b"C", [2**32 - 1] * 4095 + [7])}),
    ),
    (
        "a letter C of another tensor",
        changed(1, "layout A C extents 2 strides 1"),
        job_with(A_layout=layout(b"A", b"C", [2], [1])),
    ),
]


def check_bad_texts(bench):
    for title, text, line, word in BAD_TEXTS:
        message = bench.make(text, "bad text")
        expect(isinstance(message, str), title, "makes a job file")
        start = os.path.join(bench.folder, "bad text") + f":{line}: "
        expect(message.startswith(start) and message.count("\n") == 1, title, "gives:", message, "not line", line)
        expect(word in message, title, "gives:", message, "without", word)
        yield f"bad text: {title}"


def check_good_texts(bench):
    for title, text, job in GOOD_TEXTS:
        made = bench.make(text)
        expect(made == job, title, "gives", made if isinstance(made, str) else brief(made), "and not", brief(job))
        yield f"good text: {title}"


def check_damaged_texts(bench):
    """Random texts give a job file that the program reads, or one message with a line of the text."""
    rng = random.Random(3)
    pieces = [b"", b" ", b"*", b"-", b"#", b"\n", b"\n ", b"\\x", b"\0", b"\xff", b"go", b"0x", b"A", b"C", b"9" * 50]
    for _ in range(500):
        text = rng.choice([GOOD, GOOD_WITH_C]).encode()
        for _ in range(rng.randrange(1, 4)):
            at = rng.randrange(len(text))
            text = text[:at] + rng.choice(pieces) + text[at + rng.randrange(3) :]
        found = bench.make(text, "damaged")
        if isinstance(found, str):
            line = re.fullmatch(re.escape(os.path.join(bench.folder, "damaged")) + r":(\d+): .+\n", found)
            expect(line and 1 <= int(line[1]) <= text.count(b"\n") + 1, text, "gives", found)
        else:
            expect(bench.reads(found), text, "makes a job file that the program does not read")
    yield "500 damaged texts: a job file, or one message with a line"
