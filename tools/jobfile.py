#!/usr/bin/env python3
"""Makes job files for nezgrak_job from readable text, shows them as such text, and runs them.

    jobfile.py make TEXT [JOB]              makes a job file from a text; to standard output where JOB is left out
    jobfile.py show JOB                     shows a job file as a text, of which make makes the same job file
    jobfile.py run TEXT [--program PATH]    makes a job file from a text and prints the program's answer to it; the
                                            program is PATH, else $NEZGRAK_JOB, else target/bin/nezgrak_job

TEXT or JOB - is standard input or output. A text has one statement a line, in this order:

    layout A ik  extents 2 3  strides 1 2  base 0
    words A 1 2 3 4 5 6
    layout B kj  extents 3 2  strides 1 3
    bytes B 1 0 2 0 1 1                     # byte words, 0 to 255
    layout C ij  extents 2 2  strides 0 1   # C's two statements may be left out, both or neither
    words C 10 20                           # C has no byte words
    layout D ij  extents 2 2  strides 1 2
    words D 100 200
        300 400
    go alpha 1 beta 2  rows 1 cols 1 depth 2  done 0 budget 3

letters   up to 8 in one word, or - for none: then there are no extents and no strides. A letter is printable ASCII;
          \\xHH is the byte HH: so are written any other byte, a space, # and \\, and a - that is the only letter.
keys      those of layout and of go stand in any order, each once. Left out, base, beta and done are 0, alpha is 1
          and budget is 4294967295, for all tiles. rows, cols and depth have to be there.
numbers   are decimal or 0x..; N*COUNT is COUNT times N. Strides are signed. Words, alpha and beta may be negative,
          from -2147483648 (two's complement).
lines     # starts a comment; blank lines are skipped; an indented line goes on with the statement above it.

Only the form is checked. What the engine refuses, such as an extent of 65537 or output strides that overlap, goes into
the job file as it is written.
"""

import contextlib
import itertools
import os
import re
import struct
import subprocess
import sys
import textwrap
from collections import namedtuple

NEXT = {"": "A", "A": "B", "B": "CD", "C": "D"}  # the tensors that may follow each, at the start none
MOST_LETTERS = 8
MOST_WORDS = 4096
MOST_TEXT = 1 << 20  # bytes; the longest text that is read
MOST_JOB = 1 << 17  # bytes; above the length of every whole job file
SHORTEST_RUN = 4  # this many equal words are shown as value*count

BYTE, SHORT, UNSIGNED = range(2**8), range(2**16), range(2**32)
SIGNED, WORD = range(-(2**31), 2**31), range(-(2**31), 2**32)

# The keys of go in the file's order, with their ranges and what they are when left out.
GO_KEYS = {
    "alpha": (WORD, [1]),
    "beta": (WORD, [0]),
    "rows": (SHORT, None),
    "cols": (SHORT, None),
    "depth": (SHORT, None),
    "done": (UNSIGNED, [0]),
    "budget": (UNSIGNED, [2**32 - 1]),
}
GO_FORM = "2I3H2I"
WORD_FORM = {"W": "I", "Y": "B"}

NUMBER = re.compile(r"-?(0[xX][0-9a-fA-F]{1,40}|[0-9]{1,40})")
LETTER = re.compile(r"\\x([0-9a-fA-F]{2})|([!-\[\]-~])|(.)")

Token = namedtuple("Token", "text line")


def layout_form(rank):
    return f"{rank}s{rank}I{rank}iI"


def quoted(text):
    return repr(text if len(text) <= 24 else text[:24] + "..")


class Fault(Exception):
    """Ends the program with a message and an exit status."""

    def __init__(self, message, status=1):
        super().__init__(message)
        self.status = status


# ---- from text to job file


class Statement:
    """The tokens of one statement; `name` is that of the text, for messages."""

    def __init__(self, name, tokens):
        self.name = name
        self.tokens = tokens
        self.fields = {}

    def wrong(self, message, token=None):
        """A mistake at a token, or in the statement as a whole."""
        raise Fault(f"{self.name}:{(token or self.tokens[0]).line}: {message}")

    def number(self, text, token, what, span):
        if not NUMBER.fullmatch(text):
            self.wrong(f"{quoted(text)} is not a number", token)
        value = int(text, 16 if "x" in text.lower() else 10)
        if value not in span:
            self.wrong(f"{what} {quoted(text)} is outside {span.start} to {span.stop - 1}", token)
        return value

    def numbers(self, tokens, what, span):
        """The values of these tokens, with repeats written out."""
        values = []
        for token in tokens:
            value, star, count = token.text.partition("*")
            times = self.number(count, token, "repeat count", range(1, MOST_WORDS + 1)) if star else 1
            values += [self.number(value, token, what, span)] * times
            if len(values) > MOST_WORDS:
                self.wrong(f"more than {MOST_WORDS:,} words", token)
        return values

    def split_fields(self, tokens, keys):
        """Sorts KEY N.. KEY N.. into `fields`: each key's own token and those after it."""
        key = None
        for token in tokens:
            if token.text[0] not in "-0123456789":
                key = token.text
                if key not in keys:
                    self.wrong(f"unknown key {quoted(key)}; the keys here are {', '.join(keys)}", token)
                if key in self.fields:
                    self.wrong(f"repeated key '{key}'", token)
                self.fields[key] = []
            elif key is None:
                self.wrong(f"{quoted(token.text)} has no key before it", token)
            self.fields[key].append(token)

    def field(self, key, span, count, default):
        """The values of one key, exactly `count`, or the default where the key is left out and has one."""
        if key not in self.fields:
            if default is None:
                self.wrong(f"'{key}' is missing")
            return default
        token, *tokens = self.fields[key]
        values = self.numbers(tokens, key, span)
        if len(values) != count:
            self.wrong(f"'{key}' takes {count} number{'' if count == 1 else 's'}, not {len(values)}", token)
        return values


def statements_of(name, data):
    if len(data) > MOST_TEXT:
        raise Fault(f"{name}: the text is longer than {MOST_TEXT:,} bytes")
    try:
        lines = data.decode("utf-8-sig").split("\n")
    except UnicodeDecodeError as error:
        number = error.object.count(b"\n", 0, error.start) + 1
        raise Fault(f"{name}:{number}: the text is not UTF-8") from None
    statements = []
    for number, line in enumerate(lines, 1):
        tokens = [Token(part, number) for part in line.partition("#")[0].split()]
        if tokens and not line[0].isspace():
            statements.append(Statement(name, tokens))
        elif tokens and statements:
            statements[-1].tokens += tokens
        elif tokens:
            raise Fault(f"{name}:{number}: an indented line goes on with the statement above it; there is none")
    return statements


def letters_of(statement, token):
    letters = bytearray()
    for code, printable, other in LETTER.findall("" if token.text == "-" else token.text):
        if other:
            statement.wrong(f"letter {quoted(other)} is neither printable ASCII nor \\xHH", token)
        letters.append(int(code, 16) if code else ord(printable))
    if len(letters) > MOST_LETTERS:
        statement.wrong(f"{len(letters)} letters; a tensor has at most {MOST_LETTERS}", token)
    return bytes(letters)


def layout_record(statement):
    if len(statement.tokens) < 3:
        statement.wrong("the letters are missing; a tensor without any has -")
    _, tensor, letters, *tokens = statement.tokens
    letters = letters_of(statement, letters)
    rank = len(letters)
    statement.split_fields(tokens, ("extents", "strides", "base"))
    extents = statement.field("extents", UNSIGNED, rank, None if rank else [])
    strides = statement.field("strides", SIGNED, rank, None if rank else [])
    base = statement.field("base", UNSIGNED, 1, [0])
    mark = f"L{tensor.text}".encode()
    return struct.pack("<2sB" + layout_form(rank), mark, rank, letters, *extents, *strides, *base)


def words_record(statement):
    first, tensor, *tokens = statement.tokens
    kind, what, span = ("W", "word", WORD) if first.text == "words" else ("Y", "byte word", BYTE)
    words = [value % 2**32 for value in statement.numbers(tokens, what, span)]
    return struct.pack(f"<2sI{len(words)}{WORD_FORM[kind]}", f"{kind}{tensor.text}".encode(), len(words), *words)


def go_record(statement):
    statement.split_fields(statement.tokens[1:], GO_KEYS)
    values = [statement.field(key, span, 1, default)[0] % 2**32 for key, (span, default) in GO_KEYS.items()]
    return struct.pack("<2s" + GO_FORM, b"GO", *values)


RECORDS = {"layout": layout_record, "words": words_record, "bytes": words_record, "go": go_record}
ORDER = [f"{kind} {tensor}" for tensor in "ABCD" for kind in ("layout", "words")] + ["go"]


def job_of(name, data):
    """The job file that a text describes, both as bytes."""
    statements = statements_of(name, data)
    named = {token.text for part in statements if part.tokens[0].text != "go" for token in part.tokens[1:2]}
    order = [due for due in ORDER if due[-1] != "C" or "C" in named]
    job = b""
    for statement, due in itertools.zip_longest(statements, order):
        if not statement:
            line = statements[-1].tokens[-1].line if statements else 1
            raise Fault(f"{name}:{line}: the text ends here; '{due}' is missing")
        kind = statement.tokens[0].text
        if kind not in RECORDS:
            statement.wrong(f"unknown statement {quoted(kind)}")
        found = " ".join(token.text for token in statement.tokens[: 1 if kind == "go" else 2])
        if not due:
            statement.wrong(f"{quoted(found)} stands after 'go', which is the last statement")
        if found == "bytes C" and due == "words C":
            statement.wrong("C has no byte words; 'words C' is due")
        if due not in (found, found.replace("bytes", "words")):
            statement.wrong(f"out of order: {quoted(found)} stands where '{due}' is due")
        job += RECORDS[kind](statement)
    return job


# ---- from job file to text


class Job:
    """Reads a job file front to back, with the program's questions in the program's order."""

    def __init__(self, name, data):
        self.name = name
        self.data = data
        self.at = 0
        self.record = ""

    def refuse(self, number, at, message):
        raise Fault(f"{self.name}: byte {at}, record {self.record}: {message}: refused {number}")

    def take(self, form):
        """The next values, where the file has all of them."""
        size = struct.calcsize("<" + form)
        if len(self.data) - self.at < size:
            self.refuse(21, len(self.data), "the file ends before the record does")
        self.at += size
        return struct.unpack_from("<" + form, self.data, self.at - size)

    def mark(self, record, *allowed):
        self.record = record
        [mark] = self.take("2s")
        if mark not in [one.encode() for one in allowed]:
            self.refuse(20, self.at - 2, f"its mark is {str(mark)[1:]} and not {' or '.join(allowed)}")
        return mark.decode()

    def count(self, form, most, number, what):
        """A rank or a word count."""
        at = self.at
        [count] = self.take(form)
        if count > most:
            self.refuse(number, at, f"its {what} is {count}, above {most:,}")
        return count


def shown_letters(letters):
    if letters in (b"", b"-"):
        return "\\x2d" if letters else "-"
    return "".join(chr(code) if 32 < code < 127 and code not in b"#\\" else f"\\x{code:02x}" for code in letters)


def shown_words(head, words):
    """A words statement, with runs of equal words as repeats, over as many lines as it needs."""
    parts = [head]
    for value, equal in itertools.groupby(words):
        count = len(list(equal))
        parts += [f"{value}*{count}"] if count >= SHORTEST_RUN else [str(value)] * count
    return textwrap.fill(" ".join(parts), 100, subsequent_indent="    ")


def shown_tensor(job, tensors):
    """The statements of the one of these tensors that comes next, and its name."""
    tensor = job.mark(f"{tensors[-1]} layout", *[f"L{tensor}" for tensor in tensors])[1]
    job.record = f"{tensor} layout"
    rank = job.count("B", MOST_LETTERS, 1, "rank")
    letters, *numbers, base = job.take(layout_form(rank))
    lists = {"extents": numbers[:rank], "strides": numbers[rank:], "base": [base]}
    fields = [" ".join([key, *map(str, values)]) for key, values in lists.items() if values]
    layout = "  ".join([f"layout {tensor} {shown_letters(letters)}", *fields])

    kind = job.mark(f"{tensor} words", *[f"{kind}{tensor}" for kind in WORD_FORM if kind + tensor != "YC"])[0]
    count = job.count("I", MOST_WORDS, 23, "word count")
    words = job.take(f"{count}{WORD_FORM[kind]}")
    return layout + "\n" + shown_words(f"{'words' if kind == 'W' else 'bytes'} {tensor}", words) + "\n", tensor


def text_of(name, data):
    """The text of which `job_of` makes this job file, as a string."""
    job = Job(name, data)
    text = tensor = ""
    while tensor in NEXT:
        shown, tensor = shown_tensor(job, NEXT[tensor])
        text += shown
    job.mark("go", "GO")
    go = [f"{key} {value}" for key, value in zip(GO_KEYS, job.take(GO_FORM))]
    if job.at < len(data):
        job.refuse(22, job.at, "the file goes on after it")
    return text + f"go {' '.join(go[:2])}  {' '.join(go[2:5])}  {' '.join(go[5:])}\n"


# ---- files, the program, the command line


def read(path, most):
    """A file's name for messages, and its bytes: of a file longer than `most`, one more than that."""
    name = "standard input" if path == "-" else path
    try:
        with open(0 if path == "-" else path, "rb", closefd=path != "-") as file:
            return name, file.read(most + 1)
    except OSError as error:
        raise Fault(f"{name}: {error.strerror}") from None


def write(path, data):
    try:
        with open(1 if path == "-" else path, "wb", closefd=path != "-") as file:
            file.write(data)
    except BrokenPipeError:
        raise Fault("") from None  # the reader has seen enough
    except OSError as error:
        raise Fault(f"{'standard output' if path == '-' else path}: {error.strerror}") from None


def make(text, job="-"):
    made = job_of(*read(text, MOST_TEXT))
    if os.path.exists(job) and os.path.exists(text) and os.path.samefile(job, text):
        raise Fault(f"{job}: this is the text itself; it is left as it is")
    write(job, made)


def show(job):
    write("-", text_of(*read(job, MOST_JOB)).encode())


def run(text, program=None):
    job = job_of(*read(text, MOST_TEXT))
    root = os.path.dirname(os.path.dirname(os.path.abspath(__file__)))
    program = program or os.environ.get("NEZGRAK_JOB") or os.path.join(root, "target", "bin", "nezgrak_job")
    if not os.path.exists(program):
        raise Fault(f"{program}: the program is not there; `make run` builds it")
    try:
        ended = subprocess.run([os.path.abspath(program)], input=job, stdout=subprocess.PIPE, check=False)
    except OSError as error:
        raise Fault(f"{program}: {error.strerror}") from None
    write("-", ended.stdout)
    if ended.returncode != 0 or not ended.stdout:
        raise Fault(f"{program}: ended with status {ended.returncode} and {len(ended.stdout)} bytes of answer")


def command(name="", *rest):
    if "--help" in (name, *rest) or "-h" in (name, *rest):
        write("-", __doc__.encode())
    elif name == "make" and len(rest) in (1, 2):
        make(*rest)
    elif name == "show" and len(rest) == 1:
        show(*rest)
    elif name == "run" and (len(rest) == 1 or len(rest) == 3 and rest[1] == "--program"):
        run(*rest[::2])
    elif name == "run" and len(rest) == 3 and rest[0] == "--program":
        run(rest[2], rest[1])
    else:
        raise Fault("usage: jobfile.py make TEXT [JOB] | show JOB | run TEXT [--program PATH] | --help", 2)


def main(arguments):
    try:
        command(*arguments)
        return 0
    except Fault as fault:
        with contextlib.suppress(AttributeError, OSError):  # standard error may be closed
            sys.stderr.write(f"{fault}\n" if str(fault) else "")
        return fault.status
    except KeyboardInterrupt:
        return 130


if __name__ == "__main__":
    sys.exit(main(sys.argv[1:]))
