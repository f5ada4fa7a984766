"""Arguments, files, ways to name the program, and standard streams."""

import os
import shutil
import subprocess
import sys

from checking import expect
from files import GOOD, job_with, words
from running import TOOL, contents


def misuses(bench, text):
    """A title, arguments that the tool refuses, its status and a word of its message."""
    job, folder = bench.put("good.job", job_with()), bench.folder
    nowhere = os.path.join(folder, "none", "file")
    return [
        ("no command", [], 2, "usage"),
        ("an unknown command", ["mend", text], 2, "usage"),
        ("make: no text", ["make"], 2, "usage"),
        ("make: three files", ["make", text, job, job], 2, "usage"),
        ("show: no job file", ["show"], 2, "usage"),
        ("show: two job files", ["show", job, job], 2, "usage"),
        ("run: no text", ["run"], 2, "usage"),
        ("run: an option without a path", ["run", text, "--program"], 2, "usage"),
        ("run: an unknown option", ["run", text, "--other", "x"], 2, "usage"),
        ("make: no such text", ["make", nowhere], 1, "No such file"),
        ("make: a folder as text", ["make", folder], 1, "directory"),
        ("make: no such folder for the job file", ["make", text, nowhere], 1, "No such file"),
        ("make: a folder as job file", ["make", text, folder], 1, "directory"),
        ("make: the text as job file", ["make", text, text], 1, "text itself"),
        ("make: an endless text", ["make", "/dev/zero"], 1, "longer"),
        ("make: a job file as text", ["make", job], 1, ":1: "),
        ("show: no such job file", ["show", nowhere], 1, "No such file"),
        ("show: a folder", ["show", folder], 1, "directory"),
        ("show: an endless file", ["show", "/dev/zero"], 1, "refused 20"),
        ("run: no such text", ["run", nowhere, "--program", bench.program], 1, "No such file"),
        ("run: no program", ["run", text, "--program", nowhere], 1, "make run"),
        ("run: a folder as program", ["run", text, "--program", folder], 1, "denied"),
        ("run: a program that is none", ["run", text, "--program", bench.put("plain", "x")], 1, "denied"),
        ("run: a program without an answer", ["run", text, "--program", shutil.which("true")], 1, "0 bytes"),
        ("run: a program that fails", ["run", text, "--program", shutil.which("false")], 1, "status 1"),
    ]


def check_arguments(bench):
    """Arguments that do not fit, files that cannot be read or written."""
    text = bench.put("good.txt", GOOD)
    table = misuses(bench, text)
    for title, arguments, status, word in table:
        found, message = bench.call(*arguments)
        expect(found == status and word in message, title, "ends with", found, message)
        yield title
    expect(contents(text) == GOOD.encode(), "the text was overwritten")
    for title, arguments, status, word in table[::7]:
        ended = bench.process(*arguments)
        expect(ended.returncode == status and not ended.stdout, title, "ends with", ended.returncode, ended.stdout)
        expect(word.encode() in ended.stderr, title, "says", ended.stderr)
    yield "arguments and files in processes of their own"


def check_start(bench):
    """The help, from the tool started without naming an interpreter."""
    ended = subprocess.run([TOOL, "make", "--help"], capture_output=True, check=False)
    expect(ended.returncode == 0 and b"layout A ik" in ended.stdout and not ended.stderr, "--help says", ended)
    yield "help, and the tool started as a program"


def check_program(bench):
    """Ways to name the program that run starts."""
    text, folder = bench.put("good.txt", GOOD), bench.folder
    nowhere = os.path.join(folder, "none", "file")
    answer = bench.answer(job_with()).encode()
    expect(bench.process("run", text, environment={"NEZGRAK_JOB": bench.program}).stdout == answer, "NEZGRAK_JOB")
    expect(bench.process("run", "-", "--program", bench.program, input=GOOD.encode()).stdout == answer, "run -")
    expect(bench.process("run", "--program", bench.program, text).stdout == answer, "run --program first")
    ended = bench.process("run", text, "--program", bench.program, environment={"NEZGRAK_JOB": nowhere})
    expect(ended.stdout == answer, "--program does not come before NEZGRAK_JOB")
    yield "run: ways to name the program"
    beside = os.path.join(folder, "copy", "tools")
    os.makedirs(beside)
    os.makedirs(os.path.join(folder, "copy", "target", "bin"))
    os.symlink(bench.program, os.path.join(folder, "copy", "target", "bin", "nezgrak_job"))
    copied = shutil.copy(TOOL, beside)
    ended = subprocess.run([sys.executable, copied, "run", text], capture_output=True, env={}, check=False)
    expect(ended.stdout == answer, "the program beside the tools folder is not found:", ended.stderr)
    yield "run: the program beside the tools folder"


def check_names(bench):
    """Locales, and names of files that are not UTF-8."""
    ended = bench.process("show", "-", input=job_with(), environment={"LC_ALL": "C", "PYTHONUTF8": "0"})
    expect(ended.stdout.decode() == bench.tool.text_of("", job_with()), "another locale changes show")
    strange = os.path.join(bench.folder.encode(), b"name \xff")
    ended = bench.process("make", strange, environment={"LC_ALL": "C"})
    expect(ended.returncode == 1 and b"No such file" in ended.stderr, "a name that is not UTF-8 gives", ended.stderr)
    yield "names and locales"


def check_streams(bench):
    """Standard streams that are full, closed, or read by nobody."""
    job = bench.put("good.job", job_with())
    text = bench.put("good.txt", GOOD)
    wide = bench.put("wide.job", job_with(A_words=words(b"A", range(4096))))
    for arguments in (["make", text], ["show", wide], ["run", text, "--program", bench.program]):
        reader, writer = os.pipe()
        os.close(reader)
        with os.fdopen(writer, "wb") as broken:
            ended = bench.process(*arguments, stdout=broken)
        expect(ended.returncode == 1 and not ended.stderr, arguments, "into a broken pipe:", ended)
        with open("/dev/full", "wb") as full:
            ended = bench.process(*arguments, stdout=full)
        expect(ended.returncode == 1 and b"standard output: No space" in ended.stderr, arguments, "when full:", ended)
        ended = bench.process(*arguments, stdout=None, preexec_fn=lambda: os.close(1))
        expect(ended.returncode == 1 and b"standard output: Bad file" in ended.stderr, arguments, "when closed:", ended)
    yield "standard output broken, full or closed"
    for arguments in (["make", "-"], ["show", "-"]):
        ended = bench.process(*arguments, preexec_fn=lambda: os.close(0))
        expect(ended.returncode == 1 and b"standard input: Bad file" in ended.stderr, arguments, "when closed:", ended)
        ended = bench.process(*arguments, stdin=subprocess.DEVNULL)
        expect(ended.returncode == 1, arguments, "with nothing:", ended)
    yield "standard input closed or empty"
    with open("/dev/full", "wb") as full:
        ended = bench.process("make", job, stderr=full)
    expect(ended.returncode != 0 and not ended.stdout, "with standard error full:", ended)
    ended = bench.process("make", job, stderr=None, preexec_fn=lambda: os.close(2))
    expect(ended.returncode == 1 and not ended.stdout, "with standard error closed:", ended)
    yield "standard error full or closed"
