"""Runs the tool and the job program, and tells what does not hold."""

import contextlib
import importlib.util
import io
import os
import subprocess
import sys

from checking import Failed, expect

ROOT = os.path.dirname(os.path.dirname(os.path.dirname(os.path.abspath(__file__))))
TOOL = os.path.join(ROOT, "tools", "jobfile.py")
READING = (1, 20, 21, 22, 23)  # the numbers that a file is refused with before any question is asked


def load_tool():
    spec = importlib.util.spec_from_file_location("jobfile_tool", TOOL)
    module = importlib.util.module_from_spec(spec)
    spec.loader.exec_module(module)
    return module


def contents(path):
    with open(path, "rb") as file:
        return file.read()


def brief(job):
    """Enough of a job file to make it again, where it is small."""
    return f"{job[:400].hex()} ({len(job)} bytes)"


class Bench:
    """The tool, the program and a folder for files."""

    def __init__(self, program, folder):
        self.program = os.path.abspath(program)
        self.folder = folder
        self.tool = load_tool()

    def put(self, name, data):
        path = os.path.join(self.folder, name)
        with open(path, "wb") as file:
            file.write(data if isinstance(data, bytes) else data.encode())
        return path

    def answer(self, job, *arguments):
        """What the program prints for a job file on standard input, or for the file of its argument."""
        try:
            ended = subprocess.run([self.program, *arguments], input=job, capture_output=True, timeout=20, check=False)
        except OSError as error:
            raise Failed(f"{self.program}: {error.strerror}") from None
        except subprocess.TimeoutExpired:
            raise Failed(f"the program is still busy with {brief(job)}") from None
        expect(not ended.stderr, "the program says", ended.stderr)
        return ended.stdout.decode()

    def reads(self, job):
        """Whether the program gets past reading."""
        return self.answer(job) not in [f"refused {number}\n" for number in READING]

    def process(self, *arguments, **options):
        """A process of the tool's own; no other environment than `environment`."""
        environment = {"PATH": os.environ.get("PATH", ""), **options.pop("environment", {})}
        options = {"stdout": subprocess.PIPE, "stderr": subprocess.PIPE, "timeout": 20, "env": environment, **options}
        ended = subprocess.run([sys.executable, TOOL, *arguments], check=False, **options)
        for unwanted in (b"Traceback", b"Exception ignored"):
            expect(unwanted not in (ended.stderr or b""), "jobfile.py", *arguments, "ends with", ended.stderr)
        return ended

    def call(self, *arguments):
        """The tool's status and messages for these arguments, in this process."""
        with contextlib.redirect_stderr(io.StringIO()) as messages:
            try:
                status = self.tool.main(list(arguments))
            except Exception as error:  # whatever it is, a process would end with a traceback
                raise Failed(f"jobfile.py {' '.join(arguments)} raises {error!r}") from error
        return status, messages.getvalue()

    def make(self, text, name="text"):
        """The job file of a text, or the message."""
        made = os.path.join(self.folder, "made.job")
        with contextlib.suppress(FileNotFoundError):
            os.remove(made)
        status, message = self.call("make", self.put(name, text), made)
        expect(os.path.exists(made) == (status == 0), "status", status, "and a job file do not fit, for", text)
        expect(status in (0, 1) and bool(message) == bool(status), "status", status, "with the message", message)
        return contents(made) if status == 0 else message

    def again(self, job):
        """Show, then make: the job file, or the message of show."""
        try:
            text = self.tool.text_of("shown", job)
        except self.tool.Fault:
            status, message = self.call("show", self.put("shown.job", job))
            expect(status == 1, "show ends with status", status, message)
            return message
        except Exception as error:
            raise Failed(f"show raises {error!r}, for {brief(job)}") from error
        try:
            return self.tool.job_of("shown", text.encode("ascii"))
        except Exception as error:
            raise Failed(f"make refuses what show prints: {error!r}, for {brief(job)}") from error
