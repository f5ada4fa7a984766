"""The code blocks of README.md are those of the examples, and what they print is what the tests find."""

import re

from checking import expect
from files import contents


def blocks_of(text):
    """The code blocks of a text: those in fences with their language, those that are indented with none."""
    fenced = re.compile(r"^```(\w*)\n(.*?)^```$", re.M | re.S)
    indented = re.findall(r"(?:^    .*\n)+", fenced.sub("", text), re.M)
    return fenced.findall(text) + [("", re.sub(r"^    ", "", block, flags=re.M)) for block in indented]


def without_comments(path):
    """A file without its lines that are comments as a whole, and the empty ones after them."""
    return re.sub(r"^(?:(?://!|/\*|#(?!include)).*\n)+\n?", "", contents(path), flags=re.M)


def copies():
    """What README.md shows: a title, the language of its code block, and the text."""
    jobs = "examples/jobs"
    return [
        ("rust/examples/plain.rs", "rust", without_comments("rust/examples/plain.rs")),
        ("examples/plain.c", "c", without_comments("examples/plain.c")),
        ("matrix_three_tiles.txt", "", without_comments(f"{jobs}/matrix_three_tiles.txt")),
        ("what make run prints", "", contents(f"{jobs}/matrix_three_tiles.out")),
        ("a refused job", "", f"$ tools/jobfile.py run {jobs}/refused.txt\n" + contents(f"{jobs}/refused.out")),
        ("what the tiles example prints", "", contents("tests/examples/tiles.out")),
        ("what the delay example prints", "", contents("tests/examples/delay.out")),
    ]


def check_readme():
    text, shown = contents("README.md"), copies()
    blocks = blocks_of(text)
    for title, language, block in shown:
        expect((language, block) in blocks, "README.md has no code block that is", title)
        yield f"README.md: {title}"
    plain = contents("tests/examples/plain.out").strip()
    expect(f"`{plain}`" in text, "README.md does not say that the plain example prints", plain)
    yield "README.md: what the plain example prints"
    parts = [block for language, block in blocks if language in ("rust", "c") and block not in [copy[2] for copy in shown]]
    for name in "tiles", "shared_start", "delay":
        whole = contents(f"rust/examples/{name}.rs") + contents(f"examples/{name}.c")
        expect(any("\n" + part in whole for part in parts), "README.md has no code for the example", name)
        parts = [part for part in parts if "\n" + part not in whole]
        yield f"README.md: the heart of the example {name}"
    expect(not parts, "README.md has code that is in no example:", *parts)
