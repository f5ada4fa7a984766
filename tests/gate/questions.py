"""The questions before any work are the same wherever a user reads them.

README.md and docs/RULES.md have 1 to 13, with 30 right after 6, the delay call's 31 and 32, and the job file's 20 to 23. The header and the Rust crate have 1
to 13 and 30 to 32: none of their calls reads a job file. In the header 30 stands at the first call that asks it. docs/RULES.md and the header put each question in the same words. README.md
and the crate say in the same words what refuses. A question and what refuses have the same figures, in the same order, and name the same things. In the
header and the crate × is written *.
"""

import re

from checking import expect
from files import contents

README, RULES, HEADER, CRATE = "README.md", "docs/RULES.md", "include/nezgrak.h", "rust/src/refusal.rs"
JOB_FILE = "docs/JOB-FILE.md"
OF_CALLS, OF_JOB_FILES = [*range(1, 7), 30, *range(7, 14), 31, 32], [*range(20, 24)]
NUMBERS = {README: OF_CALLS + OF_JOB_FILES, RULES: OF_CALLS + OF_JOB_FILES, HEADER: [*range(1, 14), 30, 31, 32], CRATE: OF_CALLS}

TABLE_ROW = r"^\| (\d+) \| (.+?) \|"  # the number and the column after it
HEADER_ROW = r"^ \*     (\d+)  (.+(?:\n \*        .+)*)"
ROWS = {README: TABLE_ROW, RULES: TABLE_ROW, JOB_FILE: TABLE_ROW, HEADER: HEADER_ROW, CRATE: r'^ +(\d+) => (?:\{\s*)?"((?:[^"\\]|\\\n)+)"'}

FIGURE = re.compile(r"-?\d+(?:,\d{3})*")
THING = re.compile(
    r"\b(?:C\b|tensor|letter|extent|stride|base|slice|label|entry|rows|cols|depth|work|tile|total|group|recording|lag|sample|mark|record|go\b)"
)


def rows_of(path):
    """The number and the text of each row, the text on one line."""
    for number, text in re.findall(ROWS[path], contents(path), re.M):
        text = re.sub(r"\\\n *", "", text)  # a string of the crate goes on
        text = re.sub(r"\n \* +", " ", text)  # a comment of the header goes on
        yield int(number), text.replace(" * ", " × ")


def figures(text):
    return [int(figure.replace(",", "")) for figure in FIGURE.findall(text)]


def things(text):
    return sorted(set(THING.findall(text)))


def agree(what, one, said, other, said_there):
    expect(said == said_there, f"{what}: {one} has {said!r}, and {other} {said_there!r}")


def check_numbers():
    for path, wanted in NUMBERS.items():
        there = [number for number, _ in rows_of(path)]
        expect(there == wanted, path, "has the questions", there, "in this order, and is to have", wanted)
        yield f"{path}: the {len(wanted)} questions in their order"


def check_words():
    for one, other in [(RULES, HEADER), (README, CRATE)]:
        texts, texts_there = dict(rows_of(one)), dict(rows_of(other))
        for number in OF_CALLS:
            agree(f"question {number}", one, texts[number], other, texts_there[number])
        yield f"{one} and {other}: {len(OF_CALLS)} questions in the same words"


def check_figures_and_things():
    """No two questions have the same of both, so that each swap of two is seen."""
    questions, refusals = dict(rows_of(RULES)), dict(rows_of(README))
    for number in questions:
        for what, of in ("figures", figures), ("things", things):
            agree(f"question {number}, its {what}", RULES, of(questions[number]), README, of(refusals[number]))
    kinds = {(*figures(text), *things(text)) for text in questions.values()}
    expect(len(kinds) == len(questions), RULES, "has two questions with the same figures and things")
    yield f"{RULES} and {README}: the figures and things of {len(questions)} questions"


def check_job_file():
    """A number stands there more than once, with what refuses at one place of a record; 22 stands below the table."""
    questions, rows = dict(rows_of(RULES)), list(rows_of(JOB_FILE))
    there = {number for number, _ in rows} | {int(number) for number in re.findall(r"gives (\d+)\.", contents(JOB_FILE))}
    agree("numbers that refuse a file", JOB_FILE, sorted(there), RULES, [1, *OF_JOB_FILES])
    for number, text in rows:
        agree(f"question {number}, its figures", JOB_FILE, figures(text), RULES, figures(questions[number]))
    yield f"{JOB_FILE}: the numbers that refuse a file, and their figures"


def spelled(text):
    """The numbers that a text such as `1 to 10, 12 and 13` means."""
    return [number for first, last in re.findall(r"(\d+)(?: to (\d+))?", text) for number in range(int(first), int(last or first) + 1)]


def asked_in_readme():
    """What each call asks without C, then what each asks with C, and then what the delay call asks."""
    rows = re.findall(r"^\| (\d+) \| .+ \| (.+) \|$", contents(README), re.M)
    calls = [["all contractions", call, *named] for named in ([], ["calls with C"]) for call in ("plain calls", "tile calls", "state questions")]
    return [[int(number) for number, by in rows if set(by.split(", ")) & set(call)] for call in [*calls, ["the delay call"]]]


def asked_in_header():
    """A call asks what its comment names of other calls, and its own rows, in the order in which they stand there."""
    named = re.compile(r"(?:is no:|then) (\d[\d, toand]*) of nezgrak_|^ \*     (\d+)  ", re.M)
    comments = re.findall(r"/\*((?:(?!\*/).)*)\*/\nuint32_t nezgrak_", contents(HEADER), re.S)
    return [spelled(" ".join(numbers or row for numbers, row in named.findall(comment))) for comment in comments]


def asked_in_sentence(path, sentence):
    """Such a sentence has lists of numbers, each in place of an N."""
    found = re.search(sentence.replace("N", r"(\d[\d, toand]*)"), contents(path).replace("\n///", ""))
    expect(found, path, "does not say which call asks which questions")
    return [spelled(numbers) for numbers in found.groups()]


def with_more(numbers, more, before):
    """The same questions with one more, right after another one."""
    return [asked for number in numbers for asked in ([number] + more if [number] == before else [number])]


def check_callers():
    asked = asked_in_sentence(RULES, r"The plain call asks N, a tile call N, a state question N\.")
    more, before = asked_in_sentence(RULES, r"Where C is named, each asks N right after N\.")
    with_c = [with_more(numbers, more, before) for numbers in asked]
    of_delay = asked_in_sentence(RULES, r"The delay call asks N\.")
    in_crate = asked_in_sentence(CRATE, r"\[`contract\(\)`\]\S* asks N, \[`run_tiles\(\)`\]\S* N, and \[`state\(\)`\]\S* N\.")
    in_crate += asked_in_sentence(CRATE, r"\[`delay\(\)`\]\S* asks N of its recordings")
    of_file, more, before = asked_in_sentence(JOB_FILE, "the questions of a tile call are asked, N, and where C is named N right after N ")
    said = {
        README: (asked + with_c + of_delay, asked_in_readme()),
        HEADER: (asked + with_c + of_delay, asked_in_header()),
        CRATE: (with_c + of_delay, in_crate),
        JOB_FILE: ([asked[1], with_c[1]], [of_file, with_more(of_file, more, before)]),
    }
    for path, (wanted, there) in said.items():
        agree("which call asks which questions", RULES, wanted, path, there)
        yield f"{path} and {RULES}: which call asks which questions"
