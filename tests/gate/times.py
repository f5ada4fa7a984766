"""What rt ci did for each crate, by what it prints: rt ci 2>&1 | python3 tests/gate/times.py SAID TABLE

Hands on each line as it comes, but for the last one, and writes all of them to the file SAID. The file TABLE gets a line for each crate: after how many seconds
it was proved (rt says no longer how long a crate took; several are proved at a time, each once those that it uses are), or `kept`, where an earlier run
on this machine had proved the same files; how many functions were proved in this run; and how many must-fail edits were refused.
"""

import re
import sys
import time

BEGUN = re.compile(r"== (\w+)(: its tests)?$")
FUNCTIONS = re.compile(r"logic=proved .*?\bfunctions=(\d+)")
ENDED = re.compile(r"rt: (\w+) (?:(proved)|(is kept): .*)$")
REFUSED = re.compile(r"rt: must-fail (\w+)/\S+: refused, as it must be")


class Table:
    def __init__(self):
        self.began, self.crate, self.functions, self.rows, self.edits = time.monotonic(), None, {}, {}, {}

    def read(self, line):
        if found := BEGUN.match(line):
            self.crate = None if found[2] else found[1]
        elif (found := FUNCTIONS.match(line)) and self.crate:
            self.functions[self.crate] = int(found[1])
        elif found := ENDED.match(line):
            self.rows[found[1]] = "kept" if found[3] else f"{time.monotonic() - self.began:.0f} s"
        elif found := REFUSED.match(line):
            self.edits[found[1]] = self.edits.get(found[1], 0) + 1

    def lines(self):
        for crate, row in self.rows.items():
            yield f"{row:>7} {self.functions.get(crate, '-'):>4} {self.edits.get(crate, 0):>4}  {crate}\n"
        yield f"{'':7} {sum(self.functions.values()):4} {sum(self.edits.values()):4}  all\n"


def main():
    table, held = Table(), ""
    sys.stdin.reconfigure(encoding="utf-8", errors="replace")
    sys.stdout.reconfigure(encoding="utf-8")
    with open(sys.argv[1], "w", encoding="utf-8") as said:
        for line in sys.stdin:
            said.write(line)
            table.read(line)
            print(held, end="", flush=True)
            held = line
    with open(sys.argv[2], "w", encoding="utf-8") as file:
        file.writelines(table.lines())


if __name__ == "__main__":
    main()
