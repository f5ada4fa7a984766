"""One job as a text, also with C, and job files that are made without the tool."""

import struct

GOOD = """\
layout A ik  extents 2 3  strides 1 2  base 0
words A 1 2 3 4 5 6
layout B kj  extents 3 2  strides 1 3
bytes B 1 0 2 0 1 1
layout D ij  extents 2 2  strides 1 2
words D 100 200 300 400
go rows 1 cols 1 depth 2
"""
GOOD_WITH_C = GOOD.replace("layout D", "layout C ij  extents 2 2  strides 0 1\nwords C 10 20\nlayout D")


def layout(tensor, letters, extents, strides, base=0):
    rank = len(letters)
    return struct.pack(f"<2sB{rank}s{rank}I{rank}iI", b"L" + tensor, rank, letters, *extents, *strides, base)


def words(tensor, values):
    return b"W" + tensor + struct.pack(f"<I{len(values)}I", len(values), *values)


def byte_words(tensor, values):
    return b"Y" + tensor + struct.pack("<I", len(values)) + bytes(values)


def go(alpha, beta, rows, cols, depth, done, budget):
    return b"GO" + struct.pack("<IIHHHII", alpha, beta, rows, cols, depth, done, budget)


# The records of C in GOOD_WITH_C.
C = {"C_layout": layout(b"C", b"ij", [2, 2], [0, 1]), "C_words": words(b"C", [10, 20])}


def records_with(**changed):
    """The records of GOOD by name, where those of C are empty, with others: A_words=.. changes the record 'A words'."""
    records = matrix_records()
    records.update((name.replace("_", " "), record) for name, record in changed.items())
    return records


def matrix_records():
    return {
        "A layout": layout(b"A", b"ik", [2, 3], [1, 2]),
        "A words": words(b"A", [1, 2, 3, 4, 5, 6]),
        "B layout": layout(b"B", b"kj", [3, 2], [1, 3]),
        "B words": byte_words(b"B", [1, 0, 2, 0, 1, 1]),
        "C layout": b"",
        "C words": b"",
        "D layout": layout(b"D", b"ij", [2, 2], [1, 2]),
        "D words": words(b"D", [100, 200, 300, 400]),
        "go": go(1, 0, 1, 1, 2, 0, 2**32 - 1),
    }


def job_with(**changed):
    return b"".join(records_with(**changed).values())
