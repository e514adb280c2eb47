#!/usr/bin/env python3
"""Times `keys`, `answer` and `combine` over a table of 262,144 rows: a COUNT with a key of 16, of 32 and of 64 bits,
a SUM over an interval of 32 bits, a MAX with a key of 32 bits, and a TOPK over a range of 16 bits. The reading of shape
and table is timed beside `answer` and taken off, to tell what a tree expansion costs. Run it at the top, after
`./splinter` has built the program.
"""
import os
import random
import tempfile

from measure import measure

TOP = os.path.dirname(os.path.dirname(os.path.abspath(__file__)))
PROGRAM = os.path.join(TOP, "crates/splinter/out/splinter")
ROWS, TABLE_REFUSED = 262_144, 6


def by_row(levels):
    """As many expansions for each row, over all keys: the levels that are walked, the leaf too."""
    return lambda rows: ROWS * levels


def by_number(column, bits):
    """A walk for each number that the column has."""
    return lambda rows: len({row[column] for row in rows}) * (bits + 1)


def by_level(column, bits):
    """Two walks for each number without its lowest bits, level by level."""
    return lambda rows: sum(2 * len({row[column] >> level for row in rows}) * (bits - level + 1) for level in range(bits))


# The query, its parameters, and how many expansions an answer makes.
QUERIES = [
    ("COUNT, 16 bits", "SELECT COUNT(*) FROM t WHERE a = ?", ["7"], by_row(17)),
    ("COUNT, 32 bits", "SELECT COUNT(*) FROM t WHERE b = ?", ["7"], by_row(33)),
    ("COUNT, 64 bits", "SELECT COUNT(*) FROM t WHERE c = ?", ["7"], by_row(65)),
    ("SUM, interval of 32 bits", "SELECT SUM(a) FROM t WHERE b BETWEEN ? AND ?", ["7", "4000000000"], by_row(2 * 33)),
    ("MAX, 32 bits", "SELECT MAX(a) FROM t WHERE b = ?", ["7"], by_number(1, 32)),
    ("TOPK(10), range of 16 bits", "SELECT TOPK(10, b, c) FROM t WHERE a BETWEEN ? AND ?", ["7", "60000"], by_level(0, 16)),
]


def write():
    """The table, its shape, and a shape that states one row less. Gives the rows."""
    choice = random.Random(1)
    for name, rows in [("t.shape", ROWS), ("less.shape", ROWS - 1)]:
        with open(name, "w") as out:
            out.write(f"table t\nrows {rows}\na UINT(16)\nb UINT(32)\nc UINT(64)\n")
    rows = [(choice.randrange(2**16), choice.randrange(2**32), choice.randrange(2**64)) for _ in range(ROWS)]
    with open("t.csv", "w") as out:
        out.write("a,b,c\n")
        out.writelines(f"{a},{b},{c}\n" for a, b, c in rows)
    return rows


with tempfile.TemporaryDirectory() as folder:
    os.chdir(folder)
    rows = write()
    print(f"the table has {os.path.getsize('t.csv') / 2**20:.1f} MiB")
    for name, query, parameters, expansions in QUERIES:
        keys, _ = measure([PROGRAM, "keys", "t.shape", query, "note", "key0", "key1"] + parameters)
        reading, _ = measure([PROGRAM, "answer", "0", "less.shape", "t.csv", "key0", "none"], runs=3, status=TABLE_REFUSED)
        answer, peak = measure([PROGRAM, "answer", "0", "t.shape", "t.csv", "key0", "answer0"], runs=2)
        measure([PROGRAM, "answer", "1", "t.shape", "t.csv", "key1", "answer1"], runs=1)
        combine, _ = measure([PROGRAM, "combine", "note", "answer0", "answer1"])
        nanoseconds = (answer - reading) / expansions(rows) * 1e9
        print(f"{name}: keys {keys * 1e3:.1f} ms, answer {answer:.2f} s ({reading:.2f} s of it reading; {peak:.0f} MiB), combine {combine * 1e3:.1f} ms, {nanoseconds:.0f} ns an expansion")
