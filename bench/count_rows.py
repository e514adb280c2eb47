#!/usr/bin/env python3
"""Times a private count over a column of 100,000 numbers of 16 bits, and tells what a tree expansion costs.

The reading of the table is timed beside it, by a shape that states one row less, and taken off.
Run it at the top, after `./splinter` has built the program.
"""
import os
import random
import tempfile

from measure import measure

TOP = os.path.dirname(os.path.dirname(os.path.abspath(__file__)))
PROGRAM = os.path.join(TOP, "crates/splinter/out/splinter")
QUERY = "SELECT COUNT(*) FROM t WHERE a = ?"
ROWS, BITS, PROVIDERS, TABLE_REFUSED = 100_000, 16, 2, 6


def write(folder, stated):
    """A shape that states so many rows."""
    shape = os.path.join(folder, f"{stated}.shape")
    with open(shape, "w") as out:
        out.write(f"table t\nrows {stated}\na UINT({BITS})\n")
    return shape


with tempfile.TemporaryDirectory() as folder:
    table = os.path.join(folder, "t.csv")
    choice = random.Random(1)
    with open(table, "w") as out:
        out.write("a\n" + "".join(f"{choice.randrange(2**BITS)}\n" for _ in range(ROWS)))
    whole, peak = measure([PROGRAM, "trace", write(folder, ROWS), table, QUERY, "7"])
    reading, _ = measure([PROGRAM, "trace", write(folder, ROWS - 1), table, QUERY, "7"], status=TABLE_REFUSED)

walked = whole - reading
expansions = ROWS * (BITS + 1) * PROVIDERS
print(f"{ROWS} rows: {whole:.3f} s, of them {reading:.3f} s for reading; {peak:.1f} MiB")
print(f"{walked / ROWS * 1e6:.2f} us a row, {walked / expansions * 1e9:.0f} ns an expansion")
