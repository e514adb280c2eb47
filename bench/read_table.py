#!/usr/bin/env python3
"""Times the reading of a table of 262,144 rows and 8 columns, beside sqlite3's import of the same file, in one run.

The shape states one row less, so that `trace` reads the whole table, refuses it at its end and walks no tree.
Where sqlite3 is missing, the comparison is left out. Run it at the top, after `./splinter` has built the program.
"""
import os
import shutil
import tempfile

from measure import measure
from table import write

TOP = os.path.dirname(os.path.dirname(os.path.abspath(__file__)))
PROGRAM = os.path.join(TOP, "crates/splinter/out/splinter")
QUERY = "SELECT COUNT(*) FROM t WHERE a = ?"
ROWS, TABLE_REFUSED = 262_144, 6

with tempfile.TemporaryDirectory() as folder:
    write(ROWS, folder, stated=ROWS - 1)
    table = os.path.join(folder, "t.csv")
    size = os.path.getsize(table) / 2**20
    words = [PROGRAM, "trace", os.path.join(folder, "t.shape"), table, QUERY, "1"]
    seconds, peak = measure(words, status=TABLE_REFUSED)
    print(f"{ROWS} rows, {size:.1f} MiB: {seconds:.3f} s, {peak:.1f} MiB, {peak / size:.1f} times the file")
    if shutil.which("sqlite3"):
        other, other_peak = measure(["sqlite3", ":memory:", f".import --csv {table} t"])
        print(f"sqlite3's import: {other:.3f} s, {other_peak:.1f} MiB; ours takes {seconds / other:.2f} of its time")
