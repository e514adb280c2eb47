#!/usr/bin/env python3
"""Writes a shape and a table of ROWS rows and 8 columns, some 80 bytes a row, the same ones each time.

table.py ROWS FOLDER
"""
import os
import random
import sys

COLUMNS = [
    ("a", "UINT(1)"),
    ("first", "TEXT(16)"),
    ("second", "TEXT(16)"),
    ("kind", "ENUM(red|green|blue|white)"),
    ("day", "UINT(9)"),
    ("price", "UINT(32)"),
    ("serial", "UINT(64)"),
    ("note", "TEXT(12)"),
]
LETTERS = "abcdefghijklmnopqrstuvwxyz "


def write(rows, folder, stated=None):
    """The shape, which states so many rows (those of the table where nothing else is said), and the table."""
    choice = random.Random(1)
    text = lambda length: "".join(choice.choices(LETTERS, k=length))
    with open(os.path.join(folder, "t.shape"), "w") as out:
        lines = ["table t", f"rows {rows if stated is None else stated}"]
        out.write("\n".join(lines + [f"{name} {kind}" for name, kind in COLUMNS]) + "\n")
    with open(os.path.join(folder, "t.csv"), "w") as out:
        out.write(",".join(name for name, _ in COLUMNS) + "\n")
        for _ in range(rows):
            fields = [
                choice.randrange(2), text(15), text(13), choice.choice(["red", "green", "blue", "white"]),
                choice.randrange(365), choice.randrange(2**32), choice.randrange(2**63, 2**64), text(12),
            ]
            out.write(",".join(map(str, fields)) + "\n")


if __name__ == "__main__":
    write(int(sys.argv[1]), sys.argv[2])
