#!/usr/bin/env python3
"""Proves all crates side by side, and tells on standard error how far it is.

    tools/build.py LOG    a file for what the proofs say

`rt all check` does the work, as many crates at a time as there are processors and memory for; this counts the crates
that it tells of. (Calls of `rt lib` beside each other in one checkout would wait for one another.)
"""
import os
import subprocess
import sys
import time

TOP = os.path.dirname(os.path.dirname(os.path.abspath(__file__)))
GIB_A_CHECK = 3


def crates():
    """How many crates there are."""
    with open(os.path.join(TOP, "crates.txt"), encoding="utf-8") as lines:
        return sum(":" in line and not line.startswith("#") for line in lines)


def side_by_side():
    """How many checks fit: one a processor, and no more than memory takes."""
    memory = os.sysconf("SC_AVPHYS_PAGES") * os.sysconf("SC_PAGE_SIZE")
    return max(1, min(len(os.sched_getaffinity(0)), memory // (GIB_A_CHECK * 2**30)))


def build(log):
    """Proves all crates, and returns the status of that."""
    whole, done, begun = crates(), 0, time.monotonic()
    words = ["rt", "all", "check", "--jobs", str(side_by_side())]
    how = {"stdin": subprocess.DEVNULL, "stdout": subprocess.PIPE, "stderr": subprocess.STDOUT}
    with subprocess.Popen(words, cwd=TOP, text=True, errors="replace", **how) as proving:
        for line in proving.stdout:
            log.write(line)
            if line.startswith("== ") and line != "== summary\n":
                done += 1
                minutes = int(time.monotonic() - begun) // 60
                print(f"splinter: crate {done} of {whole}, {minutes} minutes gone: {line[3:].rstrip()}", file=sys.stderr, flush=True)
    return proving.returncode


if __name__ == "__main__":
    with open(sys.argv[1], "w", encoding="utf-8") as said:
        sys.exit(build(said))
