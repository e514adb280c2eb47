#!/usr/bin/env python3
"""What a run of the gate costs: processor seconds of each crate for its proofs, its tests and its edits.

bench/gate_costs.py [OUT.json]     runs `.ci/run`, and prints the table when it has ended
bench/gate_costs.py --table IN.json  prints the table of an earlier run

It looks at the prover's processes twice a second, and takes each for what its command line and its folder say:
a crate's own proof, the proof of its tests, the proof that its edits begin with (once more the crate's own), or
the try of an edit. What `rt ci` kept from an earlier run costs nothing, so a whole table wants a machine that
kept nothing, or `rt ci --anew`.
"""
import json
import os
import subprocess
import sys
import time
from collections import defaultdict

TOP = os.path.dirname(os.path.dirname(os.path.abspath(__file__)))
TICKS = os.sysconf("SC_CLK_TCK")
KINDS = ["proof", "tests", "seed", "edits"]


def kind_of(words, folder):
    """What a process of the prover is at work on, if it proves anything."""
    if words[1] not in ("check", "build"):
        return None
    if "rt-edit-" in folder:
        over = words[words.index("--incremental") + 1] if "--incremental" in words else ""
        return "seed" if over.endswith("/seed") else "edits"
    return "tests" if "--test" in words else "proof"


def look(seen):
    """Notes how many processor seconds each process of the prover has taken so far."""
    for process in filter(str.isdigit, os.listdir("/proc")):
        at = f"/proc/{process}"
        try:
            if os.path.basename(os.readlink(f"{at}/exe")) != "rattle":
                continue
            with open(f"{at}/cmdline", encoding="utf-8") as it:
                words = it.read().split("\0")
            with open(f"{at}/stat", encoding="utf-8") as it:
                numbers = it.read().rsplit(")", 1)[1].split()
            kind = kind_of(words, os.readlink(f"{at}/cwd"))
            if kind:
                crate = words[words.index("--crate-name") + 1]
                seen[process, numbers[19]] = crate, kind, (int(numbers[11]) + int(numbers[12])) / TICKS
        except (OSError, ValueError, IndexError):
            # (it ended meanwhile)
            continue


def watched(command):
    """Runs a command, and gives its wall time, its status, and the seconds of each crate and kind."""
    seen, begun = {}, time.time()
    with subprocess.Popen(command, cwd=TOP) as ran:
        while ran.poll() is None:
            look(seen)
            time.sleep(0.5)
    costs = defaultdict(float)
    for crate, kind, seconds in seen.values():
        costs[crate, kind] += seconds
    told = [[crate, kind, round(seconds, 1)] for (crate, kind), seconds in sorted(costs.items())]
    return {"wall": round(time.time() - begun), "status": ran.returncode, "costs": told}


def crates():
    """Each crate with those of the repository that it stands on."""
    with open(f"{TOP}/crates.txt", encoding="utf-8") as it:
        lines = [line.split(":") for line in it if ":" in line and not line.startswith("#")]
    listed = {name.split()[0]: below.split() for name, below in lines}
    return {name: [it for it in below if it in listed] for name, below in listed.items()}


def longest_chain(below, seconds):
    """The crates that stand on each other whose own proofs take longest, lowest first."""
    chains = {}

    def chain(crate):
        if crate not in chains:
            longest = max((chain(it) for it in below[crate]), default=(0, []))
            chains[crate] = longest[0] + seconds[crate], [*longest[1], crate]
        return chains[crate]

    return max(chain(it) for it in below)


def edits(crate):
    folder = f"{TOP}/crates/{crate}/must-fail"
    return sum(it.endswith(".edit") for it in os.listdir(folder)) if os.path.isdir(folder) else 0


def table(run):
    """The page's table, with the sums and the longest chain below it."""
    costs, below = defaultdict(float), crates()
    for crate, kind, seconds in run["costs"]:
        costs[crate, kind] += seconds
    print("| Crate | Own proofs | Its tests | Proved once more for its edits | Its edits | How many edits |\n|---|---|---|---|---|---|")
    for crate in below:
        print("| " + " | ".join([f"`{crate}`", *(f"{costs[crate, it]:.0f}" for it in KINDS), str(edits(crate))]) + " |")
    sums = [sum(costs[crate, kind] for crate in below) for kind in KINDS]
    print("| all | " + " | ".join(f"{it:.0f}" for it in sums) + f" | {sum(map(edits, below))} |")
    seconds, chain = longest_chain(below, {it: costs[it, "proof"] for it in below})
    print(f"\nIn all {sum(sums) / 60:.0f} processor minutes, in {run['wall'] / 60:.0f} minutes.")
    print(f"The longest chain has {len(chain)} crates, whose own proofs take {seconds:.0f} processor seconds: {', '.join(f'`{it}`' for it in chain)}.")


def main(words):
    if words[:1] == ["--table"]:
        with open(words[1], encoding="utf-8") as it:
            return table(json.load(it))
    run = watched([f"{TOP}/.ci/run"])
    if words:
        with open(words[0], "w", encoding="utf-8") as it:
            json.dump(run, it)
    table(run)
    return run["status"]


if __name__ == "__main__":
    sys.exit(main(sys.argv[1:]))
