#!/usr/bin/env python3
"""Makes docs/DEFINITIONS.md, and the tables of crates in docs/MAP.md, from crates.txt, docs/PROVED.md and the specs.

docs/pages.py          writes them
docs/pages.py --check  writes nothing, and ends with status 1 where one isn't as it would be written
"""
import os
import re
import sys

TOP = os.path.dirname(os.path.dirname(os.path.abspath(__file__)))

HEAD = """# Definitions

What a reader has to believe. Everything that is promised is said with these; the proofs need no belief. First come those that the promises on `run` rest on, each whole, in reading order; behind them stands the index of all, crate by crate. `docs/pages.py` writes this page from `specs/`.

## What the promises on `run` rest on

"""

# The definitions that `run` is said with, in reading order: a heading, and the crate, the file and the name of each.
CORE = [
    (
        "What is outside, and when it may fail",
        [
            ("spl_outside", "Causes", "Rose"),
            ("spl_outside", "Causes", "HasCause"),
            ("spl_outside", "Causes", "Counts"),
            ("spl_outside", "Content", "ReadsFile"),
            ("spl_outside", "Content", "WritesFile"),
            ("spl_outside", "Content", "DrawsWord"),
            ("spl_outside", "Content", "Appends"),
        ],
    ),
    (
        "Values and tables",
        [
            ("spl_values", "Codes", "code_of"),
            ("spl_values", "ShapeTexts", "IsShapeText"),
            ("spl_values", "Tables", "key_of"),
            ("csv_tables", "Reading", "IsTableText"),
        ],
    ),
    (
        "What a query is, and what it means",
        [
            ("query_grammar", "Grammar", "Reads"),
            ("query_reader", "Refusals", "refusal"),
            ("query_reader", "Matching", "matching_rows"),
            ("clear_sql", "Clear", "clear"),
            ("clear_sql", "Meaning", "IsOutcome"),
            ("clear_sql", "AnswerText", "answer_text"),
        ],
    ),
    (
        "Trees, keys and shares",
        [
            ("seed_expansion", "Walk", "path"),
            ("point_keys", "Points", "point_keys"),
            ("point_keys", "Points", "point_share"),
            ("interval_keys", "Thresholds", "threshold_keys"),
            ("interval_keys", "Thresholds", "threshold_share"),
            ("private_plan", "Plans", "plan_of"),
        ],
    ),
    (
        "A session, and the program",
        [
            ("key_frames", "Frames", "KeyFrameOf"),
            ("answer_frames", "Spelling", "AnswerOf"),
            ("provider_core", "Answering", "answered"),
            ("client_rounds", "Finishing", "result_of"),
            ("command_words", "Forms", "form_of"),
            ("splinter_commands", "Effects", "Effect"),
            ("splinter_commands", "Commands", "judged"),
            ("splinter_cli", "Worlds", "World"),
            ("splinter_cli", "Runs", "Leaves"),
            ("splinter_cli", "Runs", "Tells"),
            ("splinter_cli", "Runs", "Promises"),
        ],
    ),
]

DEFINITION = re.compile(r"(?:abbrev pub|unfoldable pub|pub record|pub data)\s+([^\s:({]+)")


def read(*parts):
    with open(os.path.join(TOP, *parts), encoding="utf-8") as it:
        return it.read()


def definitions(crate, module):
    """The definitions of a file, in order: the name, the comment above it, and the whole text."""
    name, comment, text = None, [], []
    for line in [*read("crates", crate, "specs", module + ".antt").split("\n"), ""]:
        found = DEFINITION.match(line)
        if found:
            name, text = found.group(1), [line]
        elif name and line.strip() and not line.startswith("--"):
            text.append(line)
        else:
            if name:
                yield name, " ".join(comment), "\n".join(text)
                name, comment = None, []
            if line.startswith("-- "):
                comment.append(line[3:].strip())
            elif not line.strip():
                comment = []


def crates():
    """Each crate with the libraries that its line names, in the order of crates.txt."""
    lines = [line.split(":") for line in read("crates.txt").split("\n") if ":" in line and not line.startswith("#")]
    return {name.split()[0]: below.split() for name, below in lines}


def below_of(listed):
    """For each crate all that it stands on, directly or not."""
    found = {}

    def below(crate):
        if crate not in found:
            found[crate] = set(listed.get(crate, ())) | {far for it in listed.get(crate, ()) for far in below(it)}
        return found[crate]

    for crate in listed:
        below(crate)
    return found


def directly(listed):
    """For each crate those right below it: the ones that none of its others stands on."""
    far = below_of(listed)
    return {crate: [it for it in named if not any(it in far[other] for other in named)] for crate, named in listed.items()}


def layers(listed):
    """The crates of the repository by the longest chain below each."""
    own = {crate: [it for it in named if it in listed] for crate, named in listed.items()}
    height = {}

    def high(crate):
        if crate not in height:
            height[crate] = 1 + max((high(it) for it in own[crate]), default=-1)
        return height[crate]

    rows = [[] for _ in range(1 + max(map(high, own)))]
    for crate in own:
        rows[height[crate]].append(crate)
    return rows


def sections():
    """What docs/PROVED.md says of each crate: its first paragraph, and its points by their heads."""
    told = {}
    for part in read("docs", "PROVED.md").split("\n### `")[1:]:
        crate, text = part.split("`", 1)
        points = dict(re.findall(r"^- ([A-Z][a-z ]+): (.*)$", text, re.M))
        told[crate] = {**points, "Has": text.strip().split("\n")[0]}
    return told


def map_table():
    """The tables of docs/MAP.md: the crates, and their layers."""
    listed, told = crates(), sections()
    right_below = directly(listed)
    lines = ["| Crate | Stands right on | What it has | What the crates above take from it |", "|---|---|---|---|"]
    for crate in (it for row in layers(listed) for it in row if it in told):
        stands = ", ".join(f"`{it}`" for it in right_below[crate])
        lines.append(f"| `{crate}` | {stands} | {told[crate]['Has']} | {told[crate].get('Taken by the crates above', '')} |")
    lines += ["", "The same by layers, the lowest last. A crate stands on some of the layer below it, and maybe on lower ones.", "", "```"]
    rows = [[it for it in row if it in told] for row in layers(listed)]
    for number, row in reversed([*enumerate(rows)]):
        lines += [f"{number:2}  {'  '.join(row)}"] if row else []
    return "\n".join([*lines, "```"])


def core():
    """The first definitions of the page, each with its text."""
    for heading, names in CORE:
        yield f"### {heading}\n"
        for crate, module, name in names:
            found = {it: (comment, text) for it, comment, text in definitions(crate, module)}
            if name not in found:
                sys.exit(f"docs/pages.py: {crate} has no definition {name} in specs/{module}.antt")
            comment, text = found[name]
            yield f"`{name}` of `{crate}`, `specs/{module}.antt`: {comment}.\n\n```\n{text}\n```\n"


def index():
    """All definitions, crate by crate, from the lowest."""
    listed, told = crates(), sections()
    for crate in (it for row in layers(listed) for it in row if it in told):
        if not os.path.exists(os.path.join(TOP, "crates", crate, "specs", "Lib.antt")):
            continue
        modules = re.findall(r"pub mod (\w+)", read("crates", crate, "specs", "Lib.antt"))
        rows = [(name, comment.replace("|", "\\|"), module) for module in modules for name, comment, _ in definitions(crate, module)]
        if rows:
            yield f"\n## `{crate}`\n\n{told[crate].get('Definitions', told[crate]['Has'])}\n\n| Name | What it says | File |\n|---|---|---|"
            for name, comment, module in rows:
                yield f"| `{name}` | {comment} | `specs/{module}.antt` |"


def pages():
    """The pages with what they are to hold."""
    mapped = re.sub(r"(<!-- made by docs/pages.py -->\n).*?(<!-- up to here -->)", lambda it: it[1] + map_table() + "\n" + it[2], read("docs", "MAP.md"), flags=re.S)
    return {"DEFINITIONS.md": HEAD + "\n".join(core()) + "\n".join(index()) + "\n", "MAP.md": mapped}


def lost_names():
    """The definitions that docs/MAP.md names as a status's cause and that no file of their crate has."""
    for names, files in re.findall(r"^\| \d+ \|.*\| ([^|]+) \| ([^|]+) \|$", read("docs", "MAP.md"), re.M):
        modules = re.findall(r"`specs/(\w+)\.antt`", files)
        for part in names.split(";"):
            named = re.findall(r"`([^`]+)`", part)
            for name in named[:-1] if " over " not in part else named[:1]:
                crate = named[-1] if " over " not in part else named[1]
                has = [it for module in modules if os.path.exists(os.path.join(TOP, "crates", crate, "specs", module + ".antt")) for it, _, _ in definitions(crate, module)]
                if name not in has:
                    yield f"{name} of {crate}"


def main(words):
    lost = [*lost_names()]
    if lost:
        sys.exit(f"docs/MAP.md names what isn't there: {', '.join(lost)}")
    stale = [name for name, text in pages().items() if text != read("docs", name)]
    if words == ["--check"]:
        for name in stale:
            print(f"docs/{name} isn't as docs/pages.py would write it")
        return bool(stale)
    for name, text in pages().items():
        with open(os.path.join(TOP, "docs", name), "w", encoding="utf-8") as it:
            it.write(text)
    return 0


if __name__ == "__main__":
    sys.exit(main(sys.argv[1:]))
