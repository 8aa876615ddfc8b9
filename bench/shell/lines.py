#!/usr/bin/env python3
"""Counts the instructions of one command line, by what it does, over a buffer of 100,000 lines or among 1,000 or 10,000 names.

    lines.py --bin PATH [--only a,c] [--functions 8]

Each script is run by valgrind's callgrind with its lines and without them, and the difference is told for one line: of all, and of
the functions that take most. The counts repeat exactly, whatever else the machine does. A table that grows is moved once for many
lines, and whether that comes among those that count is chance: what `realloc` takes is told apart. PATH is a program with the lines
of `ewig`.
"""

import argparse
import os
import re
import subprocess
import sys
import tempfile

sys.dont_write_bytecode = True
from workloads import Dice

LINES, TIMES, EDITS, MANY = 100_000, 2_000, 1_000, 1_000


def edits(dice):
    """What storms of undo and redo go over: a set, an add or a copy."""
    for i in range(EDITS):
        kind = dice.below(3)
        if kind == 0:
            yield "set a %d edit %d" % (dice.below(LINES), i)
        else:
            yield "add b edit %d" % i if kind == 1 else "copy a c%d" % (i % 20)


def show(start, count):
    return "show a %d %d" % (start, start + count)


def apart(dice):
    """Stars of a version `v`, and as many made apart in another batch, half of them those of the version."""
    yield "begin"
    yield from ("star name.%d" % i for i in dice.shuffled(range(LINES)))
    yield from ["end", "mark v", "begin"]
    yield from ("unstar name.%d" % i for i in dice.shuffled(range(LINES)))
    yield from ("star name.%d" % i for i in dice.shuffled(range(LINES // 2, LINES + LINES // 2)))
    yield "end"


def scripts():
    """For each key: what is counted, the lines before, those that count, and one after."""
    read, dice = ["read a text"], Dice(3)
    adds = ["add a line %d of the text" % i for i in range(TIMES)]
    sets = ["set a %d changed %d" % (dice.below(LINES), i) for i in range(TIMES)]
    gets = ["get a %d" % dice.below(LINES) for _ in range(TIMES)]
    names = ["begin"] + ["new name.%d" % i for i in range(10_000)] + ["end"]
    some = ["begin"] + ["new name.%d" % i for i in range(MANY)] + ["end"]
    half = TIMES // 4
    return {
        "a": ("append outside a batch", read, adds, []),
        "b": ("append in a batch", read + ["begin"], adds, ["end"]),
        "c": ("random `set`", read, sets, []),
        "m": ("random `set` in a batch", read + ["begin"], sets, ["end"]),
        "h": ("`undo` and `redo`", read + ["new b", *edits(dice)], (["undo"] * half + ["redo"] * half) * 2, []),
        "l": ("random `get`", read, gets, []),
        "p": ("`show` of one line", read, [show(dice.below(LINES), 1) for _ in range(TIMES)], []),
        "q": ("`show` of 100 lines", read, [show(dice.below(LINES - MANY), 100) for _ in range(TIMES // 10)], []),
        "r": ("`show` of 1,000 lines", read, [show(dice.below(LINES - MANY), MANY) for _ in range(TIMES // 20)], []),
        "s": ("`list` of 1,000 names", some, ["list"] * (TIMES // 20), []),
        "n": ("`new` beside 10,000 names", names, ["new other.%d" % i for i in range(TIMES)], []),
        "o": ("`drop` among 10,000 names", names, ["drop name.%d" % i for i in range(TIMES)], []),
        # What the merge before made is given up with it.
        "u": ("`starmerge` of 100,000 stars made apart and its `undo`", [*apart(dice), "starmerge v", "undo"], ["starmerge v\nundo"] * 2, []),
    }


def counted(path, room, lines):
    """The instructions of each function in a run over these lines, and those of all growing of tables."""
    with open(os.path.join(room, "input"), "w") as script:
        script.write("".join(line + "\n" for line in lines))
    words = ["valgrind", "--tool=callgrind", "--callgrind-out-file=counts", path]
    with open(os.path.join(room, "input")) as script:
        done = subprocess.run(words, stdin=script, stdout=subprocess.DEVNULL, stderr=subprocess.PIPE, cwd=room, text=True)
    if done.returncode != 0:
        sys.exit(f"{path} ended with {done.returncode}: {done.stderr[-400:]}")
    return told(room, "no"), told(room, "yes").get("realloc", 0)


def told(room, inclusive):
    """The instructions of each function as the file of counts has them, with or without those of what it calls."""
    words = ["callgrind_annotate", "--threshold=100", "--show-percs=no", f"--inclusive={inclusive}", "counts"]
    lines = subprocess.run(words, stdout=subprocess.PIPE, cwd=room, text=True, check=True).stdout.splitlines()
    found = {}
    for line in lines:
        part = re.match(r"\s*([\d,]+)\s+\S*?:(.*?)( \[.*\])?$", line)
        if part:
            found[part.group(2)] = found.get(part.group(2), 0) + int(part.group(1).replace(",", ""))
    return found


def main():
    words = argparse.ArgumentParser(description=__doc__, formatter_class=argparse.RawDescriptionHelpFormatter)
    words.add_argument("--bin", required=True, help="the program")
    words.add_argument("--only", help="keys, as a,c")
    words.add_argument("--functions", type=int, default=8, help="how many functions to tell")
    words = words.parse_args()
    path = os.path.abspath(words.bin)
    with tempfile.TemporaryDirectory() as room:
        with open(os.path.join(room, "text"), "w") as text:
            text.write("".join("line %d of the first text\n" % i for i in range(LINES)))
        for key, (what, before, lines, after) in scripts().items():
            if words.only and key not in words.only.split(","):
                continue
            (whole, grown), (bare, grown_before) = counted(path, room, before + lines + after), counted(path, room, before + after)
            grown -= grown_before
            more = {name: whole.get(name, 0) - bare.get(name, 0) for name in {**whole, **bare}}
            total = sum(more.values())
            print(f"{key} {what}: {(total - grown) / len(lines):,.0f} a line, and {grown / len(lines):,.0f} where tables grow")
            for name, count in sorted(more.items(), key=lambda it: -it[1])[: words.functions]:
                print(f"  {count / len(lines):8,.0f} {100 * count / total:5.1f} %  {name[:100]}")


if __name__ == "__main__":
    main()
