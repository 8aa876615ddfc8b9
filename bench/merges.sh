#!/usr/bin/env bash
# Merges the current state with a version, by the built program, and tells the time of one merge:
# - buffers of n names by `merge`: where both states differ in 100 names, where one was made apart with as many that differ, and where
#   both are the same rows. The first should take at most a fiftieth of the second.
# - stars by `starmerge`, `starboth` and `starless`: of n each, made apart, half of them in both.
#   bench/merges.sh [OTHER]
# OTHER is a program with the same lines and replies, as shell/target/release/im_shell, which runs the same scripts; a union of sets
# made apart should take at most half of its time. COUNT in the environment takes the place of n, which is 100,000, and PROGRAM that
# of the built program.
set -eu
. "$(dirname -- "$0")/shared.sh"
begin_shell 100000
other=${1:+$(readlink -f -- "$1")}

report "$count" "$work" "$program" $other <<'PYTHON'
import os, random, sys
from shared import ROUNDS, shell_run
count, room, programs = int(sys.argv[1]), sys.argv[2], sys.argv[3:]
DIFFERENT = min(100, count // 2)


def made(word, gone, names, draw):
    """Lines that make these names, in a batch and in some order, after others went."""
    names, gone = list(names), list(gone)
    draw.shuffle(names)
    draw.shuffle(gone)
    lines = ["begin", *(("drop" if word == "new" else "unstar") + f" n{name}" for name in gone)]
    return lines + [f"{word} n{name}" for name in names] + ["end"]


def taken(program, before, line, times):
    """The microseconds of one such line behind what comes before, each of which is undone, and the replies to the last questions."""
    question = "list" if line == "merge v" else "stars"
    scripts = ["\n".join(before + [line, question]) + "\n", "\n".join(before + [line, "undo"] * times + [line, question]) + "\n"]
    least = []
    for script in scripts:
        runs = [shell_run(program, room, script) for _ in range(ROUNDS)]
        least.append((min(run[0] for run in runs), runs[0][2]))
    (bare, once), (whole, replies) = least
    if once[len(before) + 1:] != replies[len(replies) - len(once) + len(before) + 1:] or any(it != "ok" for it in once[:len(before) + 1]):
        sys.exit(f"{os.path.basename(program)}: {line!r} isn't undone")
    return (whole - bare) / times * 1e6, once[len(before) + 1:]


draw = random.Random(5)
whole = range(count)
near = [f"drop n{name}" for name in range(DIFFERENT // 2)] + [f"new m{name}" for name in range(DIFFERENT // 2)]
buffers = made("new", [], whole, draw) + ["mark v"]
again = made("new", whole, range(DIFFERENT // 2, count), draw) + [f"new m{name}" for name in range(DIFFERENT // 2)]
half = range(count // 2, count + count // 2)
stars = made("star", [], whole, draw) + ["mark v"] + made("star", whole, half, draw)
CASES = [
    (f"buffers, {DIFFERENT} differ", buffers + near, "merge v", 2_000), ("buffers, made apart", buffers + again, "merge v", 20),
    ("buffers, the same", buffers, "merge v", 2_000), ("stars, made apart", stars, "starmerge v", 20),
    ("stars, made apart", stars, "starboth v", 20), ("stars, made apart", stars, "starless v", 20),
]
print(f"microseconds of one merge of {count:,} names, best of {ROUNDS}:")
print(f"{'':34}" + "".join(f"{os.path.basename(program):>16}" for program in programs))
first = []
for title, before, line, times in CASES:
    told = [taken(program, before, line, times if index == 0 or times < 100 else 20) for index, program in enumerate(programs)]
    if any(replies != told[0][1] for _, replies in told):
        sys.exit(f"the replies to {line!r} differ")
    first.append(told[0][0])
    print(f"{title + ', ' + line.split()[0]:34}" + "".join(f"{time:16,.1f}" for time, _ in told), flush=True)
print(f"buffers that differ in {DIFFERENT}: {first[0] / first[1]:.4f} of those made apart")
PYTHON
