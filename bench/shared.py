"""Runs the programs of a bench in turn, and prints what they took."""
import os
import subprocess
import sys

# Each figure is the best of so many rounds.
ROUNDS = int(os.environ.get("ROUNDS", 3))


def programs(arguments):
    """The name, the file and the word of each program, from arguments `name|file|word`."""
    return [argument.split("|") for argument in arguments]


def spans_of(lines):
    """The wall and the processor seconds of each phase, from the words of the lines that a program told.

    A line has the phase that it ends, the two clocks in seconds and nanoseconds, and a number that all programs must agree
    on. A line `start` ends no phase.
    """
    spans = []
    for before, after in zip(lines, lines[1:]):
        if after[0] != "start":
            start, end = ([int(word) for word in line[1:5]] for line in (before, after))
            wall = end[0] - start[0] + (end[1] - start[1]) / 1e9
            used = end[2] - start[2] + (end[3] - start[3]) / 1e9
            spans.append((wall, used))
    return spans


def once(program, word, first):
    """What one run told: the wall and the processor seconds of each phase, the peak megabytes, and the numbers.

    The peak is read after the first lines, before the program goes on.
    """
    child = subprocess.Popen([program] + word.split(), stdin=subprocess.PIPE, stdout=subprocess.PIPE, text=True)
    lines = [child.stdout.readline().split() for _ in range(first)]
    with open(f"/proc/{child.pid}/status") as status:
        peak = next(int(line.split()[1]) * 1024 for line in status if line.startswith("VmHWM:"))
    lines += [line.split() for line in child.communicate("\n")[0].splitlines()]
    if child.returncode != 0:
        sys.exit(f"{program} {word} ended with {child.returncode}")
    return spans_of(lines), peak / 1e6, [int(line[5]) for line in lines]


def best_of_rounds(runs, first, what):
    """The best spans and the least peak of each program by its name, and the numbers that all told."""
    spans, peaks, told = {}, {}, []
    for _ in range(ROUNDS):
        for name, program, word in runs:
            taken, peak, numbers = once(program, word, first)
            told.append(numbers)
            spans[name] = [tuple(map(min, *pair)) for pair in zip(spans.get(name, taken), taken)]
            peaks[name] = min(peaks.get(name, peak), peak)
    if any(numbers != told[0] for numbers in told):
        sys.exit(f"the {what} differ")
    return spans, peaks, told[0]


def table(columns, figures, width, digits=2, margin=32):
    """A row of figures for each program, and then what those of the first program are of each other's."""

    def row(name, cells, form):
        print(f"  {name:{margin}}" + "".join(format(cell, form) for cell in cells))

    row("", columns, f">{width}")
    for name, cells in figures.items():
        row(name, cells, f"{width}.3f")
    (_, ours), *others = figures.items()
    for name, theirs in others:
        row("ratio to " + name, [mine / other for mine, other in zip(ours, theirs)], f"{width}.{digits}f")


def tables(columns, figures, width, margin=32):
    """A table of the programs that leave the old version, and one of those that change one in place; where none of this
    repository does, one table of all."""
    places = {name: cells for name, cells in figures.items() if name.endswith(", in place")}
    if not any(name.startswith("this repository") for name in places):
        table(columns, figures, width, margin=margin)
        return
    table(columns, {name: cells for name, cells in figures.items() if name not in places}, width, margin=margin)
    table(columns, places, width, margin=margin)


# Starts a program, and tells in a file what it took. It is a process of its own, since the system tells of none a peak below that of
# the process that started it, and a bench holds whole scripts and replies.
MEASURED = """
import os, subprocess, sys
child = subprocess.Popen(sys.argv[2:])
_, status, usage = os.wait4(child.pid, 0)
with open(sys.argv[1], "w") as out:
    out.write(f"{status} {usage.ru_utime + usage.ru_stime} {usage.ru_maxrss}")
"""


def shell_run(program, room, script):
    """What one run of the shell over a script took in this folder: the processor seconds, the peak megabytes, and its replies."""
    with open(room + "/input", "w") as out:
        out.write(script)
    with open(room + "/input") as given, open(room + "/replies", "wb") as out:
        subprocess.run([sys.executable, "-c", MEASURED, room + "/usage", program], stdin=given, stdout=out, cwd=room, check=True)
    with open(room + "/usage") as usage:
        status, seconds, peak = usage.read().split()
    if status != "0":
        sys.exit(f"the program ended with {status}")
    with open(room + "/replies") as replies:
        return float(seconds), int(peak) * 1024 / 1e6, replies.read().split("\n")[:-1]
