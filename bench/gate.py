#!/usr/bin/env python3
"""Runs the gate, or another command, and tells the processor minutes that it took by crate: of its proof, its tests, its must-fail
edits and what runs programs.

    bench/gate.py                  runs .ci/run
    bench/gate.py COMMAND ..       runs this in its place, as `rt ci node_heap`

The table comes on standard error when the command has ended; the status is the command's. It looks at /proc once a second, so the
last second of each process is missing. What a machine has proved once is kept there: a first run, or `rt ci --anew`, takes it all.
"""

import collections
import os
import re
import subprocess
import sys
import time

TICK = os.sysconf("SC_CLK_TCK")
KINDS = ("proof", "tests", "edits", "runs")


def part_of(process):
    """The crate and the kind of work of a process, or None where it is gone."""
    try:
        with open(f"/proc/{process}/cmdline", "rb") as words:
            line = words.read().decode("utf-8", "replace").replace("\0", " ")
        folder = os.readlink(f"/proc/{process}/cwd")
    except OSError:
        return None
    named = re.search(r"--crate-name (\S+)", line) or re.search(r"crates/(\w+)", f"{line} {folder}")
    if "rt-edit" in line + folder:
        kind = "edits"
    elif re.search(r"--test\b|--cfg[= ]test", line):
        kind = "tests"
    else:
        kind = "proof" if "--crate-name" in line else "runs"
    return named.group(1) if named else "-", kind


def stats():
    """What /proc says of each process: its parent, when it began, and its processor seconds."""
    found = {}
    for process in filter(str.isdigit, os.listdir("/proc")):
        try:
            with open(f"/proc/{process}/stat", encoding="utf-8", errors="replace") as text:
                fields = text.read().rsplit(") ", 1)[1].split()
        except OSError:
            continue
        found[process] = fields[1], fields[19], (int(fields[11]) + int(fields[12])) / TICK
    return found


def look(top, seen):
    """Notes what the processes below the top one have taken so far."""
    found = stats()
    for process, (_, begun, seconds) in found.items():
        above = process
        while above in found and above != top:
            above = found[above][0]
        part = part_of(process) or seen.get((process, begun), (None, 0))[0]
        if above == top and part:
            seen[process, begun] = part, seconds


def main(command):
    begun, seen = time.monotonic(), {}
    child = subprocess.Popen(command)
    while child.poll() is None:
        look(str(child.pid), seen)
        time.sleep(1)
    minutes = collections.defaultdict(collections.Counter)
    for (crate, kind), seconds in seen.values():
        minutes[crate][kind] += seconds / 60
        minutes["all"][kind] += seconds / 60

    def tell(name, cells):
        print(f"{name:18}" + "".join(f"{it:>9}" for it in cells), file=sys.stderr)

    print(f"\n{' '.join(command)}: {(time.monotonic() - begun) / 60:.1f} minutes; processor minutes:", file=sys.stderr)
    tell("crate", (*KINDS, "all"))
    for crate in sorted(minutes, key=lambda it: (it == "all", -sum(minutes[it].values()))):
        tell(crate, [f"{it:.1f}" for it in (*(minutes[crate][kind] for kind in KINDS), sum(minutes[crate].values()))])
    return child.returncode


if __name__ == "__main__":
    if sys.argv[1:2] == ["--help"]:
        sys.exit(__doc__)
    sys.exit(main(sys.argv[1:] or [os.path.join(os.path.dirname(os.path.realpath(__file__)), "..", ".ci", "run")]))
