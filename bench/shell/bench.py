#!/usr/bin/env python3
"""Runs the workloads on a program, on im_shell and on std_shell, side by side.

    bench.py --bin PATH [--only a,b] [--repeat 3]

Every workload is first run once per shell at a small size, and once at full
size with its output kept; the replies must be equal. Then come the timed runs,
in turn (program, im_shell, std_shell, program, ...), with the output thrown away
so that the disk isn't measured. The best of the timed runs counts.
"""

import argparse
import hashlib
import json
import math
import os
import re
import resource
import shutil
import subprocess
import sys
import tempfile
import threading
import time

import workloads

HERE = os.path.dirname(os.path.abspath(__file__))
BUILT = os.path.join(HERE, "target", "release")
SMALL = 0.004


class Run:
    """What one run of one shell gave."""

    def __init__(self, wall, cpu, rss, fault, folder, err):
        self.wall, self.cpu, self.rss = wall, cpu, rss
        # None, or why the run doesn't count.
        self.fault = fault
        self.folder = folder
        self.err = err


def run(path, made, scratch, keep, seconds, megabytes, before=()):
    """Runs the script in `made` in a folder of its own."""
    folder = tempfile.mkdtemp(dir=scratch)
    for name in os.listdir(made):
        if name != "input":
            os.link(os.path.join(made, name), os.path.join(folder, name))
    out = open(os.path.join(folder, ".out") if keep else os.devnull, "wb")
    err = open(os.path.join(folder, ".err"), "wb")
    limit = megabytes << 20
    late = []

    def stop(child):
        late.append(True)
        child.kill()

    def bound():
        resource.setrlimit(resource.RLIMIT_AS, (limit, limit))

    with open(os.path.join(made, "input"), "rb") as script, out, err:
        start = time.perf_counter()
        child = subprocess.Popen([*before, path], stdin=script, stdout=out, stderr=err,
                                 cwd=folder, preexec_fn=bound if megabytes else None)
        timer = threading.Timer(seconds, stop, [child])
        timer.start()
        _, status, used = os.wait4(child.pid, 0)
        wall = time.perf_counter() - start
        timer.cancel()
        child.returncode = os.waitstatus_to_exitcode(status)
    with open(os.path.join(folder, ".err"), errors="replace") as err:
        said = err.read()
    fault = None
    if late:
        fault = ">%ds" % seconds
    elif child.returncode != 0:
        if "memory allocation" in said or (megabytes and child.returncode == -6):
            fault = ">%.0fG" % (megabytes / 1024)
        elif child.returncode < 0:
            fault = "signal %d" % -child.returncode
        else:
            fault = "status %d" % child.returncode
    return Run(wall, used.ru_utime + used.ru_stime, used.ru_maxrss * 1024, fault, folder, said)


def digest(path):
    if not os.path.exists(path):
        return "no file"
    total = hashlib.sha256()
    with open(path, "rb") as file:
        while piece := file.read(1 << 20):
            total.update(piece)
    return total.hexdigest()


def prints(workload, folder):
    return [digest(os.path.join(folder, name)) for name in (".out", *workload.compare)]


def lacks_command(folder):
    with open(os.path.join(folder, ".out"), "rb") as out:
        return any(line == b"! command\n" for line in out)


def difference(workload, one, two):
    with open(os.path.join(one, ".out"), "rb") as a, open(os.path.join(two, ".out"), "rb") as b:
        number = 0
        while True:
            number += 1
            x, y = a.readline(), b.readline()
            if x != y:
                return "reply line %d: %r against %r" % (number, x[:50], y[:50])
            if not x:
                break
    for name in workload.compare:
        if digest(os.path.join(one, name)) != digest(os.path.join(two, name)):
            return "the file %s" % name
    return "nothing"


def make(key, size, scratch):
    """The script is written by a process of its own: the peak memory that the
    system tells of a child begins with that of its parent."""
    folder = tempfile.mkdtemp(dir=scratch)
    subprocess.run([sys.executable, os.path.join(HERE, "workloads.py"), "--write", key,
                    "--size", str(size), "--out", folder], check=True)
    return folder


def compared(workload, shells, made, scratch, words, report):
    """One run of each shell with its output kept. Gives the shells whose run
    ended, or None where the program can't be measured; report says why."""
    fine, folders = {}, {}
    verdict = None
    for name, path in shells.items():
        one = run(path, made, scratch, True, *words.limits(name))
        folders[name] = one.folder
        fine[name] = one
        if name == "bin" and lacks_command(one.folder):
            verdict = "not there yet"
            break
    if verdict is None:
        ended = [name for name in shells if fine[name].fault is None]
        if "bin" in ended and "im" in ended:
            seen = {name: prints(workload, folders[name]) for name in ended}
            if seen["bin"] != seen["im"]:
                verdict = "REPLIES DIFFER (bin against im)"
                report.append("%s: %s" % (workload.key, difference(workload, folders["bin"], folders["im"])))
                if "std" in ended:
                    report.append("%s: std_shell agrees with %s" % (
                        workload.key, "bin" if seen["std"] == seen["bin"] else
                        "im_shell" if seen["std"] == seen["im"] else "neither"))
            elif "std" in ended and seen["std"] != seen["im"]:
                verdict = "REPLIES DIFFER (std against both)"
                report.append("%s: %s" % (workload.key, difference(workload, folders["im"], folders["std"])))
        for name in shells:
            if name != "std" and fine[name].fault:
                verdict = "%s: %s" % (name, fine[name].fault)
                report.append("%s: %s said: %s" % (workload.key, name, fine[name].err.strip()[:200]))
    for folder in folders.values():
        shutil.rmtree(folder)
    return fine, verdict


def measured(workload, shells, size, scratch, words, report):
    """The figures of one workload at one size: {shell: Run}, or a verdict."""
    if not words.unchecked:
        made = make(workload.key, min(size, SMALL), scratch)
        small, verdict = compared(workload, shells, made, scratch, words, report)
        shutil.rmtree(made)
        if verdict:
            return None, verdict
        if "std" in small and small["std"].fault is None:
            words.checked.add(workload.key)
    made = make(workload.key, size, scratch)
    first, verdict = compared(workload, shells, made, scratch, words, report)
    if verdict:
        shutil.rmtree(made)
        return None, verdict
    best = {name: one for name, one in first.items() if one.fault}
    for _ in range(words.repeat):
        for name, path in shells.items():
            if first[name].fault:
                continue
            one = run(path, made, scratch, False, *words.limits(name))
            shutil.rmtree(one.folder)
            if one.fault:
                best[name] = one
                continue
            old = best.get(name)
            if old is None:
                best[name] = one
            else:
                old.wall = min(old.wall, one.wall)
                old.cpu = min(old.cpu, one.cpu)
                old.rss = min(old.rss, one.rss)
    shutil.rmtree(made)
    return best, None


def has_counters():
    try:
        told = subprocess.run(["perf", "stat", "-x,", "-e", "instructions:u", "true"],
                              capture_output=True, text=True).stderr
    except OSError:
        return False
    return bool(re.search(r"^\d+,", told, re.M))


def instructions(path, made, scratch, words, counters):
    """The number of instructions of one run, by the counters of the machine or
    by valgrind. The latter repeats exactly."""
    if counters:
        before = ["perf", "stat", "-x,", "-e", "instructions:u"]
    else:
        before = ["valgrind", "--tool=callgrind", "--callgrind-out-file=" + os.devnull]
    one = run(path, made, scratch, False, 1200, 0, before)
    shutil.rmtree(one.folder)
    found = re.search(r"^(\d+),," if counters else r"Collected : (\d+)", one.err, re.M)
    return int(found.group(1)) if found and not one.fault else None


def cell(one, what):
    if one is None:
        return "-"
    if one.fault:
        return one.fault
    if what == "rss":
        return "%.0f" % (one.rss / 1e6)
    return "%.3f" % getattr(one, what)


def ratio(a, b, what):
    if a is None or b is None or a.fault or b.fault:
        return "-"
    return "%.2f" % (getattr(a, what) / max(getattr(b, what), 1e-9))


def table(head, rows):
    wide = [max(len(row[i]) for row in [head] + rows) for i in range(len(head))]
    for row in [head] + rows:
        print("  ".join(x.ljust(w) if i == 0 else x.rjust(w)
                        for i, (x, w) in enumerate(zip(row, wide))).rstrip())


def mean(values):
    return math.exp(sum(map(math.log, values)) / len(values)) if values else None


def times(shells, keys, scratch, words, report, kept):
    rows, walls, cpus, sizes = [], [], [], []
    for key in keys:
        workload = workloads.WORKLOADS[key]
        title = "%s %s" % (key, workload.title)
        best, verdict = measured(workload, shells, words.size, scratch, words, report)
        if verdict:
            rows.append([title, verdict] + [""] * 9)
            kept[key] = {"verdict": verdict}
        else:
            b, i, s = (best.get(name) for name in ("bin", "im", "std"))
            rows.append([title, cell(b, "wall"), cell(i, "wall"), cell(s, "wall"), ratio(b, i, "wall"),
                         cell(b, "cpu"), cell(i, "cpu"), ratio(b, i, "cpu"),
                         cell(b, "rss"), cell(i, "rss"), ratio(b, i, "rss")])
            kept[key] = {name: {"wall": one.wall, "cpu": one.cpu, "rss": one.rss, "fault": one.fault}
                         for name, one in best.items()}
            if not b.fault and not i.fault:
                walls.append(b.wall / i.wall)
                cpus.append(b.cpu / i.cpu)
                sizes.append(b.rss / i.rss)
        print(".", end="", file=sys.stderr, flush=True)
    print(file=sys.stderr)
    if walls:
        rows.append(["geometric mean of the ratios", "", "", "", "%.2f" % mean(walls), "", "",
                     "%.2f" % mean(cpus), "", "", "%.2f" % mean(sizes)])
        kept["mean"] = {"wall": mean(walls), "cpu": mean(cpus), "rss": mean(sizes)}
    print("\nSeconds and peak memory in MB at size %g, best of %d" % (words.size, words.repeat))
    table(["workload", "bin s", "im s", "std s", "bin/im", "bin cpu", "im cpu", "bin/im",
           "bin MB", "im MB", "bin/im"], rows)


def counts(shells, keys, scratch, words, kept):
    counters = has_counters()
    rows, ratios = [], []
    for key in keys:
        made = make(key, words.count_size, scratch)
        probe = run(shells["bin"], made, scratch, True, 600, 0)
        there = not lacks_command(probe.folder) and probe.fault is None
        shutil.rmtree(probe.folder)
        found = {name: instructions(path, made, scratch, words, counters) if there else None
                 for name, path in shells.items()}
        shutil.rmtree(made)
        b, i = found["bin"], found["im"]
        rows.append(["%s %s" % (key, workloads.WORKLOADS[key].title)]
                    + ["%.1f" % (found[n] / 1e6) if found.get(n) else "-" for n in ("bin", "im", "std")]
                    + ["%.2f" % (b / i) if b and i else "-" if there else "not there yet"])
        kept.setdefault(key, {})["instructions"] = found
        if b and i:
            ratios.append(b / i)
        print(".", end="", file=sys.stderr, flush=True)
    print(file=sys.stderr)
    if ratios:
        rows.append(["geometric mean of the ratios", "", "", "", "%.2f" % mean(ratios)])
    print("\nMillions of instructions at size %g, by %s"
          % (words.count_size, "perf" if counters else "callgrind"))
    table(["workload", "bin", "im", "std", "bin/im"], rows)


def growth(shells, keys, scratch, words, report, kept):
    """The exponent e of n^e between n and 2n, and between 2n and 4n. Work that
    grows as n log n has exponents a little over 1, a copy per edit has 2."""
    shells = {name: path for name, path in shells.items() if name != "std"}
    factors = (1, 2, 4)
    rows = []
    for key in keys:
        if key not in workloads.GROWTH:
            continue
        workload = workloads.WORKLOADS[key]
        runs = []
        for factor in factors:
            best, verdict = measured(workload, shells, words.growth_size * factor, scratch, words, report)
            if verdict:
                rows.append(["%s %s" % (key, workload.title), verdict] + [""] * 8)
                break
            runs.append(best)
            print(".", end="", file=sys.stderr, flush=True)
        if len(runs) < 3:
            continue
        for name in shells:
            line = ["%s %s" % (key, workload.title) if name == "bin" else "", name]
            for what in ("cpu", "rss"):
                values = [getattr(one[name], what) for one in runs]
                steps = [math.log2(y / x) for x, y in zip(values, values[1:])]
                line += ["%.3f" % v if what == "cpu" else "%.0f" % (v / 1e6) for v in values]
                line += ["%.2f, %.2f" % tuple(steps)]
                kept.setdefault(key, {}).setdefault("growth", {}).setdefault(name, {})[what] = values
            rows.append(line)
    print(file=sys.stderr)
    print("\nGrowth: processor seconds and MB at sizes %s, and the exponents of each doubling"
          % ", ".join("%g" % (words.growth_size * f) for f in factors))
    table(["workload", "shell", "n", "2n", "4n", "exponents", "MB n", "2n", "4n", "exponents"], rows)


def main():
    words = argparse.ArgumentParser(description=__doc__, formatter_class=argparse.RawDescriptionHelpFormatter)
    words.add_argument("--bin", required=True, help="the program to measure")
    words.add_argument("--only", help="keys of workloads, as a,b")
    words.add_argument("--have", help="commands that the program has, as plain,edits; the other workloads are left out")
    words.add_argument("--repeat", type=int, default=3)
    words.add_argument("--size", type=float, default=1.0)
    words.add_argument("--each", action="store_true", help="let the other shells write each reply before the next line, as ewig promises")
    words.add_argument("--no-std", action="store_true", help="leave std_shell out")
    words.add_argument("--no-times", action="store_true", help="only what the other options ask for")
    words.add_argument("--unchecked", action="store_true", help="leave the comparison at the small size out")
    words.add_argument("--instructions", action="store_true", help="count instructions too")
    words.add_argument("--count-size", type=float, default=0.01)
    words.add_argument("--growth", action="store_true", help="run a to d at n, 2n, 4n too")
    words.add_argument("--growth-size", type=float, default=0.25)
    words.add_argument("--seconds", type=int, default=60, help="limit of a run of the program and im_shell")
    words.add_argument("--memory", type=int, default=12288, help="limit of these in MB of addresses, 0 for none")
    words.add_argument("--std-seconds", type=int, default=10)
    words.add_argument("--std-memory", type=int, default=4096)
    words.add_argument("--scratch", help="folder for scripts and outputs")
    words.add_argument("--json", help="a file for the figures")
    words = words.parse_args()
    if words.each:
        os.environ["EACH_REPLY"] = "1"
    words.limits = lambda name: ((words.std_seconds, words.std_memory) if name == "std"
                                 else (words.seconds, words.memory))

    shells = {"bin": os.path.abspath(words.bin), "im": os.path.join(BUILT, "im_shell")}
    if not words.no_std:
        shells["std"] = os.path.join(BUILT, "std_shell")
    for path in shells.values():
        if not os.access(path, os.X_OK):
            sys.exit("no program %s; run setup.sh first" % os.path.relpath(path))
    keys = words.only.split(",") if words.only else list(workloads.WORKLOADS)
    for key in keys:
        if key not in workloads.WORKLOADS:
            sys.exit("no workload %s" % key)
    if words.have:
        have = set(words.have.split(","))
        if have - set(workloads.FEATURES):
            sys.exit("the kinds of commands are " + ",".join(workloads.FEATURES))
        keys = [key for key in keys if have.issuperset(workloads.WORKLOADS[key].needs)]

    report, kept = [], {}
    # Workloads whose replies std_shell, which has no sharing to get wrong, gave too.
    words.checked = set()
    scratch = tempfile.mkdtemp(prefix="ewig-bench-", dir=words.scratch)
    try:
        if not words.no_times:
            times(shells, keys, scratch, words, report, kept)
        if words.growth:
            growth(shells, keys, scratch, words, report, kept)
        if words.instructions:
            counts(shells, keys, scratch, words, kept)
    finally:
        shutil.rmtree(scratch, ignore_errors=True)
    if words.checked:
        print("\nstd_shell gave the same replies at size %g: %s" % (SMALL, " ".join(sorted(words.checked))))
    if report:
        print("\nRemarks:")
        for line in report:
            print("  " + line)
    if words.json:
        with open(words.json, "w") as file:
            json.dump({"size": words.size, "repeat": words.repeat, "workloads": kept}, file, indent=1)
            file.write("\n")
    sys.exit(1 if report else 0)


if __name__ == "__main__":
    main()
