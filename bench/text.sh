#!/usr/bin/env bash
# Reads a text file of 50 MB into a buffer by the built program, changes 10,000 of its lines and writes it to another file; then
# runs the generator, and the same lines from a pipe beside it.
#   bench/text.sh          the program alone
#   bench/text.sh SHELL    the text file also through another program with the same lines and replies, as one over `im_rc`
# COUNT in the environment takes the place of the million lines of the file; the generator runs a tenth as many.
set -eu
. "$(dirname -- "$0")/shared.sh"
begin_shell 1000000
other=${1:+$(readlink -f -- "$1")}

report "$count" "$work" "$top" "$program" $other <<'PYTHON'
import hashlib, os, random, subprocess, sys, time
count, room, top, shells = int(sys.argv[1]), sys.argv[2], sys.argv[3], sys.argv[4:]
sys.dont_write_bytecode = True
sys.path.insert(0, top + "/tests")
from plain_shell import work_line
from shared import ROUNDS

draw = random.Random(7)
with open(room + "/text", "w") as out:
    for i in range(count):
        out.write(f"line {i:8} of a text that is long enough to bear\n")
with open(room + "/input", "w") as out:
    out.write("read a text\n")
    for i in range(10_000):
        out.write(f"set a {draw.randrange(count)} another text in its place, {i}\n")
    out.write("write a left\nlen a\n")

def once(words, script, made=None):
    """Wall seconds, processor seconds, peak megabytes, and the replies with the made file's checksum."""
    with open(script, "rb") as lines, open(room + "/replies", "wb") as replies:
        start = time.monotonic()
        child = subprocess.Popen(words, stdin=lines, stdout=replies, cwd=room)
        _, status, usage = os.wait4(child.pid, 0)
        wall = time.monotonic() - start
    if status != 0:
        sys.exit(f"{words} ended with {status}")
    told = hashlib.sha256()
    for path in (room + "/replies", *([made] if made else [])):
        with open(path, "rb") as file:
            told.update(file.read())
    return (wall, usage.ru_utime + usage.ru_stime, usage.ru_maxrss / 1024), told.hexdigest()

def best(runs):
    """The least of each figure of the rounds over the runs, and what each told."""
    figures, told = {}, {}
    for _ in range(ROUNDS):
        for name, run in runs.items():
            got, told[name] = once(*run)
            figures[name] = [min(a, b) for a, b in zip(figures.get(name, got), got)]
    for name, (wall, processor, peak) in figures.items():
        print(f"  {name:24} {wall:6.2f} s wall  {processor:6.2f} s processor  {peak:7.1f} MB")
    return figures, told

print(f"a file of {count:,} lines read, 10,000 of them changed, and written; best of {ROUNDS}:")
figures, told = best({os.path.basename(shell): ([shell], room + "/input", room + "/left") for shell in shells})
if len(set(told.values())) > 1:
    sys.exit("the replies or the files differ")
if len(shells) == 2:
    print("  ratio to the other: wall %.2f, processor %.2f, memory %.2f" % tuple(a / b for a, b in zip(*figures.values())))

commands = min(count // 10, 100_000)
with open(room + "/work", "w") as out:
    out.write("".join(f"new w{i}\n" for i in range(8)))
    x = 0
    for _ in range(commands):
        x = (x * 6364136223846793005 + 1442695040888963407) % 2**64
        out.write(work_line(x) + "\n")
print(f"{commands + 8:,} lines of the generator; best of {ROUNDS}:")
program = shells[0]
figures, _ = best({
    "--work": ([program, "--work", "0", "--count", str(commands)], "/dev/null"),
    "the same lines, read": ([program], room + "/work"),
})
for name, (wall, _, _) in figures.items():
    print(f"  {name:24} {(commands + 8) / wall:12,.0f} replies a second")
PYTHON
