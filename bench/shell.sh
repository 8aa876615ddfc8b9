#!/usr/bin/env bash
# Pipes 1,000,000 lines of `add` and 1,000,000 of `get` through the built program, and tells time and memory.
#   bench/shell.sh          the program alone
#   bench/shell.sh SHELL    and beside it another program with the same lines and replies, as one over `im_rc`
# COUNT in the environment takes the place of the million.
set -eu
. "$(dirname -- "$0")/shared.sh"
begin_shell 1000000
other=${1:+$(readlink -f -- "$1")}

python3 - "$count" "$work/input" <<'PYTHON'
import sys
count = int(sys.argv[1])
with open(sys.argv[2], "w") as out:
    out.write("new a\n")
    for i in range(count):
        out.write(f"add a line {i} of the text\n")
    for i in range(count):
        out.write(f"get a {i * 7919 % count}\n")
    out.write("len a\nquit\n")
PYTHON

shells=("$program")
[ -n "$other" ] && shells+=("$other")
report "$count" "$work" "${shells[@]}" <<'PYTHON'
import hashlib, os, subprocess, sys, time
from shared import ROUNDS
count, room, shells = int(sys.argv[1]), sys.argv[2], sys.argv[3:]

def once(shell):
    """Wall seconds, processor seconds, peak bytes and the replies' checksum of one run over a pipe."""
    feed = subprocess.Popen(["cat", room + "/input"], stdout=subprocess.PIPE)
    with open(room + "/replies", "wb") as out:
        start = time.monotonic()
        child = subprocess.Popen([shell], stdin=feed.stdout, stdout=out, cwd=room)
        feed.stdout.close()
        _, status, usage = os.wait4(child.pid, 0)
        wall = time.monotonic() - start
    feed.wait()
    if status != 0:
        sys.exit(f"{shell} ended with {status}")
    with open(room + "/replies", "rb") as it:
        replies = hashlib.sha256(it.read()).hexdigest()
    return wall, usage.ru_utime + usage.ru_stime, usage.ru_maxrss * 1024, replies

best, replies = {}, set()
for turn in range(ROUNDS):
    for shell in shells:
        *figures, told = once(shell)
        replies.add(told)
        best[shell] = [min(a, b) for a, b in zip(best.get(shell, figures), figures)]
if len(replies) > 1:
    sys.exit("the replies differ")
print(f"{2 * count:,} lines, best of {ROUNDS}:")
for shell in shells:
    wall, processor, peak = best[shell]
    print(f"  {os.path.basename(shell):12} {wall:6.2f} s wall  {processor:6.2f} s processor  {peak / 1e6:7.1f} MB")
if len(shells) == 2:
    ratios = [a / b for a, b in zip(*[best[shell] for shell in shells])]
    print("  ratio to the other: wall %.2f, processor %.2f, memory %.2f" % tuple(ratios))
PYTHON
