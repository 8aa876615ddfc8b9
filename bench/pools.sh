#!/usr/bin/env bash
# Saves and loads spaces of n, 2n and 4n lines by the built program, and tells the time of one `save` and one `load`, and the
# document's rows and bytes. The lines are added one by one outside a batch, so that undo keeps a state for each.
#   bench/pools.sh
# COUNT in the environment takes the place of n, which is 10,000.
set -eu
. "$(dirname -- "$0")/shared.sh"
begin_shell 10000

report "$count" "$work" "$program" <<'PYTHON'
import os, sys
from shared import ROUNDS, shell_run
count, room, program = int(sys.argv[1]), sys.argv[2], sys.argv[3]
TIMES = 5

def best(script, done):
    """The least time and peak of the rounds, whose last replies have to be so many times `ok`, and the replies of one."""
    runs = [shell_run(program, room, script) for _ in range(ROUNDS)]
    if any(replies[len(replies) - done:] != ["ok"] * done for _, _, replies in runs):
        sys.exit(f"the last {done} replies aren't all ok")
    return min(run[0] for run in runs), min(run[1] for run in runs), runs[0][2]

print(f"{'lines':>10}{'rows':>12}{'bytes':>14}{'save':>11}{'load':>11}{'peak':>12}")
for n in (count, 2 * count, 4 * count):
    if os.path.exists(room + "/s"):
        os.remove(room + "/s")
    made = "new a\n" + "".join(f"add a line {i} of the text\n" for i in range(n))
    bare, _, _ = best(made, n + 1)
    rows = int(shell_run(program, room, made + "stats\n")[2][-1].split()[1])
    saved, _, _ = best(made + "save s\n" * TIMES, TIMES)
    empty, _, _ = best("list\n", 1)
    loaded, peak, _ = best("load s\n" * TIMES, TIMES)
    size = os.path.getsize(room + "/s")
    print(f"{n:10,}{rows:12,}{size:14,}{(saved - bare) / TIMES:10.3f}s{(loaded - empty) / TIMES:10.3f}s{peak:10.1f}MB")
PYTHON
