#!/usr/bin/env bash
# Edits a line n times, 10n and 100n times outside a batch, where undo keeps no state, one, a hundred and as many as it can, and tells the
# time of one edit, the peak of memory and the rows that are left. By the last bound, which keeps all, it stops at 100,000 edits. By a
# bound of 0 or 1 the rows have to be as many after any number of edits, and by any but the last the peak of the most edits may pass that
# of the fewest by a megabyte at most; else the status is 1.
#   bench/history.sh
# COUNT in the environment takes the place of 100n, which is 1,000,000.
set -eu
. "$(dirname -- "$0")/shared.sh"
begin_shell 1000000

report "$count" "$work" "$program" <<'PYTHON'
import sys
from shared import ROUNDS, shell_run
count, room, program = int(sys.argv[1]), sys.argv[2], sys.argv[3]
# Undo without a bound keeps all states; so many edits are shown of it.
MOST_UNBOUNDED = 100_000
# By so many megabytes the peak may grow with the edits.
GROWTH = 1

wrong = False
print(f"{'bound':>12}{'edits':>12}{'an edit':>12}{'peak':>12}{'rows':>12}")
for bound in ("0", "1", "100", "4294967295"):
    told = []
    for edits in (count // 100, count // 10, count):
        if bound == "4294967295" and edits > MOST_UNBOUNDED:
            continue
        script = f"history {bound}\nnew a\nadd a x\n" + "".join(f"set a 0 line {i} of the text\n" for i in range(edits)) + "stats\n"
        runs = [shell_run(program, room, script) for _ in range(ROUNDS)]
        if any(replies[:-1] != ["ok"] * (edits + 3) for _, _, replies in runs):
            sys.exit("a reply isn't ok")
        seconds, peak = min(run[0] for run in runs), min(run[1] for run in runs)
        rows = int(runs[0][2][-1].split()[1])
        print(f"{bound:>12}{edits:12,}{seconds / edits * 1e6:10.2f}us{peak:10.1f}MB{rows:12,}", flush=True)
        told.append((peak, rows))
    if bound in ("0", "1") and len({rows for _, rows in told}) > 1:
        print(f"by a bound of {bound} the rows grow with the edits")
        wrong = True
    if bound != "4294967295" and told[-1][0] > told[0][0] + GROWTH:
        print(f"by a bound of {bound} the peak grows with the edits")
        wrong = True
sys.exit(1 if wrong else 0)
PYTHON
