#!/usr/bin/env bash
# Compares, by the built program, and tells the time of one comparison:
# - two versions of 1,000, 10,000 and 100,000 buffers that differ in one, and two that differ in none but were made apart in one,
#   by `eqv`. Rows that both have in the same places aren't looked below, so that the time should grow with the way to one name and
#   not with the names.
# - two buffers of 2^16, 2^21, 2^26 and 2^31 lines, by `same`: of one the first thousand lines were cut off and put before the rest
#   again. Rows that begin at the same line in both are passed over whole, so that the time should grow with the height and not with
#   the lines.
#   bench/equality.sh
# COUNT in the environment takes the place of the thousand buffers.
set -eu
. "$(dirname -- "$0")/shared.sh"
begin_shell 1000

report "$count" "$work" "$program" <<'PYTHON'
import sys
from shared import ROUNDS, shell_run
count, room, program = int(sys.argv[1]), sys.argv[2], sys.argv[3]

def best(script):
    runs = [shell_run(program, room, script) for _ in range(ROUNDS)]
    return min(run[0] for run in runs), runs[0][2]

def taken(made, question, answer, times):
    """The microseconds of one such question behind what makes that it asks of."""
    bare, _ = best(made)
    whole, replies = best(made + f"{question}\n" * times)
    if replies[-times:] != [answer] * times:
        sys.exit(f"{question} says {replies[-1]!r} and not {answer!r}")
    return (whole - bare) / times * 1e6

print(f"{'buffers':>14}{'a line differs':>18}{'made apart':>18}")
for n in (count, 10 * count, 100 * count):
    made = "begin\n" + "".join(f"new b{i}\n" for i in range(n)) + "end\nmark v\nadd b7 x\nmark w\nset b7 0 y\nset b7 0 x\nmark u\n"
    differs, apart = (taken(made, f"eqv w {other}", answer, 100_000) for other, answer in (("v", "= no"), ("u", "= yes")))
    print(f"{n:14,}{differs:15.2f} us{apart:15.2f} us")

print(f"{'lines':>14}{'cut and joined':>18}{'a line differs':>18}")
for doublings in (16, 21, 26, 31):
    last = 2**doublings - 1
    made = "new a\nadd a x\n" + "cat a a\n" * doublings + "copy a b\ncut b 0 1000 c\ncat c b\n" + f"copy c d\nset d {last} y\n"
    equal, differs = (taken(made, f"same a {other}", answer, 1_000) for other, answer in (("c", "= yes"), ("d", "= no")))
    print(f"{last + 1:14,}{equal:15.2f} us{differs:15.2f} us")
PYTHON
