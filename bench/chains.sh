#!/usr/bin/env bash
# Partial documents and moved lines, by the built program:
# - n edits are each saved as a part, where undo keeps 100 states: a new chain begins after each 64th. Told are the time of a save, the
#   bytes of all files and of the parts among them; beside them the time of a whole save each, and the bytes of the last one. A tenth of n
#   edits are saved so where undo keeps all.
# - a whole document of m lines that were added one by one, and 64 parts of a line each behind it: the time to load the whole one
#   alone, and all of them. It should be at most 1.5 times that.
# - the same space: `save`, `indent` and `dedent`. Each of the latter should take at most twice the time of a `save`.
#   bench/chains.sh
# COUNT in the environment takes the place of n, which is 10,000, WHOLE that of m, which is 75,000 (a document of 32 MB), and PROGRAM
# that of the built program.
set -eu
. "$(dirname -- "$0")/shared.sh"
begin_shell 10000

report "$count" "$work" "$program" "${WHOLE:-75000}" <<'PYTHON'
import os, sys
from shared import ROUNDS, shell_run
count, room, program, lines = int(sys.argv[1]), sys.argv[2], sys.argv[3], int(sys.argv[4])
LONGEST, TIMES = 64, 3


def run(script):
    """The least processor seconds of the rounds. Each reply has to be `ok`."""
    runs = [shell_run(program, room, "\n".join(script) + "\n") for _ in range(ROUNDS)]
    if any(reply != "ok" for _, _, replies in runs for reply in replies):
        sys.exit("a reply isn't ok: " + next(reply for reply in runs[0][2] if reply != "ok"))
    return min(taken for taken, _, _ in runs)


def saved_each(edits, whole):
    """The lines of so many edits, each of which is saved: whole, or as a part, or not at all where `whole` is None."""
    for number in range(edits):
        yield f"add a line {number} of the text"
        chain, place = divmod(number, LONGEST + 1)
        if whole is not None:
            yield "save s" if whole else f"part c{chain} {place}" if place else f"save c{chain}"


def bytes_of_chains():
    """The bytes of each file of the chains, which go, and whether it is a part."""
    sizes = []
    for name in os.listdir(room):
        if name[0] == "c" and name[1].isdigit():
            sizes.append((os.path.getsize(f"{room}/{name}"), "." in name))
            os.remove(f"{room}/{name}")
    return sizes


print(f"edits that are saved each, best of {ROUNDS}:")
print(f"{'undo keeps':>12}{'edits':>9}{'a whole save':>15}{'the last':>14}{'a part':>13}{'all files':>16}{'parts':>14}")
for bound, edits in (("100", count), ("4294967295", count // 10)):
    made = [f"history {bound}", "new a"]
    bare = run([*made, *saved_each(edits, None)])
    whole = run([*made, *saved_each(edits, True)])
    last = os.path.getsize(room + "/s")
    parts = run([*made, *saved_each(edits, False)])
    sizes = bytes_of_chains()
    print(f"{bound:>12}{edits:9,}{(whole - bare) / edits * 1e3:12.3f} ms{last:14,}{(parts - bare) / edits * 1e3:10.3f} ms"
          f"{sum(size for size, _ in sizes):16,}{sum(size for size, is_part in sizes if is_part):14,}", flush=True)

made = ["new a", *(f"add a line {number} of the text" for number in range(lines)), "save w"]
made += [line for number in range(1, LONGEST + 1) for line in (f"add a more {number}", f"part w {number}")]
shell_run(program, room, "\n".join(made) + "\n")
size = os.path.getsize(room + "/w")
more = sum(os.path.getsize(f"{room}/w.{number}") for number in range(1, LONGEST + 1))
empty = run(["history 4294967295"])
alone, chain = ((run([line] * TIMES) - empty) / TIMES for line in ("load w", f"chain w {LONGEST}"))
print(f"a document of {size:,} bytes alone: {alone:.3f} s; with {LONGEST} parts of {more:,} bytes: {chain:.3f} s, {chain / alone:.2f} times")

loaded = run(["load w"])
save, indent, dedent = (
    (run(["load w", *[line] * TIMES]) - loaded) / TIMES for line in ("save s", "indent 2 t", "dedent 2 u")
)
print(f"save {save:.3f} s; indent {indent:.3f} s, {indent / save:.2f} times; dedent {dedent:.3f} s, {dedent / save:.2f} times")
PYTHON
