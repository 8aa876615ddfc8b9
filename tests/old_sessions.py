#!/usr/bin/env python3
"""The sessions in which the documents of version 1 that stand in examples/ were made, and the examples over them.

    tests/old_sessions.py make PROGRAM FOLDER   runs them through a program that saves version 1: a document each, FOLDER/BITS/NAME
    tests/old_sessions.py ask PROGRAM FOLDER    writes the examples over these documents: what such a program replies after a load,
                                                and what the second reader says that a shell of today saves, and how many rows

The program of the commit aaf29b1 is such a one, and none after the codes became 64 bits wide. So the documents can't be
made anew from this tree: they stay in the examples `old_documents_*` as they are. What these examples want of today's
program is thus not made by it: replies come from the older one, documents and numbers of rows from tests/pool_reader.py.
Only where undo is full, as in `full_undo`, the older one refuses each edit, and today's gives up the oldest state: there
the replies come from tests/plain_shell.py, which is given the last states alone.
"""

import os
import shutil
import subprocess
import sys
import tempfile

# The folder of tests stays as it is in the repository.
sys.dont_write_bytecode = True

import pool_reader
from plain_shell import MOST, Shell, State
from pool_reader import EXAMPLES, OLD

# Names whose codes meet: the first two by 32 bits, the next two by 64, and `A`, `a` and `ba` by few.
NAMES = ["costarring", "liquid", "7mohtcOFVz", "c1E51sSEyx", "A", "a", "ba", "b", "B", "n.x", "_", "Z-9", "x" * 64]


def batch(*lines):
    return ["begin", *lines, "end"]


def with_lines(name, texts):
    return [f"new {name}", *(f"add {name} {text}" for text in texts)]


def numbered(name, count):
    return with_lines(name, [f"line {number}" for number in range(count)])


def each(word, names, after=""):
    return [f"{word} {name}{after}" for name in names]


# What every number of bits is tried with.
COMMON = {
    "start": [],
    "empty": ["new a", "undo"],
    "names": each("new", NAMES),
    "names_in_a_batch": batch(*each("new", NAMES), *each("star", NAMES), *each("add", NAMES, " x")),
    "taken_away": [*each("new", NAMES), *each("drop", NAMES[1:]), *each("star", NAMES), *each("unstar", NAMES[:-1])],
    "versions": [
        line for number, name in enumerate(NAMES)
        for line in [f"new {name}", f"add {name} {number}", f"star {name}", f"mark {name}"]
    ] + ["unmark b", "back a", "back liquid", "set costarring 0 changed", "undo", "undo"],
    "tries_alike_and_apart": [
        *each("new", "aAb"), "mark one", "new c", "mark two", "drop c", "mark three", "drop A", "new A", "mark four",
        "star s", "unstar s", "mark five", "copy a b", "mark six",
    ],
    "undone": [*numbered("a", 5), "new A", "add A y", "star A", *["undo"] * 4, "redo", "mark v"],
    "all_undone": [*each("new", NAMES), *["undo"] * len(NAMES)],
}

# What codes don't matter to, by 32 bits alone.
BY_ALL_BITS = {
    "texts": with_lines("t", [
        "", "\"quoted\" and \\ back", "tab\tbell\x07 return\r", "\x01\x1f\x7f", "é 漢 😀 \u2028", "/ </script>", "\b\f\x00", "x" * 2000,
    ]),
    "one_line_again": [*with_lines("a", ["x"]), "cat a a", "copy a b", "cat b a", "mark v", "set a 1 y"],
    "thirty_three_lines": batch(*numbered("a", 33)),
    "lines_one_by_one": [*numbered("a", 40), *["undo"] * 3],
    "three_heights": [*batch(*numbered("a", 1100)), "set a 550 changed", "mark v", "del a 100 900"],
    "doubled": [*with_lines("a", ["x"]), *["cat a a"] * 31, "mark v", "copy a b", "del b 1 2147483647", "cat b a"],
    "joined_and_cut": [
        *batch(*numbered("a", 70)), *batch(*numbered("b", 45)), "cat a b", "put a 50 between", "cut a 20 60 c",
        "mark v", "del a 3 40", "put a 3 again", "cat c c", "cat c a", "copy c a", "undo", "undo",
    ],
    "hundred_names": [
        *batch(*each("new", [f"n{number}" for number in range(100)])), *each("star", [f"n{number}" for number in range(0, 100, 7)]),
    ],
    "names_one_by_one": [
        *each("new", [f"n{number}" for number in range(45)]), "mark v", *each("drop", [f"n{number}" for number in range(0, 45, 2)]),
    ],
    "long_history": [*with_lines("a", ["x"]), *[f"set a 0 y{number}" for number in range(70)], *["undo"] * 40, "mark v"],
    "given_up": ["new a", "mark v", "begin", "add a x", "add a y", "abort", "begin", "end", "add a z"],
}

BITS = [32, 20, 7, 5, 0]


def sessions(bits):
    return {**COMMON, **(BY_ALL_BITS if bits == 32 else {})}


def run(program, bits, lines, room):
    """The replies to lines in a folder."""
    ran = subprocess.run(
        [os.path.abspath(program), "--bits", str(bits)], input="".join(f"{line}\n" for line in lines).encode(),
        capture_output=True, check=True, cwd=room,
    )
    return ran.stdout.decode().split("\n")[:-1]


def make(program, folder):
    """Runs the sessions, each of which saves its space under its name."""
    for bits in BITS:
        room = os.path.join(folder, str(bits))
        os.makedirs(room)
        for name, lines in sessions(bits).items():
            replies = run(program, bits, [*lines, f"save {name}"], room)
            if any(reply != "ok" for reply in replies):
                raise SystemExit(f"{name} by {bits} bits: {[it for it in replies if it != 'ok'][:3]}")


def others(bits):
    """Documents that no session makes: rows are one in them that sessions make apart, or the other way round."""
    version = {"version": OLD, "bits": bits}
    cell, empty = ["c", "x"], pool_reader.EMPTY_MAP
    made = {"shared_empties": pool_reader.whole([empty, ["s", [0, 0]], ["l", []]], [1, 0, 2, 2], **version)}
    if bits == 32:
        made["two_cells"] = pool_reader.two_lines([cell, cell], [1, 2], **version)
        made["one_cell"] = pool_reader.two_lines([cell], [1, 1], **version)
        made["two_names"] = pool_reader.two_names(pool_reader.OLD_POSITIONS, **version)
        made["full_undo"] = pool_reader.full_undo(**version)
    return made


# The examples: the bits of the shell that loads, those of the documents, and which documents these are, or all.
SHELLS = [
    (64, 32, None), (40, 32, ["names_in_a_batch", "names_one_by_one", "two_names"]), (32, 32, ["names", "versions", "hundred_names"]),
    (20, 20, None), (7, 7, None), (5, 5, None), (0, 0, None),
]
# What is done at last to a space that was loaded.
EDITS = [
    *each("new", ["A", "liquid", "zz"]), "add zz x", "star a", "drop a", "list", "stars", "new a", "copy zz liquid", "cat a zz",
    "list", "undo", "undo", "list",
]
# So many lines of a buffer are shown, and so many states of undo and of redo are looked at.
FEW = 8


def questions(workspace):
    """What is asked of a space that was loaded: all that it has and that is short, then its versions, or undo and redo."""
    def of_state(state):
        shown = [f"show {name} 0 {len(lines)}" for name, lines in sorted(workspace.buffers(state).items()) if len(lines) <= FEW]
        return ["list", "stars", *shown]

    asked = [*of_state(workspace.current), "marks"]
    for name, state in sorted(workspace.versions().items()):
        asked += [f"back {name}", *of_state(state), "undo"]
    # The `back` of a version has emptied redo.
    if not workspace.versions():
        for word, back, states in [("undo", "redo", workspace.undo), ("redo", "undo", workspace.redo)]:
            count = min(FEW, len(states))
            for index in range(count):
                asked += [word, *of_state(states[len(states) - 1 - index])]
            asked += [back] * count
    return asked + EDITS


def put(path, data):
    os.makedirs(os.path.dirname(path), exist_ok=True)
    with open(path, "wb") as file:
        file.write(data)


def ask_of(program, documents, old_bits, bits, example):
    """Writes one example over these documents."""
    lines, told, kept = [], {}, {}
    for name, data in sorted(documents.items()):
        workspace = pool_reader.read(data, bits)
        pool, asked = pool_reader.stands_for(workspace.pool, bits), questions(workspace)
        kept[name], kept[f"{name}.now"] = data, pool_reader.written(pool)
        told[len(lines) + 1] = [f"= {len(pool.rows)}"]
        lines += [f"load {name}", "stats", f"save {name}.now"]
        if len(workspace.undo) == MOST:
            told.update(enumerate(replied_today(workspace, asked), len(lines)))
        lines += asked
        put(f"{example}.files/{name}", data)
    with tempfile.TemporaryDirectory() as room:
        for name, data in documents.items():
            put(f"{room}/{name}", data)
        blocks = replied(program, old_bits, lines, room)
    for index, block in told.items():
        blocks[index] = block
    put(f"{example}.in", "".join(f"{line}\n" for line in lines).encode())
    put(f"{example}.out", "".join(f"{line}\n" for block in blocks for line in block).encode())
    if bits != pool_reader.BITS:
        put(f"{example}.args", f"--bits\n{bits}\n".encode())
    for name, data in kept.items():
        put(f"{example}.kept/{name}", data)


def replied(program, bits, lines, room):
    """The reply lines to each of these lines. `list`, `stars`, `marks` and `show` end with `ok`, all others are one line."""
    replies, blocks = iter(run(program, bits, lines, room)), []
    for line in lines:
        block = [next(replies)]
        while line.split(" ")[0] in ("list", "stars", "marks", "show") and block[-1] != "ok":
            block.append(next(replies))
        blocks.append(block)
    return blocks


def replied_today(workspace, lines):
    """The reply lines to each of these lines by the plain shell. It has as many of the last states of undo and of redo as there are
    lines, which are all that they can come to."""
    def state(place):
        buffers = {name: workspace.lines(cells) for name, cells in workspace.buffers(place).items()}
        return State(buffers, workspace.stars(place))

    def last(states):
        return [state(states[index]) for index in range(max(0, len(states) - len(lines)), len(states))]

    shell = Shell()
    shell.current, shell.undo, shell.redo = state(workspace.current), last(workspace.undo), last(workspace.redo)
    shell.versions = {name: state(place) for name, place in workspace.versions().items()}
    return [shell.answer(line.encode()) for line in lines]


def ask(program, folder):
    """Writes the examples."""
    for bits, old_bits, names in SHELLS:
        documents = others(old_bits)
        for name in os.listdir(os.path.join(folder, str(old_bits))):
            with open(os.path.join(folder, str(old_bits), name), "rb") as file:
                documents[name] = file.read()
        chosen = {name: data for name, data in documents.items() if names is None or name in names}
        example = os.path.join(EXAMPLES, "old_documents" if bits == pool_reader.BITS else f"old_documents_by_{bits}_bits")
        for more in (".files", ".kept"):
            shutil.rmtree(example + more, ignore_errors=True)
        ask_of(program, chosen, old_bits, bits, example)


def main():
    if len(sys.argv) != 4 or sys.argv[1] not in ("make", "ask"):
        print(__doc__, file=sys.stderr)
        return 2
    {"make": make, "ask": ask}[sys.argv[1]](*sys.argv[2:])
    return 0


if __name__ == "__main__":
    sys.exit(main())
