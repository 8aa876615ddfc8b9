#!/usr/bin/env python3
"""Random scripts through the built program, compared with tests/plain_shell.py.

    tests/fuzz.py PROGRAM [--scripts N] [--seed S]

Each script is a run of the program of its own, in a folder of its own with some text files and documents, and now and then
with words. A script is drawn with the plain shell at hand, so that most commands hit names and lines that are there, and
some miss them; where the reply would depend on rows, as of a chain whose first file was saved again, another line is drawn
(tests/saves.py has these). Output, status and the files that are left are compared, documents by what they stand for. The
first difference is printed with its script, and ends the run with status 1. It isn't part of the gate.
"""

import argparse
import os
import random
import subprocess
import sys
import tempfile

# The folder of tests stays as it is in the repository.
sys.dont_write_bytecode = True

from kept import DOCUMENTS, files_difference, kept_of
from plain_shell import CODE_BITS, SHAPES, TODAY, USAGE, Kept, Shell, Untold, numbered, output, read_words

# A buffer longer than this is dropped and not joined or copied, so that scripts stay quick.
LONG_ENOUGH = 3_000

NAMES = ["a", "b", "c", "A", "b1", "n.x", "_", "Z-9", "x" * 64]
NO_NAMES = [".x", "-x", "", "é", "a/b", "x" * 65, "a\r"]
TEXTS = ["", "x", "y", "two words", " spaced  out ", "é ü 漢", "\r", "ok", "= x", "a" * 300]
NO_NUMBERS = ["01", "+1", "-1", "4294967296", "1x", ""]
# Text files, no one of which is a document, and documents of each version.
TEXT_FILES = {
    "one": b"", "two": b"x\n", "three": b"first\nsecond\n\nlast", "four": b"\n\n", "five": "é ü 漢\r\n".encode("utf-8"),
    "bad": b"x\n\xff\n", "long": b"x\n" + 65_537 * b"y" + b"\n", "both": 65_537 * b"\xff", "edge": 65_536 * b"z" + b"\n" + b"q" * 65_536,
}
FILES = {**TEXT_FILES, **DOCUMENTS}
# The names of documents that scripts make, one of them so long that its parts have none.
SAVED = ["s", "t", "s.1", "x" * 63]
WORDS = [
    ["--bits", "0"], ["--bits=5"], ["--bits", "32"], ["--bits", "33"], ["--bits", "64"], ["--bits=65"], ["--bits="], ["--bits", "05"],
    ["--bits", "-1"], ["--bit", "5"],
    ["-b", "5"], ["--"], ["--help"], ["--version"], ["--open", "two"], ["--open=nothere"], ["--open=.x"], ["--open"],
    ["--work", "7", "--count", "40"], ["--count=3", "--work=18446744073709551615"], ["--work", "18446744073709551616", "--count", "1"],
    ["--work", "1"], ["--count", "1"], ["--work", "1", "--count", "100001"], ["--work", "1", "--count", "1", "--open", "two"],
    ["--bits", "3", "--bits", "3"], [""], ["x"], ["--bits=7", "x"], ["--open", "today"], ["--open", "old2", "--bits", "40"],
    ["--open", "old", "--bits", "31"], ["--open=second"],
]
NO_LINES = [b"", b" ", b"New a", b"list ", b"\xff", b"add a \xc3", b"undo x", b"new  a", b"get a", b"save", b"stats x", b"made x"]
WEIGHTS = {
    "add": 6, "undo": 4, "redo": 3, "new": 3, "put": 3, "begin": 2, "end": 3, "mark": 2, "same": 2, "eqv": 2,
    "quit": 0.05, "drop": 0.5, "read": 1.5, "history": 0.7, "starmerge": 1.5, "starless": 1.5, "merge": 2, "star": 2, "load": 0.7,
    "part": 1.5, "chain": 0.7, "indent": 0.7, "dedent": 0.7,
}


def plain_files():
    """The files as the plain shell has them."""
    return {**TEXT_FILES, **{name: kept_of(data) for name, data in DOCUMENTS.items()}}


def drawn_name(draw, present):
    """A name: mostly one that is there, rarely what is no name."""
    if draw.random() < 0.02:
        return draw.choice(NO_NAMES)
    if present and draw.random() < 0.7:
        return draw.choice(sorted(present))
    return draw.choice(NAMES)


def drawn_number(draw, length):
    """A number about the length of a buffer, rarely one far off or what is no number."""
    if draw.random() < 0.02:
        return draw.choice(NO_NUMBERS)
    if draw.random() < 0.03:
        return "4294967295"
    return str(draw.randint(0, length + 1))


def drawn_bound(draw, length):
    """How many states undo is to keep: few, about as many as there are, or as many as can be; rarely what is no number."""
    if draw.random() < 0.3:
        return str(draw.randint(0, 3))
    if draw.random() < 0.3:
        return "4294967295"
    return drawn_number(draw, length)


def drawn_file(draw, files):
    """The name of a file: mostly of a document that scripts make, or of one that is there."""
    return draw.choice(SAVED) if draw.random() < 0.6 else drawn_name(draw, files)


def drawn_part(draw, shell, word):
    """The line of a partial document, mostly of the next one of a chain, or of a chain that is there."""
    files = shell.files
    whole = sorted(name for name, it in files.items() if isinstance(it, Kept) and not it.before and it.version == TODAY)
    file = draw.choice(whole) if whole and draw.random() < 0.8 else drawn_file(draw, files)
    number = 0
    while numbered(file, number + 1) in files:
        number += 1
    number += word == "part"
    if draw.random() < 0.2:
        number = draw.choice([0, 1, 2, number + 1, 64, 65, 2**32 - 1, max(0, number - 1)])
    if draw.random() < 0.02:
        number = draw.choice(NO_NUMBERS)
    return f"{word} {file} {number}".encode("utf-8")


def drawn_move(draw, shell, word):
    """The line that stores what there is with its lines moved."""
    count = draw.choice([0, 1, 2, 5, 80, 81, draw.choice(NO_NUMBERS)] if draw.random() < 0.3 else [1, 2, 3])
    return f"{word} {count} {drawn_file(draw, shell.files)}".encode("utf-8")


def drawn_line(draw, shell):
    """A line of bytes for the shell as it stands, to which it has an answer."""
    while True:
        line = drawn_any_line(draw, shell)
        try:
            shell.answer(line)
            return line
        except Untold:
            continue


def drawn_any_line(draw, shell):
    """A line of bytes for the shell as it stands."""
    if draw.random() < 0.02:
        return draw.choice(NO_LINES)
    word = draw.choices(list(SHAPES), [WEIGHTS.get(word, 1) for word in SHAPES])[0]
    if word in ("part", "chain"):
        return drawn_part(draw, shell, word)
    if word in ("indent", "dedent"):
        return drawn_move(draw, shell, word)
    if word in ("save", "load"):
        return f"{word} {drawn_file(draw, shell.files)}".encode("utf-8")
    present = shell.current.buffers
    if word in ("unmark", "back", "eqv", "merge", "starmerge", "starboth", "starless"):
        present = shell.versions
    elif word in ("star", "unstar"):
        present = shell.current.stars
    files = shell.files
    name = drawn_name(draw, present)
    length = len(shell.current.buffers.get(name, []))
    if word in ("cat", "copy") and length > LONG_ENOUGH:
        word = "drop"
    numbers = [drawn_number(draw, length) for _ in range(2)]
    if draw.random() < 0.8:
        numbers.sort(key=lambda number: int(number) if number.isdigit() else 0)
    arguments = []
    for kind in SHAPES[word]:
        if word == "history":
            arguments.append(drawn_bound(draw, len(shell.undo)))
        elif not arguments:
            arguments.append(name)
        elif kind == "I":
            arguments.append(numbers.pop(0))
        elif kind == "N":
            arguments.append(drawn_name(draw, files if word in ("read", "write") else present))
        else:
            arguments.append(draw.choice(TEXTS))
    return " ".join([word, *arguments]).encode("utf-8")


def drawn_script(draw, words=()):
    """A script of a few lines to a few hundred, for a run with these words."""
    options = read_words(words) or {}
    shell = Shell(plain_files(), options.get("bits", CODE_BITS))
    if "open" in options:
        shell.answer(f"load {options['open']}".encode("ascii"))
    lines = []
    for _ in range(draw.choice([3, 10, 30, 100, 300])):
        lines.append(drawn_line(draw, shell))
        if shell.over:
            break
    ending = b"" if draw.random() < 0.1 else b"\n"
    return b"\n".join(lines) + ending


def drawn_words(draw):
    """The words of a run: mostly none."""
    words = []
    if draw.random() < 0.2:
        words = draw.choice(WORDS)
        if draw.random() < 0.2:
            words = words + draw.choice(WORDS)
    return words


def run(program, words, script):
    """What the program writes, its status, what it says on standard error, and the files that it leaves."""
    with tempfile.TemporaryDirectory() as folder:
        for name, data in FILES.items():
            with open(f"{folder}/{name}", "wb") as file:
                file.write(data)
        ran = subprocess.run([program, *words], input=script, capture_output=True, check=False, cwd=folder)
        left = {}
        for name in os.listdir(folder):
            with open(f"{folder}/{name}", "rb") as file:
                left[name] = file.read()
    return ran.stdout, ran.returncode, ran.stderr, left


def main():
    words = argparse.ArgumentParser(description="Compares the program with the plain shell on random scripts.")
    words.add_argument("program")
    words.add_argument("--scripts", type=int, default=10_000)
    words.add_argument("--seed", type=int, default=1)
    chosen = words.parse_args()
    program = os.path.abspath(chosen.program)
    for number in range(chosen.scripts):
        draw = random.Random(f"{chosen.seed}/{number}")
        options = drawn_words(draw)
        script, files = drawn_script(draw, options), plain_files()
        written, status = output(script, options, files)
        wanted = (written, status, f"{USAGE}\n".encode("ascii") if status else b"")
        *got, left = run(program, options, script)
        changed = files_difference(files, left, (read_words(options) or {}).get("bits", CODE_BITS))
        if tuple(got) != wanted or changed:
            print(f"script {number} of seed {chosen.seed}, words {options}, differs, status {got[1]} and not {status}:")
            sys.stdout.buffer.write(script + b"\n-- the program:\n" + got[0] + b"-- the plain shell:\n" + written)
            print(f"-- {changed or 'no file differs'}", flush=True)
            return 1
    print(f"{chosen.scripts} scripts of seed {chosen.seed}: no difference")
    return 0


if __name__ == "__main__":
    sys.exit(main())
