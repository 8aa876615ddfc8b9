#!/usr/bin/env python3
"""Random scripts that save and load through the built program, compared with tests/plain_shell.py by
tests/pool_reader.py.

    tests/saves.py PROGRAM [--scripts N] [--seed S]

The script is given line by line, and each reply is compared with that of the plain shell, which takes from the files of the
folder what the second reader of documents finds in them. Amid the script the program saves its space and loads what it
saved, and saves a partial document and loads that chain, none of which may change any later reply; now and then a document
in the folder is damaged, put in another's place, or saved again, so that the replies to `load`, `part` and `chain` depend on
its bytes. Behind each command that stores or loads a document the space is saved once more, and that document must be valid,
stand for the states, versions, undo with its bound, and redo of the plain shell, and be the one compact text of its rows;
what was stored must be it, or its partial document, or its pool with the lines moved, and what was loaded must be what the
files stand for, all to the byte. `stats` must count its rows; `made` doesn't fall, and rises at least by what `stats` does,
and over a merge `stats` rises by no more than its cost. The first difference is printed with its script, and ends the run
with status 1. It isn't part of the gate.
"""

import argparse
import os
import random
import re
import subprocess
import sys
import tempfile

# The folder of tests stays as it is in the repository.
sys.dont_write_bytecode = True

import pool_reader
from fuzz import FILES, drawn_script
from hostile import VALUE_CHANGES, changed_value
from kept import kept_in, whole_difference
from plain_shell import LARGEST_FILE, LONGEST_CHAIN, MERGES, Refused, Shell, needs, numbered, pieces, read_line

NUMBER = re.compile(r"= (0|[1-9][0-9]*)\Z", re.ASCII)
# How many rows there are in a new space, and were made.
START = (6, 6)
# What a space is saved to that is compared, and what each script saves and loads of itself.
CHECKED, OWN = "checked.space", "own"
LISTING = {"list", "stars", "marks", "show"}
# The commands behind which the space is compared.
STORED, LOADED = {"save", "part", "indent", "dedent"}, {"load", "chain"}


class Different(Exception):
    """A difference, in words."""


class Folder(Shell):
    """The plain shell over the files of a folder, whose documents tests/pool_reader.py reads."""

    def __init__(self, room):
        super().__init__()
        self.room = room

    def bytes_of(self, names):
        """What stands in these files."""
        found = []
        for name in names:
            needs(os.path.isfile(f"{self.room}/{name}"), "missing")
            with open(f"{self.room}/{name}", "rb") as file:
                found.append(file.read())
            needs(sum(map(len, found)) <= LARGEST_FILE, "large")
        return found

    def documents_of(self, file, count):
        """The documents of a chain with so many partial ones."""
        return self.bytes_of([numbered(file, number) for number in range(count + 1)])

    def do_save(self, _file):
        self.outside_batch()

    def do_load(self, file):
        self.outside_batch()
        [data] = self.bytes_of([file])
        pool = read_or_refused(lambda: pool_reader.stands_for(pool_reader.read(data).pool))
        self.take(kept_in(pool_reader.read(pool_reader.written(pool))))

    def do_part(self, file, number):
        self.outside_batch()
        needs(1 <= number <= LONGEST_CHAIN, "range")
        documents = self.documents_of(file, number - 1)
        read_or_refused(lambda: pool_reader.chain_of(documents))

    def do_chain(self, file, number):
        self.outside_batch()
        needs(1 <= number <= LONGEST_CHAIN, "range")
        documents = self.documents_of(file, number)
        pool = read_or_refused(lambda: pool_reader.pool_of_chain(pool_reader.chain_of(documents)))
        self.take(kept_in(pool_reader.read(pool_reader.written(pool))))

    def do_read(self, name, file):
        self.files = {file: data for file, data in zip([file], self.bytes_of([file]))}
        super().do_read(name, file)


def read_or_refused(read):
    """What a reader of documents gives, or the refusal of a damaged one."""
    try:
        return read()
    except pool_reader.Damaged as damage:
        raise Refused(f"damaged {damage}") from None


class Run:
    """A run of the program in a folder with files, and the plain shell beside it."""

    def __init__(self, program, room, draw):
        self.room, self.draw, self.shell, self.rows, self.lines = room, draw, Folder(room), START, []
        for name, data in FILES.items():
            self.store(name, data)
        self.process = subprocess.Popen([program], stdin=subprocess.PIPE, stdout=subprocess.PIPE, cwd=room)

    def store(self, name, data):
        with open(f"{self.room}/{name}", "wb") as file:
            file.write(data)

    def stored(self, name):
        with open(f"{self.room}/{name}", "rb") as file:
            return file.read()

    def ask(self, line):
        """The program's reply to a line."""
        self.lines.append(line)
        self.process.stdin.write(line + b"\n")
        self.process.stdin.flush()
        word, replies = line.split(b" ")[0].decode("utf-8", "replace"), []
        while True:
            reply = self.process.stdout.readline()
            if not reply.endswith(b"\n"):
                raise Different(f"the run ends at {line[:60]!r}")
            replies.append(reply[:-1].decode("utf-8"))
            if word not in LISTING or not replies[-1].startswith("= "):
                return replies

    def number(self, word):
        [reply] = self.ask(word)
        if not NUMBER.match(reply):
            raise Different(f"{word!r} is answered {reply}")
        return int(reply[2:])

    def count(self):
        """Asks for the rows, which may not go wrong since they were asked for last."""
        (rows, made), self.rows = self.rows, (self.number(b"stats"), self.number(b"made"))
        later, more = self.rows
        if more < made or more - made < later - rows:
            raise Different(f"{made} rows were made and then {more}, while {rows} rows became {later}")
        return later

    def give(self, line):
        """Compares the reply to a line, and what it stored or loaded."""
        try:
            word, arguments = read_line(line)
        except Refused:
            word, arguments = "", []
        before, size = None, 0
        if word in MERGES:
            before, size = self.count(), merge_size(self.shell, word, *arguments)
        due, files = self.shell.answer(line), self.files_of(word, arguments)
        got = self.ask(line)
        if got != due:
            raise Different(f"{line[:60]!r} is answered {got[-1][:60]}, and is due {due[-1][:60]}")
        if word in MERGES and due == ["ok"] and self.count() > before + 256 + 16 * size:
            raise Different(f"{line[:60]!r} of {size} entries made {before} rows {self.rows[0]}")
        if word in STORED | LOADED and due == ["ok"]:
            self.compare(word, arguments, files)
        if word in STORED and due == ["ok"] and self.draw.random() < 0.3:
            self.damage()

    def files_of(self, word, arguments):
        """The documents that a command takes."""
        if word not in ("load", "part", "chain"):
            return []
        file, number = arguments[0], arguments[1] if word != "load" else 0
        try:
            return self.shell.documents_of(file, number - (word == "part"))
        except Refused:
            return []

    def compare(self, word, arguments, files):
        """Saves the space, and compares it with the plain shell's, and with what a command stored or loaded."""
        if self.ask(f"save {CHECKED}".encode("ascii")) != ["ok"]:
            raise Different("the space isn't saved")
        data = self.stored(CHECKED)
        found = whole_difference(self.shell.spaces(), data)
        if found:
            raise Different(f"behind {word}: {found}")
        pool = pool_reader.read(data).pool
        if self.count() != len(pool.rows):
            raise Different(f"the document has {len(pool.rows)} rows, and not {self.rows[0]}")
        if word == "load":
            name, wanted = CHECKED, pool_reader.saved(files[0])
        elif word == "chain":
            name, wanted = CHECKED, pool_reader.written(pool_reader.pool_of_chain(pool_reader.chain_of(files)))
        elif word == "save":
            name, wanted = arguments[0], data
        elif word == "part":
            name, wanted = numbered(*arguments), pool_reader.part_written(pool_reader.chain_of(files), pool)
        else:
            move = pool_reader.indented if word == "indent" else pool_reader.dedented
            name, wanted = arguments[1], pool_reader.written(move(pool, arguments[0]))
        if self.stored(name) != wanted:
            raise Different(f"{name} isn't what {word} had to store or to load")

    def damage(self):
        """Damages a document of the folder, or puts another one in its place, where the format says how that is read."""
        names = sorted(name for name in os.listdir(self.room) if self.stored(name)[:1] == b"{" and name != CHECKED)
        name = self.draw.choice(names)
        data = self.stored(self.draw.choice(names)) if self.draw.random() < 0.3 else damaged(self.stored(name), self.draw)
        try:
            pool_reader.value_of(data)
        except pool_reader.Damaged:
            pass
        except pool_reader.LeftOpen:
            return
        self.store(name, data)
        self.lines.append(b"-- the harness stores %d other bytes in %s" % (len(data), name.encode("ascii")))

    def own_documents(self):
        """Saves and loads what there is, and the same as a chain."""
        self.give(f"save {OWN}".encode("ascii"))
        self.give(f"load {OWN}".encode("ascii"))
        if self.draw.random() < 0.5:
            number = self.draw.randint(1, 2)
            self.give(f"part {OWN} {number}".encode("ascii"))
            self.give(f"chain {OWN} {number}".encode("ascii"))

    def go(self, script):
        """Gives the lines of the script, with saves, loads and numbers of rows amid them."""
        for line in [line for line in pieces(script) if line != b"quit"] + [b"end"]:
            if self.shell.base is None and self.draw.random() < 0.1:
                self.own_documents()
            if self.draw.random() < 0.1:
                self.count()
            self.give(line)
        self.give(b"save s")
        self.process.stdin.close()
        if self.process.wait() != 0:
            raise Different(f"the run ends with status {self.process.returncode}")

    def stop(self):
        self.process.kill()
        self.process.wait()
        self.process.stdout.close()


def merge_size(shell, word, version):
    """How many entries a merge with this version goes over."""
    if version not in shell.versions:
        return 0
    states = shell.current, shell.versions[version]
    return sum(len(state.buffers if word == "merge" else state.stars) for state in states)


def damaged(data, draw):
    """The document with a small change, of its value or of its bytes."""
    try:
        value = pool_reader.value_of(data)
    except (pool_reader.Damaged, pool_reader.LeftOpen):
        return data
    if type(value) is not dict or draw.random() < 0.1:
        return data[:draw.randrange(len(data))]
    return changed_value(value, draw, draw.choice(VALUE_CHANGES))


def try_script(program, script, draw):
    """How the run of a script differs, or None, the lines that were given, and how many rows were saved at the end."""
    with tempfile.TemporaryDirectory() as room:
        run = Run(os.path.abspath(program), room, draw)
        try:
            run.go(script)
            return None, run.lines, run.rows[0]
        except Different as found:
            return str(found), run.lines, 0
        finally:
            run.stop()


def main():
    words = argparse.ArgumentParser(description="Compares what the program saves with the plain shell.")
    words.add_argument("program")
    words.add_argument("--scripts", type=int, default=2_000)
    words.add_argument("--seed", type=int, default=1)
    chosen = words.parse_args()
    rows = 0
    for number in range(chosen.scripts):
        draw = random.Random(f"{chosen.seed}/{number}")
        found, lines, more = try_script(chosen.program, drawn_script(draw), draw)
        if found:
            print(f"script {number} of seed {chosen.seed}: {found}", flush=True)
            sys.stdout.buffer.write(b"\n".join(lines) + b"\n")
            return 1
        rows += more
    print(f"{chosen.scripts} scripts of seed {chosen.seed}, {rows} rows saved: no difference")
    return 0


if __name__ == "__main__":
    sys.exit(main())
