#!/usr/bin/env python3
"""Random documents of version 1 through the built program, compared with tests/pool_reader.py.

    tests/old_documents.py PROGRAM [--documents N] [--seed S] [--maker OLDER]
    tests/old_documents.py --self-test

Each document is that of a workspace with a history of its own: buffers, stars, versions, undo and redo, whose states
share what an edit leaves as it was, and now and then share less or more than a shell of its day would have them share.
With `--maker` it is instead what OLDER saves after a random script: a program that writes version 1, as that of the
commit aaf29b1 does. Half of the documents are damaged by a small change, as tests/hostile.py makes them. They are loaded
by shells of 0 to 64 bits, many by one run.

Compared are the reply to `load`, the number of rows that `stats` tells, and the document that `save` stores, byte for
byte; after a load that is refused both have to tell of the space that was there before it. What was saved is then loaded
and saved once more, which mustn't change it. The second reader itself is held to the law that it carries a pool over
without loss: every tenth document it reads before and after, and compares what both stand for and which rows are one in
both. The first difference ends the run with status 1.

The self-test does the same with the second reader in the place of the program: once as it is, and once for each of some
ways to carry a document over wrongly. It isn't part of the gate.
"""

import collections
import json
import os
import random
import subprocess
import sys
import tempfile

# The folder of tests stays as it is in the repository.
sys.dont_write_bytecode = True

import pool_reader
from fuzz import drawn_script
from hostile import NAMES, TEXTS, Builder, changed, status_of, tell, words_of
from pool_reader import BITS, OLD, RULES, TESTS, Carrying, Pool, bits_in
from plain_shell import pieces

DOCUMENTS_OF_A_RUN = 50
SECONDS = 600
# By how many bits a shell loads: at most and at least as many as old codes have, and few.
SHELLS = [BITS, BITS, BITS, 63, 40, 33, 32, 31, 20, 7, 6, 5, 1, 0]
MANY_NAMES = NAMES + [f"n{number}" for number in range(60)]


# Workspaces with a history


class Session:
    """A workspace of version 1 that is edited. What an edit leaves as it was keeps its rows; all else is made anew."""

    def __init__(self, draw, bits):
        self.draw, self.builder = draw, Builder(draw, OLD, bits)
        # Maps made anew share parts with older ones, with few exceptions, with many, or not at all.
        self.sharing = draw.choice([1, 1, 0.9, 0.5, 0])
        self.names = draw.sample(MANY_NAMES, draw.choice([1, 2, 3, 8, 30]))
        # By its name the place of a pair, of a star's cell, of a version's pair.
        self.buffers, self.stars, self.versions = {}, {}, {}
        self.maps = [self.trie({}), self.trie({})]
        self.no_versions = self.trie({})
        self.undo, self.redo, self.current = [], [], self.state()
        self.cells = []

    def add(self, *row, **links):
        """A row of its own, or now and then an equal one that is there."""
        self.builder.sharing = 0.02
        return self.builder.add(*row, **links)

    def trie(self, entries):
        self.builder.sharing = self.sharing
        return self.builder.trie(list(entries.items()))

    def state(self):
        return self.add("s", links=self.maps)

    def lines(self):
        """A vector of some lines, old ones and new ones."""
        texts = self.draw.choices(TEXTS, k=self.draw.choice([0, 1, 1, 2, 3, 3, 20, 40]))
        self.cells += [self.add("c", text) for text in texts]
        picked = self.cells[-len(texts):] if self.draw.random() < 0.7 else self.draw.choices(self.cells or [self.add("c", "")], k=len(texts))
        self.builder.sharing = 0.05
        return self.builder.vector(picked[:len(texts)])

    def edit(self):
        """One edit of the current state: a buffer made or changed, copied or dropped, or a star."""
        draw, name = self.draw, self.draw.choice(self.names)
        kind = draw.random()
        if kind < 0.6:
            old = self.buffers.get(name)
            key = self.builder.rows[old].links[0] if old is not None else self.add("c", name)
            lines = self.lines()
            if self.buffers and draw.random() < 0.2:
                lines = self.builder.rows[draw.choice(list(self.buffers.values()))].links[1]
            self.buffers = {**self.buffers, name: self.add("p", links=[key, lines])}
            self.maps = [self.trie(self.buffers), self.maps[1]]
        elif kind < 0.8:
            self.buffers = {other: place for other, place in self.buffers.items() if other != name}
            self.maps = [self.trie(self.buffers), self.maps[1]]
        else:
            self.stars = dict(self.stars)
            if self.stars.pop(name, None) is None:
                self.stars[name] = self.add("c", name)
            self.maps = [self.maps[0], self.trie(self.stars)]
        return self.state()

    def step(self):
        """A command: an edit or many in a batch, an undo or a redo, a version marked, given up or made current."""
        draw, kind = self.draw, self.draw.random()
        if kind < 0.15:
            name = draw.choice(self.names)
            self.versions = {**self.versions, name: self.add("p", links=[self.add("c", name), self.current])}
        elif kind < 0.2 and self.versions:
            self.versions = dict(list(self.versions.items())[1:])
        elif kind < 0.3 and self.undo:
            self.redo.append(self.current)
            self.turn_to(self.undo.pop())
        elif kind < 0.35 and self.redo:
            self.undo.append(self.current)
            self.turn_to(self.redo.pop())
        else:
            self.undo.append(self.current)
            self.redo = []
            if kind < 0.45 and self.versions:
                self.turn_to(self.builder.rows[draw.choice(list(self.versions.values()))].links[1])
                return
            for _ in range(draw.choice([1, 1, 1, 2, 10])):
                self.current = self.edit()

    def turn_to(self, state):
        """Makes a state current that was it before."""
        self.current, self.maps = state, list(self.builder.rows[state].links)
        pool = Pool(OLD, self.builder.bits, self.builder.rows, [])
        self.buffers, self.stars = (dict(pool_reader.entries_of(pool, place)) for place in self.maps)

    def pool(self):
        self.builder.sharing = 0
        roots = [self.current, self.trie(self.versions), self.builder.vector(self.undo), self.builder.vector(self.redo)]
        return pool_reader.in_order(Pool(OLD, self.builder.bits, self.builder.rows, roots))


def drawn_workspace(draw, bits):
    """The pool of a workspace of version 1, for a shell by so many bits."""
    session = Session(draw, bits_in(OLD, bits))
    for _ in range(draw.choice([0, 1, 3, 10, 10, 40])):
        session.step()
    return session.pool()


def made_by(maker, draw, bits):
    """The pool that an older program saves after a random script."""
    lines = [line for line in pieces(drawn_script(draw)) if line != b"quit"]
    with tempfile.TemporaryDirectory() as room:
        script = b"\n".join([*lines, b"end", b"save s"]) + b"\n"
        subprocess.run(
            [maker, "--bits", str(bits_in(OLD, bits))], input=script, stdout=subprocess.DEVNULL, check=True, cwd=room,
            timeout=SECONDS,
        )
        with open(f"{room}/s", "rb") as file:
            return pool_reader.read(file.read(), bits).pool


# What a pool that was carried over keeps


def named_places(workspace):
    """The places of states, rows of vectors, and cells of lines, stars and names, by how one comes to them. What is shared is gone
    into once, on the first way that leads to it."""
    rows, found, seen = workspace.pool.rows, {}, set()

    def parts(place, way):
        """What stands right below a row, each with the way to it."""
        row = rows[place]
        if row.letter in "li":
            return [(link, (*way, index)) for index, link in enumerate(row.links)]
        if row.letter != "s":
            return []
        below = []
        for name, pair in sorted(workspace.entries(row.links[0]), key=lambda entry: entry[0]):
            below += [(pair.links[0], (*way, "buffer", name)), (pair.links[1], (*way, "lines", name))]
        stars = pool_reader.entries_of(workspace.pool, row.links[1])
        return below + [(cell, (*way, "star", name)) for name, cell in sorted(stars)]

    waiting = [(workspace.pool.roots[2], ("undo",)), (workspace.pool.roots[3], ("redo",)), (workspace.current, ("current",))]
    for name, pair in sorted(workspace.entries(workspace.pool.roots[1]), key=lambda entry: entry[0]):
        waiting += [(pair.links[0], ("version", name)), (pair.links[1], ("state of", name))]
    while waiting:
        place, way = waiting.pop()
        found[way] = place
        if place not in seen:
            seen.add(place)
            waiting += parts(place, way)
    return found


def classes(found):
    """Which ways lead to one place."""
    ways = collections.defaultdict(list)
    for way, place in found.items():
        ways[place].append(way)
    return sorted(sorted(map(repr, those)) for those in ways.values())


def told(workspace):
    """What the rows are that have a way, by that way, and which ways lead to one row."""
    rows, found = workspace.pool.rows, named_places(workspace)
    return {way: (rows[it].letter, rows[it].text, *rows[it].numbers) for way, it in found.items()}, classes(found)


def is_kept(data, bits):
    """Whether the second reader carries a document over without loss."""
    return told(pool_reader.read(data, bits)) == told(pool_reader.read(pool_reader.saved(data, bits), bits))


# Runs of the program


def batches(seed, number, maker):
    """So many documents, in lists by the bits of a shell, each with the name of what was changed."""
    for first in range(0, number, DOCUMENTS_OF_A_RUN):
        bits = SHELLS[first // DOCUMENTS_OF_A_RUN % len(SHELLS)]
        batch = []
        for index in range(first, min(number, first + DOCUMENTS_OF_A_RUN)):
            draw = random.Random(f"{seed}/{index}")
            pool = made_by(maker, draw, bits) if maker else drawn_workspace(draw, bits)
            batch.append(changed(draw, pool) if draw.random() < 0.5 else ("nothing", pool_reader.written(pool)))
        yield bits, batch


def script_of(count):
    """The lines that load each document, ask for its rows, save it, and load and save what was saved."""
    return "".join(
        f"load d{index}\nstats\nsave e{index}\nload e{index}\nsave f{index}\n" for index in range(count)
    ).encode()


def contents(path):
    with open(path, "rb") as file:
        return file.read()


def start_space(bits):
    """The document of the space that a run by so many bits begins with."""
    return pool_reader.start(bits=bits)


def rows_in(document):
    return len(json.loads(document)["rows"])


def space_after(reply, saved, data, bits, space):
    """The document of the space after a load with this reply, from the one before it. Where the format leaves open how the
    bytes are read, it is what was saved."""
    if reply != "ok":
        return space
    return saved if pool_reader.reply_to(data, bits) is None else pool_reader.saved(data, bits)


def difference(room, index, replies, data, bits, space):
    """How a document was loaded or saved otherwise than the second reader says, or None; and the document of the space then."""
    wanted = pool_reader.reply_to(data, bits)
    # The format may leave it open how it is read.
    if replies[0] != wanted and (wanted or replies[0] != "ok" and replies[0].split(" ")[-1] not in TESTS):
        return f"the reply is {replies[0]}, and not {wanted}", space
    if replies[2:] != ["ok", "ok", "ok"]:
        return f"the replies after it are {replies[1:]}", space
    saved = contents(f"{room}/e{index}")
    space = space_after(replies[0], saved, data, bits, space)
    if saved != space:
        return f"another document is saved after the reply {replies[0]}", space
    if replies[1] != f"= {rows_in(space)}":
        return f"stats tells {replies[1]}, and there are {rows_in(space)} rows, after the reply {replies[0]}", space
    if contents(f"{room}/f{index}") != saved:
        return "what was saved is saved otherwise after another load", space
    return None, space


def compared(program, bits, batch):
    """The first difference in a run over these documents, or None."""
    with tempfile.TemporaryDirectory() as room:
        for index, (_kind, data) in enumerate(batch):
            with open(f"{room}/d{index}", "wb") as file:
                file.write(data)
        ran = subprocess.run(
            [*program, "--bits", str(bits)], input=script_of(len(batch)), capture_output=True, check=False, cwd=room,
            timeout=SECONDS,
        )
        replies, space = ran.stdout.decode("utf-8", "replace").splitlines(), start_space(bits)
        for index, (kind, data) in enumerate(batch):
            found, space = difference(room, index, replies[5 * index:5 * index + 5] or ["none"], data, bits, space)
            if found:
                return f"{kind}, by {bits} bits: {found}; the run ends with status {ran.returncode}", data
        if len(replies) != 5 * len(batch) or ran.returncode != 0:
            return f"by {bits} bits: status {ran.returncode} and {len(replies)} replies", b""
    return None


def try_documents(program, seed, number, maker=None, laws=True):
    """The first difference among so many documents, or None; and how often each reply was due."""
    counts = collections.Counter()
    for bits, batch in batches(seed, number, maker):
        for index, (kind, data) in enumerate(batch):
            reply = pool_reader.reply_to(data, bits)
            counts[reply or "left open"] += 1
            if kind == "nothing" and reply != "ok":
                return (f"by {bits} bits a document that wasn't damaged: {reply}", data), counts
            if laws and reply == "ok" and index % 10 == 0 and not is_kept(data, bits):
                return (f"by {bits} bits: the second reader loses something", data), counts
        found = compared(program, bits, batch)
        if found:
            return found, counts
    return None, counts


# The self-test


class TriesApart(Carrying):
    """Makes each trie anew, also where an equal one stands."""

    def add_once(self, row):
        return self.add(row)


class EqualLeaves(Carrying):
    """Makes one row of equal leaves."""

    def add(self, row):
        return self.add_once(row) if row.letter == "l" and row.links else super().add(row)

    def add_once(self, row):
        same = row.letter, *row.numbers, *row.links
        if same not in self.once:
            self.once[same] = super().add(row)
        return self.once[same]


class ChainsAsTheyCome(Carrying):
    """Puts keys into a chain in the order of the walk."""

    def chain(self, entries):
        rest = []
        for _key, place in entries:
            rest = [self.add_once(pool_reader.Row("k", None, [], [place, *rest]))]
        return rest[0]


def with_old_codes():
    """Carries documents over by the codes that they have."""
    of_today = pool_reader.code_of
    pool_reader.code_of = lambda text, bits, _version=None: of_today(text, min(bits, RULES[OLD].code_bits), OLD)


def without_versions():
    """Forgets the versions."""
    pool_reader.carried = lambda pool, bits, carried=pool_reader.carried: forgetful(carried(pool, bits))


def forgetful(pool):
    rows = [*pool.rows, pool_reader.Row("m", None, [0, 0, 0], [])]
    return pool_reader.in_order(pool._replace(rows=rows, roots=[pool.roots[0], len(pool.rows), *pool.roots[2:]]))


def by_the_bits_of_the_shell():
    """Asks of an old document that it has as many bits as the shell."""
    pool_reader.bits_in = lambda _version, bits: bits


def as_version_one():
    """Says of what it saves that it is of version 1."""
    pool_reader.carried = lambda pool, bits, carried=pool_reader.carried: carried(pool, bits)._replace(version=OLD)


def emptied_by_refusals():
    """Leaves the start space after a load that is refused."""
    globals()["left_by_a_refusal"] = lambda _space, bits: start_space(bits)


WAYS = {
    "equal tries stay apart": lambda: setattr(pool_reader, "Carrying", TriesApart),
    "equal leaves become one": lambda: setattr(pool_reader, "Carrying", EqualLeaves),
    "chains in the order of the walk": lambda: setattr(pool_reader, "Carrying", ChainsAsTheyCome),
    "the old codes": with_old_codes,
    "versions are forgotten": without_versions,
    "the bits of the shell": by_the_bits_of_the_shell,
    "version 1 is saved": as_version_one,
    "a refused load empties the space": emptied_by_refusals,
}


def left_by_a_refusal(space, _bits):
    """The document of the space after a load that is refused."""
    return space


def stand_in(way, bits):
    """Answers the lines of a run by the second reader, which goes wrong in one way or in none."""
    if way in WAYS:
        WAYS[way]()
    space = start_space(bits)
    for line in sys.stdin:
        word, _, name = line.strip().partition(" ")
        if word == "save":
            with open(name, "wb") as file:
                file.write(space)
            print("ok")
        elif word == "stats":
            print(f"= {rows_in(space)}")
        else:
            data = contents(name)
            reply = pool_reader.reply_to(data, bits) or "! damaged json"
            space = pool_reader.saved(data, bits) if reply == "ok" else left_by_a_refusal(space, bits)
            print(reply)


def self_test():
    """Whether the comparison finds nothing where nothing differs, and something for each way to go wrong."""
    own = [sys.executable, os.path.abspath(__file__), "--stand-in"]
    found, counts = try_documents([*own, "none"], 1, 700)
    wrong = tell(found, counts)
    for way in WAYS:
        found, _counts = try_documents([*own, way], 1, 700, laws=False)
        print(f"{way}: {found[0] if found else 'not found'}")
        wrong += found is None
    return wrong


def main():
    if sys.argv[1:2] == ["--stand-in"]:
        return stand_in(sys.argv[2], int(sys.argv[4]))
    words = words_of("Compares the program with the second reader on documents of version 1.")
    words.add_argument("--maker", help="a program that saves documents of version 1")

    def try_program(program, chosen):
        maker = os.path.abspath(chosen.maker) if chosen.maker else None
        return try_documents(program, chosen.seed, chosen.documents, maker)
    return status_of(words, self_test, try_program)


if __name__ == "__main__":
    sys.exit(main())
