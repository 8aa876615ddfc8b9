#!/usr/bin/env python3
"""Damaged documents through the built program, compared with tests/pool_reader.py.

    tests/hostile.py PROGRAM [--documents N] [--chains N] [--seed S]
    tests/hostile.py --self-test

Valid documents of all versions are drawn, or taken from the examples, and damaged by a small change each: a link, a
root, a number, a bit of a set, a row, a key, a byte, the end. Many are loaded by one run of the program, and each reply
is compared with that of the second reader; what was loaded is saved again, and its bytes are compared too. What the
format leaves open needs a clear reply alone. Chains of documents are drawn as well, whose partial documents are as a shell
writes them, or share less or more with the rows before; half of them are damaged, or have documents in each other's place.
Each is loaded and saved, and another document is loaded, saved as the next part of the chain, and stored with its lines
moved. The first difference ends the run with status 1. The self-test does the same with the second reader in the place of
the program: once as it is, once for each of five tests that it then forgets, once where it forgets that a document of an
older version sets the bound of undo, and once for each of some mistakes with chains and with moved lines.
Whole histories of version 1 are tried by tests/old_documents.py, and documents that are made to hurt by
tests/hostile_documents. It isn't part of the gate.
"""

import argparse
import collections
import glob
import os
import random
import re
import subprocess
import sys
import tempfile

# The folder of tests stays as it is in the repository.
sys.dont_write_bytecode = True

import pool_reader
from pool_reader import BITS, EXAMPLES, MOST_HISTORY, OLD, RULES, SECOND, TESTS, TODAY, Pool, Row
from pool_reader import bits_in, code_of, compact, digit, document, known

MOST_BYTES = 67_108_864
DOCUMENTS_OF_A_RUN = 500
CHAINS_OF_A_RUN = 100
SECONDS = 300
CLEAR = re.compile(r"ok|! large|! memory|! damaged (" + "|".join(TESTS) + ")")

# Two names of one code, whatever is added to both: by codes of 32 bits, and by those of 64.
COLLIDING = ("costarring", "liquid")
COLLIDING_TODAY = ("7mohtcOFVz", "c1E51sSEyx")

# Four names of one code of 32 bits: two beginnings, with two endings that lead from their code to one code.
COLLIDING_ENDINGS = (".332789", ".529192")
COLLIDING_NAMES = [beginning + ending for beginning in COLLIDING for ending in COLLIDING_ENDINGS]

NAMES = ["a", "b", "c", "A", "b1", "n.x", "_", "Z-9", "x" * 64, *COLLIDING, *COLLIDING_NAMES, *COLLIDING_TODAY]
NAMES += [name + ".1" for name in COLLIDING_TODAY]
TEXTS = ["", "x", "y", "two words", "é ü 漢", "\r", "\t\u0001\"\\", "\U0001f600", "a" * 300]
# What lines are drawn from: some are names too, and one cell may be both; some begin with spaces.
LINES = [*TEXTS, "  x", " \t y", *NAMES[:3]]


# Valid documents


class Builder:
    """Rows by a version and so many bits, which are made one by one. An equal row is made again, or taken again."""

    def __init__(self, draw, version=TODAY, bits=BITS):
        self.draw, self.version, self.bits, self.rows, self.places = draw, version, bits, [], {}
        self.sharing = draw.choice([0, 0.5, 1])

    def add(self, letter, text=None, numbers=(), links=()):
        row = Row(letter, text, list(numbers), list(links))
        old = self.places.get(repr(row))
        if old is not None and self.draw.random() < self.sharing:
            return old
        self.rows.append(row)
        self.places[repr(row)] = len(self.rows) - 1
        return len(self.rows) - 1

    def cut(self, links):
        """The links in parts that rows can have: thick ones, and a last part of any length."""
        parts = []
        while len(links) > 32 or (len(links) > 16 and self.draw.random() < 0.3):
            size = self.draw.randint(16, min(32, len(links) - 1))
            parts.append(links[:size])
            links = links[size:]
        return parts + [links]

    def vector(self, elements):
        rows = [self.add("l", links=part) for part in self.cut(elements)]
        height = 0
        while len(rows) > 1:
            height += 1
            rows = [self.add("i", numbers=[height], links=part) for part in self.cut(rows)]
        return rows[0]

    def trie(self, entries, depth=0):
        """The map or the set of these: each key with its entry's place."""
        at = collections.defaultdict(list)
        for key, place in entries:
            at[digit(code_of(key, self.bits, self.version), depth)].append((key, place))
        alone = sorted(position for position in at if len(at[position]) == 1)
        below = sorted(position for position in at if len(at[position]) > 1)
        make = self.chain if depth == RULES[self.version].deepest else lambda those: self.trie(those, depth + 1)
        links = [at[position][0][1] for position in alone] + [make(at[position]) for position in below]
        numbers = [depth, sum(1 << position for position in alone), sum(1 << position for position in below)]
        return self.add("m", numbers=numbers, links=links)

    def chain(self, entries):
        rest = []
        for _key, place in sorted(entries, reverse=True):
            rest = [self.add("k", links=[place, *rest])]
        return rest[0]

    def mapped(self, values):
        return self.trie([(key, self.add("p", links=[self.add("c", key), value])) for key, value in values.items()])

    def state(self):
        draw = self.draw
        buffers = {}
        for name in draw.sample(NAMES, draw.choice([0, 1, 2, 5, len(NAMES)])):
            length = draw.choice([0, 1, 2, 3, 3, 17, 33, 80])
            cells = [self.add("c", draw.choice(LINES)) for _ in range(length)]
            buffers[name] = self.vector(cells)
        stars = draw.sample(NAMES, draw.choice([0, 0, 1, 3]))
        return self.add("s", links=[self.mapped(buffers), self.trie([(it, self.add("c", it)) for it in stars])])


def drawn_pool(draw, version=TODAY, bits=BITS):
    """A valid pool of a version, for a shell by so many bits."""
    return pool_from(draw, Builder(draw, version, bits_in(version, bits)), [])


def drawn_pools(draw, count):
    """So many valid pools of today, each of which may have states of those before it, and rows that look like theirs."""
    builder, states = Builder(draw), []
    return [pool_from(draw, builder, states) for _ in range(count)]


def pool_from(draw, builder, states):
    """A valid pool whose states are some of these, or are made by a builder and put to these."""
    version = builder.version
    states += [builder.state() for _ in range(draw.choice([1, 1, 2, 3]))]
    versions = {name: draw.choice(states) for name in draw.sample(NAMES, draw.choice([0, 1, 2]))}
    histories = [[draw.choice(states) for _ in range(draw.choice([0, 0, 1, 3, 40]))] for _ in range(2)]
    roots = [states[-1], builder.mapped(versions)] + [builder.vector(states) for states in histories]
    most = draw.choice([len(histories[0]), len(histories[0]) + 1, 100, MOST_HISTORY]) if version == TODAY else MOST_HISTORY
    return pool_reader.in_order(Pool(version, builder.bits, builder.rows, roots, most))


def example_pools():
    """The pools of the documents that examples have and that are known."""
    found = [data for data, reply in known() if reply == "ok"]
    for path in sorted(glob.glob(f"{EXAMPLES}/*.kept/*")):
        if os.path.isfile(path):
            with open(path, "rb") as file:
                found.append(file.read())
    return [pool_reader.read(data).pool for data in found if pool_reader.reply_to(data) == "ok"]


# Small changes of a document as a JSON value. Each takes the document and the draw, and changes the document.


def some_row(value, draw, letters="climkps"):
    """A row of one of these letters, or any row."""
    rows = [row for row in value["rows"] if row[0] in letters]
    return draw.choice(rows or value["rows"])


def drawn_number(value, draw, near):
    rows = len(value["rows"])
    return draw.choice([near + 1, max(0, near - 1), draw.randrange(rows), rows, rows - 1, 0, 2**32, 2**64 - 1, -1])


def change_link(value, draw):
    row = some_row(value, draw, "limkps")
    if row[0] != "c" and row[-1]:
        index = draw.randrange(len(row[-1]))
        row[-1][index] = drawn_number(value, draw, row[-1][index])


def change_links(value, draw):
    row = some_row(value, draw, "limkps")
    if row[0] == "c":
        return
    links = row[-1]
    how = draw.randrange(5)
    if how == 0 and links:
        links.pop(draw.randrange(len(links)))
    elif how == 1 and links:
        links.insert(draw.randrange(len(links)), draw.choice(links))
    elif how == 2 and len(links) > 1:
        index = draw.randrange(len(links) - 1)
        links[index], links[index + 1] = links[index + 1], links[index]
    elif how == 3:
        del links[draw.choice([0, 1, 15, 16, 31]):]
    else:
        links.extend((links or [0]) * 40)
        del links[draw.choice([15, 16, 31, 32, 33]):]


def change_root(value, draw):
    roots, index = value["roots"], draw.randrange(4)
    how = draw.randrange(4)
    if how == 0:
        roots[index] = drawn_number(value, draw, roots[index])
    elif how == 1:
        other = draw.randrange(4)
        roots[index], roots[other] = roots[other], roots[index]
    elif how == 2:
        roots[index] = roots[draw.randrange(4)]
    else:
        draw.choice([roots.pop, lambda: roots.append(roots[0])])()


def change_number(value, draw):
    row = some_row(value, draw, "im")
    if row[0] in "im":
        index = draw.randrange(1, len(row) - 1)
        row[index] = draw.choice([row[index] + 1, row[index] - 1, 0, 6, 7, 8, 12, 13, 16, 2**32 - 1, 2**32, 2**63, -1])


def change_bit(value, draw):
    row = some_row(value, draw, "m")
    if row[0] == "m":
        bit = 1 << draw.randrange(32)
        for index in draw.choice([[2], [3], [2, 3]]):
            row[index] ^= draw.choice([bit, row[index] & -row[index], 1 << 4, 1 << 16])


def turn_bit(value, draw):
    """Another position in the place of one that is there."""
    row = some_row(value, draw, "m")
    if row[0] == "m":
        index = draw.choice([2, 3])
        row[index] ^= (row[index] & -row[index]) | 1 << draw.randrange(32)


def change_letter(value, draw):
    row = some_row(value, draw)
    row[0] = draw.choice(["c", "l", "i", "m", "k", "p", "s", "q", "", "L", "ll", 7, None])


def turn_form(value, draw):
    """A row of another form with the same links."""
    row = some_row(value, draw, "limkps")
    if row[0] != "c":
        trie = ["m", draw.randint(0, 12), 1, 2]
        row[:-1] = draw.choice([["l"], ["i", draw.randint(1, 3)], trie, ["k"], ["p"], ["s"]])


def change_text(value, draw):
    row = some_row(value, draw, "c")
    if row[0] == "c":
        row[1] = draw.choice([
            "x\ny", "\n", "x" * 65_536, "x" * 65_537, "漢" * 21_845 + "x", "漢" * 21_845 + "xx", ".x", "", "é",
            "x" * 65, "a", row[1] + "a", row[1].upper(), *COLLIDING, *COLLIDING_TODAY, 7, None, ["x"],
        ])


def change_rows(value, draw):
    """A row moved, doubled, dropped or put in, and links left as they are."""
    rows = value["rows"]
    place = draw.randrange(len(rows))
    how = draw.randrange(4)
    if how == 0:
        rows.insert(draw.randrange(len(rows)), rows.pop(place))
    elif how == 1:
        rows.insert(draw.choice([place, len(rows)]), list(rows[place]))
    elif how == 2:
        rows.pop(place)
    else:
        rows.insert(draw.choice([place, len(rows)]), draw.choice([["c", "z"], ["l", []], ["m", 0, 0, 0, []], []]))


def move_row(value, draw):
    """Two rows change places, and all links follow them."""
    rows = value["rows"]
    one = draw.randrange(len(rows))
    other = min(len(rows) - 1, one + draw.choice([1, 1, 2]))
    new = {one: other, other: one}
    rows[one], rows[other] = rows[other], rows[one]
    for row in rows:
        if row[0] != "c":
            row[-1] = [new.get(link, link) for link in row[-1]]
    value["roots"] = [new.get(root, root) for root in value["roots"]]


def in_new_order(value, draw):
    """A link changed, and then the rows put in their order: what the roots lead to, and no more."""
    change_link(value, draw)
    pool = pool_reader.pool_of(value, value["bits"])
    pool_reader.test_links(pool)
    ordered = document(pool_reader.in_order(pool))
    value.update(ordered)


def change_row(value, draw):
    row = some_row(value, draw)
    how = draw.randrange(4)
    if how == 0:
        row.insert(draw.randint(1, len(row)), draw.choice([0, [], "x", None]))
    elif how == 1:
        row.pop(draw.randrange(len(row)))
    elif how == 2:
        row[draw.randrange(len(row))] = draw.choice([None, True, "x", {}, [], [[]], ["0"], 0])
    else:
        value["rows"][draw.randrange(len(value["rows"]))] = draw.choice([None, {}, [], "l", 0, [[]], [["l"], []]])


def change_key(value, draw):
    key = draw.choice(sorted(value))
    how = draw.randrange(4)
    if how == 0:
        del value[key]
    elif how == 1:
        value[draw.choice(["Bits", "row", "", "z"])] = 0
    elif how == 2:
        value[draw.choice(["Rows", "formats"])] = value.pop(key)
    else:
        value[key] = draw.choice([
            None, True, 0, 1, 2, 3, 31, 32, 33, 63, 64, 65, -1, 2**63, "", "ewig-pool", "ewig-part", "ewig", [], {}, [0] * 4,
        ])


def change_version(value, draw):
    """Another version, with the rows as they are, and with its bits and its keys or as it is."""
    value["version"] = draw.choice([version for version in (OLD, SECOND, TODAY) if version != value["version"]])
    if draw.random() < 0.8:
        value.pop("history", None)
        value.update(pool_reader.bound_in(value["version"]))
    value["bits"] = bits_in(value["version"], BITS if value["bits"] == RULES[OLD].code_bits else value["bits"])


def change_history(value, draw):
    """Another number of states that undo keeps, about as many as it has, or what is no such number; also where none is said."""
    value["history"] = draw.choice([0, 1, 2, 3, 39, 40, 41, 2**32 - 2, 2**32 - 1, 2**32, 2**63, -1, True, None, "1", []])


def change_after(value, draw):
    """Another number of rows before a partial document, or one that no document or only such a document has."""
    if "after" in value and draw.random() < 0.2:
        del value["after"]
    else:
        near = value.get("after", 0)
        value["after"] = draw.choice([near + 1, max(0, near - 1), 0, len(value["rows"]), 2**32, 2**64 - 1, -1, "0", None, [near]])


VALUE_CHANGES = [
    change_link, change_links, change_root, change_number, change_bit, turn_bit, change_letter, turn_form, change_text,
    change_rows, move_row, in_new_order, change_row, change_key, change_version, change_history, change_after,
]


# Small changes of the bytes


def changed_bytes(data, draw):
    place = draw.randrange(len(data))
    how = draw.randrange(6)
    byte = bytes([draw.choice(b'"\\[]{},:0123456789-.eEul \n\x00\x1f\x7f\x80\xc3\xff' + bytes([draw.randrange(256)]))])
    if how == 0:
        return data[:place]
    if how == 1:
        return data[:place] + data[place + 1:]
    if how == 2:
        return data[:place] + byte + data[place:]
    if how == 3:
        past = min(len(data), place + draw.randint(1, 20))
        return data[:past] + data[place:]
    if how == 4:
        return data + draw.choice([b" ", b"\n", b"\x00", b"}", b",", data])
    return data[:place] + byte + data[place + 1:]


def spaced(value, draw):
    """The same value, its keys in another order, with white space between its tokens."""
    keys = list(value)
    draw.shuffle(keys)
    parts = [compact(key) + b": " + compact(value[key]) for key in keys]
    text = b"{" + draw.choice([b", ", b"\t,\r\n", b","]).join(parts) + b"}"
    return draw.choice([b"", b"\n "]) + text + draw.choice([b"", b"\r\n\t "])


def changed(draw, pool):
    """The name of a change, and the document of a pool that it was made to."""
    value = document(pool)
    kind = draw.choice(VALUE_CHANGES + [changed_bytes, changed_bytes, spaced, None])
    if kind is None:
        return "nothing", compact(value)
    if kind in (changed_bytes, spaced):
        return kind.__name__, kind(compact(value), draw) if kind is changed_bytes else kind(value, draw)
    return kind.__name__, changed_value(value, draw, kind)


def changed_value(value, draw, kind):
    """The document of a value that a change is made to, and rarely a second one."""
    try:
        kind(value, draw)
        if draw.random() < 0.1:
            draw.choice(VALUE_CHANGES)(value, draw)
    except (pool_reader.Damaged, TypeError, AttributeError, IndexError, KeyError, ValueError):
        # There is nothing that the change can be made to, or the first of two left nothing.
        pass
    return compact(value)


# Chains


def loose_part(draw, chain, pool):
    """A partial document that stands for a pool like this one, and that no shell writes: its rows may be ones of the chain that look
    like them, also where others are the same one, and else are its own, though the chain has one like them."""
    sharing, alike = draw.choice([0, 0.5, 0.9]), collections.defaultdict(list)
    for place, row in enumerate(chain.rows):
        alike[pool_reader.identity(row)].append(place)
    places, own = [], []
    for row in pool.rows:
        row = row._replace(links=[places[link] for link in row.links])
        same = alike[pool_reader.identity(row)]
        if same and draw.random() < sharing:
            places.append(draw.choice(same))
        else:
            places.append(len(chain.rows) + len(own))
            own.append(row)
    return pool_reader.Part(len(chain.rows), pool.bits, own, [places[root] for root in pool.roots], pool.history)


def drawn_chain(draw):
    """The values of the documents of a valid chain."""
    first, *pools = drawn_pools(draw, draw.choice([2, 2, 3, 4]))
    chain, values = first, [document(first)]
    for pool in pools:
        part = pool_reader.delta(chain, pool) if draw.random() < 0.7 else loose_part(draw, chain, pool)
        values.append(pool_reader.part_document(part))
        chain = chain._replace(rows=chain.rows + part.rows, roots=part.roots, history=part.history)
    return values


def changed_chain(draw):
    """The name of a change, and the documents of a chain that it was made to. Half of the chains are left as they are."""
    values = drawn_chain(draw)
    if draw.random() < 0.5:
        return "nothing", [compact(value) for value in values]
    place = draw.randrange(len(values))
    how = draw.random()
    if how < 0.15:
        other = draw.randrange(len(values))
        values[place], values[other] = values[other], values[place]
        return "moved", [compact(value) for value in values]
    if how < 0.3:
        # A chain that is as it should be but for one document of another chain, as where its first file was saved again.
        others = drawn_chain(draw)
        same = others[min(place, len(others) - 1)]
        values[place] = draw.choice([values[draw.randrange(len(values))], same, document(drawn_pool(draw))])
        return "replaced", [compact(value) for value in values]
    if how < 0.36:
        values[place]["bits"] = draw.choice([0, 5, 32, 63])
        return "other bits", [compact(value) for value in values]
    if how < 0.44:
        # A row that nothing leads to: the first document may have none, and a part behind it goes on after one row less then.
        values[place]["rows"].append(["c", draw.choice(["z", "z" * 65_537])])
        return "a row more", [compact(value) for value in values]
    documents = [compact(value) for value in values]
    if how < 0.52:
        documents[place] = changed_bytes(documents[place], draw)
        return "changed_bytes", documents
    kind = draw.choice(VALUE_CHANGES)
    documents[place] = changed_value(values[place], draw, kind)
    return kind.__name__, documents


class Chained:
    """A chain in the files of a run, another document that is loaded beside it, and what is due then."""

    def __init__(self, draw, index):
        self.kind, self.documents = changed_chain(draw)
        self.other = pool_reader.written(drawn_pool(draw, draw.choice([OLD, SECOND, TODAY, TODAY])))
        self.moved, self.name = draw.choice([0, 1, 2, 80]), f"c{index}"
        # Rarely one of the files isn't there, which is told whatever the others are.
        self.gone = draw.randrange(len(self.documents)) if draw.random() < 0.05 else None
        self.reply = pool_reader.chain_reply(self.documents) if self.gone is None else "! missing"

    def files(self):
        """What stands in the folder."""
        numbered = enumerate(self.documents)
        found = {f"{self.name}.{number}" if number else self.name: data for number, data in numbered if number != self.gone}
        return {**found, f"{self.name}.other": self.other}

    def script(self):
        """The lines that are given, each with the reply that is due, None where it is only to be a clear one."""
        name, past = self.name, len(self.documents)
        pool = pool_reader.stands_for(pool_reader.read(self.other).pool)
        indented = "! limit" if pool_reader.indented(pool, self.moved) is None else "ok"
        return [
            (f"load {name}.other", "ok"), (f"chain {name} {past - 1}", self.reply), (f"save {name}.saved", "ok"),
            (f"load {name}.other", "ok"), (f"part {name} {past}", self.reply), (f"indent {self.moved} {name}.in", indented),
            (f"dedent {self.moved} {name}.out", "ok"),
        ]

    def left(self):
        """The files that are due, each with its bytes, None where it isn't to be there."""
        name, pool = self.name, pool_reader.stands_for(pool_reader.read(self.other).pool)
        indented = pool_reader.indented(pool, self.moved)
        due = {
            f"{name}.in": indented and pool_reader.written(indented),
            f"{name}.out": pool_reader.written(pool_reader.dedented(pool, self.moved)),
        }
        if self.reply is None:
            return due
        due[f"{name}.{len(self.documents)}"] = None
        due[f"{name}.saved"] = pool_reader.written(pool)
        if self.reply == "ok":
            chain = pool_reader.chain_of(self.documents)
            due[f"{name}.{len(self.documents)}"] = pool_reader.part_written(chain, pool)
            due[f"{name}.saved"] = pool_reader.written(pool_reader.pool_of_chain(chain))
        return due


def compared_chains(program, batch):
    """The first difference in a run over these chains, or None."""
    with tempfile.TemporaryDirectory() as room:
        for chained in batch:
            for name, data in chained.files().items():
                with open(f"{room}/{name}", "wb") as file:
                    file.write(data)
        script = [(chained, *line) for chained in batch for line in chained.script()]
        lines, ending = replies_to(program, room, [line for _chained, line, _due in script])
        for (chained, line, due), reply in zip(script, lines):
            if not (CLEAR.fullmatch(reply) or reply in ("! limit", "! missing")) or (due and reply != due):
                return f"{chained.kind}: the reply to {line} is {reply}, and not {due}", b"\n".join(chained.documents)
        if len(lines) != len(script) or ending != "status 0":
            return f"the run ended with {ending} and {len(lines)} replies, and not {len(script)}", b""
        for chained in batch:
            for name, due in chained.left().items():
                data = None
                if os.path.exists(f"{room}/{name}"):
                    with open(f"{room}/{name}", "rb") as file:
                        data = file.read()
                if data != due:
                    told = b"\n".join([*chained.documents, b"-- beside", chained.other, b"-- due", due or b"", b"-- found", data or b""])
                    return f"{chained.kind}: {name} isn't what it should be", told
    return None


def try_chains(program, seed, number):
    """The first difference among so many chains, or None; and how often each reply was due."""
    counts, kinds = collections.Counter(), collections.defaultdict(collections.Counter)
    for first in range(0, number, CHAINS_OF_A_RUN):
        past = min(number, first + CHAINS_OF_A_RUN)
        batch = [Chained(random.Random(f"{seed}/chain/{index}"), index) for index in range(first, past)]
        for chained in batch:
            counts[f"chain {chained.reply or 'left open'}"] += 1
            kinds[chained.kind][chained.reply] += 1
        found = compared_chains(program, batch)
        if found:
            return found, counts, kinds
    return None, counts, kinds


def documents(seed, number):
    """So many documents, with the name of what was changed: short ones cut at each length, and drawn ones."""
    pools = example_pools()
    made = 0
    for pool in sorted(pools, key=lambda pool: len(pool.rows))[:5]:
        data = pool_reader.written(pool)
        for length in range(len(data)):
            if made < number // 4:
                made += 1
                yield "cut", data[:length]
    for index in range(made, number):
        draw = random.Random(f"{seed}/{index}")
        yield changed(draw, draw.choice(pools) if draw.random() < 0.5 else drawn_pool(draw, draw.choice([OLD, SECOND, TODAY])))


# Runs of the program


def replies(program, room, names):
    """What a run replies to loads of these files, each followed by a save."""
    return replies_to(program, room, [line for name in names for line in (f"load {name}", f"save {name}.saved")])


def replies_to(program, room, lines):
    """What a run replies to these lines, and how it ended."""
    script = "".join(line + "\n" for line in lines)
    try:
        ran = subprocess.run(
            program, input=script.encode(), capture_output=True, check=False, cwd=room, timeout=SECONDS
        )
    except subprocess.TimeoutExpired:
        return [], "no end"
    return ran.stdout.decode("utf-8", "replace").splitlines(), f"status {ran.returncode}"


def compared(program, batch, bits=BITS):
    """The first difference in a run by so many bits over these documents, or None."""
    if bits != BITS:
        program = [*program, "--bits", str(bits)]
    with tempfile.TemporaryDirectory() as room:
        for index, (_kind, data, _wanted) in enumerate(batch):
            with open(f"{room}/d{index}", "wb") as file:
                file.write(data)
        lines, ending = replies(program, room, [f"d{index}" for index in range(len(batch))])
        for index, (kind, data, wanted) in enumerate(batch):
            if len(lines) < 2 * index + 2:
                return f"{kind}: the run ended with {ending} and no reply", data
            reply, saved = lines[2 * index:2 * index + 2]
            if not CLEAR.fullmatch(reply) or (wanted and reply != wanted) or saved != "ok":
                return f"{kind}: the reply is {reply}, and not {wanted}; that to a save is {saved}", data
            if wanted == "ok":
                with open(f"{room}/d{index}.saved", "rb") as file:
                    if file.read() != pool_reader.saved(data, bits):
                        return f"{kind}: another document is saved than the one that was loaded stands for", data
        if len(lines) != 2 * len(batch) or ending != "status 0":
            return f"the run ended with {ending} and {len(lines)} replies", b""
    return None


def try_documents(program, seed, number):
    """The first difference among so many documents, or None; and how often each reply was due."""
    counts, batch, kinds = collections.Counter(), [], collections.defaultdict(collections.Counter)
    for kind, data in documents(seed, number):
        wanted = pool_reader.reply_to(data)
        counts[wanted or "left open"] += 1
        kinds[kind][wanted] += 1
        batch.append((kind, data, wanted))
        if len(batch) == DOCUMENTS_OF_A_RUN:
            found = compared(program, batch)
            if found:
                return found, counts, kinds
            batch = []
    return compared(program, batch) if batch else None, counts, kinds


# What tests/old_documents.py has too: what is told, and the words of the command line


def tell(found, counts):
    """Prints a difference, and how often each reply was due; gives how many differences there are, one or none."""
    if found:
        sys.stdout.buffer.write(f"{found[0]}\n".encode() + found[1][:2000] + b"\n")
        sys.stdout.flush()
    print(", ".join(f"{reply} {count}" for reply, count in sorted(counts.items())))
    return 1 if found else 0


def words_of(description):
    """The words of the command line, to which others may be added."""
    words = argparse.ArgumentParser(description=description)
    words.add_argument("program", nargs="?")
    words.add_argument("--documents", type=int, default=20_000)
    words.add_argument("--seed", type=int, default=1)
    words.add_argument("--self-test", action="store_true")
    return words


def status_of(words, self_test, try_program):
    """The status of a run: of the self-test, or of what tries the program by the words that were chosen and gives the first
    difference, or None, with how often each reply was due."""
    chosen = words.parse_args()
    if chosen.self_test:
        return 1 if self_test() else 0
    if not chosen.program:
        words.error("a program is needed")
    if tell(*try_program([os.path.abspath(chosen.program)], chosen)):
        return 1
    print(f"{chosen.documents} documents of seed {chosen.seed}: no difference")
    return 0


# The self-test


# Tests that a stand-in forgets, with the functions that make them: what fails one of them alone is loaded then. That undo is no
# longer than its bound is the last part of the test `kind`, and asked of vectors alone.
FORGOTTEN = {
    "text": ["test_texts"], "trie": ["test_tries"], "kind": ["test_kinds", "test_bound"], "bound": ["test_bound"],
    "order": ["test_order"],
}
# What a stand-in forgets besides: where a document says no bound of undo, it keeps the one that there was.
OLDER_BOUND = "bound of an older version"
# What it does with chains: it tells the damage of a document before it looks for the files behind it.
EARLY_DAMAGE = "damage told before a missing file"


class StandIn:
    """The second reader in the place of the program: it answers `load`, `save`, `part`, `chain`, `indent` and `dedent`."""

    def __init__(self, forgotten):
        self.forgotten, self.pool = forgotten, pool_reader.read(pool_reader.start()).pool

    def files(self, names):
        found = []
        for name in names:
            with open(name, "rb") as file:
                found.append(file.read())
        return found

    def keep(self, name, data):
        with open(name, "wb") as file:
            file.write(data)
        return "ok"

    def chain_of(self, name, count):
        names = [name, *(f"{name}.{number}" for number in range(1, count + 1))]
        if self.forgotten == EARLY_DAMAGE:
            for place in range(len(names)):
                pool_reader.chain_of(self.files(names[:place + 1]))
        return pool_reader.chain_of(self.files(names))

    def load(self, name):
        [data] = self.files([name])
        if len(data) > MOST_BYTES:
            return "! large"
        pool = pool_reader.read(data).pool
        history = pool.history
        if pool.version != TODAY and self.forgotten == OLDER_BOUND:
            history = self.pool.history
        self.pool = pool_reader.stands_for(pool)._replace(history=history)
        return "ok"

    def save(self, name):
        return self.keep(name, pool_reader.written(self.pool))

    def chain(self, name, number):
        self.pool = pool_reader.pool_of_chain(self.chain_of(name, int(number)))
        return "ok"

    def part(self, name, number):
        chain = self.chain_of(name, int(number) - 1)
        return self.keep(f"{name}.{number}", pool_reader.part_written(chain, self.pool))

    def indent(self, count, name):
        pool = pool_reader.indented(self.pool, int(count))
        return "! limit" if pool is None else self.keep(name, pool_reader.written(pool))

    def dedent(self, count, name):
        return self.keep(name, pool_reader.written(pool_reader.dedented(self.pool, int(count))))

    def answer(self, line):
        word, *arguments = line.split()
        try:
            return getattr(self, word)(*arguments)
        except pool_reader.Damaged as damage:
            return f"! damaged {damage}"
        except pool_reader.LeftOpen:
            return "! damaged json"
        except FileNotFoundError:
            return "! missing"


# Mistakes with chains and with moved lines: each puts another function in the place of one of the second reader.


def any_first_version(data, bits=BITS):
    return pool_reader.read(data, bits).pool


def after_on_trust(chain, data):
    part = pool_reader.part_of(pool_reader.value_of(data), chain.bits)
    longer = chain._replace(rows=chain.rows + part.rows, roots=part.roots, history=part.history)
    pool_reader.test_open(longer)
    return longer


def bits_on_trust(value, bits, made=pool_reader.part_of):
    if type(value) is dict and type(value.get("bits")) is int and value["bits"] >= 0:
        value = {**value, "bits": bits}
    return made(value, bits)


def in_their_order(chain, data, made=pool_reader.chain_more):
    longer = made(chain, data)
    pool_reader.test_order(longer)
    return longer


def place_given_twice(chain, pool):
    found = {}
    for place, row in enumerate(chain.rows):
        found.setdefault(pool_reader.identity(row), place)
    places, own = [], []
    for row in pool.rows:
        row = row._replace(links=[places[link] for link in row.links])
        place = found.get(pool_reader.identity(row))
        places.append(len(chain.rows) + len(own) if place is None else place)
        own += [row] if place is None else []
    return pool_reader.Part(len(chain.rows), pool.bits, own, [places[root] for root in pool.roots], pool.history)


def written_again(chain, pool):
    """All rows of the pool, whatever the chain has."""
    rows = [row._replace(links=[link + len(chain.rows) for link in row.links]) for row in pool.rows]
    return pool_reader.Part(len(chain.rows), pool.bits, rows, [root + len(chain.rows) for root in pool.roots], pool.history)


def keys_too(pool, change):
    lines = set(pool_reader.line_cells(pool))
    return pool._replace(rows=[row._replace(text=change(row.text)) if place in lines else row for place, row in enumerate(pool.rows)])


def equal_lines_one(pool, change, made=pool_reader.mapped):
    pool, first, new = made(pool, change), {}, {}
    for place, row in enumerate(pool.rows):
        new[place] = first.setdefault(row.text, place) if row.letter == "c" else place
    rows = [row._replace(links=[new[link] for link in row.links]) if row.letter in "li" else row for row in pool.rows]
    return pool_reader.in_order(pool._replace(rows=rows))


def white_space_too(pool, count):
    return pool_reader.mapped(pool, lambda text: text[min(count, len(text) - len(text.lstrip())):])


MISTAKES = {
    "a first document of any version": ("chain_start", any_first_version),
    "the bits of the first document alone tested": ("part_of", bits_on_trust),
    "the number of rows before taken on trust": ("chain_more", after_on_trust),
    "order asked of partial documents": ("chain_more", in_their_order),
    "one place given to two rows": ("delta", place_given_twice),
    "rows written again": ("delta", written_again),
    "names moved with lines": ("mapped", keys_too),
    "equal lines made one": ("mapped", equal_lines_one),
    "other white space taken away": ("dedented", white_space_too),
}


def stand_in(forgotten):
    """Answers lines by the second reader, which forgets something, makes a mistake, or does neither."""
    for name in FORGOTTEN.get(forgotten, []):
        setattr(pool_reader, name, lambda *given: None)
    if forgotten in MISTAKES:
        setattr(pool_reader, *MISTAKES[forgotten])
    reader = StandIn(forgotten)
    for line in sys.stdin:
        print(reader.answer(line))


def self_test():
    """Whether the comparison finds nothing where nothing differs, and something for each thing that is forgotten."""
    own = [sys.executable, os.path.abspath(__file__), "--stand-in"]
    draw = random.Random("self-test")
    wrong = 0
    for _ in range(200):
        data = pool_reader.written(drawn_pool(draw, draw.choice([OLD, SECOND, TODAY])))
        wrong += pool_reader.reply_to(data) != "ok"
    print(f"200 drawn documents: {wrong} aren't valid")
    found, counts, kinds = try_documents(own, 1, 4_000)
    wrong += tell(found, counts)
    for name in TESTS:
        if not counts[f"! damaged {name}"]:
            print(f"no document fails {name}")
            wrong += 1
    for kind, replied in kinds.items():
        if kind not in ("nothing", "spaced") and len(replied) == replied["ok"]:
            print(f"{kind} damages nothing")
            wrong += 1
    for name in [*FORGOTTEN, OLDER_BOUND]:
        found, _counts, _kinds = try_documents(own + [name], 1, 2_000)
        print(f"{name} forgotten: {found[0] if found else 'not found'}")
        wrong += found is None
    return wrong + self_test_of_chains(own)


def self_test_of_chains(own):
    """The same of chains, and of mistakes with them."""
    found, counts, kinds = try_chains(own, 1, 400)
    wrong = tell(found, counts)
    for name in TESTS:
        if not counts[f"chain ! damaged {name}"]:
            print(f"no chain fails {name}")
            wrong += 1
    for kind, replied in kinds.items():
        is_due = set(replied) == {"ok"} if kind == "nothing" else replied.total() < 20 or set(replied) != {"ok"}
        if not is_due:
            print(f"{kind}: {dict(replied)}")
            wrong += 1
    for name in [*MISTAKES, EARLY_DAMAGE]:
        found, _counts, _kinds = try_chains(own + [name], 1, 400)
        print(f"{name}: {found[0] if found else 'not found'}")
        wrong += found is None
    return wrong


def main():
    if sys.argv[1:2] == ["--stand-in"]:
        return stand_in((sys.argv[2:] or [None])[0])
    words = words_of("Compares the program with the second reader on damaged documents.")
    words.add_argument("--chains", type=int, default=20_000)
    return status_of(words, self_test, try_all)


def try_all(program, chosen):
    """The first difference among documents and chains, or None, and how often each reply was due."""
    found, counts, _kinds = try_documents(program, chosen.seed, chosen.documents)
    if not found:
        found, more, _kinds = try_chains(program, chosen.seed, chosen.chains)
        counts += more
    return found, counts


if __name__ == "__main__":
    sys.exit(main())
