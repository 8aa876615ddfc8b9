#!/usr/bin/env python3
"""A second reader and writer of pool documents, made from docs/POOL.md alone.

    tests/pool_reader.py [--bits W] FILE..     tells of each file what it stands for, or the first test that it fails
    tests/pool_reader.py --saved [--bits W] FILE   writes what a shell saves that has loaded the file
    tests/pool_reader.py --chain [--bits W] FILE PART..   writes what a shell saves that has loaded this chain
    tests/pool_reader.py --self-test           reads documents whose answers are known

It reads documents of all versions and carries those of version 1 over, as a shell does that loads them; it reads chains of
documents, makes the partial document of a pool after a chain, and moves the lines of a pool. It shares nothing with the
program but that page, so that tests/hostile.py, tests/saves.py and tests/old_documents.py can compare the two. No shared
row is ever unfolded: each test keeps a fact for each row. It isn't part of the gate.
"""

import argparse
import functools
import glob
import json
import os
import re
import sys
from collections import namedtuple

TESTS = ["json", "form", "version", "bits", "row", "link", "text", "vector", "trie", "kind", "order"]
KEYS = ["bits", "format", "roots", "rows", "version"]
BOUNDED_KEYS = sorted([*KEYS, "history"])
PART_KEYS = sorted([*BOUNDED_KEYS, "after"])
WHOLE_FORMAT, PART_FORMAT = "ewig-pool", "ewig-part"
LONGEST_TEXT = 65_536
LONGEST_VECTOR = 2**32 - 1

# How many states undo keeps where a document doesn't say it.
MOST_HISTORY = 2**32 - 1
NAME = re.compile(r"[A-Za-z0-9_][A-Za-z0-9._-]{0,63}\Z", re.ASCII)

# What tells the versions of a document apart: the bits of a code, with what FNV-1a starts, by what it multiplies, and the
# depth of a code's last digit.
Rules = namedtuple("Rules", "code_bits start prime deepest")
WIDE_RULES = Rules(64, 14695981039346656037, 1099511628211, 12)
RULES = {1: Rules(32, 2166136261, 16777619, 6), 2: WIDE_RULES, 3: WIDE_RULES}
OLD, SECOND, TODAY = 1, 2, 3
EXAMPLES = os.path.join(os.path.dirname(os.path.abspath(__file__)), "..", "examples")

# By so many bits a shell goes where it isn't told otherwise.
BITS = RULES[TODAY].code_bits

# A row: its letter, the text of a cell, the numbers of the others, and the links.
Row = namedtuple("Row", "letter text numbers links")
Pool = namedtuple("Pool", "version bits rows roots history", defaults=[MOST_HISTORY])

# A partial document: how many rows come before its own.
Part = namedtuple("Part", "after bits rows roots history")


def forms_by(rules):
    """What stands between a row's letter and its links, as bounds, and how many links there are."""
    return {
        "l": ([], 0, 32),
        "i": ([(1, 7)], 1, 32),
        "m": ([(0, rules.deepest), (0, 2**32 - 1), (0, 2**32 - 1)], 0, 32),
        "k": ([], 1, 2),
        "p": ([], 2, 2),
        "s": ([], 2, 2),
    }


FORMS = {version: forms_by(rules) for version, rules in RULES.items()}


class Damaged(Exception):
    """The first test that a document fails."""


class LeftOpen(Exception):
    """The format doesn't say how the document is read."""


def needs(test, name):
    if not test:
        raise Damaged(name)


# Codes


@functools.lru_cache(maxsize=100_000)
def code_of(text, bits, version=TODAY):
    """The masked code of a text, as a version has it."""
    rules = RULES[version]
    code = rules.start
    for byte in text.encode("utf-8"):
        code = (code ^ byte) * rules.prime % 2**rules.code_bits
    return code % 2**bits


def bits_in(version, bits):
    """The bits that a document of this version has for a shell by so many: no more than its codes."""
    return min(RULES[version].code_bits, bits)


def digit(code, depth):
    return code >> 5 * depth & 31


def positions(numbers):
    return [position for position in range(32) if numbers >> position & 1]


# The JSON text


def no_constant(_name):
    raise Damaged("json")


def integer(text):
    """A number of the text. One below 0 is none, and is read as None."""
    if text == "-0" or len(text) > 20:
        raise LeftOpen
    value = int(text)
    if value >= 2**64 or value < -(2**63):
        raise LeftOpen
    return value if value >= 0 else None


def fraction(_text):
    raise LeftOpen


def members(pairs):
    if len({key for key, _ in pairs}) < len(pairs):
        raise LeftOpen
    return dict(pairs)


def is_deep(text):
    """Whether arrays and objects are nested deeper than 127."""
    depth = 0
    for found in re.finditer(r'"(?:[^"\\]|\\.)*"|[\[\]{}]', text, re.DOTALL):
        depth += {"[": 1, "{": 1, "]": -1, "}": -1}.get(found[0], 0)
        if depth > 127:
            return True
    return False


def has_half_pair(value):
    """Whether a text in the value has half of a surrogate pair."""
    waiting = [value]
    while waiting:
        it = waiting.pop()
        if isinstance(it, str) and re.search("[\ud800-\udfff]", it):
            return True
        if isinstance(it, list):
            waiting += it
        if isinstance(it, dict):
            waiting += it.keys()
            waiting += it.values()
    return False


def value_of(data):
    """The JSON value of bytes."""
    try:
        text = data.decode("utf-8")
    except UnicodeDecodeError:
        raise Damaged("json") from None
    if is_deep(text):
        raise LeftOpen
    try:
        value = json.loads(
            text, parse_int=integer, parse_float=fraction, parse_constant=no_constant, object_pairs_hook=members
        )
    except json.JSONDecodeError:
        raise Damaged("json") from None
    needs(not has_half_pair(value), "json")
    return value


# The tests, in their order


def is_number(value):
    return type(value) is int


def row_of(value, version):
    """The row that a JSON value is a form of."""
    needs(type(value) is list and value and type(value[0]) is str, "row")
    letter, rest = value[0], value[1:]
    if letter == "c":
        needs(len(rest) == 1 and type(rest[0]) is str, "row")
        return Row("c", rest[0], [], [])
    needs(letter in FORMS[version], "row")
    bounds, least, most = FORMS[version][letter]
    needs(len(rest) == len(bounds) + 1, "row")
    numbers, links = rest[:-1], rest[-1]
    for number, (low, high) in zip(numbers, bounds):
        needs(is_number(number) and low <= number <= high, "row")
    needs(type(links) is list and least <= len(links) <= most and all(map(is_number, links)), "row")
    return Row(letter, None, numbers, links)


def test_form(value, document_format, history):
    """What the test `form` asks of whole and of partial documents, beside their keys."""
    needs(is_number(history) and history <= MOST_HISTORY, "form")
    needs(value["format"] == document_format and is_number(value["bits"]) and is_number(value["version"]), "form")
    roots = value["roots"]
    needs(type(roots) is list and len(roots) == 4 and all(map(is_number, roots)), "form")
    needs(type(value["rows"]) is list, "form")


def pool_of(value, bits, versions=tuple(RULES)):
    """The pool of a JSON value, which passes the tests `form` to `row`, of one of these versions."""
    needs(type(value) is dict, "form")
    bounded = value.get("version") == TODAY
    needs(sorted(value) == (BOUNDED_KEYS if bounded else KEYS), "form")
    history = value["history"] if bounded else MOST_HISTORY
    test_form(value, WHOLE_FORMAT, history)
    version = value["version"]
    needs(version in versions, "version")
    needs(value["bits"] == bits_in(version, bits), "bits")
    return Pool(version, value["bits"], [row_of(row, version) for row in value["rows"]], value["roots"], history)


def part_of(value, bits):
    """The partial document of a JSON value, which passes the tests `form` to `row`."""
    needs(type(value) is dict and sorted(value) == PART_KEYS and is_number(value["after"]), "form")
    test_form(value, PART_FORMAT, value["history"])
    needs(value["version"] == TODAY, "version")
    needs(value["bits"] == bits, "bits")
    return Part(value["after"], bits, [row_of(row, TODAY) for row in value["rows"]], value["roots"], value["history"])


def test_links(pool):
    for place, row in enumerate(pool.rows):
        needs(all(link < place for link in row.links), "link")
    needs(all(root < len(pool.rows) for root in pool.roots), "link")


def test_texts(pool):
    for row in pool.rows:
        if row.letter == "c":
            needs("\n" not in row.text and len(row.text.encode("utf-8")) <= LONGEST_TEXT, "text")


# Of a leaf or an inner row: its height, the number of its elements, and whether it is thick.
VectorFact = namedtuple("VectorFact", "height length thick")


def vector_fact(row, below):
    """What is known of an inner row, from what is known of the rows that it links to."""
    height = row.numbers[0]
    needs(all(fact and fact.height == height - 1 for fact in below), "vector")
    needs(all(fact.thick for fact in below[:-1]) and below[-1].length > 0, "vector")
    length = sum(fact.length for fact in below)
    needs(length <= LONGEST_VECTOR, "vector")
    return VectorFact(height, length, len(below) >= 16 and below[-1].thick)


def test_vectors(pool):
    """What is known of each vector row, by its place."""
    facts = []
    for row in pool.rows:
        fact = None
        if row.letter == "l":
            fact = VectorFact(0, len(row.links), len(row.links) >= 16)
        elif row.letter == "i":
            fact = vector_fact(row, [facts[link] for link in row.links])
        facts.append(fact)
    return facts


# Of a trie or a chain row: one key's masked code, the number of entries below, and for a chain its first key.
TrieFact = namedtuple("TrieFact", "code count key")


def key_of(pool, place):
    """The key of an entry, or None where the row is no entry."""
    row = pool.rows[place]
    if row.letter == "p":
        row = pool.rows[row.links[0]]
    return row.text


def chain_fact(pool, row, facts):
    key = key_of(pool, row.links[0])
    needs(key is not None, "trie")
    code, count = code_of(key, pool.bits, pool.version), 1
    if len(row.links) == 2:
        needs(pool.rows[row.links[1]].letter == "k", "trie")
        rest = facts[row.links[1]]
        needs(rest.code == code and key.encode("utf-8") < rest.key.encode("utf-8"), "trie")
        count += rest.count
    return TrieFact(code, count, key)


def is_below(row, depth, rules):
    """Whether the row may stand below a trie row of this depth."""
    if depth == rules.deepest:
        return row.letter == "k" and len(row.links) == 2
    return row.letter == "m" and row.numbers[0] == depth + 1


def last_positions(rules):
    """The set of all positions that the last digit of a code can have."""
    return 2**2**(rules.code_bits - 5 * rules.deepest) - 1


def trie_fact(pool, row, facts):
    rules = RULES[pool.version]
    depth, entries, nodes = row.numbers
    needs(entries & nodes == 0, "trie")
    needs(depth < rules.deepest or (entries | nodes) <= last_positions(rules), "trie")
    at, below_at = positions(entries), positions(nodes)
    needs(len(row.links) == len(at) + len(below_at), "trie")
    codes, count = [], len(at)
    for position, link in zip(at, row.links):
        key = key_of(pool, link)
        needs(key is not None, "trie")
        codes.append(code_of(key, pool.bits, pool.version))
        needs(digit(codes[-1], depth) == position, "trie")
    for position, link in zip(below_at, row.links[len(at):]):
        needs(is_below(pool.rows[link], depth, rules), "trie")
        codes.append(facts[link].code)
        needs(digit(codes[-1], depth) == position, "trie")
        count += facts[link].count
    needs(len({code % 2**(5 * depth) for code in codes}) <= 1, "trie")
    needs(depth == 0 or count >= 2, "trie")
    return TrieFact(codes[0] if codes else None, count, None)


def test_tries(pool):
    facts = []
    for row in pool.rows:
        fact = None
        if row.letter == "k":
            fact = chain_fact(pool, row, facts)
        elif row.letter == "m":
            fact = trie_fact(pool, row, facts)
        facts.append(fact)


class Kinds:
    """What each row can be, by its place: each is a list of truths."""

    def __init__(self, pool):
        self.pool = pool
        self.cells, self.states, self.state = [], [], []
        self.buffers, self.stars, self.versions = [], [], []
        for place in range(len(pool.rows)):
            self.look_at(place)

    def all_below(self, known, row, own):
        """Whether something is true of each element of a vector, or of each entry of a map."""
        return all(known[link] if self.pool.rows[link].letter in own else False for link in row.links)

    def look_at(self, place):
        row, rows = self.pool.rows[place], self.pool.rows
        if row.letter == "i":
            self.cells.append(self.all_below(self.cells, row, "li"))
            self.states.append(self.all_below(self.states, row, "li"))
        else:
            self.cells.append(row.letter == "l" and all(rows[link].letter == "c" for link in row.links))
            self.states.append(row.letter == "l" and all(self.state[link] for link in row.links))
        for known, is_entry in [
            (self.buffers, self.is_buffer), (self.stars, self.is_star), (self.versions, self.is_version)
        ]:
            known.append(row.letter in "mk" and all(
                known[link] if rows[link].letter in "mk" else is_entry(rows[link]) for link in row.links
            ))
        self.state.append(row.letter == "s" and self.is_state(row))

    def is_named(self, row):
        return row.letter == "p" and self.is_star(self.pool.rows[row.links[0]])

    def is_star(self, row):
        return row.letter == "c" and NAME.match(row.text) is not None

    def is_buffer(self, row):
        return self.is_named(row) and self.is_vector(row.links[1], self.cells)

    def is_version(self, row):
        return self.is_named(row) and self.state[row.links[1]]

    def is_map(self, place, known):
        row = self.pool.rows[place]
        return row.letter == "m" and row.numbers[0] == 0 and known[place]

    def is_vector(self, place, known):
        row = self.pool.rows[place]
        return (row.letter == "l" or row.letter == "i" and len(row.links) >= 2) and known[place]

    def is_state(self, row):
        return self.is_map(row.links[0], self.buffers) and self.is_map(row.links[1], self.stars)


def test_kinds(pool):
    kinds = Kinds(pool)
    current, versions, undo, redo = pool.roots
    needs(kinds.state[current] and kinds.is_map(versions, kinds.versions), "kind")
    needs(kinds.is_vector(undo, kinds.states) and kinds.is_vector(redo, kinds.states), "kind")


def test_bound(pool, facts):
    """What stands last in the test `kind`: undo is no longer than its bound."""
    needs(facts[pool.roots[2]].length <= pool.history, "kind")


def order_of(rows, roots):
    """The places of the rows that the roots lead to, in their order."""
    order, entered = [], set()
    for root in roots:
        waiting = [(root, False)]
        while waiting:
            place, done = waiting.pop()
            if done:
                order.append(place)
            elif place not in entered:
                entered.add(place)
                waiting.append((place, True))
                waiting += [(link, False) for link in reversed(rows[place].links)]
    return order


def test_order(pool):
    needs(order_of(pool.rows, pool.roots) == list(range(len(pool.rows))), "order")


def test_open(pool):
    """The tests from `link` to `kind`, and what is known of each vector row then."""
    test_links(pool)
    test_texts(pool)
    facts = test_vectors(pool)
    test_tries(pool)
    test_kinds(pool)
    test_bound(pool, facts)
    return facts


def read(data, bits=BITS, versions=tuple(RULES)):
    """The workspace of a document of one of these versions, by its own rows. Raises `Damaged` with the first test that the bytes
    fail."""
    pool = pool_of(value_of(data), bits, versions)
    facts = test_open(pool)
    test_order(pool)
    return Workspace(pool, facts)


def reply_to(data, bits=BITS):
    """What a shell by so many bits answers to `load`, or None where the format leaves that open."""
    try:
        read(data, bits)
    except Damaged as damage:
        return f"! damaged {damage}"
    except LeftOpen:
        return None
    return "ok"


# Chains: a whole document of today, and partial ones behind it


def chain_start(data, bits=BITS):
    """The chain of one document: all rows so far, and the roots and the bound of the last document."""
    return read(data, bits, (TODAY,)).pool


def chain_more(chain, data):
    """The chain with a partial document behind it. Raises `Damaged` with the first test that this one fails."""
    part = part_of(value_of(data), chain.bits)
    needs(part.after == len(chain.rows), "link")
    longer = chain._replace(rows=chain.rows + part.rows, roots=part.roots, history=part.history)
    test_open(longer)
    return longer


def chain_of(documents, bits=BITS):
    """The chain of these documents. Raises `Damaged` with the first test that the first damaged one fails."""
    first, *parts = documents
    return functools.reduce(chain_more, parts, chain_start(first, bits))


def pool_of_chain(chain):
    """The pool that a chain stands for."""
    return in_order(chain)


def chain_reply(documents, bits=BITS):
    """What a shell by so many bits answers to `chain` where its files are these, or None where the format leaves that open."""
    try:
        chain_of(documents, bits)
    except Damaged as damage:
        return f"! damaged {damage}"
    except LeftOpen:
        return None
    return "ok"


def identity(row):
    """What two rows have in common that look alike."""
    return row.letter, row.text, tuple(row.numbers), tuple(row.links)


def delta(chain, pool):
    """The partial document by which the chain stands for the pool. Each row of the pool gets the first place of the chain where a
    row looks like it, its links replaced by the places of what they lead to, and no earlier row got that place; else the next place
    behind the chain."""
    free = {}
    for place, row in enumerate(chain.rows):
        free.setdefault(identity(row), []).append(place)
    for places in free.values():
        places.reverse()
    places, own = [], []
    for row in pool.rows:
        row = row._replace(links=[places[link] for link in row.links])
        alike = free.get(identity(row))
        if alike:
            places.append(alike.pop())
        else:
            places.append(len(chain.rows) + len(own))
            own.append(row)
    return Part(len(chain.rows), pool.bits, own, [places[root] for root in pool.roots], pool.history)


# Pools with their lines changed


def line_cells(pool):
    """The places of the cells that are lines, in the order in which leaves name them."""
    return list(dict.fromkeys(
        link for row in pool.rows if row.letter == "l" for link in row.links if pool.rows[link].letter == "c"
    ))


def mapped(pool, change):
    """The pool with the text of each line changed, once for each cell: one that is a key or a star too stays one beside."""
    lines = line_cells(pool)
    new = {place: len(pool.rows) + index for index, place in enumerate(lines)}
    rows = [
        row._replace(links=[new.get(link, link) for link in row.links]) if row.letter in "li" else row for row in pool.rows
    ]
    rows += [Row("c", change(pool.rows[place].text), [], []) for place in lines]
    return in_order(pool._replace(rows=rows))


def indented(pool, count):
    """The pool whose lines have so many spaces more before them, or None where one is too long for them."""
    texts = (pool.rows[place].text for place in line_cells(pool))
    if any(len(text.encode("utf-8")) > LONGEST_TEXT - count for text in texts):
        return None
    return mapped(pool, lambda text: " " * count + text)


def dedented(pool, count):
    """The pool whose lines have lost the spaces before them, at most so many."""
    return mapped(pool, lambda text: text[min(count, len(text) - len(text.lstrip(" "))):])


# Documents of version 1, carried over


class Carrying:
    """The rows that come in the place of those of a valid pool of version 1.

    A cell, a row of a vector, a pair and a state have one each, with links to what came in the place of those that they link
    to. In the place of a map or a set comes the trie of its entries by the codes of today; equal rows of such tries are one.
    """

    def __init__(self, pool, bits):
        self.bits, self.rows, self.once, self.image = bits, [], {}, {}
        for place, row in enumerate(pool.rows):
            if row.letter not in "mk":
                self.image[place] = self.add(row._replace(links=[self.image[link] for link in row.links]))
            elif row.letter == "m" and row.numbers[0] == 0:
                self.image[place] = self.trie([(key, self.image[link]) for key, link in entries_of(pool, place)])

    def add(self, row):
        self.rows.append(row)
        return len(self.rows) - 1

    def add_once(self, row):
        same = row.letter, *row.numbers, *row.links
        if same not in self.once:
            self.once[same] = self.add(row)
        return self.once[same]

    def trie(self, entries, depth=0):
        """The trie of keys, each with its entry's place, which agree in their digits above a depth."""
        at = {}
        for key, place in entries:
            at.setdefault(digit(code_of(key, self.bits), depth), []).append((key, place))
        alone = [position for position in sorted(at) if len(at[position]) == 1]
        below = [position for position in sorted(at) if len(at[position]) > 1]
        links = [at[position][0][1] for position in alone]
        for position in below:
            is_last = depth == RULES[TODAY].deepest
            links.append(self.chain(at[position]) if is_last else self.trie(at[position], depth + 1))
        sets = [sum(1 << position for position in those) for those in (alone, below)]
        return self.add_once(Row("m", None, [depth, *sets], links))

    def chain(self, entries):
        """The chain of keys, the least one first."""
        rest = []
        for _key, place in sorted(entries, key=lambda entry: entry[0].encode("utf-8"), reverse=True):
            rest = [self.add_once(Row("k", None, [], [place, *rest]))]
        return rest[0]


def entries_of(pool, place):
    """The keys of a map or a set, each with the place of its entry."""
    waiting = [place]
    while waiting:
        for link in pool.rows[waiting.pop()].links:
            if pool.rows[link].letter in "mk":
                waiting.append(link)
            else:
                yield key_of(pool, link), link


def carried(pool, bits):
    """The pool of today that a valid one of version 1 stands for in a shell by so many bits."""
    carrying = Carrying(pool, bits)
    return in_order(Pool(TODAY, bits, carrying.rows, [carrying.image[root] for root in pool.roots]))


def stands_for(pool, bits=BITS):
    """The pool that the document of a valid one stands for in a shell by so many bits."""
    return carried(pool, bits) if pool.version == OLD else pool._replace(version=TODAY)


def saved(data, bits=BITS):
    """What a shell by so many bits saves that has loaded these bytes."""
    return written(stands_for(read(data, bits).pool, bits))


# What a document stands for


class Vector:
    """The elements of a vector, which are looked up and never listed unasked."""

    def __init__(self, workspace, place):
        self.workspace, self.place = workspace, place

    def __len__(self):
        return self.workspace.facts[self.place].length

    def __getitem__(self, index):
        """The place of an element."""
        if not 0 <= index < len(self):
            raise IndexError(index)
        row = self.workspace.pool.rows[self.place]
        while row.letter == "i":
            for link in row.links:
                length = self.workspace.facts[link].length
                if index < length:
                    row = self.workspace.pool.rows[link]
                    break
                index -= length
        return row.links[index]


class Workspace:
    """Buffers and stars of each state, versions, undo and redo, over the rows of a valid pool."""

    def __init__(self, pool, facts):
        self.pool, self.facts = pool, facts
        self.current = pool.roots[0]
        self.undo, self.redo = Vector(self, pool.roots[2]), Vector(self, pool.roots[3])

    def entries(self, place):
        """The keys of a map or a set, each with its entry's row."""
        return [(key, self.pool.rows[link]) for key, link in entries_of(self.pool, place)]

    def versions(self):
        """The places of the states that have names, by these."""
        return {name: row.links[1] for name, row in self.entries(self.pool.roots[1])}

    def buffers(self, state):
        """The lines of each buffer of a state, as the vector of their cells, by its name."""
        return {name: Vector(self, row.links[1]) for name, row in self.entries(self.pool.rows[state].links[0])}

    def stars(self, state):
        return {name for name, _ in self.entries(self.pool.rows[state].links[1])}

    def lines(self, vector):
        """The lines of a buffer."""
        return [self.pool.rows[place].text for place in vector]

    def summary(self):
        """What a reader sees first."""
        sizes = {name: len(lines) for name, lines in sorted(self.buffers(self.current).items())}
        named = sorted(self.versions())
        return f"version {self.pool.version}, rows {len(self.pool.rows)}, buffers {sizes}, " \
            f"stars {sorted(self.stars(self.current))}, versions {named}, undo {len(self.undo)}, redo {len(self.redo)}"


# Writing


def form(row):
    """A row as a JSON value."""
    return [row.letter, row.text] if row.letter == "c" else [row.letter, *row.numbers, list(row.links)]


def compact(value):
    """The compact text of a JSON value."""
    return json.dumps(value, ensure_ascii=False, separators=(",", ":"), sort_keys=True).encode("utf-8")


def document(pool):
    """The JSON value of a pool as it stands, whether it is valid or not."""
    return {
        "bits": pool.bits, "format": WHOLE_FORMAT, "roots": list(pool.roots), "rows": [form(row) for row in pool.rows],
        "version": pool.version, **bound_in(pool.version, pool.history),
    }


def part_document(part):
    """The JSON value of a partial document as it stands."""
    value = document(Pool(TODAY, part.bits, part.rows, part.roots, part.history))
    return {**value, "after": part.after, "format": PART_FORMAT}


def part_written(chain, pool):
    """The compact partial document by which the chain stands for the pool."""
    return compact(part_document(delta(chain, pool)))


def bound_in(version, history=MOST_HISTORY):
    """What a document of this version says of how many states undo keeps."""
    return {"history": history} if version == TODAY else {}


def in_order(pool):
    """The pool of the rows that the roots lead to, in their order, with the links renamed."""
    order = order_of(pool.rows, pool.roots)
    new = {place: index for index, place in enumerate(order)}
    rows = [pool.rows[place]._replace(links=[new[link] for link in pool.rows[place].links]) for place in order]
    return pool._replace(rows=rows, roots=[new[root] for root in pool.roots])


def written(pool):
    """The compact document of the rows that the roots lead to."""
    return compact(document(in_order(pool)))


# Documents whose answers are known

EMPTY_MAP = ["m", 0, 0, 0, []]
START_ROWS = [EMPTY_MAP, EMPTY_MAP, ["s", [0, 1]], EMPTY_MAP, ["l", []], ["l", []]]


def whole(rows, roots, version=TODAY, **others):
    """The compact document of these rows and roots, other keys in place of the usual ones, and none where it is None."""
    bits = RULES[version].code_bits if version in RULES else BITS
    value = {"bits": bits, "format": "ewig-pool", "roots": roots, "rows": rows, "version": version, **bound_in(version), **others}
    return compact({key: it for key, it in value.items() if it is not None})


def start(last=None, more=(), roots=(2, 3, 4, 5), **others):
    """The start space, with another last row, with more rows, or with other roots."""
    return whole(START_ROWS[:-1] + [last or ["l", []], *more], list(roots), **others)


def full_undo(**others):
    """A document of sixteen rows whose undo has 4,294,967,295 states."""
    rows = [EMPTY_MAP, ["s", [0, 0]], ["l", [1] * 32]]
    for height in range(1, 6):
        rows.append(["i", height, [len(rows) - 1] * 32])
    rows += [["l", [1] * 31], ["i", 1, [2] * 31 + [8]]]
    for place in range(10, 14):
        rows.append(["i", place - 8, [place - 7] * 31 + [place - 1]])
    return whole(rows + [["i", 6, [7, 7, 7, 13]], ["l", []]], [1, 0, 14, 15], **others)


def two_lines(cells, leaf, one_empty_map=False, **others):
    """A buffer `a` with the lines `x` and `x`, with a map of versions of its own or with one that is the set of stars too."""
    past = len(cells)
    rows = [["c", "a"], *cells, ["l", leaf], ["p", [0, past + 1]], ["m", 0, 4096, 0, [past + 2]], EMPTY_MAP,
            ["s", [past + 3, past + 4]]]
    if one_empty_map:
        return whole(rows + [["l", []], ["l", []]], [past + 5, past + 4, past + 6, past + 7], **others)
    return whole(rows + [EMPTY_MAP, ["l", []], ["l", []]], [past + 5, past + 6, past + 7, past + 8], **others)


def two_names(positions, one_empty_map=False, **others):
    """Empty buffers `a` and `A`, whose codes part at depth 1: at these positions."""
    rows = [["c", "a"], ["l", []], ["p", [0, 1]], ["c", "A"], ["l", []], ["p", [3, 4]],
            ["m", 1, positions, 0, [2, 5]], ["m", 0, 0, 2**12, [6]], EMPTY_MAP, ["s", [7, 8]]]
    if one_empty_map:
        return whole(rows + [["l", []], ["l", []]], [9, 8, 10, 11], **others)
    return whole(rows + [EMPTY_MAP, ["l", []], ["l", []]], [9, 10, 11, 12], **others)


OLD_POSITIONS, POSITIONS = 2**9 + 2**22, 2**4 + 2**23


def in_a_chain(keys, version=TODAY, **others):
    """Stars `A` and `a` by 5 bits of the codes, below a trie row for each depth."""
    deepest = RULES[version].deepest
    rows = [["c", keys[1]], ["c", keys[0]], ["k", [0]], ["k", [1, 2]], ["m", deepest, 0, 1, [3]]]
    for depth in range(deepest - 1, 0, -1):
        rows.append(["m", depth, 0, 1, [len(rows) - 1]])
    rows.append(["m", 0, 0, 2**12, [len(rows) - 1]])
    end = len(rows)
    rows += [EMPTY_MAP, ["s", [end, end - 1]], EMPTY_MAP, ["l", []], ["l", []]]
    roots = [end + 1, end + 2, end + 3, end + 4]
    value = {"bits": 5, "format": "ewig-pool", "roots": roots, "rows": rows, "version": version, **bound_in(version)}
    return compact({**document(in_order(pool_of(value, 5))), **others})


def known_by(version):
    """Documents of a version, and the replies to them by as many bits as codes of today have."""
    def of(make, *given, **others):
        return make(*given, version=version, **others)

    cell, deepest = ["c", "x"], RULES[version].deepest
    other = TODAY if version == OLD else OLD
    positions = {OLD: OLD_POSITIONS, SECOND: POSITIONS, TODAY: POSITIONS}
    lone = [["c", "a"], ["m", 1, 512 if version == OLD else 16, 0, [0]]]
    chain = [["c", "a"], ["c", "b"], ["k", [1]], ["k", [0, 2]]]
    return [
        (of(start), "ok"), (of(whole, [EMPTY_MAP, ["s", [0, 0]], ["l", []]], [1, 0, 2, 2]), "ok"),
        (of(two_names, positions[version]), "ok"), (of(two_names, positions[other]), "! damaged trie"),
        (of(two_lines, [cell, cell], [1, 2]), "ok"), (of(two_lines, [cell], [1, 1]), "ok"), (of(full_undo), "ok"),
        (of(whole, [], [2, 3, 4]), "! damaged form"),
        (of(start, bits=31), "! damaged bits"), (of(start, bits=RULES[other].code_bits), "! damaged bits"),
        (of(start, last=["q", []], bits=31), "! damaged bits"), (of(start, last=["q", []]), "! damaged row"),
        (of(whole, [["l", [0]]], [0, 0, 0, 0]), "! damaged link"),
        (of(start, more=[["c", "x\ny"]]), "! damaged text"), (of(start, last=["i", 1, [4]]), "! damaged vector"),
        (of(whole, lone, [1, 1, 1, 1]), "! damaged trie"), (of(start, roots=[3, 3, 4, 5]), "! damaged kind"),
        (of(start, last=["m", deepest, 0, 0, []]), "! damaged trie"),
        (of(start, last=["m", deepest + 1, 0, 0, []]), "! damaged row"),
        (of(start, more=[*chain, ["m", deepest, 0, last_positions(RULES[version]) + 1, [9]]]), "! damaged trie"),
        (of(start, more=[["c", "z"]]), "! damaged order"), (of(start, roots=[2, 3, 5, 4]), "! damaged order"),
        (of(in_a_chain, "aA" if version == OLD else "Aa"), "! damaged bits"),
        (of(in_a_chain, "Aa", bits=RULES[version].code_bits), "! damaged trie"),
        (of(start, more=[["c", "\\"]]).replace(b"\\\\", b"\\ud800"), "! damaged json"),
        (of(start, bits=True), "! damaged form"), (of(start, bits=1.5), None), (b" " + of(start) + b"\n", "ok"),
        (of(start, more=[["c", "é" * 32_768]]), "! damaged order"), (of(start, more=[["c", "é" * 32_769]]), "! damaged text"),
    ]


def one_undone(**others):
    """A space with one state to undo."""
    return whole([EMPTY_MAP, ["s", [0, 0]], ["l", [1]], ["l", []]], [1, 0, 2, 3], **others)


def known_bounds():
    """Documents that say how many states undo keeps, and the replies to them."""
    return [
        (start(history=0), "ok"), (start(history=2**32 - 1), "ok"), (start(history=2**32), "! damaged form"),
        (start(history=-1), "! damaged form"), (start(history="1"), "! damaged form"), (start(history=None), "! damaged form"),
        (start(history=2**64), None), (start(version=SECOND, history=1), "! damaged form"),
        (start(version=OLD, history=1), "! damaged form"), (start(version=9, history=1), "! damaged form"),
        (one_undone(), "ok"), (one_undone(history=1), "ok"),
        (one_undone(history=0), "! damaged kind"), (full_undo(history=2**32 - 2), "! damaged kind"),
        (start(history=0, roots=[2, 3, 5, 4]), "! damaged order"), (one_undone(history=0, bits=31), "! damaged bits"),
    ]


def known():
    """Documents, and the replies to them by as many bits as codes of today have."""
    return [
        *known_by(OLD), *known_by(SECOND), *known_by(TODAY), *known_bounds(),
        (b'{"bits":32', "! damaged json"), (start(version=9), "! damaged version"), (start(version=0), "! damaged version"),
        (start(version=TODAY + 1), "! damaged version"), (start(version=9, bits=31), "! damaged version"),
        (b"\xff", "! damaged json"), (b"\xef\xbb\xbf" + start(), "! damaged json"), (b"", "! damaged json"),
        (b"[]", "! damaged form"), (start(version=-1), "! damaged form"), (start(version=2**64), None), (b"[" * 1000, None),
    ]


def known_by_fewer():
    """Documents with the bits of the shell that reads them, and its reply."""
    return [
        (in_a_chain("Aa"), 5, "ok"), (in_a_chain("aA"), 5, "! damaged trie"), (in_a_chain("aa"), 5, "! damaged trie"),
        (in_a_chain("Aa", version=OLD), 5, "ok"), (in_a_chain("aA", version=OLD), 5, "! damaged trie"),
        (in_a_chain("Aa", version=OLD), 32, "! damaged bits"), (in_a_chain("Aa", version=OLD), 64, "! damaged bits"),
        (start(version=OLD), 32, "ok"), (start(version=OLD), 33, "ok"), (start(version=OLD), 31, "! damaged bits"),
        (start(version=OLD, bits=31), 31, "ok"), (start(version=OLD, bits=0), 0, "ok"), (start(version=OLD, bits=33), 33, "! damaged bits"),
        (start(), 32, "! damaged bits"), (start(bits=32), 32, "ok"), (start(bits=33), 33, "ok"), (start(bits=0), 0, "ok"),
    ]


def carried_over():
    """Documents of older versions, the bits of the shell that reads them, and what it saves."""
    cell, shared = ["c", "x"], [EMPTY_MAP, ["s", [0, 0]], ["l", []]]
    return [
        (start(version=OLD), BITS, whole([*shared, ["l", []]], [1, 0, 2, 3])),
        (whole(shared, [1, 0, 2, 2], version=OLD), BITS, whole(shared, [1, 0, 2, 2])),
        (two_lines([cell, cell], [1, 2], version=OLD), BITS, two_lines([cell, cell], [1, 2], one_empty_map=True)),
        (two_lines([cell], [1, 1], version=OLD), BITS, two_lines([cell], [1, 1], one_empty_map=True)),
        (two_names(OLD_POSITIONS, version=OLD), BITS, two_names(POSITIONS, one_empty_map=True)),
        (two_names(OLD_POSITIONS, version=OLD), 40, two_names(POSITIONS, one_empty_map=True, bits=40)),
        (start(version=SECOND), BITS, start()), (two_lines([cell, cell], [1, 2], version=SECOND), BITS, two_lines([cell, cell], [1, 2])),
        (full_undo(version=SECOND), BITS, full_undo()), (one_undone(history=1), BITS, one_undone(history=1)),
        (full_undo(version=OLD), BITS, full_undo()),
        (full_undo(version=OLD, bits=7), 7, full_undo(bits=7)),
    ]


CELLS = [["c", "a"], ["c", "x"], ["c", "x"]]
TWO_LINES = two_lines(CELLS[1:], [1, 2])
TWO_MORE_ROWS = [*CELLS, ["l", [7, 8]], ["p", [6, 9]], ["m", 0, 4096, 0, [10]], ["s", [11, 0]]]
# A cell that is the name of the buffer, and its line.
NAME_AND_LINE = whole(
    [["c", "a"], ["l", [0]], ["p", [0, 1]], ["m", 0, 4096, 0, [2]], EMPTY_MAP, ["s", [3, 4]], EMPTY_MAP, ["l", []], ["l", []]],
    [5, 6, 7, 8],
)


def part_text(rows=(), roots=(12, 1, 4, 5), after=6, **others):
    """A partial document, other keys in place of the usual ones, and none where it is None."""
    value = {
        "after": after, "bits": BITS, "format": PART_FORMAT, "history": MOST_HISTORY, "roots": list(roots), "rows": list(rows),
        "version": TODAY, **others,
    }
    return compact({key: it for key, it in value.items() if it is not None})


def two_more(rows=None, **others):
    """The partial document after the start space by which it stands for a buffer with two lines."""
    return part_text(TWO_MORE_ROWS if rows is None else rows, **others)


def known_chains():
    """Chains, and the replies to them."""
    again = part_text(roots=[12, 1, 4, 5], after=13)
    unused = two_more(rows=[*TWO_MORE_ROWS, ["c", "unused"]])
    others = [*TWO_MORE_ROWS[3:], *CELLS]
    return [
        ([start()], "ok"), ([start(), two_more()], "ok"), ([start(), two_more(), again], "ok"), ([start(), unused], "ok"),
        ([start(), part_text(roots=[2, 3, 4, 5])], "ok"), ([start(), part_text(roots=[2, 3, 5, 4])], "ok"),
        ([start(), part_text(roots=[2, 0, 4, 4])], "ok"), ([start(), two_more(), part_text(roots=[2, 3, 4, 5], after=13)], "ok"),
        ([start(), b"{}"], "! damaged form"), ([start(), b"{"], "! damaged json"), ([start(), start()], "! damaged form"),
        ([two_more()], "! damaged form"), ([two_more(), start()], "! damaged form"), ([b"", two_more()], "! damaged json"),
        ([start(version=SECOND)], "! damaged version"), ([start(version=OLD)], "! damaged version"),
        ([start(version=OLD, bits=31)], "! damaged version"), ([start(version=SECOND, history=1)], "! damaged form"),
        ([start(roots=[2, 3, 5, 4])], "! damaged order"), ([start(roots=[2, 3, 5, 4]), two_more()], "! damaged order"),
        ([start(), two_more(history=None)], "! damaged form"), ([start(), two_more(history=2**32)], "! damaged form"),
        ([start(), two_more(format=WHOLE_FORMAT)], "! damaged form"), ([start(), two_more(after=None)], "! damaged form"),
        ([start(), two_more(after="6")], "! damaged form"), ([start(), two_more(after=-1)], "! damaged form"),
        ([start(), two_more(z=0)], "! damaged form"), ([start(), two_more(roots=[12, 1, 4])], "! damaged form"),
        ([start(), two_more(version=SECOND)], "! damaged version"), ([start(), two_more(version=4, bits=7)], "! damaged version"),
        ([start(), two_more(bits=63)], "! damaged bits"), ([start(), two_more(bits=63, rows=[["q", []]])], "! damaged bits"),
        ([start(), two_more(rows=[["q", []]], after=5)], "! damaged row"), ([start(), two_more(after=5)], "! damaged link"),
        ([start(), two_more(after=7)], "! damaged link"), ([start(), two_more(after=0)], "! damaged link"),
        ([start(), two_more(roots=[13, 1, 4, 5])], "! damaged link"), ([start(), two_more(rows=others)], "! damaged link"),
        ([start(), two_more(rows=[*TWO_MORE_ROWS, ["l", [13]]])], "! damaged link"),
        ([start(), two_more(rows=[*TWO_MORE_ROWS, ["l", [12]]])], "ok"),
        ([start(), two_more(rows=[*TWO_MORE_ROWS, ["c", "x\ny"]])], "! damaged text"),
        ([start(), two_more(rows=[*TWO_MORE_ROWS, ["i", 1, [4]]])], "! damaged vector"),
        ([start(), two_more(rows=[*TWO_MORE_ROWS, ["m", 1, 16, 0, [6]]])], "! damaged trie"),
        ([start(), two_more(roots=[0, 1, 4, 5])], "! damaged kind"), ([start(), two_more(history=0)], "ok"),
        ([start(), part_text([["l", [2]]], roots=[2, 3, 6, 5])], "ok"),
        ([start(), part_text([["l", [2]]], roots=[2, 3, 6, 5], history=0)], "! damaged kind"),
        ([start(), part_text([["l", [2]]], roots=[2, 3, 6, 5], history=1)], "ok"),
        ([start(), two_more(after=5), b"{"], "! damaged link"), ([start(), b"[" * 1000], None),
        ([start(), two_more(), two_more()], "! damaged link"), ([start(), again], "! damaged link"),
    ]


def wrong_chains():
    """How many known chains, partial documents and moved lines are otherwise than they should be."""
    wrong = 0
    for documents, reply in known_chains():
        if chain_reply(documents) != reply:
            print(f"{chain_reply(documents)}, and not {reply}: {documents!r}")
            wrong += 1
    pools = {name: read(data).pool for name, data in [("start", start()), ("two", TWO_LINES), ("named", NAME_AND_LINE)]}
    twice = read(two_lines(CELLS[1:2], [1, 1])).pool
    checks = [
        (part_written(pools["start"], pools["two"]), two_more()),
        (part_written(pools["two"], pools["two"]), part_text(roots=[7, 8, 9, 10], after=11)),
        (part_written(pools["two"], pools["start"]), part_text(
            [["s", [6, 8]], ["m", 0, 0, 0, []]], roots=[11, 12, 9, 10], after=11)),
        (written(pool_of_chain(chain_of([start(), two_more()]))), TWO_LINES),
        (written(pool_of_chain(chain_of([start(), two_more(), part_text(roots=[2, 3, 4, 5], after=13)]))), start()),
        (written(pool_of_chain(chain_of([start(), part_text(roots=[2, 3, 5, 4])]))), start()),
        (written(indented(pools["two"], 2)), two_lines([["c", "  x"], ["c", "  x"]], [1, 2])),
        (written(indented(twice, 80)), two_lines([["c", " " * 80 + "x"]], [1, 1])),
        (written(dedented(indented(pools["two"], 2), 5)), TWO_LINES), (written(dedented(pools["start"], 0)), start()),
        (written(dedented(indented(pools["two"], 7), 5)), written(indented(pools["two"], 2))),
        (str(len(indented(pools["named"], 1).rows)).encode(), b"10"),
        (written(dedented(indented(pools["named"], 1), 1)), written(indented(pools["named"], 0))),
        (repr(indented(read(two_lines([["c", "x" * 65_535]], [1, 1])).pool, 2)).encode(), b"None"),
        (str(len(indented(read(two_lines([["c", "x" * 65_535]], [1, 1])).pool, 1).rows)).encode(), b"10"),
    ]
    for found, wanted in checks:
        if found != wanted:
            print(f"{found[:300]!r}, and not {wanted[:300]!r}")
            wrong += 1
    print(f"{len(known_chains())} known chains and {len(checks)} pools made of others: {wrong} read wrongly")
    return wrong


def self_test():
    """How many known documents are read otherwise than they should be."""
    wrong = wrong_chains()
    replies = [(data, BITS, reply) for data, reply in known()] + known_by_fewer()
    for data, bits, reply in replies:
        if reply_to(data, bits) != reply:
            print(f"{reply_to(data, bits)} by {bits} bits, and not {reply}: {data[:200]!r}")
            wrong += 1
    undo = read(full_undo()).undo
    wrong += len(undo) != 2**32 - 1 or undo[0] != 1 or undo[2**32 - 2] != 1
    for data, bits, wanted in carried_over():
        if saved(data, bits) != wanted:
            print(f"{data[:200]!r} is carried over to {saved(data, bits)[:200]!r}, and not to {wanted[:200]!r}")
            wrong += 1
    paths = [path for path in glob.glob(f"{EXAMPLES}/save_*.kept/*") if os.path.isfile(path)]
    for path in paths:
        with open(path, "rb") as file:
            data = file.read()
        if data.startswith(b"{") and saved(data) != data:
            print(f"{path} is written otherwise")
            wrong += 1
    count = len(replies) + len(carried_over()) + 1
    print(f"{count} known documents and {len(paths)} files of examples: {wrong} read wrongly")
    return wrong


def tell_chain(paths, bits):
    """Writes the document of the chain of these files, or says which test it fails."""
    documents = []
    for path in paths:
        with open(path, "rb") as file:
            documents.append(file.read())
    reply = chain_reply(documents, bits)
    if reply != "ok":
        print(reply or "the format leaves it open", file=sys.stderr)
        return 1
    sys.stdout.buffer.write(written(pool_of_chain(chain_of(documents, bits))))
    return 0


def main():
    words = argparse.ArgumentParser(description="Reads pool documents.")
    words.add_argument("files", nargs="*")
    words.add_argument("--bits", type=int, default=BITS)
    words.add_argument("--saved", action="store_true")
    words.add_argument("--chain", action="store_true")
    words.add_argument("--self-test", action="store_true")
    chosen = words.parse_args()
    if chosen.self_test:
        return 1 if self_test() else 0
    if chosen.chain:
        return tell_chain(chosen.files, chosen.bits)
    refused = 0
    for path in chosen.files:
        try:
            with open(path, "rb") as file:
                data = file.read()
            if chosen.saved:
                sys.stdout.buffer.write(saved(data, chosen.bits))
                continue
            said = read(data, chosen.bits).summary()
        except (OSError, Damaged, LeftOpen) as why:
            refused += 1
            said = f"! damaged {why}" if isinstance(why, Damaged) else str(why) or "the format leaves it open"
        print(f"{path}: {said}", file=sys.stderr if chosen.saved else sys.stdout)
    return 1 if refused else 0


if __name__ == "__main__":
    sys.exit(main())
