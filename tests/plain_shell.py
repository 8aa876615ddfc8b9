#!/usr/bin/env python3
"""The shell over plain lists and dictionaries: a second reading of docs/SHELL.md.

It shares nothing with the program but the manual, so that tests/fuzz.py can compare the two. It copies whole
dictionaries at each edit, and is meant for scripts with small buffers. It has no rows, and so it doesn't know `stats` and
`made`, and its files are a dictionary: a file of lines is bytes, a document is what it stands for (`Kept`). What becomes of
a chain whose parts were made for others its rows alone tell: there it says that it can't tell (`Untold`), and nothing is
changed. Run alone, it answers its standard input, with its own words for the program's and no files.
"""

import re
import sys

LONGEST_LINE = 65_536
MOST = 2**32 - 1
LARGEST_FILE = 67_108_864
LONGEST_CHAIN = 64
FARTHEST = 80
CODE_BITS = 64
# The version of the documents that are written, and the first one, of codes with fewer bits.
TODAY, FIRST, FIRST_BITS = 3, 1, 32

USAGE = "usage: ewig [--bits W] [--open F] [--work SEED --count N]"

# What follows each word: N a name, I a number, T the text, which is all the rest.
SHAPES = {
    "new": "N", "add": "NT", "set": "NIT", "put": "NIT", "del": "NII", "cat": "NN", "cut": "NIIN", "copy": "NN",
    "drop": "N", "star": "N", "unstar": "N", "read": "NN", "write": "NN",
    "mark": "N", "unmark": "N", "back": "N", "undo": "", "redo": "", "begin": "", "end": "", "abort": "", "history": "I",
    "get": "NI", "len": "N", "show": "NII", "list": "", "stars": "", "marks": "", "same": "NN", "eqv": "NN",
    "starmerge": "N", "starboth": "N", "starless": "N", "merge": "N",
    "save": "N", "load": "N", "part": "NI", "chain": "NI", "indent": "IN", "dedent": "IN", "quit": "",
}
EDITS = {"new", "add", "set", "put", "del", "cat", "cut", "copy", "drop", "star", "unstar"}
MERGES = {"starmerge", "starboth", "starless", "merge"}

NAME = re.compile(r"[A-Za-z0-9_][A-Za-z0-9._-]{0,63}\Z", re.ASCII)
NUMBER = re.compile(r"(0|[1-9][0-9]*)\Z", re.ASCII)


class Refused(Exception):
    """A refusal, with its reason."""


class Untold(Exception):
    """The reply depends on rows."""


def needs(test, reason):
    """Refuses where the test fails."""
    if not test:
        raise Refused(reason)


def read_number(text, most):
    """The number that a text is in decimal, with no leading zeros, or None where it is none or passes the most."""
    return int(text) if NUMBER.match(text) and int(text) <= most else None


def read_line(line):
    """The word of a line of bytes and its arguments, or the first refusal of a line."""
    needs(len(line) <= LONGEST_LINE, "long")
    try:
        text = line.decode("utf-8")
    except UnicodeDecodeError:
        raise Refused("utf8") from None
    word = text.split(" ")[0]
    needs(word in SHAPES, "command")
    shape = SHAPES[word]
    pieces = text.split(" ", len(shape)) if shape.endswith("T") else text.split(" ")
    needs(len(pieces) == 1 + len(shape), "command")
    arguments = []
    for kind, piece in zip(shape, pieces[1:]):
        if kind == "I":
            piece = read_number(piece, MOST)
            needs(piece is not None, "command")
        arguments.append(piece)
    for kind, piece in zip(shape, arguments):
        needs(kind != "N" or NAME.match(piece), "name")
    if word in ("part", "chain"):
        needs(NAME.match("{}.{}".format(*arguments)), "name")
    return word, arguments


def numbered(file, number):
    """The file of a chain that has this number: the first one at 0, and the partial documents from 1 on."""
    return f"{file}.{number}" if number else file


def yes_or_no(answer):
    """The reply line to a question of equality."""
    return "= yes" if answer else "= no"


class State:
    """Buffers by name, each a list of texts, and the names that are starred. It is never changed."""

    def __init__(self, buffers=None, stars=frozenset()):
        self.buffers = buffers or {}
        self.stars = stars

    def __eq__(self, other):
        return self.buffers == other.buffers and self.stars == other.stars

    def lines(self, name):
        needs(name in self.buffers, "none")
        return self.buffers[name]

    def having(self, name, lines):
        return State({**self.buffers, name: lines}, self.stars)

    def without(self, name):
        return State({other: lines for other, lines in self.buffers.items() if other != name}, self.stars)


def merged(state, word, other):
    """The state that a merge with another makes."""
    if word == "merge":
        return State({**other.buffers, **state.buffers}, state.stars)
    stars = {"starmerge": frozenset.union, "starboth": frozenset.intersection, "starless": frozenset.difference}[word]
    return State(state.buffers, stars(state.stars, other.stars))


def edited(state, word, arguments):
    """The state that an edit makes, or its first refusal."""
    name = arguments[0]
    if word == "new":
        needs(name not in state.buffers, "exists")
        return state.having(name, [])
    if word == "star":
        needs(name not in state.stars, "exists")
        return State(state.buffers, state.stars | {name})
    if word == "unstar":
        needs(name in state.stars, "none")
        return State(state.buffers, state.stars - {name})
    lines = state.lines(name)
    if word == "drop":
        return state.without(name)
    if word == "copy":
        return state.having(arguments[1], lines)
    if word == "cat":
        more = state.lines(arguments[1])
        needs(len(lines) + len(more) <= MOST, "limit")
        return state.having(name, lines + more)
    if word == "add":
        needs(len(lines) < MOST, "limit")
        return state.having(name, lines + [arguments[1]])
    first = arguments[1]
    if word == "set":
        needs(first < len(lines), "range")
        return state.having(name, lines[:first] + [arguments[2]] + lines[first + 1:])
    if word == "put":
        needs(first <= len(lines), "range")
        needs(len(lines) < MOST, "limit")
        return state.having(name, lines[:first] + [arguments[2]] + lines[first:])
    past = arguments[2]
    needs(first <= past <= len(lines), "range")
    rest = state.having(name, lines[:first] + lines[past:])
    return rest if word == "del" else rest.having(arguments[3], lines[first:past])


class Kept:
    """What a document stands for: the current state, the versions, undo, redo, and how many states undo keeps. A partial document
    has the documents that it was made for before it. `bits` are those of the shell that wrote it, None of this one."""

    def __init__(self, spaces, before=(), version=TODAY, bits=None):
        current, versions, undo, redo, most = spaces
        self.spaces = current, dict(versions), list(undo), list(redo), most
        self.before, self.version, self.bits = before, version, bits


def having_moved(spaces, change):
    """The same with each line of each state changed. What was one state is one."""
    images = {}

    def of(state):
        if id(state) not in images:
            buffers = {name: [change(line) for line in lines] for name, lines in state.buffers.items()}
            images[id(state)] = State(buffers, state.stars)
        return images[id(state)]

    current, versions, undo, redo, most = spaces
    versions = {name: of(state) for name, state in versions.items()}
    return of(current), versions, [of(state) for state in undo], [of(state) for state in redo], most


class Shell:
    """A current state, versions, states to undo and to redo, how many of the former are kept, and in a batch the state at its
    begin; and the files."""

    def __init__(self, files=None, bits=CODE_BITS):
        self.files = {} if files is None else files
        self.bits = bits
        self.current = State()
        self.versions = {}
        self.undo = []
        self.redo = []
        self.most = MOST
        self.base = None
        self.over = False

    def answer(self, line):
        """The reply lines to a line of bytes."""
        try:
            word, arguments = read_line(line)
            if word in EDITS:
                self.become(edited(self.current, word, arguments))
                return ["ok"]
            if word in MERGES:
                needs(arguments[0] in self.versions, "none")
                self.become(merged(self.current, word, self.versions[arguments[0]]))
                return ["ok"]
            return getattr(self, "do_" + word)(*arguments) or ["ok"]
        except Refused as refusal:
            return [f"! {refusal}"]

    def become(self, state):
        """Makes the state current, as an edit does."""
        if self.base is None:
            self.keep(self.current)
            self.redo = []
        self.current = state

    def keep(self, state):
        """Puts a state at the end of undo, and forgets the oldest states beyond as many as are kept."""
        self.undo.append(state)
        self.forget()

    def forget(self):
        """Forgets the oldest states of undo beyond as many as are kept."""
        del self.undo[:max(0, len(self.undo) - self.most)]

    def outside_batch(self):
        needs(self.base is None, "batch")

    def do_mark(self, version):
        self.outside_batch()
        needs(version not in self.versions, "exists")
        self.versions[version] = self.current

    def do_unmark(self, version):
        self.outside_batch()
        needs(version in self.versions, "none")
        del self.versions[version]

    def do_back(self, version):
        self.outside_batch()
        needs(version in self.versions, "none")
        self.become(self.versions[version])

    def do_undo(self):
        self.outside_batch()
        needs(self.undo, "empty")
        needs(len(self.redo) < MOST, "limit")
        self.redo.append(self.current)
        self.current = self.undo.pop()

    def do_redo(self):
        self.outside_batch()
        needs(self.redo, "empty")
        state = self.redo.pop()
        self.keep(self.current)
        self.current = state

    def do_history(self, count):
        self.outside_batch()
        self.most = count
        self.forget()

    def do_begin(self):
        self.outside_batch()
        self.base = self.current

    def do_end(self):
        needs(self.base is not None, "batch")
        self.keep(self.base)
        self.redo = []
        self.base = None

    def do_abort(self):
        needs(self.base is not None, "batch")
        self.current = self.base
        self.base = None

    def spaces(self):
        """All that a document keeps."""
        return self.current, self.versions, self.undo, self.redo, self.most

    def take(self, kept):
        """Puts what a document stands for in the place of all that there is."""
        self.current, versions, undo, redo, self.most = kept.spaces
        self.versions, self.undo, self.redo = dict(versions), list(undo), list(redo)

    def fetched(self, names):
        """What stands in these files."""
        length, found = 0, []
        for name in names:
            needs(name in self.files, "missing")
            found.append(self.files[name])
            # No document that this shell keeps is nearly as large.
            length += len(found[-1]) if isinstance(found[-1], bytes) else 0
            needs(length <= LARGEST_FILE, "large")
        return found

    def test_whole(self, found, versions):
        """Refuses what is no whole document of one of these versions. No bytes of these scripts are a document."""
        needs(isinstance(found, Kept), "damaged json")
        needs(not found.before, "damaged form")
        needs(found.version in versions, "damaged version")
        wanted = min(self.bits, FIRST_BITS) if found.version == FIRST else self.bits
        needs(found.bits in (None, wanted), "damaged bits")

    def chain_in(self, file, count):
        """The documents of a chain with so many partial ones, as far as this shell can tell that they are one."""
        found = self.fetched([numbered(file, number) for number in range(count + 1)])
        self.test_whole(found[0], {TODAY})
        for place, part in enumerate(found[1:], 1):
            needs(isinstance(part, Kept), "damaged json")
            needs(part.before, "damaged form")
            if part.before != tuple(found[:place]):
                raise Untold
        return found

    def do_save(self, file):
        self.outside_batch()
        self.files[file] = Kept(self.spaces())

    def do_load(self, file):
        self.outside_batch()
        [found] = self.fetched([file])
        self.test_whole(found, {TODAY, 2, FIRST})
        self.take(found)

    def do_part(self, file, number):
        self.outside_batch()
        needs(1 <= number <= LONGEST_CHAIN, "range")
        chain = self.chain_in(file, number - 1)
        self.files[numbered(file, number)] = Kept(self.spaces(), tuple(chain))

    def do_chain(self, file, number):
        self.outside_batch()
        needs(1 <= number <= LONGEST_CHAIN, "range")
        self.take(self.chain_in(file, number)[-1])

    def lines(self):
        """Each line of each state that is kept."""
        current, versions, undo, redo, _most = self.spaces()
        for state in (current, *versions.values(), *undo, *redo):
            for lines in state.buffers.values():
                yield from lines

    def do_indent(self, count, file):
        self.outside_batch()
        needs(count <= FARTHEST, "range")
        needs(all(len(line.encode("utf-8")) <= LONGEST_LINE - count for line in self.lines()), "limit")
        self.files[file] = Kept(having_moved(self.spaces(), lambda line: " " * count + line))

    def do_dedent(self, count, file):
        self.outside_batch()
        needs(count <= FARTHEST, "range")

        def change(line):
            spaces = len(line) - len(line.lstrip(" "))
            return line[min(count, spaces):]

        self.files[file] = Kept(having_moved(self.spaces(), change))

    def do_read(self, name, file):
        needs(file in self.files, "missing")
        data = self.files[file]
        if isinstance(data, Kept):
            raise Untold
        needs(len(data) <= LARGEST_FILE, "large")
        lines = pieces(data)
        needs(all(len(line) <= LONGEST_LINE for line in lines), "long")
        try:
            data.decode("utf-8")
        except UnicodeDecodeError:
            raise Refused("utf8") from None
        self.become(self.current.having(name, [line.decode("utf-8") for line in lines]))

    def do_write(self, name, file):
        data = "".join(line + "\n" for line in self.current.lines(name)).encode("utf-8")
        needs(len(data) <= LARGEST_FILE, "large")
        self.files[file] = data

    def do_get(self, name, index):
        lines = self.current.lines(name)
        needs(index < len(lines), "range")
        return [f"= {lines[index]}"]

    def do_len(self, name):
        return [f"= {len(self.current.lines(name))}"]

    def do_show(self, name, first, past):
        lines = self.current.lines(name)
        needs(first <= past <= len(lines), "range")
        return [f"= {line}" for line in lines[first:past]] + ["ok"]

    def do_list(self):
        buffers = self.current.buffers
        return [f"= {name} {len(buffers[name])}" for name in sorted(buffers)] + ["ok"]

    def do_stars(self):
        return [f"= {name}" for name in sorted(self.current.stars)] + ["ok"]

    def do_marks(self):
        return [f"= {name}" for name in sorted(self.versions)] + ["ok"]

    def do_same(self, one, other):
        return [yes_or_no(self.current.lines(one) == self.current.lines(other))]

    def do_eqv(self, one, other):
        needs(one in self.versions and other in self.versions, "none")
        return [yes_or_no(self.versions[one] == self.versions[other])]

    def do_quit(self):
        self.over = True


def pieces(data):
    """The bytes split at each newline, where an empty rest is no piece."""
    parts = data.split(b"\n")
    return parts if parts[-1] else parts[:-1]


def read_words(words):
    """The options of the program's words, or None where they don't read."""
    options = {}
    rest = list(words)
    while rest:
        word = rest.pop(0)
        if not word.startswith("--"):
            return None
        key, equals, value = word[2:].partition("=")
        if not equals:
            if not rest or rest[0].startswith("-"):
                return None
            value = rest.pop(0)
        if key in options or key not in ("bits", "open", "work", "count"):
            return None
        most = {"bits": 64, "open": None, "work": 2**64 - 1, "count": 100_000}[key]
        options[key] = value if most is None else read_number(value, most)
        if options[key] is None or (most is None and not NAME.match(value)):
            return None
    works = "work" in options
    if works != ("count" in options) or (works and "open" in options):
        return None
    return options


def work_line(x):
    """The line that the generator makes from a number of 64 bits."""
    kind, one, other, n = x >> 60, (x >> 57) & 7, (x >> 54) & 7, (x >> 32) & 4_194_303
    if kind <= 6:
        return f"add w{one} t{n}"
    if kind <= 8:
        return f"set w{one} {n % 256} t{n}"
    first = n % 16
    return {
        9: f"put w{one} {n % 256} t{n}", 10: f"del w{one} {first} {first + n // 16 % 16}", 11: f"copy w{one} w{other}",
        12: "undo", 13: "redo", 14: f"cat w{one} w{other}", 15: f"mark v{n}",
    }[kind]


def work(seed, count):
    """The summary of so many generated lines behind eight that make the buffers."""
    shell = Shell()
    lines = [f"new w{i}" for i in range(8)]
    x = seed
    for _ in range(count):
        x = (x * 6364136223846793005 + 1442695040888963407) % 2**64
        lines.append(work_line(x))
    replies = [shell.answer(line.encode("ascii")) for line in lines]
    refused = sum(reply[-1].startswith("!") for reply in replies)
    buffers = shell.current.buffers
    return [
        f"= commands {len(lines)}", f"= ok {len(lines) - refused}", f"= refused {refused}", f"= names {len(buffers)}",
        f"= lines {sum(map(len, buffers.values()))}", "ok",
    ]


def output(data, words=(), files=None):
    """What the shell writes for this input, and its status. The files are changed as the shell changes them."""
    options = read_words(words)
    if options is None:
        return b"", 2
    if "work" in options:
        written = work(options["work"], options["count"])
    else:
        shell = Shell(files, options.get("bits", CODE_BITS))
        written = []
        if "open" in options:
            written += shell.answer(f"load {options['open']}".encode("ascii"))
        for piece in pieces(data):
            written += shell.answer(piece)
            if shell.over:
                break
    return "".join(line + "\n" for line in written).encode("utf-8"), 0


def main():
    written, status = output(sys.stdin.buffer.read(), sys.argv[1:])
    if status:
        print(USAGE, file=sys.stderr)
    sys.stdout.buffer.write(written)
    return status


if __name__ == "__main__":
    sys.exit(main())
