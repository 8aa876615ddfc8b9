#!/usr/bin/env python3
"""The workloads: deterministic scripts of command lines for `ewig`.

    workloads.py                                   lists them
    workloads.py --write KEY --size S --out DIR    writes DIR/input and its files

Each workload stresses one thing. Size 1 is picked so that im_shell takes about
1 to 3 seconds. Both the buffers and the number of commands grow with the size,
so time against size tells the growth. Every range is valid and every name is
there, so no reply is a refusal; a `! command` in the output means that the
program doesn't have that command.
"""

import argparse
import os
import sys

# The commands by what they are for, which a workload asks for together.
FEATURES = {
    "plain": "new, add, get, len, list, quit",
    "edits": "set, put, del, show, cat, cut, copy, drop, star, unstar, stars",
    "versions": "mark, unmark, back, marks, undo, redo",
    "batches": "begin, end, abort",
    "store": "save, load",
    "equality": "same, eqv",
    "merges": "starmerge, starboth, starless, merge",
    "files": "read, write",
}


class Dice:
    """A linear congruential generator, so that scripts don't rest on the
    version of Python."""

    def __init__(self, seed):
        self.x = (seed * 2654435761 + 88172645463325252) & (2**64 - 1)

    def below(self, n):
        self.x = (self.x * 6364136223846793005 + 1442695040888963407) & (2**64 - 1)
        return ((self.x >> 32) * n) >> 32

    def shuffled(self, items):
        items = list(items)
        for i in range(len(items) - 1, 0, -1):
            j = self.below(i + 1)
            items[i], items[j] = items[j], items[i]
        return items


def scaled(base, size, least=1):
    return max(least, int(base * size))


def built(name, lines, text="line %d of the first text"):
    """A buffer of so many lines, by one batch."""
    yield "new " + name
    yield "begin"
    for i in range(lines):
        yield "add %s %s" % (name, text % i)
    yield "end"


def append(size, folder):
    n = scaled(300_000, size)
    yield "new a"
    for i in range(n):
        yield "add a line %d of the text" % i
    yield "len a"
    yield "get a %d" % (n // 2)


def append_batch(size, folder):
    n = scaled(5_000_000, size)
    yield "new a"
    yield "begin"
    for i in range(n):
        yield "add a line %d of the text" % i
    yield "end"
    yield "len a"
    yield "get a %d" % (n // 2)


def random_set(size, folder):
    lines, n = scaled(100_000, size, 100), scaled(120_000, size)
    dice = Dice(3)
    yield from built("a", lines)
    for i in range(n):
        yield "set a %d changed %d" % (dice.below(lines), i)
    yield "show a 0 %d" % lines


def random_set_batch(size, folder):
    lines, n = scaled(100_000, size, 100), scaled(4_000_000, size)
    dice = Dice(13)
    yield from built("a", lines)
    yield "begin"
    for i in range(n):
        yield "set a %d changed %d" % (dice.below(lines), i)
    yield "end"
    yield "show a 0 %d" % lines


def random_put_del(size, folder):
    lines, n = scaled(100_000, size, 100), scaled(8_000, size)
    dice = Dice(4)
    yield from built("a", lines)
    length = lines
    for i in range(n):
        if dice.below(2) == 0:
            yield "put a %d put %d" % (dice.below(length + 1), i)
            length += 1
        else:
            at = dice.below(length - 3)
            count = 1 + dice.below(3) if length > lines else 1
            yield "del a %d %d" % (at, at + count)
            length -= count
    yield "len a"
    yield "show a 0 %d" % length


def slices(size, folder):
    """Buffers of about a million lines, cut and joined again and again."""
    full, rounds = scaled(1_000_000, size, 1000), scaled(1_500, size, 4)
    dice = Dice(5)
    yield "new a"
    length = 0
    while length < 500:
        yield "add a line %d" % length
        length += 1
    while length < full:
        yield "cat a a"
        length *= 2
    for i in range(rounds):
        i, j = sorted((dice.below(length), dice.below(length)))
        yield "cut a %d %d b" % (i, j)
        yield "copy a c"
        yield "cat b c"
        yield "copy b a"
        yield "get a %d" % dice.below(length)
        if dice.below(4) == 0:
            yield "cat c b"
            yield "len c"
    at = dice.below(length)
    yield "show a %d %d" % (at, min(length, at + 50_000))


def many_names(size, folder):
    names, rounds = scaled(10_000, size, 20), 7
    dice = Dice(6)
    for turn in range(rounds):
        for i in dice.shuffled(range(names)):
            yield "new name.%d" % i
        for i in dice.shuffled(range(names)):
            yield "star name.%d" % i
        for i in dice.shuffled(range(0, names, 3)):
            yield "add name.%d a line" % i
        yield "list"
        yield "stars"
        for i in dice.shuffled(range(names)):
            yield "unstar name.%d" % i
        gone = dice.shuffled(range(names))
        keep = len(gone) // 10
        for i in gone[keep:]:
            yield "drop name.%d" % i
        yield "list"
        for i in gone[:keep]:
            yield "drop name.%d" % i


def marks_eqv(size, folder):
    """Marks with small edits between. Every fourth state has the contents of
    the first but other rows, so a third of the questions are answered yes."""
    marks, asks, buffers, lines = scaled(10_000, size, 40), scaled(10_000, size, 40), 10, 1000
    dice = Dice(7)
    for b in range(buffers):
        yield from built("b%d" % b, lines)
    state = []
    i = 0
    while len(state) < marks:
        b, at = dice.below(buffers), dice.below(lines)
        yield "set b%d %d other %d" % (b, at, i)
        yield "mark v%d" % len(state)
        state.append(1 + len(state))
        yield "set b%d %d line %d of the first text" % (b, at, at)
        yield "mark v%d" % len(state)
        state.append(0)
        i += 1
    plain = [v for v, s in enumerate(state) if s == 0]
    for i in range(asks):
        if dice.below(3) == 0:
            v, w = plain[dice.below(len(plain))], plain[dice.below(len(plain))]
        else:
            v, w = dice.below(len(state)), dice.below(len(state))
        yield "eqv v%d v%d" % (v, w)
    yield "marks"


def undo_storm(size, folder):
    lines, edits, storm = scaled(10_000, size, 100), scaled(20_000, size, 50), scaled(6_000_000, size, 500)
    dice = Dice(8)
    yield from built("a", lines)
    yield "new b"
    undo, redo, done = 0, 0, 0

    def edit(i):
        k = dice.below(3)
        if k == 0:
            return "set a %d edit %d" % (dice.below(lines), i)
        return "add b edit %d" % i if k == 1 else "copy a c%d" % (i % 20)

    for i in range(edits):
        yield edit(i)
    undo = edits
    while done < storm:
        count = 1 + dice.below(undo)
        yield from ["undo"] * count
        undo, redo, done = undo - count, redo + count, done + count
        yield "len b"
        yield "get a %d" % dice.below(lines)
        if dice.below(8) == 0:
            more = 20 + dice.below(redo)
            for i in range(more):
                yield edit(i)
            undo, redo, done = undo + more, 0, done + more
        count = dice.below(redo + 1)
        yield from ["redo"] * count
        undo, redo, done = undo + count, redo - count, done + count
        yield "len b"
        if undo == 0:
            yield edit(0)
            undo, redo = 1, 0


def show_ranges(size, folder):
    lines, shows = 100_000, scaled(200, size, 2)
    dice = Dice(9)
    yield from built("a", lines, "line %d of a text that is to be shown")
    # The same lines in another shape.
    yield "copy a b"
    for i in range(50):
        at = dice.below(lines // 2)
        yield "cut b %d %d c" % (at, at + lines // 3)
        yield "cat b c"
    for i in range(shows):
        at = dice.below(lines // 4)
        yield "show %s %d %d" % ("ab"[i % 2], at, at + lines * 3 // 4)


def text_files(size, folder):
    dice = Dice(10)
    letters = "".join(chr(97 + dice.below(26)) for i in range(400))
    left = scaled(50_000_000, size, 10_000)
    with open(os.path.join(folder, "big.txt"), "w") as big:
        while left > 0:
            n, at = dice.below(101), dice.below(300)
            big.write(letters[at:at + n] + "\n")
            left -= n + 1
    for i in range(5):
        yield "read a%d big.txt" % i
        yield "put a%d 10 a line more" % i
        yield "set a%d 100 a line changed" % i
        yield "len a%d" % i
        yield "write a%d out%d.txt" % (i, i % 2)
    yield "write a0 out2.txt"
    yield "read b out2.txt"
    yield "len b"
    yield "get b 100"


def save_load(size, folder):
    """About 1,000 versions, and as many states of undo, of one buffer."""
    lines, versions = scaled(10_000, size, 100), scaled(1_000, size**0.5, 4)
    dice = Dice(11)
    yield from built("a", lines, "l%d")
    for i in range(versions):
        yield "set a %d x%d" % (dice.below(lines), i)
        yield "mark v%d" % i
    yield "save s1"
    yield "load s1"
    yield "marks"
    for i in range(20):
        yield "back v%d" % dice.below(versions)
        yield "get a %d" % dice.below(lines)
    yield "show a 0 %d" % lines
    yield "undo"
    yield "undo"
    yield "redo"
    yield "show a 0 %d" % lines


def random_get(size, folder):
    lines, n = scaled(100_000, size, 100), scaled(6_000_000, size)
    dice = Dice(12)
    yield from built("a", lines)
    for i in range(n):
        yield "get a %d" % dice.below(lines)


def star_merges(size, folder):
    """Twenty versions of the same stars but for a few, merged into one another
    again and again."""
    names, merges, versions = scaled(10_000, size, 50), scaled(600, size, 6), 20
    dice = Dice(14)
    now = set(range(names))
    yield "begin"
    for i in dice.shuffled(range(names)):
        yield "star name.%d" % i
    yield "end"
    kept = []
    for v in range(versions):
        for i in sorted({dice.below(2 * names) for _ in range(10)}):
            yield ("unstar name.%d" if i in now else "star name.%d") % i
            now ^= {i}
        yield "mark v%d" % v
        kept.append(set(now))
    for i in range(merges):
        v = dice.below(versions)
        kind = ["starmerge", "starmerge", "starboth", "starless"][dice.below(4)]
        yield "%s v%d" % (kind, v)
        now = now | kept[v] if kind == "starmerge" else now & kept[v] if kind == "starboth" else now - kept[v]
        more = dice.below(2 * names)
        yield ("unstar name.%d" if more in now else "star name.%d") % more
        now ^= {more}
        if dice.below(20) == 0:
            yield "stars"
        if dice.below(10) == 0:
            yield "back v%d" % v
            now = set(kept[v])
    yield "stars"


class Workload:
    def __init__(self, key, title, needs, lines, compare=()):
        self.key = key
        self.title = title
        self.needs = needs
        self.lines = lines
        # Files that must be equal too.
        self.compare = compare


WORKLOADS = {w.key: w for w in [
    Workload("a", "append outside a batch", ["plain"], append),
    Workload("b", "append in a batch", ["plain", "batches"], append_batch),
    Workload("c", "random set, 100k lines", ["plain", "edits", "batches"], random_set),
    Workload("d", "random put and del, 100k lines", ["plain", "edits", "batches"], random_put_del),
    Workload("e", "cat, cut, copy of big slices", ["plain", "edits"], slices),
    Workload("f", "10k names: new, star, drop", ["plain", "edits"], many_names),
    Workload("g", "10k marks, eqv of random pairs",
             ["plain", "edits", "batches", "versions", "equality"], marks_eqv),
    Workload("h", "undo and redo storms", ["plain", "edits", "batches", "versions"], undo_storm),
    Workload("i", "show of large ranges", ["plain", "edits", "batches"], show_ranges),
    Workload("j", "read and write of 50 MB", ["plain", "edits", "files"], text_files,
             ["out0.txt", "out1.txt", "out2.txt"]),
    Workload("k", "save, load of 1,000 versions",
             ["plain", "edits", "batches", "versions", "store"], save_load),
    Workload("l", "random get, 100k lines", ["plain", "batches"], random_get),
    Workload("m", "random set in a batch", ["plain", "edits", "batches"], random_set_batch),
    Workload("n", "10k stars merged between versions",
             ["plain", "edits", "batches", "versions", "merges"], star_merges),
]}

GROWTH = ["a", "b", "c", "d"]


def write(key, size, folder):
    with open(os.path.join(folder, "input"), "w", buffering=1 << 20) as out:
        piece = []
        for line in WORKLOADS[key].lines(size, folder):
            piece.append(line)
            if len(piece) == 50_000:
                out.write("\n".join(piece) + "\n")
                piece.clear()
        piece.append("quit")
        out.write("\n".join(piece) + "\n")


def main():
    words = argparse.ArgumentParser()
    words.add_argument("--write", metavar="KEY")
    words.add_argument("--size", type=float, default=1.0)
    words.add_argument("--out", metavar="DIR")
    words = words.parse_args()
    if words.write:
        if words.write not in WORKLOADS or not words.out:
            sys.exit("a KEY of the list and --out DIR are needed")
        os.makedirs(words.out, exist_ok=True)
        write(words.write, words.size, words.out)
        return
    for key, w in WORKLOADS.items():
        print("%s  %-32s needs %s" % (key, w.title, ", ".join(w.needs)))
    print()
    for name, what in FEATURES.items():
        print("%-9s %s" % (name, what))


if __name__ == "__main__":
    main()
