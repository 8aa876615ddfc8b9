#!/usr/bin/env python3
"""Tests the shells' replies, so that the bench measures the right thing.

    check_replies.py --bin PATH [--bin PATH ...] [--seeds N] [--steps N]

First worked rows, which any shell can pass; then random scripts, where every
given shell must give std_shell's replies.
"""

import argparse
import os
import random
import subprocess
import sys
import tempfile

HERE = os.path.dirname(os.path.abspath(__file__))
STD = os.path.join(HERE, "target", "release", "std_shell")


def run(path, script, folder):
    done = subprocess.run([path], input=script, stdout=subprocess.PIPE,
                          stderr=subprocess.PIPE, cwd=folder)
    return done.returncode, done.stdout, done.stderr


def text(lines):
    return "".join(line + "\n" for line in lines).encode()


def rows():
    """(name, input lines or bytes, expected lines)"""
    yield "nothing", [], []
    yield "a line", ["new a", "add a hello", "get a 0"], ["ok", "ok", "= hello"]
    yield "no newline at the end", b"new a", ["ok"]
    yield "an empty line", ["", "list"], ["! command", "ok"]
    yield "an empty text", ["new a", "add a ", "add a", "len a"], ["ok", "ok", "! command", "= 1"]
    yield ("ranges", ["new a", "add a x", "get a 1", "show a 1 1", "show a 0 2", "new a"],
           ["ok", "ok", "! range", "ok", "! range", "! exists"])
    yield ("a second row", ["new a"] + ["add a l%d" % i for i in range(33)] + ["get a 32", "len a"],
           ["ok"] * 34 + ["= l32", "= 33"])
    yield ("a version", ["new a", "add a p", "mark v", "set a 0 x", "get a 0", "back v", "get a 0"],
           ["ok"] * 4 + ["= x", "ok", "= p"])
    yield ("an edit after an undo", ["new a", "add a x", "undo", "add a y", "redo", "get a 0"],
           ["ok"] * 4 + ["! empty", "= y"])
    yield ("a batch that is given up", ["new a", "add a p", "begin", "set a 0 q", "save f", "abort", "get a 0", "end"],
           ["ok"] * 4 + ["! batch", "ok", "= p", "! batch"])
    yield ("names in another order", ["new n%02d" % i for i in range(40)] + ["mark v"]
           + ["drop n%02d" % i for i in range(20)]
           + ["new n%02d" % i for i in reversed(range(20))] + ["mark w", "eqv v w"],
           ["ok"] * 82 + ["= yes"])
    yield "a long line", [("x" * 65537), "list"], ["! long", "ok"]
    yield "a line of full length", ["new a", "add a " + "x" * 65530, "len a"], ["ok", "ok", "= 1"]
    yield "no UTF-8", b"add a \xff\n", ["! utf8"]
    yield ("text files", ["read n notes.txt", "len n", "put n 1 new", "write n out.txt", "read m out.txt",
                "same n m", "show m 0 4"],
           ["ok", "= 3", "ok", "ok", "ok", "= yes", "= one", "= new", "= two", "= three", "ok"])
    yield ("cut, cat and del", ["new a", "add a p", "add a q", "add a r", "cut a 0 2 b", "show b 0 2", "len a",
                "cat a b", "show a 0 3", "del a 1 3", "len a"],
           ["ok"] * 5 + ["= p", "= q", "ok", "= 1", "ok", "= r", "= p", "= q", "ok", "ok", "= 1"])
    yield ("stars", ["star z", "star z", "new b", "new B", "copy b c", "same b c", "list", "stars",
                "unstar y", "undo", "list"],
           ["ok", "! exists", "ok", "ok", "ok", "= yes", "= B 0", "= b 0", "= c 0", "ok", "= z",
            "ok", "! none", "ok", "= B 0", "= b 0", "ok"])
    yield "no such document", ["load nothere", "quit", "list"], ["! missing", "ok"]
    yield "words", ["new .x", "get a 01", "list ", "get a 0"], ["! name", "! command", "! command", "! none"]
    yield ("versions", ["mark v", "mark v", "new a", "mark w", "eqv v w", "marks", "unmark v", "back v"],
           ["ok", "! exists", "ok", "ok", "= no", "= v", "= w", "ok", "ok", "! none"])
    yield ("a cut into its own buffer", ["new a", "add a p", "add a q", "add a r", "cut a 1 3 a", "show a 0 2"],
           ["ok"] * 5 + ["= q", "= r", "ok"])
    yield ("merges with a version", ["star x", "star y", "mark v", "unstar x", "star z", "starboth v", "stars", "undo", "starmerge v",
                "stars", "starless w", "new a", "add a p", "new b", "mark w", "drop b", "set a 0 q", "merge w", "get a 0", "list"],
           ["ok"] * 6 + ["= y", "ok", "ok", "ok", "= x", "= y", "= z", "ok", "! none"] + ["ok"] * 7
           + ["= q", "= a 1", "= b 0", "ok"])
    yield ("a redo of a batch", ["new a", "begin", "add a x", "end", "undo", "redo", "len a"],
           ["ok"] * 6 + ["= 1"])
    yield ("the order of refusals", ["add x 1 2", "set x 01 a", "set .x 0 a", "set x 4294967296 a", "del x 0",
                      "cut x 0 1 .y", "begin", "begin", "mark v", "back v", "undo", "redo", "load f",
                      "end", "end", "abort", "undo", "undo", "redo", "redo", "eqv a b", "same a b",
                      "unmark v", "read q nofile", "write q f", "quit now", "stars"],
           ["! none", "! command", "! name", "! command", "! command", "! name", "ok", "! batch",
            "! batch", "! batch", "! batch", "! batch", "! batch", "ok", "! batch", "! batch", "ok",
            "! empty", "ok", "! empty", "! none", "! none", "! none", "! missing", "! none",
            "! command", "ok"])


def sharing_rows():
    """Rows that only a shell with sharing can pass."""
    yield ("the longest buffer", ["new a", "add a x"] + ["cat a a"] * 32 + ["len a"],
           ["ok"] * 33 + ["! limit", "= 2147483648"])
    yield ("comparisons of equal buffers", ["new a", "add a x"] + ["cat a a"] * 31
           + ["copy a b", "mark v", "new c", "drop c", "mark w"]
           + ["same a b"] * 100 + ["eqv v w"] * 100, ["ok"] * 38 + ["= yes"] * 200)


def random_script(seed, steps):
    """All commands that both have but stats and made, with refusals among them."""
    r = random.Random(seed)
    big = r.choice([8, 300, 5000])
    names = ["b%d" % i for i in range(r.choice([2, 6]))]
    versions = ["v%d" % i for i in range(5)]
    out = ["new " + name for name in names]
    if big > 8:
        out.append("begin")
        for i in range(big):
            out.append("add %s line%d" % (r.choice(names), i))
        out.append("end")
    for i in range(steps):
        b, c = r.choice(names), r.choice(names)
        v, w = r.choice(versions), r.choice(versions)
        x, y = sorted((r.randrange(big), r.randrange(big)))
        if r.random() < 0.6:
            y = min(y, x + r.randrange(70))
        k = r.randrange(103)
        if k >= 100:
            out.append(r.choice(["starmerge ", "starboth ", "starless ", "merge "]) + v)
        elif k < 14:
            out.append("put %s %d p%d" % (b, x, i))
        elif k < 24:
            out.append("del %s %d %d" % (b, x, y))
        elif k < 34:
            out.append("set %s %d s%d" % (b, x, i))
        elif k < 42:
            out.append("add %s a%d" % (b, i))
        elif k < 46:
            out.append("cat %s %s" % (b, c))
        elif k < 52:
            out.append("cut %s %d %d %s" % (b, x, y, c))
        elif k < 55:
            out.append("copy %s %s" % (b, c))
        elif k < 56:
            out.append("drop " + b)
        elif k < 58:
            out.append("new " + b)
        elif k < 60:
            out.append(r.choice(["star ", "unstar "]) + b)
        elif k < 66:
            out.append("undo")
        elif k < 69:
            out.append("redo")
        elif k < 71:
            out.append("mark " + v)
        elif k < 73:
            out.append(r.choice(["unmark ", "back "]) + v)
        elif k < 76:
            out.append(r.choice(["begin", "end", "end", "abort"]))
        elif k < 80:
            out.append("get %s %d" % (b, x))
        elif k < 84:
            out.append("show %s %d %d" % (b, x, y))
        elif k < 88:
            out.append("len " + b)
        elif k < 90:
            out.append("same %s %s" % (b, c))
        elif k < 94:
            out.append("eqv %s %s" % (v, w))
        elif k < 96:
            out.append(r.choice(["list", "stars", "marks"]))
        elif k < 97:
            out.append(r.choice(["save f", "load f"]))
        else:
            out.append(r.choice(["write %s t", "read %s t"]) % b)
        # Keep the buffers below four times their first size.
        if k >= 42 and k < 46:
            out.append("del %s %d %d" % (b, big, 2 * big))
    out += ["end", "list"] + ["show %s 0 %d" % (b, big // 2) for b in names]
    out += ["write %s t.%s" % (b, b) for b in names]
    return out


def first_difference(script, a, b):
    a, b = a.split(b"\n"), b.split(b"\n")
    for i, (x, y) in enumerate(zip(a, b)):
        if x != y:
            return "reply line %d: %r against %r" % (i + 1, x[:60], y[:60])
    return "the one ends after %d lines, the other after %d" % (len(a), len(b))


def first_fault(err):
    lines = err.decode(errors="replace").strip().split("\n")
    return "    " + " / ".join(line.strip()[-90:] for line in lines[:2])


def main():
    words = argparse.ArgumentParser()
    words.add_argument("--bin", action="append", required=True)
    words.add_argument("--seeds", type=int, default=60)
    words.add_argument("--steps", type=int, default=800)
    words = words.parse_args()
    bad = 0
    for path in words.bin:
        path = os.path.abspath(path)
        tests = list(rows())
        if os.path.basename(path) != "std_shell":
            tests += list(sharing_rows())
        passed = 0
        for name, script, want in tests:
            with tempfile.TemporaryDirectory() as folder:
                with open(os.path.join(folder, "notes.txt"), "w") as notes:
                    notes.write("one\ntwo\nthree\n")
                script = script if isinstance(script, bytes) else text(script)
                code, got, err = run(path, script, folder)
                if code != 0 or got != text(want):
                    bad += 1
                    print("%s: status %d, %s" % (name, code, first_difference(script, got, text(want))))
                    print(first_fault(err))
                else:
                    passed += 1
        print("%s: %d of %d rows" % (os.path.basename(path), passed, len(tests)))
        equal = 0
        for seed in range(words.seeds):
            script = text(random_script(seed, words.steps))
            with tempfile.TemporaryDirectory() as one, tempfile.TemporaryDirectory() as two:
                code, got, err = run(path, script, one)
                code2, want, _ = run(STD, script, two)
                files = [f for f in sorted(os.listdir(two)) if f != "f"]
                kept = all(
                    os.path.exists(os.path.join(one, f))
                    and open(os.path.join(one, f), "rb").read() == open(os.path.join(two, f), "rb").read()
                    for f in files)
                if (code, got) != (code2, want) or not kept:
                    bad += 1
                    print("seed %d: status %d, %s" % (seed, code, first_difference(script, got, want)))
                    print(first_fault(err))
                else:
                    equal += 1
        print("%s: %d of %d random scripts as std_shell" % (os.path.basename(path), equal, words.seeds))
    sys.exit(1 if bad else 0)


if __name__ == "__main__":
    main()
