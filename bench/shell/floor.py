#!/usr/bin/env python3
"""Tells what the lines of a workload take when they are only read, and each is answered with `ok` before the next one is taken.

    floor.py [--only b,h,m] [--repeat 3] [--size 1]

A program that executes them too, and answers each line at once, takes at least so much. Processor seconds, best of the runs.
"""

import argparse
import os
import shutil
import sys
import tempfile

sys.dont_write_bytecode = True
import workloads
from bench import BUILT, make, run


def main():
    words = argparse.ArgumentParser(description=__doc__, formatter_class=argparse.RawDescriptionHelpFormatter)
    words.add_argument("--only", default="b,h,l,m", help="keys of workloads, as a,b")
    words.add_argument("--repeat", type=int, default=3)
    words.add_argument("--size", type=float, default=1.0)
    words = words.parse_args()
    path = os.path.join(BUILT, "ok_shell")
    if not os.access(path, os.X_OK):
        sys.exit("no program ok_shell; run setup.sh first")
    scratch = tempfile.mkdtemp(prefix="ewig-floor-")
    try:
        for key in words.only.split(","):
            made = make(key, words.size, scratch)
            runs = [run(path, made, scratch, False, 60, 0) for _ in range(words.repeat)]
            if any(one.fault for one in runs):
                sys.exit("%s: %s" % (key, next(one.fault for one in runs if one.fault)))
            print("%s %s: %.2f s" % (key, workloads.WORKLOADS[key].title, min(one.cpu for one in runs)))
            shutil.rmtree(made)
    finally:
        shutil.rmtree(scratch, ignore_errors=True)


if __name__ == "__main__":
    main()
