#!/usr/bin/env python3
"""Runs the tests of each crate while one allocation is refused, and looks for an answer that changes in place of the error.

usage: refuse_memory.py [CRATE..]      by default every crate with tests

For each crate one allocation of every test is refused: the first, the second, and so on to the eighth, and from there
on each time one that comes a half later, until no test gets so far. A test that ends with OutOfMemory or AllocError, or
that compares an OutOfMemory with what it wanted, is as it must be. So is a write fault of the memory sink, whose growth was
refused, and a call that was to be Ok. Every other failure is printed, to be read, and the exit status is 1: some tests of
grasp_io name what they got in words of their own. It needs the Rattle kit's `rt` and proves
nothing.
"""
import pathlib
import re
import subprocess
import sys

WANTS_OF_MEMORY = ["OutOfMemory", "AllocError", "AllocFailed", "out of memory", "error: Failed", "left: Err(Failed)", ".is_ok()"]
CRATES = pathlib.Path(__file__).resolve().parent.parent / "crates"


def crates_with_tests():
    for crate in sorted(CRATES.iterdir()):
        if any("#[test]" in source.read_text() for source in crate.glob("src/**/*.rt")):
            yield crate.name


def run(crate, number):
    done = subprocess.run(
        ["rt", "try", "--test", "--fail-alloc", str(number)], cwd=CRATES / crate, text=True,
        stdout=subprocess.PIPE, stderr=subprocess.STDOUT)
    parts = re.split(r"^test ", done.stdout, flags=re.M)[1:]
    tests = [part for part in parts if not part.startswith("result:")]
    if not tests:
        sys.exit(f"{crate}: no test was run\n{done.stdout}")
    failed = [test for test in tests if " ... FAILED" in test.split("\n")[0]]
    return len(tests), failed


def main():
    if sys.argv[1:2] in (["-h"], ["--help"]):
        print(__doc__.strip())
        sys.exit()
    bad = 0
    for crate in sys.argv[1:] or crates_with_tests():
        number, runs = 1, 0
        while True:
            tests, failed = run(crate, number)
            runs += 1
            for test in failed:
                if not any(word in test for word in WANTS_OF_MEMORY):
                    bad += 1
                    print(f"{crate}, allocation {number}: {test}", flush=True)
            if not failed:
                break
            number += 1 if number < 8 else number // 2
        print(f"{crate}: {tests} tests, {runs} runs, none fails from allocation {number} on", flush=True)
    return 1 if bad else 0


if __name__ == "__main__":
    sys.exit(main())
