#!/usr/bin/env python3
"""Runs grasp_replay while one allocation is refused, each in turn, and looks for an answer that changes in place of the error.

usage: refuse_program_memory.py [PROGRAM]      by default crates/grasp_replay/out/grasp_replay

Each word of the program is run on a small input, first with ample memory and then once for each allocation of that run, which
is refused; where a run has more than 500, the later ones are tried by steps of a tenth. A run is as it must be where it ends
as the whole run does, with the same output; or with status 6, having written a prefix of that output. The line on standard
error is that of the status, or there is none, since the line wants memory too. Every other end is printed, as that by a signal,
and the exit status is 1. It needs a C compiler for the piece that refuses, and a program that is linked with the C library as a
shared one.
"""
import os
import pathlib
import subprocess
import sys
import tempfile

TOP = pathlib.Path(__file__).resolve().parent.parent
REFUSES = r"""
#define _GNU_SOURCE
#include <dlfcn.h>
#include <errno.h>
#include <stdio.h>
#include <stdlib.h>
#include <unistd.h>
static unsigned long count;
static int refused(void) {
    const char *number = getenv("REFUSED_CALL");
    return ++count == (number ? strtoul(number, 0, 10) : 0);
}
void *malloc(size_t size) {
    static void *(*next)(size_t);
    if (!next) next = (void *(*)(size_t))dlsym(RTLD_NEXT, "malloc");
    if (refused()) { errno = ENOMEM; return 0; }
    return next(size);
}
void *realloc(void *old, size_t size) {
    static void *(*next)(void *, size_t);
    if (!next) next = (void *(*)(void *, size_t))dlsym(RTLD_NEXT, "realloc");
    if (refused()) { errno = ENOMEM; return 0; }
    return next(old, size);
}
__attribute__((destructor)) static void tell(void) {
    const char *file = getenv("COUNT_FILE");
    FILE *out = file ? fopen(file, "w") : 0;
    if (out) { fprintf(out, "%lu", count); fclose(out); }
}
"""
RUNS = [
    (["show"], bytes.fromhex("8100830701191388") + bytes.fromhex("830301846d5072656669784d616e616765720306811838")),
    (["show"], bytes.fromhex("81008307011913")),
    (["show"], b"\x81\x00" * 5000),
    (["pack"], b"noop\nwait 1 5000\nrequest-neg 1 obj 'PrefixManager 3 6 x811838\n"),
    (["pack"], b"noop\nwait 01 5000"),
    (["replay"], (TOP / "examples" / "lost_acceptance.script").read_bytes()),
    (["replay"], (TOP / "examples" / "flood.script").read_bytes()),
    (["replay"], b"nodes 1\nnodes 1\n"),
    (["gen", "7"], b""),
    (["--help"], b""),
    (["--version"], b""),
    (["shows"], b""),
]


def run(program, words, given, shim, folder, number):
    counted = folder / "count"
    env = {**os.environ, "LD_PRELOAD": str(shim), "REFUSED_CALL": str(number), "COUNT_FILE": str(counted)}
    done = subprocess.run([program, *words], input=given, env=env, stdout=subprocess.PIPE, stderr=subprocess.PIPE, timeout=120)
    return done.returncode, done.stdout, done.stderr, int(counted.read_text()) if counted.exists() else 0


def is_well(whole, ended):
    if ended[:2] == whole[:2]:
        return ended[2] in (whole[2], b"")
    return ended[0] == 6 and whole[1].startswith(ended[1]) and ended[2] in (b"out of memory\n", b"")


def main():
    if sys.argv[1:2] in (["-h"], ["--help"]):
        print(__doc__.strip())
        sys.exit()
    program = sys.argv[1] if sys.argv[1:] else str(TOP / "crates" / "grasp_replay" / "out" / "grasp_replay")
    bad = 0
    with tempfile.TemporaryDirectory() as name:
        folder = pathlib.Path(name)
        source, shim = folder / "refuses.c", folder / "refuses.so"
        source.write_text(REFUSES)
        subprocess.run(["cc", "-shared", "-fPIC", "-O1", "-o", str(shim), str(source), "-ldl"], check=True)
        for words, given in RUNS:
            whole = run(program, words, given, shim, folder, 0)
            number, runs, wanting = 1, 0, 0
            while number <= whole[3]:
                ended = run(program, words, given, shim, folder, number)
                runs += 1
                wanting += ended[0] == 6
                if not is_well(whole, ended):
                    bad += 1
                    print(f"{' '.join(words)}, allocation {number}: status {ended[0]}, {ended[1][-60:]}, {ended[2][-60:]}")
                number += 1 if number < 500 else number // 10
            print(f"{' '.join(words)}: {len(given)} bytes, status {whole[0]}, {whole[3]} allocations, {runs} runs, "
                  f"{wanting} of them out of memory", flush=True)
    return 1 if bad else 0


if __name__ == "__main__":
    sys.exit(main())
