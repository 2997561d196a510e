#!/usr/bin/env python3
"""Proves crates by the gate's own steps, and keeps what it proved for every clone on the machine.

  tools/prove.py libs [NAME..]       proves these libraries (all, where none is named) and those below them
  tools/prove.py check NAME [FLAG..] `rt check FLAG..` in that crate, over the kept libraries
  tools/prove.py tests [NAME..]      proves and runs tests
  tools/prove.py edits [NAME..]      tries the edits that must fail: those of the gate, crates/NAME/must-fail, and those of edits/NAME
  tools/prove.py programs [NAME..]   proves programs, builds them by both compilers, and runs them
  tools/prove.py status              what of this clone is kept

It is for kits whose `rt ci` takes no names and keeps nothing, as rattle-kit-13b. It isn't the gate: only `rt ci` is.

What was proved is kept under $PROVED, or ~/.cache/refthongi, by the checksum of all that it was made from: the
crate's text, that of the crates below, and the kit. It is never removed; remove the folder by hand.

Several runs at once share the processors: each proof waits for its place among $PLACES, or as many as there are
processors, in the order in which they came. --first takes a place before those that wait.
"""
import argparse
import copy
import fcntl
import hashlib
import importlib.machinery
import importlib.util
import os
import shutil
import subprocess
import sys
import tempfile
import threading
import time
from concurrent.futures import FIRST_COMPLETED, ThreadPoolExecutor, wait
from pathlib import Path

sys.dont_write_bytecode = True

STORE = Path(os.environ.get("PROVED") or Path.home() / ".cache" / "refthongi")
PRINTING = threading.Lock()


def load(path, name):
    loader = importlib.machinery.SourceFileLoader(name, path)
    module = importlib.util.module_from_spec(importlib.util.spec_from_loader(name, loader))
    sys.modules[name] = module
    loader.exec_module(module)
    return module


RT = load(os.path.realpath(shutil.which("rt") or "rt"), "rt")
LIBRARY = RT.rtlib


def say(*words):
    with PRINTING:
        print(time.strftime("%H:%M:%S"), *words, flush=True)


class Place:
    """A place among those that may use a processor: some before others, and then in order of arrival."""

    def __init__(self, first, weight):
        self.rank = 0 if first else 1
        self.weight = weight
        self.queue = STORE / "queue"
        self.queue.mkdir(parents=True, exist_ok=True)

    def locked(self):
        held = open(self.queue / "lock", "w")
        fcntl.flock(held, fcntl.LOCK_EX)
        return held

    def __enter__(self):
        with self.locked():
            count = self.queue / "count"
            number = int(count.read_text()) + 1 if count.exists() else 1
            count.write_text(str(number))
            self.file = self.queue / f"waits-{self.rank}-{number:09d}-{os.getpid()}-{self.weight}"
            self.file.touch()
        while not self.taken():
            time.sleep(0.5)
        return self

    def taken(self):
        with self.locked():
            alive = []
            for file in sorted(self.queue.glob("*-*-*-*-*")):
                if os.path.exists(f"/proc/{file.name.split('-')[3]}"):
                    alive.append(file)
                else:
                    file.unlink()
            used = sum(int(file.name.split("-")[4]) for file in alive if file.name.startswith("runs"))
            waiting = [file for file in alive if file.name.startswith("waits")]
            places = int(os.environ.get("PLACES") or RT.processors())
            if waiting[0] != self.file or used and used + self.weight > places or RT.free() < 3_000_000_000:
                return False
            runs = self.queue / self.file.name.replace("waits", "runs", 1)
            self.file.rename(runs)
            self.file = runs
            return True

    def __exit__(self, *_):
        self.file.unlink(missing_ok=True)


STAMPS = {}


def stamp(crate):
    """What rtlib's own stamp is, computed once for each crate: it tells all that the crate is made from."""
    if crate.folder not in STAMPS:
        text = hashlib.sha256(repr((crate.said, crate.has_c)).encode())
        text.update(Path(f"{LIBRARY.KIT}/WHAT").read_bytes())
        for file in LIBRARY.files_of(crate.folder):
            text.update(repr((file.replace(crate.folder, ""), Path(file).read_bytes())).encode())
        text.update(repr([stamp(below) for below in crate.deps]).encode())
        STAMPS[crate.folder] = text.hexdigest()
    return STAMPS[crate.folder]


LIBRARY.Crate.stamp = stamp


def kept(crate, kind="library"):
    return STORE / kind / f"{crate.name}-{stamp(crate)[:20]}"


def is_kept(crate):
    return (kept(crate) / "rlib" / "stamp").exists()


class Gate:
    """What `rt ci` of a kit that keeps its proofs has kept on this machine."""

    def __init__(self, crates):
        self.kept = RT.Kept(crates) if hasattr(RT, "Kept") else None

    def take(self, crate):
        """Takes a library that the gate kept, over the same libraries, into this tool's store."""
        if not self.kept or any(below.name not in self.kept.rlibs for below in crate.below()):
            return
        if self.kept.give(crate, False, self.kept.key(crate)):
            (Path(crate.folder) / "out" / "rlib" / "stamp").write_text(stamp(crate))
            if not is_kept(crate):
                room = kept(crate).with_name(f"{kept(crate).name}.{os.getpid()}")
                shutil.rmtree(room, ignore_errors=True)
                room.mkdir(parents=True)
                shutil.copytree(Path(crate.folder) / "out" / "rlib", room / "rlib", copy_function=os.link)
                shutil.rmtree(kept(crate), ignore_errors=True)
                room.rename(kept(crate))

    def note(self, crate):
        """Notes the sum of a library that was lent, which what the gate keeps above it is named by."""
        if self.kept:
            file = kept(crate) / "sum"
            if file.exists():
                self.kept.rlibs[crate.name] = file.read_text()
            else:
                self.kept.is_built(crate)
                file.write_text(self.kept.rlibs[crate.name])


LENDING = threading.Lock()


def lend(crate):
    """Puts kept libraries where rt looks for them, one caller at a time. Answers the crates below that aren't kept."""
    with LENDING:
        return lend_all(crate)


def lend_all(crate):
    lacking, gate = [], Gate(crate.below())
    for each in crate.below():
        room = Path(each.folder) / "out" / "rlib"
        if not is_kept(each):
            gate.take(each)
        if not is_kept(each):
            lacking.append(each.name)
            continue
        if LIBRARY.text_of(str(room / "stamp")) != stamp(each):
            shutil.rmtree(room, ignore_errors=True)
            room.parent.mkdir(parents=True, exist_ok=True)
            shutil.copytree(kept(each) / "rlib", room, copy_function=os.link)
        gate.note(each)
    return lacking


def refusal(crate):
    """What rt ci refuses before a proof, or None."""
    code = LIBRARY.code_of(crate.folder)
    reached = [handle for handle, words in RT.REACHES.items() if handle not in crate.allowed and RT.re.search(words, code)]
    if reached:
        return f"it names what only {reached[0]} reaches"
    if RT.re.search(RT.RENAMES, code) or RT.re.search(RT.IGNORED, code):
        return "it renames std, or ignores a test"
    if LIBRARY.fmt(crate.folder, "--check", crate.out):
        return "run rt fmt in its folder"
    try:
        LIBRARY.stop_on_links(crate.folder)
        LIBRARY.stop_on_text(crate, "verdict")
        RT.stop_on_words(crate)
    except SystemExit:
        return "its text is refused"
    return None


def failed(crate, what, log):
    """Keeps what a failed proof wrote, and says where."""
    file = STORE / "failed" / f"{crate.name}{what}"
    file.parent.mkdir(parents=True, exist_ok=True)
    file.write_text(log)
    say(f"{crate.name}{what}: NOT PROVED: {file}")
    return False


def prove_library(crate, first, jobs):
    """Proves a library in a room of its own, as the gate does, over kept libraries."""
    if is_kept(crate):
        return True
    with Place(first, jobs):
        if is_kept(crate):
            return True
        goal, started = kept(crate), time.time()
        (STORE / "rooms").mkdir(parents=True, exist_ok=True)
        with tempfile.TemporaryDirectory(prefix=f"{crate.name}-", dir=STORE / "rooms") as room:
            for part in LIBRARY.PARTS:
                if os.path.isdir(f"{crate.folder}/{part}"):
                    shutil.copytree(f"{crate.folder}/{part}", f"{room}/{part}")
            os.makedirs(f"{room}/out/rlib")
            own = copy.copy(crate)
            own.folder, own.rlib = room, f"{room}/out/rlib/{crate.name}.rlib"
            own.deps, below = ([copy.copy(each) for each in some] for some in (crate.deps, crate.below()))
            for each in [*own.deps, *below]:
                each.rlib = str(kept(each) / "rlib" / f"{each.name}.rlib")
            own.below = lambda: below
            with tempfile.TemporaryFile("w+", errors="replace") as own.out:
                why = refusal(own)
                words = own.words(["--jobs", str(jobs)], keeps=False) + ["--statements", "-o", own.rlib]
                status = 1 if why else own.prove(["build", *words])
                own.out.seek(0)
                log = own.out.read() + (why or "")
            if status:
                return failed(crate, "", log) or is_kept(crate)
            Path(f"{room}/out/rlib/stamp").write_text(stamp(crate))
            goal.mkdir(parents=True, exist_ok=True)
            if not (goal / "rlib").exists():
                shutil.move(f"{room}/out/rlib", goal / "rlib")
        say(f"{crate.name}: proved in {time.time() - started:.0f} s")
        return True


def prove_more(crate, first, tests):
    """Proves a program, or a crate's tests, as the gate does, and runs it."""
    what, kind = (": tests", "tests") if tests else ("", "program")
    if tests and not crate.has_tests():
        return True
    if lend(crate):
        return say(f"{crate.name}{what}: not kept below it: {' '.join(lend(crate))}")
    goal = kept(crate, kind)
    ends = [""] if tests else [*RT.BACKENDS.values()]
    names = [f"{crate.name}{'_tests' if tests else end}" for end in ends]
    os.makedirs(f"{crate.folder}/out", exist_ok=True)
    if not goal.exists():
        with Place(first, 1), tempfile.TemporaryFile("w+", errors="replace") as out:
            own = copy.copy(crate)
            own.out, started = out, time.time()
            why = refusal(own)
            status = 1 if why else own.ci(["--jobs", "1"], tests)
            out.seek(0)
            if status:
                return failed(crate, what, out.read() + (why or ""))
        goal.mkdir(parents=True)
        for name in names:
            if os.path.isfile(f"{crate.folder}/out/{name}"):
                shutil.copy(f"{crate.folder}/out/{name}", goal)
        say(f"{crate.name}{what}: proved in {time.time() - started:.0f} s")
    for file in goal.iterdir():
        shutil.copy(file, f"{crate.folder}/out")
    return all([RT.run(crate, tests, end) for end, name in zip(ends, names) if (goal / name).exists()])


def tries_of(crate, edits):
    """Tries edits, each over what a check of the crate as it stands proved. Answers of each whether it was refused, and what is to be said."""
    flags = ["--jobs", "1"]
    if hasattr(RT, "must_fail_all"):
        return RT.must_fail_all(crate, edits, flags)
    tried = []
    with RT.ending():
        room = RT.seeded(crate, flags)
        for number, edit in enumerate(edits):
            own = f"{room}/{number}" if room else None
            if room:
                RT.linked(f"{room}/seed", own)
            kind, text = RT.must_fail(crate, edit, flags, own)
            tried.append((kind in (RT.REFUSED, RT.AT_LIMIT), text))
    return tried


def try_edits(crate, first):
    """Tries a crate's edits as the gate does, those that the gate doesn't try too."""
    good, bad = RT.edits_of(crate)
    good = good + [str(edit) for edit in sorted(Path("edits", crate.name).glob("*.edit"))]
    text = hashlib.sha256(repr([Path(edit).read_text() for edit in good]).encode()).hexdigest()[:12]
    goal = kept(crate, "edits") / text
    if bad:
        say(f"{crate.name}: no edits: {' '.join(bad)}")
    if goal.exists() or not good:
        return not bad
    if lend(crate):
        return say(f"{crate.name}: edits: not kept below it: {' '.join(lend(crate))}")
    with Place(first, 1):
        tried = tries_of(crate, good)
    for _, line in tried:
        say(line)
    is_well = all(well for well, _ in tried)
    say(f"{crate.name}: {sum(well for well, _ in tried)} of {len(tried)} edits refused")
    if is_well:
        goal.mkdir(parents=True)
    return is_well and not bad


def side_by_side(crates, work):
    """Does the work for each crate once the crates below it are done, the ones with most behind them first."""
    names = {each.name for each in crates}
    behind = {}
    for each in sorted(crates, key=lambda it: -len(it.below())):
        above = [behind[other.name] for other in crates if each in other.below()]
        behind[each.name] = each.count(b"\n") + max(above, default=0)
    left, running, done = sorted(crates, key=lambda it: -behind[it.name]), {}, {}
    with ThreadPoolExecutor(16) as pool:
        while left or running:
            for each in list(left):
                below = [it.name for it in each.below() if it.name in names]
                if any(done.get(name) is False for name in below):
                    left.remove(each)
                    done[each.name] = False
                elif all(name in done for name in below):
                    left.remove(each)
                    running[pool.submit(work, each)] = each
            for it in wait(running, return_when=FIRST_COMPLETED).done if running else []:
                done[running.pop(it).name] = bool(it.result())
    bad = sorted(name for name, well in done.items() if not well)
    print(f"{len(done) - len(bad)} passed, {len(bad)} failed{': ' if bad else ''}{' '.join(bad)}")
    return 1 if bad else 0


def main():
    parser = argparse.ArgumentParser(description=__doc__, formatter_class=argparse.RawDescriptionHelpFormatter)
    parser.add_argument("word", choices=["libs", "check", "tests", "edits", "programs", "status"])
    parser.add_argument("names", nargs="*", metavar="NAME")
    parser.add_argument("--first", action="store_true", help="take a place before those that wait")
    parser.add_argument("--jobs", type=int, default=1, help="processors for each proof of a library (1)")
    given, flags = parser.parse_known_args()
    top = Path(__file__).resolve().parent.parent
    os.chdir(top)
    LIBRARY.guarded()
    for name in (LIBRARY.ALLOW_C, LIBRARY.BACKEND, "RT_SECONDS"):
        os.environ.pop(name, None)
    RT.Crate.cuts_libraries = True
    RT.Crate.allowed = RT.handles_of(str(top))
    LIBRARY.Crate = RT.Crate
    crates = sorted(LIBRARY.crates_below(str(top)), key=lambda it: len(it.below()))
    by_name = {each.name: each for each in crates}
    names = given.names[:1] if given.word == "check" else given.names
    unknown = [name for name in names if name not in by_name]
    if unknown or flags and given.word != "check" or given.word == "check" and not names:
        parser.error(f"no crate {unknown[0]}" if unknown else "check takes a crate's name, and only check takes flags of rt")
    some = [by_name[name] for name in names] or crates
    if given.word == "status":
        for each in crates:
            print(f"{each.name:28} {'kept' if is_kept(each) else '-'}")
        return 0
    if given.word == "check":
        if lend(some[0]):
            parser.error(f"not kept below it: {' '.join(lend(some[0]))}; the word libs proves them")
        with Place(given.first, 1):
            words = ["rt", "check", "--jobs", "1", *given.names[1:], *flags]
            return subprocess.run(words, cwd=some[0].folder, stdin=subprocess.DEVNULL).returncode
    if given.word == "libs":
        needed = [each for each in crates if not each.is_program and any(each is it or each in it.below() for it in some)]
        return side_by_side(needed, lambda it: prove_library(it, given.first, given.jobs))
    if given.word == "edits":
        return side_by_side(some, lambda it: try_edits(it, given.first))
    tests = given.word == "tests"
    some = [each for each in some if tests or each.is_program]
    return side_by_side(some, lambda it: prove_more(it, given.first, tests))


if __name__ == "__main__":
    sys.exit(main())
