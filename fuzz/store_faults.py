#!/usr/bin/env python3
"""Gives nodes that serve stores that are lost, spoilt, busy, read only or on a full disk.

usage: store_faults.py PROGRAM [SEED]

PROGRAM is grasp_node. Each call has to end with the status and the line that grasp_node(1) says. Then each block of a store is
spoilt in several ways, one after the other: where the program opens it nevertheless, it has to show what was saved last. Two
stores are tried so: a new one, and one that was saved three times. For a full disk stands a limit of the file's size, behind which a write fails; the
node has to end, and must not have given what it couldn't save as given.

It ends with 1 at the first call that doesn't do so. It prints how many spoilt stores were refused, and how many had what was saved
last. Where it runs as root, the calls over a file that is read only run as the user 65534.
"""
import collections
import os
import pathlib
import random
import resource
import signal
import subprocess
import sys
import tempfile
import time

sys.path.insert(0, str(pathlib.Path(__file__).resolve().parent.parent / "contrib" / "python"))
import grasp  # noqa: E402

PORT, PATIENCE, BLOCK, BLOCKS = 7077, 20, 4096, 38
CONFIGURATION = """address = "fd00000000000000000000000000000{own}"
listen = "7f00000{own}:{port}"
{roots}
[serve]
control = "{own}.sock"
store = "{store}"
{more}
"""
ROOTS = 'roots = ["20010db8000000000000000000000000/48"]'


class Wrong(Exception):
    pass


def until(condition, what):
    end = time.monotonic() + PATIENCE
    while True:
        found = condition()
        if found is not None:
            return found
        if time.monotonic() > end:
            raise Wrong(what)
        time.sleep(0.01)


def configure(own, store=None, roots=ROOTS, more=""):
    pathlib.Path(f"{own}.toml").write_text(CONFIGURATION.format(own=own, port=PORT, roots=roots, store=store or f"{own}.pool", more=more))


def limited(size):
    """Writes behind this place of a file fail."""

    def limit():
        signal.signal(signal.SIGXFSZ, signal.SIG_IGN)
        resource.setrlimit(resource.RLIMIT_FSIZE, (size, size))

    return limit


def as_nobody():
    if os.getuid() == 0:
        os.setuid(65534)


def call(*words, before=None):
    """Runs the program to its end: its status, output and lines of faults."""
    done = subprocess.run([PROGRAM, *words], capture_output=True, text=True, timeout=PATIENCE, preexec_fn=before)
    return done.returncode, done.stdout, done.stderr


def expect(words, status, said="", before=None):
    got = call(*words.split(), before=before)
    if got[0] != status or said not in got[1] + got[2]:
        raise Wrong(f"{words}: status {got[0]} {got[1]!r} {got[2]!r}, and not {status} {said!r}")
    return got


def start(own, before=None):
    node = subprocess.Popen([PROGRAM, "serve", f"{own}.toml"], stderr=subprocess.PIPE, text=True, preexec_fn=before)
    until(lambda: ask(own, "version"), f"node {own} doesn't start")
    return node


def end(node):
    node.kill()
    node.communicate()


def ask(own, line):
    try:
        with grasp.Agent(f"{own}.sock") as agent:
            return agent.ask(line)
    except OSError:
        return None


# ---- Stores that can't be used.


def try_lost():
    configure(1)
    for words in ("serve 1.toml", "store 1.toml", "check 1.toml"):
        expect(words, 9, "store 1.pool: no store")
    expect("init 1.toml", 0)
    expect("init 1.toml", 9, "store 1.pool: there is a file already")
    expect("check 1.toml", 0, "1.toml: good")
    expect("store 1.toml", 0, "held 20010db8000000000000000000000000/48 doubt\n")
    whole = pathlib.Path("1.pool").read_bytes()
    for content, why in ((whole[:-1], "no store"), (whole + b"\0", "no store"), (b"", "no store"), (bytes(len(whole)), "bad store in slot 0")):
        pathlib.Path("1.pool").write_bytes(content)
        for words in ("serve 1.toml", "store 1.toml", "check 1.toml"):
            expect(words, 9, f"store 1.pool: {why}")
    os.mkdir("folder")
    os.mkfifo("pipe")
    for path in ("folder", "pipe", "/dev/null", "nowhere/1.pool"):
        configure(1, store=path)
        expect("serve 1.toml", 9, f"store {path}: no store")
    expect("init 1.toml", 9, "store nowhere/1.pool: the file failed")
    configure(1, store="folder")
    expect("init 1.toml", 9, "store folder: there is a file already")


def try_configurations():
    configure(2, more="forget = true")
    for words in ("serve 2.toml", "init 2.toml", "check 2.toml"):
        expect(words, 3, "2.toml:")
    configure(2)
    text = pathlib.Path("2.toml").read_text()
    pathlib.Path("2.toml").write_text(text.replace('store = "2.pool"', "forget = true"))
    for words in ("init 2.toml", "store 2.toml"):
        expect(words, 3, "serve.store: absent")
    pathlib.Path("2.toml").write_text("turns = 1\n" + text)
    expect("run 2.toml", 3, "bad config: unknown")
    if pathlib.Path("2.pool").exists():
        raise Wrong("a configuration that is bad made a store")


def try_busy():
    configure(3)
    expect("init 3.toml", 0)
    configure(4, store="3.pool")
    node = start(3)
    try:
        for words in ("serve 4.toml", "store 3.toml"):
            expect(words, 9, "store 3.pool: the store is busy")
        expect("init 3.toml", 9, "store 3.pool: there is a file already")
        expect("check 3.toml", 0, "3.toml: good")
    finally:
        end(node)
    expect("store 3.toml", 0, "held 20010db8000000000000000000000000/48 doubt\n")
    os.chmod(".", 0o755)
    os.chmod("3.pool", 0o444)
    for words in ("serve 3.toml", "store 3.toml", "check 3.toml"):
        expect(words, 9, "store 3.pool: no store", before=as_nobody)
    configure(4, store="4.pool")
    expect("init 4.toml", 9, "store 4.pool: the file failed", before=as_nobody)


# ---- Blocks that are spoilt.


def saved_thrice():
    """A node gives two prefixes to another, so its store is saved again and again."""
    configure(5)
    configure(6, roots="")
    nodes = []
    try:
        for own in (5, 6):
            expect(f"init {own}.toml", 0)
            nodes.append(start(own))
        for count in (1, 2):
            ask(6, f"want 56 56 v4 7f000005 tcp {PORT}")
            until(lambda: True if ask(6, "wants").count("held") == count else None, "a want isn't held")
    finally:
        for node in nodes:
            end(node)
    return pathlib.Path("5.pool")


def try_spoilt(store, own, draw, counts):
    whole = store.read_bytes()
    _, last, _ = expect(f"store {own}.toml", 0)
    for block in range(BLOCKS):
        part = whole[block * BLOCK :][:BLOCK]
        at = draw.randrange(BLOCK) if draw.random() < 0.5 else draw.randrange(64)
        flipped = part[:at] + bytes([part[at] ^ 1 << draw.randrange(8)]) + part[at + 1 :]
        spoils = {"zeros": bytes(BLOCK), "ones": b"\xff" * BLOCK, "random bytes": draw.randbytes(BLOCK), f"bit flipped at {at}": flipped}
        for how, bytes_of_it in spoils.items():
            if bytes_of_it == part:
                continue
            store.write_bytes(whole[: block * BLOCK] + bytes_of_it + whole[(block + 1) * BLOCK :])
            status, said, why = call("store", f"{own}.toml")
            if status == 9 and "bad store in slot" in why:
                counts["refused, with the slot named"] += 1
            elif status == 9 and "an empty store" in why:
                counts["refused as empty"] += 1
            elif status == 0 and said == last:
                counts["had what was saved last"] += 1
            else:
                counts["NOT REFUSED"] += 1
                print(f"block {block} of {store}, {how.split(' at')[0]}: status {status}, {why.strip() or said.strip()!r}; last {last.strip()!r}")
    store.write_bytes(whole)


# ---- A full disk.


def try_full():
    configure(7)
    expect("init 7.toml", 9, "store 7.pool: the file failed", before=limited(10 * BLOCK))
    expect("serve 7.toml", 9, "store 7.pool: no store")
    os.remove("7.pool")
    expect("init 7.toml", 0)
    configure(8, roots="")
    expect("init 8.toml", 0)
    giver, taker = start(7, before=limited(BLOCK)), None
    try:
        taker = start(8)
        ask(8, f"want 56 64 v4 7f000007 tcp {PORT}")
        _, why = giver.communicate(timeout=PATIENCE)
        if giver.returncode != 9 or "store 7.pool: store fault: " not in why:
            raise Wrong(f"on a full disk: status {giver.returncode} {why!r}")
        time.sleep(0.5)
        words = ask(8, "state")
        if words[:2] != ["held", "reserved"]:
            raise Wrong(f"a prefix was given that wasn't saved as given: {words}")
    finally:
        for node in (giver, taker):
            if node:
                end(node)
    expect("store 7.toml", 0, "held 20010db8000000000000000000000000/48 doubt\n")


def main():
    draw, counts = random.Random(SEED), collections.Counter()
    try:
        try_lost()
        try_configurations()
        try_busy()
        try_full()
        try_spoilt(pathlib.Path("3.pool"), 3, draw, counts)
        try_spoilt(saved_thrice(), 5, draw, counts)
    except Wrong as wrong:
        print(f"wrong: {wrong}; seed {SEED}")
        return 1
    print("stores with a spoilt block:", ", ".join(f"{count} {how}" for how, count in sorted(counts.items())))
    return 0 if not counts["NOT REFUSED"] else 1


WORDS = sys.argv[1:]
if WORDS in (["-h"], ["--help"]):
    sys.exit(print(__doc__.strip()))
if not 1 <= len(WORDS) <= 2 or WORDS[0].startswith("-"):
    sys.exit(__doc__.strip())
PROGRAM = str(pathlib.Path(WORDS[0]).resolve())
SEED = int(WORDS[1]) if len(WORDS) > 1 else int(time.time())
with tempfile.TemporaryDirectory() as work:
    os.chdir(work)
    status = main()
sys.exit(status)
