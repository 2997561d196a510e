#!/usr/bin/env python3
"""Tries grasp.py, and what it shows of a node, against two real nodes on 127.0.0.1 and 127.0.0.2.

usage: test.py PROGRAM

PROGRAM is grasp_node. Each check that fails is printed, and last how many there were; the status is 1 where some failed.
"""
import os
import pathlib
import signal
import socket
import subprocess
import sys
import tempfile
import threading
import time

import grasp

PORT = 7047
GIVER, TAKER = grasp.Locator("127.0.0.1", PORT), grasp.Locator("127.0.0.2", PORT)
HERE = pathlib.Path(__file__).resolve().parent
CONFIGURATION = """address = "fd00000000000000000000000000000{own}"
listen = "7f00000{own}:{port}"
{roots}
[[link]]
neighbour = [{{ address = "fd00000000000000000000000000000{other}", at = "7f00000{other}:{port}" }}]
{want}
[serve]
control = "{own}.sock"
guests = "{own}.guests"
forget = true
retry = 100
tick = 100
streams = 64
visitors = 20
log = "quiet"
"""
MANY = 16
checks = failed = 0


def check(what, holds):
    global checks, failed
    checks += 1
    if not holds:
        failed += 1
        print("failed:", what, flush=True)


def refused(call, *words):
    try:
        call(*words)
    except grasp.GraspError as error:
        return str(error)


def until(condition, seconds=30):
    end = time.monotonic() + seconds
    while not condition() and time.monotonic() < end:
        time.sleep(0.02)
    return condition()


class Node:
    def __init__(self, own):
        self.file, self.control, self.guests = f"{own}.toml", f"{own}.sock", f"{own}.guests"
        roots = 'roots = ["20010db8000000000000000000000000/48"]' if own == 1 else ""
        want = f'[[want]]\nlength = 56\nlongest = 64\npeer = "7f000001:{PORT}"' if own == 2 else ""
        text = CONFIGURATION.format(own=own, other=3 - own, port=PORT, roots=roots, want=want)
        pathlib.Path(self.file).write_text(text)
        self.start()

    def start(self):
        self.process = subprocess.Popen([PROGRAM, "serve", self.file])
        check("a node starts", until(self.answers))

    def answers(self):
        try:
            grasp.Agent(self.control).close()
            return True
        except OSError:
            return False

    def end(self, number):
        self.process.send_signal(number)
        self.process.wait(10)

    def memory(self):
        text = pathlib.Path(f"/proc/{self.process.pid}/status").read_text()
        return int(text.split("VmRSS:")[1].split()[0])


def try_prefixes(taker_node, giver_node):
    with grasp.Agent(taker_node.control) as taker, grasp.Agent(giver_node.control) as giver:
        check("the want is held", until(lambda: "held" in taker.ask("wants")))
        held = taker.state()["held"]
        check("its length", [it.prefixlen for it in held] == [56])
        check("the giver gave it", all(not it.overlaps(held[0]) for it in giver.state()["held"]))
        check("the giver has no doubt", until(lambda: not giver.state()["doubt"]))
        check("one more want", taker.want(60, 64, GIVER) == 2)
        check("it is held too", until(lambda: len(taker.state()["held"]) == 2))
        check("no such want", taker.ask("unwant 7") == ["nothing"])
        check("counters", taker.counters()["dialled"] >= 2)


def try_calls(asker_node, answerer_node):
    number = grasp.Objective("number", neg=True, value=100)
    level = grasp.Objective("level", synch=True, value=[1, "two", {"three": b"4"}])
    with grasp.Agent(asker_node.guests) as asker, grasp.Agent(answerer_node.guests) as answerer:
        check("no agent yet", refused(asker.listen_negotiate, number, 1) == "1 NoAsa")
        asker.register_asa("asker")
        answerer.register_asa("an answerer, 100% new")
        check("one agent a visitor", refused(asker.register_asa, "more") == "seated")
        for agent in (asker, answerer):
            agent.register_objective(number)
            agent.register_objective(level)
        check("both ways", refused(answerer.register_objective, grasp.Objective("x", neg=True, synch=True)) == "4 NotBoth")
        check("a guest can't stop the node", refused(asker.stop) == "denied")
        check("a bad line", refused(asker.ask, "poll x") == "line 5")
        check("a session of nobody", refused(asker.ask, "poll 999") == "12 NoSession")
        check("nothing asked", answerer.listen_negotiate(number, 200) is None)
        check("discovered", TAKER in asker.discover(number, 5000) or GIVER in asker.discover(number, 5000))

        def serve():
            session, asked = answerer.listen_negotiate(number)
            check("what is asked", asked.value == 100 and asked.loop_count == 6)
            answerer.negotiate_wait(session, 1000)
            turn = answerer.negotiate_step(session, asked._replace(value=40))
            check("the answerer's turn", turn.kind == "turn" and turn.objective.value == 60)
            check("accepted", answerer.end_negotiate(session, True)[:2] == ("agreed", "mine"))
            session, _ = answerer.listen_negotiate(number)
            check("declined", answerer.end_negotiate(session, False, "no time").reason == "no time")
            session, _ = answerer.listen_negotiate(number)
            answerer.send_invalid_message(session, 7)

        serving = threading.Thread(target=serve)
        serving.start()
        time.sleep(0.1)
        peer = GIVER if answerer_node.file == "1.toml" else TAKER
        session, turn = asker.request_negotiate(number, peer)
        check("the first offer", turn.kind == "turn" and turn.objective.value == 40)
        end = asker.negotiate_step(session, number._replace(value=60))
        check("the end", end[:2] == ("agreed", "theirs") and end.objective.value == 60)
        check("the other's reason", asker.request_negotiate(number, peer)[1][::3] == ("declined", "no time"))
        check("invalid", asker.request_negotiate(number, peer)[1].kind == "invalid")
        serving.join()
        answerer.stop_listen_negotiate(number)

        answerer.listen_synchronize(level)
        check("synchronized", asker.synchronize(level, peer).objective.value == level.value)
        answerer.flood(level._replace(value=5), 60000)
        check("flooded", until(lambda: [it.objective.value for it in asker.get_flood(level)] == [5]))
        asker.expire_flood(level, asker.get_flood(level)[0].initiator)
        check("expired", asker.get_flood(level) == [])
        answerer.stop_listen_synchronize(level)
        answerer.deregister_objective(level)
        asker.deregister_asa()
        check("no agent any more", refused(asker.listen_negotiate, number, 1) == "1 NoAsa")


def try_agent(asker_node, answerer_node):
    """bandwidth.py at one node, which crashes later, and an asker at the other."""
    peer = GIVER if answerer_node.file == "1.toml" else TAKER
    half = subprocess.Popen([HERE / "bandwidth.py", answerer_node.guests], stdout=subprocess.DEVNULL)
    bandwidth = grasp.Objective("bandwidth", neg=True)
    with grasp.Agent(asker_node.guests) as asker:
        asker.register_asa("asker")
        asker.register_objective(bandwidth)
        check("the agent is found", until(lambda: asker.discover(bandwidth, 500)))
        times = []
        for asked in range(50):
            begin = time.monotonic()
            session, turn = asker.request_negotiate(bandwidth._replace(value=asked), peer)
            check("half of it", turn.kind == "turn" and turn.objective.value == asked // 2)
            check("taken", asker.end_negotiate(session, True).kind == "agreed")
            times.append(time.monotonic() - begin)
        print(f"a negotiation of two agents over two nodes: {sorted(times)[25] * 1000:.1f} ms in the middle of 50")
        half.kill()
        half.wait()
        time.sleep(0.3)
        check("its crash ends it", asker.request_negotiate(bandwidth._replace(value=1), peer, 2000)[1].kind != "turn")


def answer_one(node, ready, number, count):
    """An agent that accepts what it is asked for, so many times. It listens before anybody asks."""
    objective = grasp.Objective(f"number{number}", neg=True)
    with grasp.Agent(node.guests) as agent:
        agent.register_asa(f"answerer{number}")
        agent.register_objective(objective)
        check("nobody asks yet", agent.listen_negotiate(objective, 0) is None)
        ready.wait(60)
        for _ in range(count):
            session, asked = agent.listen_negotiate(objective)
            check("what is asked of one of many", asked.value == number)
            agent.end_negotiate(session, True)


def ask_one(node, ready, peer, number, count, ends):
    objective = grasp.Objective(f"number{number}", neg=True, value=number)
    with grasp.Agent(node.guests) as agent:
        agent.register_asa(f"asker{number}")
        agent.register_objective(objective)
        ready.wait(60)
        check("one of many is found", until(lambda: agent.discover(objective, 500)))
        for _ in range(count):
            ends.append(agent.request_negotiate(objective, peer)[1].kind)


def try_many(asker_node, answerer_node, count=20):
    """As many agents at once at each of two nodes, each pair of which negotiates."""
    peer, ends, ready = GIVER if answerer_node.file == "1.toml" else TAKER, [], threading.Barrier(2 * MANY)
    calls = [threading.Thread(target=answer_one, args=(answerer_node, ready, number, count)) for number in range(MANY)]
    calls += [threading.Thread(target=ask_one, args=(asker_node, ready, peer, number, count, ends)) for number in range(MANY)]
    begin = time.monotonic()
    for call in calls:
        call.start()
    for call in calls:
        call.join(60)
    check("all agents are done", not any(call.is_alive() for call in calls))
    check("all are agreed", ends == ["agreed"] * (MANY * count))
    print(f"{MANY * count} negotiations of {MANY} pairs of agents at once: {time.monotonic() - begin:.2f} s")


def try_deaf(node):
    """A visitor that asks for events and reads none of them is sent away, and holds up nobody."""
    deaf = socket.socket(socket.AF_UNIX)
    deaf.connect(node.control)
    deaf.sendall(b"events\n")
    most, seen = 0, b""
    with grasp.Agent(node.control) as agent:
        for _ in range(400):
            agent.socket.sendall(b"asa 'x\nunasa\n" * 100)
            for _ in range(200):
                agent._line()
            begin = time.monotonic()
            agent.ask("state")
            most = max(most, time.monotonic() - begin)
    deaf.settimeout(10)
    try:
        while piece := deaf.recv(1 << 20):
            seen = piece
    except ConnectionResetError:
        pass
    except TimeoutError:
        check("who reads no events is sent away", False)
    check("it was told some before", seen)
    check("and holds up nobody", most < 1)


def try_strangers(node):
    """Visitors that don't read, write endless lines, or are too many."""
    slow, endless = socket.socket(socket.AF_UNIX), socket.socket(socket.AF_UNIX)
    for visitor in (slow, endless):
        visitor.connect(node.control)
        visitor.settimeout(10)
    try:
        for _ in range(2000):
            slow.sendall(b"counters\n" * 1000)
        check("a slow reader is sent away", False)
    except (BrokenPipeError, ConnectionResetError):
        pass
    try:
        endless.sendall(b"x" * 1_000_000)
        endless.sendall(b"x" * 1_000_000)
        check("an endless line is sent away", False)
    except (BrokenPipeError, ConnectionResetError):
        pass
    many = [socket.socket(socket.AF_UNIX) for _ in range(32)]
    for visitor in many:
        visitor.connect(node.control)
        visitor.settimeout(0.3)
    here = 0
    for visitor in many:
        try:
            visitor.sendall(b"version\n")
            here += visitor.recv(100).startswith(b"version = grasp_node")
        except OSError:
            pass
        visitor.close()
    check("twenty visitors at once", here == 20)
    check("then there is room again", until(node.answers))
    with grasp.Agent(node.control) as agent:
        agent.socket.sendall(b"\xff\x00\n")
        check("a line that can't be printed", agent._line() == "? = error line 0")


def main():
    giver, taker = Node(1), Node(2)
    try:
        try_prefixes(taker, giver)
        try_calls(taker, giver)
        try_calls(giver, taker)
        try_agent(taker, giver)
        before = giver.memory()
        try_many(taker, giver)
        try_many(giver, taker)
        try_deaf(giver)
        try_strangers(giver)
        check("memory", giver.memory() < before + 8192)
        taker.end(signal.SIGKILL)
        giver.end(signal.SIGKILL)
        check("a socket is left behind", os.path.exists(taker.control))
        taker.start()
        with grasp.Agent(taker.control) as agent:
            check("a want of a giver that is gone is tried again", until(lambda: int(agent.ask("wants")[8]) > 3))
            giver.start()
            check("the want is held when it has come again", until(lambda: agent.state()["held"]))
            log = pathlib.Path("events")
            hook = subprocess.Popen([HERE / "on_event.py", taker.control, "sh", "-c", 'echo "$@" >> events', "sh"])
            check("the hook hears", until(lambda: agent.want(64, 64, GIVER) and log.exists() and " held " in log.read_text()))
            agent.stop()
        check("it stops", taker.process.wait(10) == 0 and hook.wait(10) == 0)
        check("no socket is left", not os.path.exists(taker.control) and not os.path.exists(taker.guests))
        check("stopping is told", log.read_text().endswith("stopping\n"))
        check("the client stops it", subprocess.run([PROGRAM, "stop", giver.control], stdout=subprocess.DEVNULL).returncode == 0)
        check("its status", giver.process.wait(10) == 0)
    finally:
        for node in (giver, taker):
            node.process.kill()


if len(sys.argv) != 2 or sys.argv[1].startswith("-"):
    sys.exit(__doc__.strip())
PROGRAM = str(pathlib.Path(sys.argv[1]).resolve())
with tempfile.TemporaryDirectory() as work:
    os.chdir(work)
    main()
print(checks, "checks,", failed, "failed")
sys.exit(failed > 0)
