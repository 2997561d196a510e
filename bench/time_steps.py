"""Times the program of bench/steps, and counts its instructions: `time_steps.py PROGRAM`."""
import os
import re
import shutil
import subprocess
import sys

program = sys.argv[1]


def parts_of(plan):
    """The parts of a run of a plan, as pairs of steps and nanoseconds, and the memory that it took, in megabytes."""
    child = subprocess.Popen([program], stdin=subprocess.PIPE, stdout=subprocess.PIPE, text=True)
    child.stdin.write(plan + "\n")
    child.stdin.close()
    lines = child.stdout.read().splitlines()
    _, status, usage = os.wait4(child.pid, 0)
    assert status == 0, (plan, status)
    return [tuple(map(int, line.split()[1:])) for line in lines], usage.ru_maxrss / 1000


def each(parts):
    """Nanoseconds a step."""
    return sum(nanos for _, nanos in parts) / sum(steps for steps, _ in parts)


def tell_tenths(title, plan):
    runs = [parts_of(plan) for _ in range(5)]
    parts, memory = min(runs, key=lambda run: each(run[0]))
    assert len(parts) == 10, (plan, len(parts))
    first, last = each(parts[:1]), each(parts[-1:])
    print(f"{title:58} {each(parts):8.0f} {first:8.0f} {last:8.0f} {memory:6.1f}  {plan}", flush=True)


def tell_turns(title, plan, first, last):
    runs = [parts_of(plan)[0] for _ in range(5)]
    early, late = (min(each(run[turns[0] - 1 : turns[1]]) for run in runs) for turns in (first, last))
    print(f"{title:58} {'':8} {early:8.0f} {late:8.0f} {'':6}  {plan}", flush=True)


def instructions(plan):
    words = ["valgrind", "--tool=callgrind", "--callgrind-out-file=/dev/null", program]
    ran = subprocess.run(words, input=plan + "\n", capture_output=True, text=True, check=True)
    steps = sum(int(line.split()[1]) for line in ran.stdout.splitlines())
    return int(re.search(r"Collected : (\d+)", ran.stderr)[1]), steps


def tell_instructions(title, plan):
    """Of 20,000 steps after the first 10,000, and of as many after the first 100,000."""
    first, last = (
        [instructions(plan.replace("STEPS", str(steps))) for steps in (before, before + 20000)]
        for before in (10000, 100000)
    )
    early, late = ((many[0] - few[0]) / (many[1] - few[1]) for few, many in (first, last))
    print(f"{title:58} {'':8} {early:8.0f} {late:8.0f} {'':6}  {plan}", flush=True)


million = "1000000"
print(f"{'nanoseconds of processor time a step':58} {'all':>8} {'first':>8} {'last':>8} {'MB':>6}  plan")
tell_tenths("1 session", f"talk 1 16 0 {million} 0 empty")
tell_tenths("64 sessions", f"talk 64 16 0 {million} 0 empty")
tell_tenths("1 session, 255 loops, 4 waits before a step", f"talk 1 255 4 {million} 0 empty")
tell_tenths("64 sessions, 255 loops, 4 waits before a step", f"talk 64 255 4 {million} 0 empty")
tell_tenths("64 sessions, readings from 2^63", f"talk 64 16 0 {million} {2 ** 63} empty")
tell_tenths("1 session, full caches", f"talk 1 16 0 {million} 0 full")
tell_tenths("64 sessions, full caches", f"talk 64 16 0 {million} 0 full")
tell_tenths("1 session, messages that say nothing on its stream", f"noops 1 16 0 {million} 0 empty")
tell_tenths("the same, a byte a step", f"halves 1 16 0 {million} 0 empty")
print(f"{'nanoseconds of processor time a step, by turn':58} {'':8} {'early':>8} {'late':>8} {'':6}  plan")
for sessions in (1, 64):
    for waits in (0, 4):
        title = f"{sessions} of 255 loops, {waits} waits before a step"
        plan = f"turns {sessions} 255 {waits} {million} 0 empty"
        tell_turns(f"{title}: turns 3 and 250", plan, (3, 3), (250, 250))
        tell_turns(f"{title}: turns 3-12 and 241-250", plan, (3, 12), (241, 250))
if shutil.which("valgrind"):
    print(f"{'instructions a step':58} {'':8} {'early':>8} {'late':>8} {'':6}  plan")
    tell_instructions("1 session", "talk 1 16 0 STEPS 0 empty")
    tell_instructions("64 sessions", "talk 64 16 0 STEPS 0 empty")
    tell_instructions("64 sessions, full caches", "talk 64 16 0 STEPS 0 full")
    tell_instructions("1 session, messages that say nothing on its stream", "noops 1 16 0 STEPS 0 empty")
