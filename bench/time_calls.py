"""Times the program of bench/threads: `time_calls.py PROGRAM`."""
import subprocess
import sys

program = sys.argv[1]
CALLS = 1_000_000


def run(how, threads, call):
    """The nanoseconds that so many calls by so many threads took, and those of processor time."""
    plan = f"{how} {threads} {call} {CALLS // threads}\n"
    done = subprocess.run([program], input=plan, capture_output=True, text=True, check=True)
    answered, nanos, processor = map(int, done.stdout.split())
    assert answered == CALLS, (plan, answered)
    return nanos, processor


def tell(title, how, threads, call):
    nanos, processor = min(run(how, threads, call) for _ in range(5))
    print(f"{title:44} {CALLS * 1000 / nanos:8.3f} {processor / CALLS:8.0f}", flush=True)


print(f"{'':44} {'millions':>8} {'nanosec.':>8}")
print(f"{'calls of one node':44} {'a second':>8} {'a call':>8}")
for call in ("read", "drain"):
    tell(f"{call}, not shared", "alone", 1, call)
    for how, words in (("passes", "through passes"), ("mutex", "under a mutex")):
        for threads in (1, 2, 4, 8):
            tell(f"{call}, {words}, threads: {threads}", how, threads, call)
