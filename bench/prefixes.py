#!/usr/bin/env python3
"""Times `gixp_plan plan` with many refspecs, over the recorded session in examples/.

Usage: prefixes.py PROGRAM [RUNS]

PROGRAM is the built gixp_plan (`rt run` in crates/gixp_plan leaves it in out/). The `ls-refs` request has the prefixes of all refspecs,
without repeats. `full` are full names with one prefix each; `short` are short names with six; `repeated` is one short name, repeated. The
best of RUNS runs counts.
"""
import os
import subprocess
import sys
import time

SESSION = os.path.join(os.path.dirname(os.path.realpath(__file__)), "..", "examples", "session")
KINDS = {
    "full": lambda number: f"refs/heads/topic-{number:06}",
    "short": lambda number: f"topic-{number:06}",
    "repeated": lambda number: "topic",
}


def seconds(program, words):
    start = time.perf_counter()
    done = subprocess.run([program, "plan", SESSION, *words], capture_output=True)
    taken = time.perf_counter() - start
    if done.returncode:
        sys.exit(f"the plan failed: {done.stderr.decode()}")
    return taken, done.stdout.count(b"> ref-prefix ")


def main():
    program, runs = sys.argv[1], int(sys.argv[2]) if sys.argv[2:] else 3
    for kind, name in KINDS.items():
        for count in (1_000, 10_000, 50_000):
            words = ["refs/heads/main:refs/remotes/origin/main", *(name(number) for number in range(count))]
            taken, prefixes = min(seconds(program, words) for _ in range(runs))
            print(f"{kind:8} {count:6} refspecs {prefixes:6} prefixes {taken * 1e3:8.1f} ms {taken * 1e9 / count:8.0f} ns a refspec")


if __name__ == "__main__":
    main()
