#!/usr/bin/env python3
"""Times `gixp_plan plan` over responses whose names a hostile server chose, compared with ordinary responses of the same size.

Usage: chosen.py PROGRAM [REFS] [RUNS]

PROGRAM is the built gixp_plan (`rt run` in crates/gixp_plan leaves it in out/). Two patterns map branches and tags to one namespace. The
ordinary response of a case has as many refs, in byte order, with names of the same length and a local name each. Both run RUNS times in
turn. The least processor time of each counts, user and system. If local names have two sources, the plan is an error.
"""
import os
import random
import subprocess
import sys
import tempfile

from measure import processor_seconds
from plan import packet, write_bodies

SPECS = ["refs/heads/*:refs/all/*", "refs/tags/*:refs/all/*"]
ORDER = random.Random(1)


def shuffled(items):
    return ORDER.sample(items, len(items))


def numbered(refs, fronts=("",)):
    """The end of a local name for each two refs, with alternating beginnings."""
    return [f"{fronts[i % len(fronts)]}topic-{i:07}" for i in range(refs // 2)]


def ordinary(refs, size):
    """Names with so many bytes in total, in order."""
    length = max(8, size // refs - len("refs/heads/"))
    branches = [f"refs/heads/{i:0{length}}" for i in range(refs // 2)]
    return branches + [f"refs/tags/{i:0{length + 1}}" for i in range(refs // 2, refs)]


def both(branches, tags):
    """Each name as a branch and as a tag."""
    return [name for pair in zip(branches, tags) for name in (f"refs/heads/{pair[0]}", f"refs/tags/{pair[1]}")]


def cases(refs):
    """Ordinary names without an order, and with one repeated. Then all local names with two sources: in one order, in two orders, and
    with names that share a beginning of a few bytes, share a long one except for one name, or have one of 16 beginnings."""
    names = shuffled(ordinary(refs, 29 * refs))
    yield "shuffled", names
    yield "repeated", [*names, names[0]]
    names = shuffled(numbered(refs))
    yield "conflicting", both(names, names)
    yield "crossed", both(names, shuffled(names))
    for what, count in (("unlike", 10), ("long", 72)):
        names = [*shuffled(numbered(refs, ["a" * count])), "b"]
        yield what, both(names, shuffled(names))
    blocks = ["a" * 8, "b" * 8]
    names = shuffled(numbered(refs, [a + b + c + d for a in blocks for b in blocks for c in blocks for d in blocks]))
    yield "alike", both(names, shuffled(names))


def write_answer(path, names):
    with open(path, "w") as out:
        for number, name in enumerate(names):
            out.write(packet(f"{number:040x} {name}"))
        out.write("0000")


def seconds(words):
    """The processor time of a run, whether or not the plan is an error."""
    start = processor_seconds()
    subprocess.run(words, stdout=subprocess.DEVNULL, stderr=subprocess.DEVNULL)
    return processor_seconds() - start


def main():
    program = os.path.abspath(sys.argv[1])
    refs = int(sys.argv[2]) if len(sys.argv) > 2 else 1_000_000
    runs = int(sys.argv[3]) if len(sys.argv) > 3 else 3
    with tempfile.TemporaryDirectory() as top:
        folders = [os.path.join(top, name) for name in ("ordinary", "chosen")]
        for folder in folders:
            os.makedirs(folder)
            write_bodies(folder, os.path.join(folder, "source"), 4)
        for what, names in cases(refs):
            answers = (ordinary(refs, sum(map(len, names))), names)
            for folder, answer in zip(folders, answers):
                write_answer(os.path.join(folder, "1"), answer)
            best = [float("inf")] * 2
            for _ in range(runs):
                best = [min(had, seconds([program, "plan", folder, *SPECS])) for had, folder in zip(best, folders)]
            print(f"{what:12} {best[1]:.3f} s of processor time, ordinary {best[0]:.3f} s, ratio {best[1] / best[0]:.2f}", flush=True)


if __name__ == "__main__":
    main()
