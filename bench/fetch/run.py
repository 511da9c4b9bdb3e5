#!/usr/bin/env python3
"""Records two sessions of git, and times fetches of them and copies of the same files, in turn; see bench/build.py.

It prints the best of five runs and the most memory. GNU time measures that: the memory that Python's own wait4 reports for a child
is at least that of Python itself.
"""
import os
import subprocess
import sys
import tempfile
from pathlib import Path

HERE = Path(__file__).resolve().parent
sys.path.insert(0, str(HERE.parent))
from build import built

SIZES = {"large": 268_435_456, "small": 4_194_304}


def run(program, mode, path):
    """The bytes, microseconds and KiB of one run."""
    with tempfile.NamedTemporaryFile("r") as memory:
        words = ["time", "-o", memory.name, "-f", "%M", program, mode, path]
        total, time = subprocess.run(words, check=True, stdout=subprocess.PIPE, text=True).stdout.split()
        return int(total), int(time), int(memory.read())


def measure(program, path):
    runs = {"copy": [], "fetch": []}
    for _ in range(5):
        for mode, done in runs.items():
            done.append(run(program, mode, path))
    best = {mode: min(time for _, time, _ in done) for mode, done in runs.items()}
    most = {mode: max(memory for _, _, memory in done) for mode, done in runs.items()}
    pack = runs["fetch"][0][0]
    print(f"{path.stat().st_size} bytes, a pack of {pack}: fetch {best['fetch']} us and {most['fetch']} KiB, "
          f"copy {best['copy']} us and {most['copy']} KiB, {best['fetch'] / best['copy']:.2f} times")
    print("  all:", ", ".join(f"{f[1]}/{c[1]}" for f, c in zip(runs["fetch"], runs["copy"])))


def main():
    with tempfile.TemporaryDirectory() as room:
        paths = {name: Path(room) / name for name in SIZES}
        for name, size in SIZES.items():
            subprocess.run([sys.executable, HERE / "session.py", str(size), paths[name]], check=True)
        with built(HERE, "copy", paths["small"]) as program:
            print("load", *os.getloadavg())
            for path in paths.values():
                measure(program, path)


if __name__ == "__main__":
    main()
