#!/usr/bin/env python3
"""Times answers and advertisements that make.py makes; see bench/build.py.

Usage: run.py [RUNS]

RUNS is how often each is read. The smallest time counts.
"""
import subprocess
import sys
import tempfile
from pathlib import Path

HERE = Path(__file__).resolve().parent
sys.path.insert(0, str(HERE.parent))
from build import built

KINDS = ["answer", "repeats", "section", "refs"]


def made(room, kind, count):
    """The file of one kind with so many lines."""
    path = Path(room) / kind
    with open(path, "wb") as out:
        subprocess.run([sys.executable, HERE / "make.py", kind, str(count)], stdout=out, check=True)
    return path


def main():
    runs = int(sys.argv[1]) if len(sys.argv) > 1 else 3
    with tempfile.TemporaryDirectory() as room, built(HERE, "answer", made(room, "answer", 1_000)) as program:
        for count in (10_000, 100_000, 1_000_000):
            paths = {kind: made(room, kind, count) for kind in KINDS}
            for _ in range(runs):
                for kind, path in paths.items():
                    subprocess.run([program, kind, path], check=True)


if __name__ == "__main__":
    main()
