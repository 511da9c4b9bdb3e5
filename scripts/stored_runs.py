#!/usr/bin/env python3
"""Runs the program gixp_plan over stored inputs, and compares what it writes with stored output.

Usage: stored_runs.py [--program PATH] [--only WORD]

PATH is the program, else what `rt run` left in crates/gixp_plan/out. Each folder of scripts/stored_runs is a run: `args` has a word of
the command line on each line, `data` the files of the folder that the program runs in. `stdout`, `stderr` and `status` are what the
program must write and return; a missing file is an empty output, or the status 0.
Prints a line for each run that failed, and `N passed, M failed`. The status is 1 where one failed.
"""
import argparse
import os
import pathlib
import shutil
import subprocess
import sys
import tempfile

TOP = pathlib.Path(__file__).resolve().parent.parent
PLAN = TOP / "crates" / "gixp_plan"
RUNS = TOP / "scripts" / "stored_runs"


def stored(path):
    return path.read_bytes() if path.exists() else b""


def differences(program, folder):
    """What the program wrote or returned that isn't as stored, a text for each."""
    words = stored(folder / "args").decode().split("\n")[:-1]
    with tempfile.TemporaryDirectory() as room:
        if (folder / "data").exists():
            shutil.copytree(folder / "data", room, dirs_exist_ok=True)
        ran = subprocess.run([program, *words], cwd=room, stdin=subprocess.DEVNULL, capture_output=True, timeout=60, check=False)
    status = int(stored(folder / "status") or 0)
    found = []
    for name, got, want in (("stdout", ran.stdout, stored(folder / "stdout")), ("stderr", ran.stderr, stored(folder / "stderr"))):
        if got != want:
            found.append(f"{name} is {got!r}, not {want!r}")
    if ran.returncode != status:
        found.append(f"the status is {ran.returncode}, not {status}")
    return found


def main():
    parser = argparse.ArgumentParser(description=__doc__.splitlines()[0])
    parser.add_argument("--program", type=pathlib.Path, default=PLAN / "out" / "gixp_plan")
    parser.add_argument("--only", default="", help="only runs that have this word in their names")
    given = parser.parse_args()
    program, passed, failed = given.program.resolve(), 0, 0
    if not os.access(program, os.X_OK):
        sys.exit(f"no program {program}: `rt run` in crates/gixp_plan builds it")
    for folder in sorted(path for path in RUNS.iterdir() if path.is_dir() and given.only in path.name):
        wrong = differences(program, folder)
        passed, failed = passed + (not wrong), failed + bool(wrong)
        for text in wrong:
            print(f"FAILED {folder.name}: {text}", flush=True)
    print(f"{passed} passed, {failed} failed")
    return 1 if failed else 0


if __name__ == "__main__":
    sys.exit(main())
