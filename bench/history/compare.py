"""Times a proved program and the same in plain Rust, over one made-up history. The benchmarks of the graph, of the decision and of
the haves use it.

Each has a folder with `main.rt.in` of the program, over `history.rt.in`, and `baseline.rs`, over `history.rs`. A program
takes a mode and the number of commits. With the mode `history` it only makes its input, so that the script can subtract the
memory of that; its output is ignored. Otherwise it prints the microseconds that it measured, and counts, which must be equal for
both. The script needs `rustc`, GNU time, and what bench/build.py needs.
"""
import os
import subprocess
import sys
import tempfile
from contextlib import contextmanager
from pathlib import Path

HERE = Path(__file__).resolve().parent
sys.path.insert(0, str(HERE.parent))
from build import built


@contextmanager
def both(folder, mode):
    """The two programs: the proved one, over the crates below it, and the plain one."""
    with tempfile.TemporaryDirectory() as room, built(folder, mode, "1000", modules=[HERE / "history.rt.in"]) as proved:
        plain = Path(room) / "plain"
        subprocess.run(["rustc", "--edition", "2021", "-O", "-o", plain, folder / "baseline.rs"], check=True)
        yield {"proved": proved, "plain": plain}


def run(program, mode, commits):
    """The numbers that a run printed; its peak memory in bytes, and its processor time outside of the kernel in seconds."""
    with tempfile.NamedTemporaryFile("r") as memory:
        words = ["time", "-o", memory.name, "-f", "%M", str(program), mode, str(commits)]
        running = subprocess.Popen(words, stdout=subprocess.PIPE, text=True)
        output = running.stdout.read()
        printed = [] if mode == "history" else [int(word) for word in output.split()]
        _, status, used = os.wait4(running.pid, 0)
        running.returncode = os.waitstatus_to_exitcode(status)
        if running.returncode:
            raise subprocess.CalledProcessError(running.returncode, words)
        return printed, [int(memory.read()) * 1024, used.ru_utime]


def least(first, second):
    return [min(pair) for pair in zip(first, second)]


def compare(folder, mode, sizes):
    """Prints a line for each program and size: the best of five runs each, and of more of small sizes, in turn. The times
    and the memory are divided by the first count. Memory and processor time are those of a run, less those of a run that only makes
    the history. On a loaded machine processor time is better than wall time."""
    with both(folder, mode) as programs:
        print("commits  counted  program  ms       ns/each  bytes/each  times of plain  processor ms  times of plain  other counts")
        for commits in sizes:
            best, counts, whole, before = {}, {}, {}, {}
            for _ in range(max(5, 400_000 // commits)):
                for name, program in programs.items():
                    (micros, *counted), used = run(program, mode, commits)
                    best[name] = min(best.get(name, micros), micros)
                    whole[name] = least(whole.get(name, used), used)
                    _, used = run(program, "history", commits)
                    before[name] = least(before.get(name, used), used)
                    counts[name] = counted
            assert counts["proved"] == counts["plain"], f"the two programs differ: {counts}"
            count, *more = counts["plain"]
            added = {name: [all_of_it - part for all_of_it, part in zip(whole[name], before[name])] for name in programs}
            for name, (memory, processor) in added.items():
                print(
                    f"{commits:<8} {count:<8} {name:<8} {best[name] / 1000:<8.1f} {best[name] * 1000 / count:<8.0f} "
                    f"{memory / count:<11.0f} {best[name] / best['plain']:<15.2f} {processor * 1000:<13.1f} "
                    f"{processor / added['plain'][1]:<15.2f} {' '.join(map(str, more))}"
                )


def sizes(*default):
    return [int(word) for word in sys.argv[1:]] or list(default)
