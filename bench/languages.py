#!/usr/bin/env python3
"""Times the bindings: the refs of a response from Rust, compared with a plain parser that makes the same values; the refs from Python;
and the cost of reading a session again for each request.

Usage: languages.py [REFS] [RUNS]

`scripts/bindings.sh` must have made bindings/build. The response is that of refs.py. Python reads a tenth of its refs, and dulwich too, if
this Python has it, or Debian's (`python3-dulwich`).
"""
import io
import os
import pathlib
import subprocess
import sys
import tempfile
import time

from refs import write_answer

TOP = pathlib.Path(__file__).resolve().parent.parent
sys.path.insert(0, str(TOP / "bindings/python"))
BUILD = TOP / "bindings/build"


def best(runs, call):
    least = float("inf")
    for _ in range(runs):
        start = time.process_time()
        call()
        least = min(least, time.process_time() - start)
    return least


def by_python(path, runs):
    import gixp
    data = pathlib.Path(path).read_bytes()
    ours = best(runs, lambda: sum(1 for _ in gixp.refs(data)))
    line = "from Python: %.0f ms" % (ours * 1e3)
    try:
        from dulwich.protocol import Protocol

        def dulwich():
            refs = {}
            for text in Protocol(io.BytesIO(data).read, None).read_pkt_seq():
                words = text.rstrip(b"\n").split(b" ")
                refs[words[1]] = (words[0], words[2:])
        line += ", %.2f of the time of dulwich's packet lines split at spaces" % (ours / best(runs, dulwich))
    except ImportError:
        line += " (dulwich is not installed)"
    print(line)


def with_dulwich():
    """A Python with dulwich, else this one."""
    for python in (sys.executable, "/usr/bin/python3"):
        if os.path.exists(python) and subprocess.run([python, "-c", "import dulwich"], stderr=subprocess.DEVNULL).returncode == 0:
            return python
    return sys.executable


def main(refs, runs):
    env = dict(os.environ, GIXP_LIB=str(BUILD))
    cargo = ["cargo", "run", "-q", "--offline", "--release", "--example", "bench", "--manifest-path",
             str(TOP / "bindings/rust/Cargo.toml"), "--"]
    with tempfile.TemporaryDirectory() as place:
        path = os.path.join(place, "answer")
        write_answer(path, refs)
        subprocess.run([*cargo, "refs", path, str(runs)], env=env, check=True)
        subprocess.run([*cargo, "rounds"], env=env, check=True)
        subprocess.run([*cargo, "rounds", "100000", "1"], env=env, check=True)
        write_answer(path, refs // 10)
        subprocess.run([with_dulwich(), __file__, "--python", path, str(runs)], env=env, check=True)


if __name__ == "__main__" and sys.argv[1:2] == ["--python"]:
    by_python(sys.argv[2], int(sys.argv[3]))
elif __name__ == "__main__":
    main(*(int(word) for word in (sys.argv[1:] + ["1000000", "5"][len(sys.argv) - 1:])))
