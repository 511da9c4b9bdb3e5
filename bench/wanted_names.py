#!/usr/bin/env python3
"""Times a fetch of many refs by their names, among as many refs, against `git fetch-pack` of the same.

Usage: wanted_names.py PROGRAM [RUNS]

PROGRAM is the built gixp_fetch_pack (`rt run` in crates/gixp_fetch_pack leaves it in out/). Each name is a refspec. All refs have
one commit, and the server is `git upload-pack` over pipes, under version 2. git gets the names on standard input. The best of RUNS runs
in turn counts. The output also has the program's own processor time.
"""
import os
import pathlib
import subprocess
import sys
import tempfile
import time

COMMIT = b"commit refs/heads/main\ncommitter x <a@b> 1700000000 +0000\ndata 2\nc\n\n"


def environment(room):
    kept = {name: value for name, value in os.environ.items() if not name.startswith("GIT_")}
    return {**kept, "HOME": str(room), "GIT_CONFIG_NOSYSTEM": "1", "GIT_PROTOCOL": "version=2", "LC_ALL": "C"}


def make_server(room, count):
    """Makes a repository with so many branches of one commit. Returns their names."""
    server = room / f"server-{count}"
    run = {"check": True, "env": environment(room), "cwd": room, "stdout": subprocess.PIPE}
    subprocess.run(["git", "init", "-q", "--bare", server], **run)
    run["cwd"] = server
    subprocess.run(["git", "fast-import", "--quiet"], input=COMMIT, **run)
    commit = subprocess.run(["git", "rev-parse", "refs/heads/main"], **run).stdout.decode().strip()
    names = [f"refs/heads/topic-{number:06}" for number in range(count)]
    lines = "".join(f"{commit} {name}\n" for name in names)
    (server / "packed-refs").write_text(f"# pack-refs with: peeled fully-peeled sorted \n{lines}")
    return server, names


def git_seconds(room, server, names):
    with tempfile.TemporaryDirectory(dir=room) as client:
        run = {"check": True, "env": environment(room), "cwd": client, "stdout": subprocess.DEVNULL, "stderr": subprocess.DEVNULL}
        subprocess.run(["git", "init", "-q", "--bare"], **run)
        start = time.perf_counter()
        subprocess.run(["git", "fetch-pack", "--stdin", "-q", server], input="\n".join([*names, ""]).encode(), **run)
        return time.perf_counter() - start


def our_seconds(room, program, server, names):
    """The wall time and the processor time of the program, in seconds."""
    with tempfile.TemporaryDirectory(dir=room) as client:
        hears, asks = os.pipe()
        reads, says = os.pipe()
        start = time.perf_counter()
        git = subprocess.Popen(["git", "upload-pack", server], stdin=hears, stdout=says, stderr=subprocess.DEVNULL, env=environment(room))
        words = [program, "--report", f"{client}/report", "-", "-", f"{client}/pack", *names]
        ours = subprocess.Popen(words, stdin=reads, stdout=asks)
        for end in (hears, asks, reads, says):
            os.close(end)
        _, status, used = os.wait4(ours.pid, 0)
        git.wait()
        if status:
            sys.exit("the fetch failed")
        return time.perf_counter() - start, used.ru_utime + used.ru_stime


def main():
    program, runs = os.path.abspath(sys.argv[1]), int(sys.argv[2]) if sys.argv[2:] else 3
    with tempfile.TemporaryDirectory() as folder:
        room = pathlib.Path(folder)
        for count in (5_000, 50_000):
            server, names = make_server(room, count)
            git = min(git_seconds(room, server, names) for _ in range(runs))
            ours, used = min(our_seconds(room, program, server, names) for _ in range(runs))
            print(f"{count} names: git {git:.3f} s, ours {ours:.3f} s, {ours / git:.2f} of its time; {used:.3f} s of processor time", flush=True)


if __name__ == "__main__":
    main()
