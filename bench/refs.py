#!/usr/bin/env python3
"""Times `gixp_plan refs` against `git ls-remote`, a plain C program (refs.c) and reading the file alone, on the same bytes.

Usage: refs.py PROGRAM [REFS] [RUNS]

PROGRAM is the built gixp_plan (`rt run` in crates/gixp_plan leaves it in out/). The input is a version 2 `ls-refs` response with REFS refs
and a symbolic HEAD. git reads it from a script as its --upload-pack, which prints a version 2 advertisement and then the response. `cc`
builds the C program, which is left out without `cc`. Each runs RUNS times in turn. The least processor time of each counts, user and
system; git's includes the script. GNU time measures the memory.
"""
import hashlib
import os
import shutil
import subprocess
import sys
import tempfile

from measure import run


def packet(text):
    line = text + "\n"
    return f"{len(line) + 4:04x}{line}"


def object_id(number):
    return hashlib.sha1(str(number).encode()).hexdigest()


def write_answer(path, refs):
    with open(path, "w") as out:
        branches = refs - refs // 4
        out.write(packet(f"{object_id(0)} HEAD symref-target:refs/heads/topic-0000000"))
        for i in range(branches):
            out.write(packet(f"{object_id(i)} refs/heads/topic-{i:07}"))
        for i in range(refs // 4):
            out.write(packet(f"{object_id(-i - 1)} refs/tags/v{i:07} peeled:{object_id(i)}"))
        out.write("0000")


def write_server(path, answer):
    capabilities = ["version 2", "agent=git/2.39.5", "ls-refs=unborn", "fetch=shallow", "object-format=sha1"]
    advertisement = path + ".advertisement"
    with open(advertisement, "w") as out:
        out.write("".join(packet(c) for c in capabilities) + "0000")
    with open(path, "w") as out:
        out.write(f'#!/bin/sh\ncat "{advertisement}" "{answer}"\ncat > /dev/null\n')
    os.chmod(path, 0o755)


def main():
    program = os.path.abspath(sys.argv[1])
    refs = int(sys.argv[2]) if len(sys.argv) > 2 else 1_000_000
    runs = int(sys.argv[3]) if len(sys.argv) > 3 else 3
    with tempfile.TemporaryDirectory() as folder:
        answer = os.path.join(folder, "answer.ls")
        server = os.path.join(folder, "server")
        repository = os.path.join(folder, "repository")
        write_answer(answer, refs)
        write_server(server, answer)
        environment = dict(os.environ, HOME=folder, GIT_CONFIG_NOSYSTEM="1", GIT_TRACE="0")
        run(["git", "init", "-q", repository], environment)
        commands = {
            "gixp_plan refs": [program, "refs", answer],
            "reading the file": ["cat", answer],
            "git ls-remote": ["git", "-c", "protocol.version=2", "ls-remote", f"--upload-pack={server}", repository],
        }
        if shutil.which("cc"):
            plain = os.path.join(folder, "refs")
            subprocess.run(["cc", "-O2", "-o", plain, os.path.join(os.path.dirname(os.path.abspath(__file__)), "refs.c")], check=True)
            commands["plain C"] = [plain, answer]
        best = {name: (float("inf"), 0) for name in commands}
        for _ in range(runs):
            for name, words in commands.items():
                seconds, memory = run(words, environment)
                best[name] = (min(best[name][0], seconds), max(best[name][1], memory))
        size = os.path.getsize(answer)
    count = refs + 1
    print(f"{count} refs, {size} bytes, best of {runs} runs each")
    for name, (seconds, memory) in best.items():
        print(f"{name}: {seconds:.3f} s of processor time, {size / seconds / 1e6:.0f} MB/s, at most {memory} KiB, {memory * 1024 / count:.0f} bytes a ref")
    ours = best["gixp_plan refs"][0]
    for name in list(best)[1:]:
        print(f"gixp_plan refs / {name}: {ours / best[name][0]:.3f}")


if __name__ == "__main__":
    main()
