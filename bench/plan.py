#!/usr/bin/env python3
"""Times `gixp_plan plan` against `git fetch --dry-run`, on the same bytes of a server.

Usage: plan.py PROGRAM [REFS] [RUNS]

PROGRAM is the built gixp_plan (`rt run` in crates/gixp_plan leaves it in out/). The session is one of version 2: an `ls-refs` response with
REFS refs to the commits and the tag of a small repository, and a pack of all of it. git reads the same bodies from a script as its
--upload-pack, into an empty repository, with the same refspec `+refs/*:refs/mirror/*`. Each runs RUNS times in turn. The least processor
time of each counts, user and system; git's includes the script. GNU time measures the memory.
"""
import os
import subprocess
import sys
import tempfile

from measure import run

SPEC = "+refs/*:refs/mirror/*"


def packet(text):
    line = text + "\n"
    return f"{len(line) + 4:04x}{line}"


def git(repository, *words, data=None):
    environment = dict(os.environ, GIT_CONFIG_NOSYSTEM="1", HOME=repository, GIT_PROTOCOL="version=2")
    for role in ("AUTHOR", "COMMITTER"):
        environment |= {f"GIT_{role}_NAME": "A", f"GIT_{role}_EMAIL": "a@example.com", f"GIT_{role}_DATE": "1600000000 +0000"}
    return subprocess.run(["git", "-C", repository, *words], input=data, env=environment, check=True, capture_output=True).stdout


def write_bodies(folder, repository, refs):
    """The files 0, 1 and 2 of the session."""
    os.makedirs(repository)
    git(repository, "init", "-q", "-b", "main")
    for i in range(3):
        git(repository, "commit", "-q", "--allow-empty", "-m", f"commit {i}")
    git(repository, "tag", "-a", "v1", "-m", "v1")
    commits = [git(repository, "rev-parse", f"main~{i}").decode().strip() for i in range(3)]
    tag = git(repository, "rev-parse", "v1").decode().strip()
    capabilities = ["version 2", "agent=git/2.39.5", "ls-refs=unborn", "fetch=shallow", "object-format=sha1"]
    with open(os.path.join(folder, "0"), "w") as out:
        out.write("".join(packet(c) for c in capabilities) + "0000")
    with open(os.path.join(folder, "1"), "w") as out:
        branches = refs - refs // 4
        for i in range(branches):
            out.write(packet(f"{commits[i % 3]} refs/heads/topic-{i:07}"))
        for i in range(refs // 4):
            out.write(packet(f"{tag} refs/tags/v{i:07} peeled:{commits[0]}"))
        out.write("0000")
    request = packet("command=fetch") + "0001" + packet(f"want {tag}") + packet("done") + "0000"
    answer = git(repository, "upload-pack", "--stateless-rpc", ".", data=request.encode())
    with open(os.path.join(folder, "2"), "wb") as out:
        out.write(answer)


def write_server(path, folder):
    with open(path, "w") as out:
        out.write(f'#!/bin/sh\ncd "{folder}" && cat 0 1 2\ncat > /dev/null\n')
    os.chmod(path, 0o755)


def main():
    program = os.path.abspath(sys.argv[1])
    refs = int(sys.argv[2]) if len(sys.argv) > 2 else 1_000_000
    runs = int(sys.argv[3]) if len(sys.argv) > 3 else 1
    with tempfile.TemporaryDirectory() as top:
        folder, server, empty = (os.path.join(top, name) for name in ("session", "server", "empty"))
        os.makedirs(folder)
        write_bodies(folder, os.path.join(top, "source"), refs)
        write_server(server, folder)
        environment = dict(os.environ, HOME=top, GIT_CONFIG_NOSYSTEM="1", GIT_TRACE="0")
        run(["git", "init", "-q", empty], environment)
        commands = {
            "gixp_plan plan": [program, "plan", folder, SPEC],
            "git fetch --dry-run": ["git", "-C", empty, "-c", "protocol.version=2", "fetch", "--dry-run", "--no-tags", f"--upload-pack={server}", top, SPEC],
        }
        best = {name: (float("inf"), 0) for name in commands}
        for _ in range(runs):
            for name, words in commands.items():
                seconds, memory = run(words, environment)
                best[name] = (min(best[name][0], seconds), max(best[name][1], memory))
        size = os.path.getsize(os.path.join(folder, "1"))
    print(f"{refs} refs, a body of {size} bytes, best of {runs} runs each, load {os.getloadavg()[0]:.1f}")
    for name, (seconds, memory) in best.items():
        print(f"{name}: {seconds:.3f} s of processor time, at most {memory} KiB, {memory * 1024 / refs:.0f} bytes a ref")
    print(f"gixp_plan plan / git fetch --dry-run: {best['gixp_plan plan'][0] / best['git fetch --dry-run'][0]:.3f}")


if __name__ == "__main__":
    main()
