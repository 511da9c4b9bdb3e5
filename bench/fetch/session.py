#!/usr/bin/env python3
"""Records a fetch of a repository that holds one file of random bytes from `git upload-pack`, version 2.

Usage: session.py BYTES FILE

The file gets the capability advertisement, the answer to `ls-refs`, and the answer to a `fetch` of the one branch that
has no haves, one behind another, as a connection gives them.
"""
import os
import subprocess
import sys
import tempfile
from pathlib import Path


def line(text):
    return f"{len(text) + 5:04x}{text}\n"


def upload(repository, words, request=""):
    command = ["git", "upload-pack", *words, str(repository)]
    environment = {**os.environ, "GIT_PROTOCOL": "version=2"}
    done = subprocess.run(command, input=request.encode(), stdout=subprocess.PIPE, env=environment, check=False)
    return done.stdout


def main():
    size, path = int(sys.argv[1]), Path(sys.argv[2])
    with tempfile.TemporaryDirectory() as room:
        repository = Path(room) / "repository"
        git = ["git", "-C", str(repository), "-c", "user.name=A", "-c", "user.email=a@example.com"]
        subprocess.run(["git", "init", "-q", "-b", "main", str(repository)], check=True)
        with open(repository / "file", "wb") as file:
            for _ in range(size // 1_048_576):
                file.write(os.urandom(1_048_576))
        settings = ["-c", "core.compression=0", "-c", "core.bigFileThreshold=1m"]
        subprocess.run(git + settings + ["add", "file"], check=True)
        subprocess.run(git + ["commit", "-q", "-m", "file"], check=True)
        subprocess.run(git + ["config", "pack.compression", "0"], check=True)
        branch = subprocess.run(git + ["rev-parse", "main"], check=True, capture_output=True, text=True).stdout.strip()
        listing = line("command=ls-refs") + line("agent=git/oxide") + "0001" + line("ref-prefix refs/heads/") + "0000"
        wants = line("command=fetch") + line("agent=git/oxide") + "0001" + line(f"want {branch}") + line("done") + "0000"
        with open(path, "wb") as session:
            session.write(upload(repository, ["--http-backend-info-refs"]))
            session.write(upload(repository, ["--stateless-rpc"], listing))
            session.write(upload(repository, ["--stateless-rpc"], wants))


if __name__ == "__main__":
    main()
