#!/usr/bin/env python3
"""Runs the examples of bindings/rust over a repository that it makes, and compares them with git.

Usage: bindings_examples.py BUILD

BUILD is the folder of the libraries. Prints `N passed, M failed`. The status is 1 if an example failed.
"""
import os
import pathlib
import subprocess
import sys
import tempfile

TOP = pathlib.Path(__file__).resolve().parent.parent
EXAMPLES = TOP / "bindings/rust/target/debug/examples"


def git(*words, folder=None, **more):
    who = ["-c", "user.name=a", "-c", "user.email=a@b", "-c", "init.defaultBranch=main"]
    return subprocess.run(["git", *who, *words], cwd=folder, check=True, stdout=subprocess.PIPE, **more).stdout.decode()


def example(name, *words):
    run = subprocess.run([EXAMPLES / name, *words], stdout=subprocess.PIPE, stderr=subprocess.PIPE)
    return run.returncode, run.stdout.decode(), run.stderr.decode()


def make(folder):
    git("init", "-q", folder)
    for n in range(40):
        pathlib.Path(folder, "file%d" % (n % 7)).write_bytes(os.urandom(3000))
        git("add", ".", folder=folder)
        git("commit", "-qm", str(n), folder=folder)
    git("tag", "-am", "one", "v1", folder=folder)
    git("branch", "other", "HEAD~10", folder=folder)


def listing(folder, _):
    """Whether the lines equal git's, in the same order for the two lines of a symbolic ref."""
    status, out, err = example("ls_remote", folder)
    return status == 0 and out == git("ls-remote", "--symref", folder), err


def fetched(folder, place, *words):
    pack = os.path.join(place, "pack")
    status, out, err = example("fetch", folder, pack, "refs/heads/*:refs/remotes/o/*", *words)
    return status, out, err, pack


def whole_fetch(folder, place):
    status, out, err, pack = fetched(folder, place)
    to = os.path.join(place, "whole.git")
    git("init", "-q", "--bare", to)
    if status or "bytes after" not in out:
        return False, err
    git("index-pack", "--stdin", folder=to, stdin=open(pack, "rb"))
    for ref in git("for-each-ref", "--format=%(objectname) %(refname)", "refs/heads", folder=folder).splitlines():
        git("update-ref", *reversed(ref.split()), folder=to)
    git("fsck", "--strict", folder=to)
    return True, ""


def fetch_of_what_is_new(folder, place):
    old = git("rev-parse", "other", folder=folder).strip()
    status, out, err, pack = fetched(folder, place, "--have", old)
    to = os.path.join(place, "old.git")
    git("clone", "-q", "--bare", "--single-branch", "-b", "other", folder, to)
    if status:
        return False, err
    git("index-pack", "--stdin", "--fix-thin", folder=to, stdin=open(pack, "rb"))
    new = int(git("rev-list", "--count", "other..main", folder=folder))
    count = git("rev-list", "--count", git("rev-parse", "main", folder=folder).strip(), folder=to)
    return new == 10 and int(count) == 40, count


def shallow_fetch(folder, place):
    status, out, err, pack = fetched(folder, place, "--depth", "1")
    to = os.path.join(place, "shallow.git")
    git("init", "-q", "--bare", to)
    git("index-pack", "--stdin", folder=to, stdin=open(pack, "rb"))
    kinds = git("cat-file", "--batch-all-objects", "--batch-check=%(objecttype)", folder=to).split()
    by_git = os.path.join(place, "by-git.git")
    git("clone", "-q", "--bare", "--depth=1", "--no-single-branch", "file://" + folder, by_git)
    boundary = ["shallow " + id for id in sorted(pathlib.Path(by_git, "shallow").read_text().split())]
    return status == 0 and kinds.count("commit") == 2 and sorted(out.splitlines()[1:]) == boundary, out + err


def filtered_fetch(folder, place):
    git("config", "uploadpack.allowFilter", "true", folder=folder)
    status, out, err, pack = fetched(folder, place, "--filter", "blob:none")
    to = os.path.join(place, "filtered.git")
    git("init", "-q", "--bare", to)
    git("index-pack", "--stdin", "--promisor", folder=to, stdin=open(pack, "rb"))
    kinds = git("cat-file", "--batch-all-objects", "--batch-check=%(objecttype)", folder=to).split()
    git("config", "uploadpack.allowFilter", "false", folder=folder)
    refused, _, said, _ = fetched(folder, place, "--filter", "blob:none")
    is_refused = refused != 0 and "the server offers no filters" in said
    return status == 0 and set(kinds) == {"commit", "tree"} and is_refused, out + err + said


def nothing(folder, place):
    haves = [word for id in git("rev-parse", "main", "other", folder=folder).split() for word in ("--have", id)]
    status, out, err, _ = fetched(folder, place, *haves)
    return status == 0 and out == "nothing to fetch\n", out + err


def no_repository(folder, place):
    status, out, err, _ = fetched(os.path.join(place, "none"), place)
    return status != 0 and out == "", out + err


def main(build):
    passed = failed = 0
    with tempfile.TemporaryDirectory() as place:
        folder = os.path.join(place, "served")
        make(folder)
        for case in (listing, whole_fetch, fetch_of_what_is_new, shallow_fetch, filtered_fetch, nothing, no_repository):
            ok, said = case(folder, place)
            passed, failed = passed + bool(ok), failed + (not ok)
            if not ok:
                print(case.__name__, said)
    print("%d passed, %d failed" % (passed, failed))
    return failed != 0


if __name__ == "__main__":
    sys.exit(main(sys.argv[1]))
