#!/usr/bin/env python3
"""Clones and fetches real repositories with gixp_remote and gixp_fetch_pack, and compares the results with git's.

Usage: live.py [--program PATH] [--remote PATH] [--keep FOLDER] [--only WORD] [--jobs N] [--again]

The PATHs name the programs gixp_fetch_pack and gixp_remote. Without them the programs are those that `rt run` left in their crates'
out/ folders. The shell of the remote helper is the one in crates/gixp_remote.

The cases make their repositories: empty ones, one commit, 2,000 commits with merges, equal and backward dates, annotated and nested
tags, symbolic and hidden refs, shallow ones. Each action runs twice: by git over file:// and by git over gixp::. Both must leave the
same refs, the same shallow boundary, and a repository that `git fsck --strict` accepts. The same holds for servers that answer each
request by itself, as over HTTP. Some cases count connections, or the haves from a list of commits.

Other cases have servers that die, that send errors or nonsense, and one that stops answering: the fetch must fail and leave nothing.
Each process of a fetch gets signals at several moments. git daemon, sshd and web servers run on loopback, if there is one, and sshd if
it is installed. Further cases cut lists and packs, change boundaries, lose objects, leave files open, and set variables that shells read.
No action may leave a process. An action that takes a minute is killed and has failed.

Prints a line for each failed case, and `N passed, M failed`. The status is 1 if a case failed. git is needed.
"""
import argparse
import os
import pathlib
import sys
import tempfile
import time

from live_caller import try_caller
from live_cases import try_bodies, try_clones, try_fetches, try_harm, try_haves, try_liars, try_ways
from live_ends import try_ends
from live_harness import CRATE, REMOTE, Tester
from live_httpd import web_servers
from live_loss import try_loss, try_web_loss
from live_plain import try_plain
from live_program import try_program
from live_relay import try_relay
from live_seen import try_seen
from live_servers import has_loopback
from live_uris import try_uris
from live_web import try_web


def options():
    parser = argparse.ArgumentParser(description=__doc__.splitlines()[0])
    parser.add_argument("--program", type=pathlib.Path, default=CRATE / "out" / "gixp_fetch_pack")
    parser.add_argument("--remote", type=pathlib.Path, default=REMOTE / "out" / "gixp_remote")
    parser.add_argument("--keep", type=pathlib.Path, help="a folder for all files of the cases; it is not removed")
    parser.add_argument("--only", help="only cases with this word in their names")
    parser.add_argument("--jobs", type=int, default=os.cpu_count(), help="how many cases run at once")
    parser.add_argument("--again", action="store_true",
                        help="try a failed case once more, alone, and count the second try: a loaded machine is late")
    return parser.parse_args()


def main():
    given = options()
    program, remote = given.program.resolve(), given.remote.resolve()
    for one in (program, remote):
        if not os.access(one, os.X_OK):
            sys.exit(f"there is no program {one}: `rt run` in crates/{one.name} builds it")
    with tempfile.TemporaryDirectory() as temporary:
        room = (given.keep or pathlib.Path(temporary) / "room").resolve()
        t = Tester(room, program, remote, given.only, given.jobs, bool(given.keep))
        began = time.time()
        for some in (try_ends, try_clones, try_fetches, try_haves, try_bodies, try_harm, try_ways, try_liars, try_plain, try_program,
                     try_seen, try_loss, try_caller):
            some(t)
        if has_loopback():
            try_web(t)
            try_relay(t, web_servers())
            try_web_loss(t, web_servers()[0])
            try_uris(t)
        t.finish(given.again)
        print(f"{t.passed} passed, {t.failed} failed", flush=True)
        print(f"{time.time() - began:.0f} s", file=sys.stderr)
        return 1 if t.failed else 0


if __name__ == "__main__":
    sys.exit(main())
