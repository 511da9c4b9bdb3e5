#!/usr/bin/env python3
"""Lists, clones and fetches from the servers of other clients' libraries, by git and by gixp::, and prints a table of the results.

Usage: peers_live.py [--remote PATH] [--program PATH] [--only WORD] [--jobs N]

The PATHs name the programs gixp_remote and gixp_fetch_pack. Without them the programs are those that `rt run` left in their crates' out/
folders. The servers are git's own, dulwich's, JGit's and go-git's, over a pipe in place of ssh, and over git:// if they can. Over HTTP of
version 0 they are git's own, by each web server of live_httpd.py, and dulwich's. A server that isn't installed is left out (Debian: python3-dulwich, jgit-cli with java, golang-github-go-git-go-git-dev with
golang-github-jessevdk-go-flags-dev and golang-go). git does each action on the same server. An entry of the table is

    yes       both succeeded and left the same refs, boundary and objects; for gixp_fetch_pack: a pack was received
    neither   both failed
    git       git succeeded, and gixp:: failed
    ours      gixp:: succeeded, and git failed
    differs   both succeeded and left something else

A line for each entry other than `yes` follows, with the output. The status is 1 if an entry is `git` or `differs`.
"""
import argparse
import concurrent.futures
import contextlib
import os
import pathlib
import shlex
import shutil
import subprocess
import sys
import tempfile

import live_harness
from live_harness import CRATE, REAL_SPEC, REMOTE, Tester, by_both, clone_both, grow, is_clean, make, state
from live_httpd import web_of, web_servers
from live_program import fetch_pack
from live_servers import ended_after, free_port, has_loopback, shell_ssh, wait_for_port

# a server over a pipe that doesn't end after git's last request is killed after so many seconds
PATIENCE = 45
JAVA = pathlib.Path("/usr/share/java")
JARS = ("org.eclipse.jgit.pgm", "org.eclipse.jgit.lfs", "org.eclipse.jgit", "org.eclipse.jgit.http.apache", "org.eclipse.jgit.ui", "args4j",
        "slf4j-api", "slf4j-nop", "httpclient", "httpcore")
# its command `daemon` can't find a repository: it joins a path of bytes to a path of text
DULWICH = """
import sys
from dulwich.repo import Repo
from dulwich.server import Backend, TCPGitServer
class Folders(Backend):
    def open_repository(self, path):
        return Repo(path.decode())
TCPGitServer(Folders(), "127.0.0.1", int(sys.argv[1])).serve_forever()
"""
DULWICH_WEB = """
import sys
from wsgiref.simple_server import make_server
from dulwich.repo import Repo
from dulwich.server import Backend
from dulwich.web import make_wsgi_chain
class Folders(Backend):
    def open_repository(self, path):
        return Repo(path)
make_server("127.0.0.1", int(sys.argv[1]), make_wsgi_chain(Folders())).serve_forever()
"""
GO_PACKAGES = pathlib.Path("/usr/share/gocode")
GO_GIT = "github.com/go-git/go-git/cli/go-git"


# Servers: the command over a pipe, and the command that listens at a port, if there is one; None if it isn't installed


def git_words(room):
    words = ["git", "daemon", "--listen=127.0.0.1", "--export-all", "--base-path=/", "--reuseaddr"]
    return ["git", "upload-pack"], lambda port: [*words, f"--port={port}", "/"]


def dulwich_words(room):
    if not shutil.which("dul-upload-pack"):
        return None
    return ["dul-upload-pack"], lambda port: ["/usr/bin/python3", "-c", DULWICH, str(port)]


def jgit_words(room):
    jars = [JAVA / f"{name}.jar" for name in JARS]
    if not shutil.which("java") or not jars[0].exists():
        return None
    main = ["java", "-cp", ":".join(map(str, jars)), "org.eclipse.jgit.pgm.Main"]
    return [*main, "upload-pack"], lambda port: [*main, "daemon", "--export-all", "--listen", "127.0.0.1", "--port", str(port), "/"]


def go_git_words(room):
    if not shutil.which("go") or not (GO_PACKAGES / "src" / GO_GIT).is_dir():
        return None
    variables = {**os.environ, "GO111MODULE": "off", "GOPATH": str(GO_PACKAGES), "GOFLAGS": "", "GOCACHE": str(room / "cache")}
    ran = subprocess.run(["go", "build", "-o", room / "go-git", GO_GIT], env=variables, capture_output=True, text=True)
    return None if ran.returncode else ([str(room / "go-git"), "upload-pack"], None)


PEERS = {"git": git_words, "dulwich": dulwich_words, "JGit": jgit_words, "go-git": go_git_words}


class Way:
    """One server over one transport. It listens if it has a command for that."""

    def __init__(self, name, pipe, listens=None):
        self.name, self.pipe, self.listens = name, pipe, listens

    @contextlib.contextmanager
    def urls(self, t, server):
        """The URLs of a repository, for git and for us, and the variables of both."""
        if self.listens:
            port = free_port()
            with ended_after(t.begin(*self.listens(port))) as begun:
                wait_for_port(port, begun)
                url = f"git://127.0.0.1:{port}{server}"
                yield (url, f"gixp::{url}"), {}
        else:
            text = f'for last; do :; done\neval "set -- $last"\nexec timeout {PATIENCE} {shlex.join(self.pipe)} "$2"'
            yield by_both(server), shell_ssh(t, text)


class WebWay:
    """A server over HTTP of version 0: git's own by a web server of this name, or dulwich's."""
    pipe, listens = None, True

    def __init__(self, web):
        self.web, self.name = web, f"{web}, HTTP"

    @contextlib.contextmanager
    def urls(self, t, server):
        """The URLs of a repository, for git and for us, and the variables of both."""
        with contextlib.ExitStack() as begun:
            if self.web == "dulwich":
                port = free_port()
                wait_for_port(port, begun.enter_context(ended_after(t.begin("/usr/bin/python3", "-c", DULWICH_WEB, port))))
                url = f"http://127.0.0.1:{port}{server}"
            else:
                url = f"{begun.enter_context(web_of(t, self.web, server.parent, PLAIN=1))}/{server.name}"
            yield (url, f"gixp::{url}"), {}


def web_ways(only):
    """All installed servers over HTTP."""
    names = [*web_servers(), *(["dulwich"] if shutil.which("dul-upload-pack") else [])] if has_loopback() else []
    return [WebWay(name) for name in names if f"{name}, HTTP" in only or not any(f"{other}, " in only for other in (*names, *PEERS))]


def ways_of(room, only):
    """All installed servers with their transports, without those that no picked action uses."""
    for name, words in PEERS.items():
        if name not in only and any(other in only for other in PEERS):
            continue
        if found := words(room):
            pipe, listens = found
            yield Way(f"{name}, a pipe", pipe)
            if listens and has_loopback():
                yield Way(f"{name}, git://", pipe, listens)
        else:
            print(f"{name} is not installed", flush=True)
    yield from web_ways(only)


# Actions: each returns the results of git and of the helper, and whether both left the same


def lists(t, server, urls, more):
    first, second = (t.run("git", "ls-remote", url, more=more) for url in urls)
    return first, second, sorted(first[1].splitlines()) == sorted(second[1].splitlines())


def is_same(t, by_git, by_us):
    return is_clean(t, by_us)[0] and state(t, by_git) == state(t, by_us)


def clones(*words):
    def action(t, server, urls, more):
        by_git, by_us, first, second = clone_both(t, server, *words, urls=urls, more=more)
        return first, second, first[0] or second[0] or is_same(t, by_git, by_us)
    return action


def fetches(*words, cloned=(), change=None):
    """A fetch into clones that git made of the server's files."""
    def action(t, server, urls, more):
        clients = [t.folder("client") for _ in urls]
        for client, url in zip(clients, urls):
            t.git("clone", "-q", *cloned, f"file://{server}", client)
            t.git("remote", "set-url", "origin", url, at=client)
        if change:
            change(t, server)
        first, second = (t.run("git", "fetch", "-q", *words, at=client, more=more) for client in clients)
        return first, second, first[0] or second[0] or is_same(t, *clients)
    return action


def hundred(t, server):
    grow(t, server, 100)


def three(t, server):
    grow(t, server, 3)


def rewritten(t, server):
    grow(t, server, 5, back=6)


def tagged(t, server):
    grow(t, server, 3)
    t.git("tag", "-a", "-m", "x", "new", "main~1", at=server)


ACTIONS = {
    "ls-remote": lists, "clone": clones(), "clone --mirror": clones("--mirror"), "clone --depth 1": clones("--depth", "1"),
    "clone --depth 3 --no-single-branch": clones("--depth", "3", "--no-single-branch"), "fetch, nothing new": fetches(),
    "fetch, 100 commits": fetches(change=hundred), "fetch, a rewritten branch": fetches(change=rewritten),
    "fetch, tags that follow": fetches(change=tagged), "fetch --tags": fetches("--tags", change=tagged),
    "fetch, new commits into a depth of 2": fetches(cloned=("--depth", "2"), change=hundred),
    "fetch --depth 5 of a depth of 2": fetches("--depth", "5", cloned=("--depth", "2"), change=three),
    "fetch --unshallow": fetches("--unshallow", cloned=("--depth", "2"), change=three),
}
ALONE = "the program alone"


def try_action(t, way, action):
    """An entry of the table, and the output."""
    server = make(t, "server", 300, merges=True, tags=True)
    # git 2.39 doesn't end if a server of version 0 has two symbolic refs, as dulwich's has
    t.git("symbolic-ref", "-d", "refs/heads/alias", at=server)
    if action == ALONE:
        status, out, err, room = fetch_pack(t, shlex.join([*way.pipe, str(server)]), specs=[REAL_SPEC, "refs/tags/*:refs/tags/*"])
        return ("yes", "") if status == 0 and (room / "pack").exists() else ("git", err)
    with way.urls(t, server) as (urls, more):
        first, second, is_equal = ACTIONS[action](t, server, urls, more)
    told = f"git {first[0]}: {first[2].strip()}; ours {second[0]}: {second[2].strip()}"
    if (first[0] == 0) != (second[0] == 0):
        return "ours" if first[0] else "git", told
    if first[0]:
        return "neither", told
    return ("yes", "") if is_equal else ("differs", told)


def place(room, given, number, way, action):
    t = Tester(room / f"{number}", given.program.resolve(), given.remote.resolve())
    try:
        return try_action(t, way, action)
    except (RuntimeError, OSError, LookupError) as e:
        return "git", f"{type(e).__name__}: {e}"


def show(ways, found):
    """Prints the table, and the output of each entry other than `yes`."""
    print("| | " + " | ".join(way.name for way in ways) + " |")
    print("|---" * (len(ways) + 1) + "|")
    for action in [action for action in (*ACTIONS, ALONE) if any(action == one for _, one in found)]:
        words = [found[way.name, action].result()[0] if (way.name, action) in found else "-" for way in ways]
        print(f"| {action} | " + " | ".join(words) + " |")
    for (name, action), done in found.items():
        word, told = done.result()
        if word != "yes":
            print(f"{word}: {name}: {action}: {' '.join(told.split())[:400]}")


def main():
    parser = argparse.ArgumentParser(description=__doc__.splitlines()[0])
    parser.add_argument("--program", type=pathlib.Path, default=CRATE / "out" / "gixp_fetch_pack")
    parser.add_argument("--remote", type=pathlib.Path, default=REMOTE / "out" / "gixp_remote")
    parser.add_argument("--only", default="", help="only entries with this text in their server and action, as `dulwich, a pipe: clone`")
    parser.add_argument("--jobs", type=int, default=os.cpu_count(), help="how many actions run at once")
    given = parser.parse_args()
    for one in (given.program, given.remote):
        if not os.access(one, os.X_OK):
            sys.exit(f"there is no program {one}: `rt run` in crates/{one.name} builds it")
    with tempfile.TemporaryDirectory() as temporary, concurrent.futures.ThreadPoolExecutor(given.jobs) as pool:
        room = pathlib.Path(temporary).resolve()
        live_harness.TIMEOUT = 3 * PATIENCE
        ways = list(ways_of(room, given.only))
        wanted = [(way, action) for way in ways for action in (*ACTIONS, ALONE) if given.only in f"{way.name}: {action}"]
        wanted = [(way, action) for way, action in wanted if action != ALONE or not way.listens]
        found = {(way.name, action): pool.submit(place, room, given, number, way, action) for number, (way, action) in enumerate(wanted)}
        show([way for way in ways if any(way is one for one, _ in wanted)], found)
        return 1 if any(done.result()[0] in ("git", "differs") for done in found.values()) else 0


if __name__ == "__main__":
    sys.exit(main())
