#!/usr/bin/env python3
"""Times `git clone` and `git fetch` through gixp_remote and git-remote-gixp against git's own, over pipes and over HTTP.

Usage: remote.py [--remote PATH] [--runs N] [--only WORD]

PATH is the built gixp_remote, by default the one that `rt run` left in crates/gixp_remote/out. git fetches over file://, which runs git
upload-pack over pipes, and so does the helper. Each action runs N times in turn, and the best time of each counts. A line has both times,
their ratio, and the highest ratio wanted. If GNU time is installed, one more run measures the memory of the program alone.

The actions: a clone of 2,000 commits, a fetch of the same with nothing new, a fetch of 100 commits into 200,000, a clone of 40,000 and one
of 70,000 refs, and a clone of a pack of 300 MiB; all into bare repositories. Over HTTP, by nginx, lighttpd or a server of our own,
whichever is installed: a clone of 2,000 commits, one without file contents, a fetch with nothing new, a clone of 50,000 refs, and one
of 300 MiB.

With a C compiler, the first three actions also run through `floor.c`, the least that a remote helper may do. It shows the cost of git's
interface for helpers alone. A program that can't start others needs a shell, and the shell may start a server only after it read the
user's settings. So there are two more floors: `shell` is bash that only becomes floor.c, and `settings` is bash that first has git list
the settings.
"""
import argparse
import os
import pathlib
import random
import shutil
import subprocess
import sys
import tempfile
import time

TOP = pathlib.Path(__file__).resolve().parent.parent
REMOTE = TOP / "crates" / "gixp_remote"
MIB = 1 << 20
sys.path.insert(0, str(TOP / "scripts"))

from live_httpd import web_of, web_servers  # noqa: E402


# The minimal helpers, by name.
FLOORS = {
    "floor": None,
    "shell": '#!/bin/bash\nexec git-remote-floor "$@"\n',
    "settings": '#!/bin/bash\ngit config --list --null > /dev/null && exec git-remote-floor "$@"\n',
}


def history(count, first, begin, parent=None):
    """Input for `git fast-import` with so many commits in a line."""
    text = []
    for number in range(first, first + count):
        text.append(f"commit refs/heads/main\nmark :{number}\ncommitter x <a@b> {begin + number} +0000\ndata 2\nc\n")
        if parent:
            text.append(f"from {parent}\n")
        text.append(f"M 100644 inline f{number % 7}\ndata <<END\n{number}\nEND\n\n")
        parent = f":{number}"
    return "".join(text).encode()


def blobs(count):
    """Input with so many incompressible files of a MiB."""
    source = random.Random(1)
    yield b"commit refs/heads/main\ncommitter x <a@b> 1700000000 +0000\ndata 2\nc\n"
    for number in range(count):
        yield f"M 100644 inline f{number}\ndata {MIB}\n".encode() + source.randbytes(MIB) + b"\n"


class Bench:
    def __init__(self, room, program, runs):
        self.room, self.program, self.runs = room, program, runs
        tools = room / "tools"
        tools.mkdir()
        shutil.copy(REMOTE / "git-remote-gixp", tools)
        self.memory, self.measured = room / "memory", tools / "measured"
        self.measured.write_text(f'#!/bin/sh\nexec time -a -o "{self.memory}" -f %M "{program}" "$@"\n')
        self.measured.chmod(0o755)
        self.environment = {
            **{name: value for name, value in os.environ.items() if not name.startswith("GIT_")},
            "PATH": f"{tools}:{os.environ['PATH']}", "HOME": str(room), "TMPDIR": str(room), "GIT_CONFIG_NOSYSTEM": "1",
            "GIXP_REMOTE": str(program), "LC_ALL": "C",
        }
        for setting in ("gc.auto 0", "maintenance.auto false", "init.defaultBranch main"):
            self.git("config", "--global", *setting.split())
        self.has_floor = bool(shutil.which("cc"))
        if self.has_floor:
            subprocess.run(["cc", "-O2", "-o", tools / "git-remote-floor", TOP / "bench" / "floor.c"], check=True)
        for kind, text in FLOORS.items():
            if text and self.has_floor:
                (tools / f"git-remote-{kind}").write_text(text)
                (tools / f"git-remote-{kind}").chmod(0o755)

    # How web servers start

    def begin(self, *words, more=None, stderr=subprocess.DEVNULL):
        streams = {"stdin": subprocess.DEVNULL, "stdout": subprocess.DEVNULL, "stderr": stderr}
        environment = {**self.environment, **(more or {})}
        return subprocess.Popen([str(word) for word in words], env=environment, cwd=self.room, start_new_session=True, **streams)

    def folder(self, name):
        return self.room / name

    # Repositories, and their URLs for git and for the helper

    def git(self, *words, at=None, more=None):
        environment = {**self.environment, **(more or {})}
        subprocess.run(["git", *map(str, words)], check=True, cwd=at or self.room, env=environment, stdout=subprocess.DEVNULL)

    def load(self, folder, texts):
        words = ["git", "fast-import", "--quiet", "--date-format=raw"]
        imported = subprocess.Popen(words, cwd=folder, env=self.environment, stdin=subprocess.PIPE)
        for text in texts:
            imported.stdin.write(text)
        imported.stdin.close()
        if imported.wait():
            sys.exit("git fast-import failed")

    def repository(self, name, texts):
        folder = self.room / name
        self.git("init", "-q", "--bare", folder)
        self.load(folder, texts)
        self.git("repack", "-q", "-a", "-d", at=folder)
        return folder

    def by_path(self, server, floor=False):
        urls = {"git": f"file://{server}", "ours": f"gixp::{server}"}
        return {**urls, **{kind: f"{kind}::{server}" for kind in FLOORS}} if floor and self.has_floor else urls

    # Comparison

    def compare(self, name, target, kinds, prepare, words):
        """Times git, the helper and the floors in turn, and prints the best time of each."""
        best = dict.fromkeys(kinds, float("inf"))
        for _ in range(self.runs):
            for kind in kinds:
                at, start = prepare(kind), time.perf_counter()
                self.git(*words(kind), at=at)
                best[kind] = min(best[kind], time.perf_counter() - start)
        memory = "not measured"
        if shutil.which("time"):
            self.memory.write_text("")
            self.git(*words("ours"), at=prepare("ours"), more={"GIXP_REMOTE": str(self.measured)})
            memory = f"{max(map(int, self.memory.read_text().split()))} KiB"
        git, ours = best["git"], best["ours"]
        times = f"git {git:.4f} s, ours {ours:.4f} s, ratio {ours / git:.2f}, at most {target}"
        floors = "".join(f"; {kind} {best[kind]:.4f} s, ratio {best[kind] / git:.2f}" for kind in FLOORS if kind in best)
        print(f"{name}: {times}{floors}; memory of the program {memory}", flush=True)

    def clone(self, name, target, urls, *more):
        """Clones of a server, each into a new folder."""
        def prepare(kind):
            shutil.rmtree(self.room / "clone", ignore_errors=True)

        self.compare(name, target, urls, prepare, lambda kind: ["clone", "-q", "--bare", *more, urls[kind], "clone"])
        shutil.rmtree(self.room / "clone")

    def fetch(self, name, target, urls, server, change):
        """Fetches into copies of clones, after a change of the server."""
        clients = {}
        for kind, url in urls.items():
            clients[kind] = self.room / f"client-{kind}"
            self.git("clone", "-q", "--bare", f"file://{server}", clients[kind])
            self.git("config", "remote.origin.url", url, at=clients[kind])
            self.git("config", "remote.origin.fetch", "+refs/heads/*:refs/heads/*", at=clients[kind])
        change(server)

        def prepare(kind):
            copy = self.room / "copy"
            shutil.rmtree(copy, ignore_errors=True)
            subprocess.run(["cp", "-a", "-l", clients[kind], copy], check=True)
            return copy

        self.compare(name, target, urls, prepare, lambda kind: ["fetch", "-q"])
        for folder in (*clients.values(), self.room / "copy"):
            shutil.rmtree(folder)

    # Actions

    def small(self):
        server = self.repository("small", [history(2000, 1, 1_500_000_000)])
        self.clone("a clone of 2,000 commits", 1.2, self.by_path(server, floor=True))

    def nothing(self):
        server = self.repository("same", [history(2000, 1, 1_500_000_000)])
        self.fetch("a fetch with nothing new", 1.2, self.by_path(server, floor=True), server, lambda server: None)

    def commits(self):
        server = self.repository("long", [history(200_000, 1, 1_500_000_000)])
        more = history(100, 300_000, 1_500_000_000, "refs/heads/main^0")
        urls = self.by_path(server, floor=True)
        self.fetch("a fetch of 100 commits into 200,000", 1.2, urls, server, lambda server: self.load(server, [more]))
        shutil.rmtree(server)

    def many_refs(self, count):
        server = self.repository(f"refs-{count}", [history(400, 1, 1_500_000_000)])
        told = subprocess.run(["git", "rev-list", "main"], cwd=server, env=self.environment, check=True, capture_output=True, text=True)
        ids = told.stdout.split()
        names = sorted(f"refs/heads/branch-{number:06d}" for number in range(count))
        lines = [f"{ids[number % len(ids)]} {name}\n" for number, name in enumerate(names)]
        head, main = "# pack-refs with: peeled fully-peeled sorted \n", f"{ids[0]} refs/heads/main\n"
        (server / "packed-refs").write_text(head + "".join(lines) + main)
        return server

    def refs(self, count):
        self.clone(f"a clone of {count:,} refs", 1.5, self.by_path(self.many_refs(count)))

    def large(self):
        self.clone("a clone of 300 MiB", 1.05, self.by_path(self.repository("large", blobs(300))))

    def web(self, action, **wish):
        """An action over HTTP with a repository of its own."""
        with web_of(self, web_servers()[0], self.room, **wish) as front:
            action(lambda server: {"git": f"{front}/{server.name}", "ours": f"gixp::{front}/{server.name}"})
        shutil.rmtree(self.room / "web")

    def web_small(self, urls):
        self.clone("HTTP: a clone of 2,000 commits", 1.2, urls(self.repository("web-small", [history(2000, 1, 1_500_000_000)])))

    def web_partial(self, urls):
        server = self.repository("web-partial", [history(2000, 1, 1_500_000_000)])
        self.git("config", "uploadpack.allowFilter", "true", at=server)
        self.clone("HTTP: a clone of 2,000 commits without file contents", 1.2, urls(server), "--filter=blob:none")

    def web_nothing(self, urls):
        server = self.repository("web-same", [history(2000, 1, 1_500_000_000)])
        self.fetch("HTTP: a fetch with nothing new", 1.2, urls(server), server, lambda server: None)

    def web_refs(self, urls):
        self.clone("HTTP: a clone of 50,000 refs", 1.5, urls(self.many_refs(50_000)))

    def web_large(self, urls):
        self.clone("HTTP: a clone of 300 MiB", 1.05, urls(self.repository("web-large", blobs(300))))

    def version_0(self, urls):
        server = self.repository("web-old", [history(2000, 1, 1_500_000_000)])
        self.clone("HTTP of version 0: a clone of 2,000 commits", 1.2, urls(server))
        self.fetch("HTTP of version 0: a fetch with nothing new", 1.5, urls(server), server, lambda server: None)
        more = history(100, 300_000, 1_500_000_000, "refs/heads/main^0")
        self.fetch("HTTP of version 0: a fetch of 100 commits", 1.2, urls(server), server, lambda server: self.load(server, [more]))

    def plain_files(self, urls):
        server = self.repository("web-files", [history(2000, 1, 1_500_000_000)])
        self.git("update-server-info", at=server)
        self.clone("HTTP, plain files: a clone of 2,000 commits", 1.2, urls(server))


def main():
    parser = argparse.ArgumentParser(description=__doc__.splitlines()[0])
    parser.add_argument("--remote", type=pathlib.Path, default=REMOTE / "out" / "gixp_remote", help="the program")
    parser.add_argument("--runs", type=int, default=5, help="how many times each runs; the best time counts")
    parser.add_argument("--only", default="", help="only actions with this word in their names")
    given = parser.parse_args()
    program = given.remote.resolve()
    if not os.access(program, os.X_OK):
        sys.exit(f"there is no program {program}: `rt run` in crates/gixp_remote builds it")
    with tempfile.TemporaryDirectory() as room:
        bench = Bench(pathlib.Path(room), program, given.runs)
        for name, action in (
            ("a clone of 2,000 commits", bench.small), ("a fetch with nothing new", bench.nothing),
            ("a fetch of 100 commits into 200,000", bench.commits), ("a clone of 40,000 refs", lambda: bench.refs(40_000)),
            ("a clone of 70,000 refs", lambda: bench.refs(70_000)), ("a clone of 300 MiB", bench.large),
            ("HTTP: small", lambda: bench.web(bench.web_small)), ("HTTP: partial", lambda: bench.web(bench.web_partial)),
            ("HTTP: nothing new", lambda: bench.web(bench.web_nothing)), ("HTTP: refs", lambda: bench.web(bench.web_refs)),
            ("HTTP: 300 MiB", lambda: bench.web(bench.web_large)),
            ("HTTP: version 0", lambda: bench.web(bench.version_0, PLAIN=1)),
            ("HTTP: plain files", lambda: bench.web(bench.plain_files, FILES=1)),
        ):
            if given.only in name:
                action()


if __name__ == "__main__":
    main()
