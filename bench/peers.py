#!/usr/bin/env python3
"""Times the listing of refs by `gixp_fetch_pack --list`, compared with other git clients, on the same bytes of a server.

Usage: peers.py [--refs N] [--runs N] PROGRAM [PEER ..]

PROGRAM is the built gixp_fetch_pack (`rt run` in crates/gixp_fetch_pack leaves it in out/). A PEER is git, libgit2, dulwich or go-git;
without any all of them run. A client that isn't installed is left out (Debian: libgit2-dev and pkg-config, python3-dulwich,
golang-github-go-git-go-git-dev and golang-go). Their programs are in peers/. The script serves N refs (default 200,000) and a symbolic HEAD
over git:// on loopback, the same bytes to all: under version 0, which all speak, and under version 2 for git and gixp_fetch_pack. Each
prints ids and names. These must be equal; the script prints a difference. Each runs RUNS times (default 3) in turn. The least processor
time of the client alone counts, user and system. GNU time measures its memory.
"""
import argparse
import hashlib
import os
import pathlib
import shutil
import socket
import subprocess
import sys
import tempfile
import threading

PEERS = pathlib.Path(__file__).resolve().parent / "peers"
SYSTEM_PYTHON = "/usr/bin/python3"
GO_PACKAGES = "/usr/share/gocode"
AGENT = "agent=git/2.39.5"
FEATURES = f"multi_ack side-band-64k ofs-delta symref=HEAD:refs/heads/topic-0000000 object-format=sha1 {AGENT}"
CAPABILITIES = ["version 2", AGENT, "ls-refs=unborn", "fetch=shallow", "object-format=sha1"]
OURS = "gixp_fetch_pack"


def packet(text):
    line = text + "\n"
    return f"{len(line) + 4:04x}{line}"


def object_id(number):
    return hashlib.sha1(str(number).encode()).hexdigest()


def refs(count):
    """The id, the name and the peeled id of each ref."""
    branches = count - count // 4
    yield object_id(0), "HEAD", None
    for number in range(branches):
        yield object_id(number), f"refs/heads/topic-{number:07}", None
    for number in range(count // 4):
        yield object_id(-number - 1), f"refs/tags/v{number:07}", object_id(number)


def answers(count):
    """The output of the server under each version, in pieces. It reads a request before each piece but the first."""
    zero, two = [], []
    for object, name, peeled in refs(count):
        zero.append(packet(f"{object} {name}\0{FEATURES}" if name == "HEAD" else f"{object} {name}"))
        target = " symref-target:refs/heads/topic-0000000" if name == "HEAD" else ""
        two.append(packet(f"{object} {name}{target}" + (f" peeled:{peeled}" if peeled else "")))
        if peeled:
            zero.append(packet(f"{peeled} {name}^{{}}"))
    advertisement = [*map(packet, CAPABILITIES), "0000"]
    pieces = {"0": [zero + ["0000"]], "2": [advertisement, two + ["0000"]]}
    return {version: ["".join(piece).encode() for piece in said] for version, said in pieces.items()}


class Server:
    """Listens on loopback. The path of the first request is the version to speak."""

    def __init__(self, said):
        self.said = said
        self.listener = socket.create_server(("127.0.0.1", 0))
        self.port = self.listener.getsockname()[1]
        threading.Thread(target=self.serve, daemon=True).start()

    def serve(self):
        while True:
            with self.listener.accept()[0] as client, client.makefile("rb") as heard:
                try:
                    self.answer(client, heard)
                except (OSError, ValueError) as error:
                    print(f"a client disconnected: {error}", file=sys.stderr)

    def answer(self, client, heard):
        opening = heard.read(int(heard.read(4), 16) - 4)
        version = opening.split(b"\0")[0].split(b"/")[-1].decode()
        first, *others = self.said[version]
        client.sendall(first)
        for piece in others:
            while (size := int(heard.read(4), 16)) != 0:
                heard.read(max(size - 4, 0))
            client.sendall(piece)
        while heard.read1():
            pass


class Listing:
    """A client that lists the refs: its command, made of a version, a URL and a file for the list of gixp_fetch_pack, and the versions
    that it speaks. gixp_fetch_pack gets the connection as its standard streams."""

    def __init__(self, words, versions=("0",), is_connected=False):
        self.words, self.versions, self.is_connected = words, versions, is_connected


def by_git(folder):
    if not shutil.which("git"):
        return None
    return Listing(lambda version, url, out: ["git", "-c", f"protocol.version={version}", "ls-remote", url], versions=("0", "2"))


def by_libgit2(folder):
    if not (shutil.which("cc") and shutil.which("pkg-config")):
        return None
    flags = subprocess.run(["pkg-config", "--cflags", "--libs", "libgit2"], capture_output=True, text=True)
    if flags.returncode:
        return None
    built = f"{folder}/libgit2"
    subprocess.run(["cc", "-O2", "-o", built, PEERS / "libgit2.c", *flags.stdout.split()], check=True)
    return Listing(lambda version, url, out: [built, url])


def by_dulwich(folder):
    if not os.path.exists(SYSTEM_PYTHON) or subprocess.run([SYSTEM_PYTHON, "-c", "import dulwich"], capture_output=True).returncode:
        return None
    return Listing(lambda version, url, out: [SYSTEM_PYTHON, str(PEERS / "list_dulwich.py"), url])


def by_go_git(folder):
    if not (shutil.which("go") and os.path.isdir(f"{GO_PACKAGES}/src/github.com/go-git/go-git")):
        return None
    built = f"{folder}/go-git"
    environment = dict(os.environ, GO111MODULE="off", GOPATH=GO_PACKAGES, GOFLAGS="")
    subprocess.run(["go", "build", "-o", built, PEERS / "go-git.go"], check=True, env=environment)
    return Listing(lambda version, url, out: [built, url])


KINDS = {"git": by_git, "libgit2": by_libgit2, "dulwich": by_dulwich, "go-git": by_go_git}


def by_us(program):
    def words(version, url, out):
        return [program, "--list", "--version", version, "--path", f"/{version}", "--host", "127.0.0.1", "--report", out, "-", "-"]

    return Listing(words, versions=("0", "2"), is_connected=True)


class Bench:
    def __init__(self, folder, server, clients, runs):
        self.folder, self.server, self.clients, self.runs = folder, server, clients, runs
        self.environment = dict(os.environ, HOME=str(folder), GIT_CONFIG_NOSYSTEM="1", GIT_TRACE="0")

    def run(self, client, version, out):
        """The processor time in seconds, and the peak memory in KiB, of one run that writes its list to OUT.

        The peak memory of a child counts the pages of this script, since it begins as a copy of it. A child of the small GNU time
        doesn't have these.
        """
        memory = self.folder / "memory"
        url = f"git://127.0.0.1:{self.server.port}/{version}"
        words = ["time", "-o", str(memory), "-f", "%M", *client.words(version, url, str(out))]
        with open(out, "wb") as listed:
            if client.is_connected:
                with socket.create_connection(("127.0.0.1", self.server.port)) as connection:
                    child = subprocess.Popen(words, cwd=self.folder, env=self.environment, stdin=connection, stdout=connection)
            else:
                child = subprocess.Popen(words, cwd=self.folder, env=self.environment, stdin=subprocess.DEVNULL, stdout=listed)
            _, status, used = os.wait4(child.pid, 0)
        child.returncode = os.waitstatus_to_exitcode(status)
        if child.returncode:
            sys.exit(f"{words[5]} ended with {child.returncode}")
        return used.ru_utime + used.ru_stime, int(memory.read_text())

    def listed(self, client, version):
        """The ids and names in the output of a client, in order."""
        out = self.folder / "listed"
        self.run(client, version, out)
        return sorted(line for line in out.read_text().splitlines() if not line.startswith("ref: "))

    def tell_differences(self, version, names):
        ours = self.listed(self.clients[OURS], version)
        for name in names:
            theirs = self.listed(self.clients[name], version)
            if theirs != ours:
                missing, added = sorted(set(ours) - set(theirs)), sorted(set(theirs) - set(ours))
                print(f"{name} prints {len(theirs)} lines and gixp_fetch_pack {len(ours)}: not {missing[:1]}, but {added[:1]}")

    def compare(self, version, count):
        names = [name for name, client in self.clients.items() if version in client.versions]
        if names == [OURS]:
            return
        self.tell_differences(version, names[1:])
        best = {name: (float("inf"), 0) for name in names}
        for _ in range(self.runs):
            for name in names:
                seconds, memory = self.run(self.clients[name], version, "/dev/null")
                best[name] = (min(best[name][0], seconds), max(best[name][1], memory))
        size = sum(map(len, self.server.said[version]))
        print(f"version {version}: {count} refs, {size} bytes, best of {self.runs} runs each, load {os.getloadavg()[0]:.1f}")
        for name, (seconds, memory) in best.items():
            print(f"{name}: {seconds:.3f} s of processor time, at most {memory} KiB, {memory * 1024 / count:.0f} bytes a ref")
        seconds, memory = best[OURS]
        for name in names[1:]:
            print(f"{OURS} / {name}: {seconds / best[name][0]:.3f} of its time, {memory / best[name][1]:.3f} of its memory")


def main():
    parser = argparse.ArgumentParser(description=__doc__.splitlines()[0])
    parser.add_argument("--refs", type=int, default=200_000)
    parser.add_argument("--runs", type=int, default=3)
    parser.add_argument("program")
    parser.add_argument("peers", nargs="*", metavar="peer", help=", ".join(KINDS))
    wish = parser.parse_args()
    with tempfile.TemporaryDirectory() as folder:
        clients = {OURS: by_us(os.path.abspath(wish.program))}
        for name in wish.peers or KINDS:
            if name not in KINDS:
                parser.error(f"there is no peer {name}")
            client = KINDS[name](folder)
            if client:
                clients[name] = client
            else:
                print(f"{name} is not installed and is left out")
        bench = Bench(pathlib.Path(folder), Server(answers(wish.refs)), clients, wish.runs)
        for version in ("0", "2"):
            bench.compare(version, wish.refs + 1)


main()
