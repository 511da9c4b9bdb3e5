#!/usr/bin/env python3
"""Tests the dialogue of gixp_remote with git and the shell, without any other process.

Usage: dialogue.py [--remote PATH] [--only WORD] [FILE..]

PATH is the program gixp_remote, by default the one that `rt run` left in crates/gixp_remote/out. The FILEs have test vectors, by default
those of scripts/dialogue. The program runs in a folder with two pipes. Plain files stand for the other pipes, so a server's output exists
before the server is started. A test vector names a pipe by its purpose instead of its number: server-in, server-out, answer, refs,
commits, pack-in, pack-out. Each test vector also checks the watcher: the program must tell it to watch before the first request other
than for the settings, and to rest before it replies to git, and at the end of a session with a web server.

crates/gixp_remote/README.md describes the requests, gitremote-helpers(7) git's commands. The expected lines come from these two and from
git's own documents, never from the program's output. The lines of a test vector are executed in order:

    vector NAME         begins a test vector
    part NAME           begins lines that `use NAME` inserts
    url URL             the server's URL; default `/srv/x`
    name NAME           the remote's name; default `origin`
    set NAME=VALUE      a variable of the program's environment
    setting NAME=VALUE  a setting that `git config --list` prints; `setting NAME` has no value
    terminal NAME       standard error is a terminal of this name
    bare                the test vector itself answers the question for the settings; else it is answered at any time
    startup TEXT        all of the startup input, in place of the name, the URL and the settings
    > LINE              git writes a line
    >> TEXT             git writes bytes without a line end
    end                 git closes its pipe, as at the end of each test vector
    < LINE              the program must reply this line to git
    ? REQUEST           the program must send this request to the shell: its first line, and after each ` | ` a further line:
                        `=NAME=VALUE` for a variable, `=@local` for those of `git rev-parse --local-env-vars`, `=@question` for a question's
    | MORE              continues a request or a text
    ! ANSWER            the shell's answer, if it isn't 0; `! end`: the shell has ended
    sends LINE          a packet line of the server that is started next; 0000, 0001 and 0002 are themselves; `pack NUMBER` is the
                        header and the trailer of a pack with so many objects (default 1)
    sends! TEXT         bytes of that server
    received LINE       a packet line that the server must have received; if any is named, all must be, in order
    received! TEXT      bytes that the server must have received before these
    file NAME TEXT      writes a file
    contains NAME TEXT  a file must have this content; `contains NAME`: the file must be missing
    status NUMBER       the program's status, if it isn't 0
    error TEXT          a part of a line of standard error; if any is named, all must be, in order; `error` alone is any line

In a TEXT and a LINE \\n, \\t, \\0, \\\\ and \\xHH stand for bytes, and @room for the folder. Prints a line for each failed test vector,
and `N passed, M failed`. The status is 1 if one failed.
"""
import argparse
import hashlib
import os
import pathlib
import re
import select
import subprocess
import sys
import tempfile
import time

TOP = pathlib.Path(__file__).resolve().parent.parent
REMOTE = TOP / "crates" / "gixp_remote"
VECTORS = TOP / "scripts" / "dialogue"
LOCAL = """GIT_ALTERNATE_OBJECT_DIRECTORIES GIT_CONFIG GIT_CONFIG_PARAMETERS GIT_CONFIG_COUNT GIT_OBJECT_DIRECTORY GIT_DIR GIT_WORK_TREE
GIT_IMPLICIT_WORK_TREE GIT_GRAFT_FILE GIT_INDEX_FILE GIT_NO_REPLACE_OBJECTS GIT_REPLACE_REF_BASE GIT_PREFIX GIT_INTERNAL_SUPER_PREFIX
GIT_SHALLOW_FILE GIT_COMMON_DIR""".split()
SHORT = {b"=@local": LOCAL, b"=@question": ("GIT_NO_LAZY_FETCH=1", "GIXP_WITHIN=question")}
MARK = "gixp.test"
# The files of the shell that the program opens, by their purpose.
STARTUP = "9"
PIPES = {"server-in": "20", "server-out": "21", "answer": "22", "refs": "23", "commits": "24", "pack-in": "25", "pack-out": "26"}
WATCHER, WATCHES = "27", (b"rest", b"watch")
WAIT = 60
ESCAPE = re.compile(rb"\\(x[0-9a-fA-F]{2}|.)")
NAMED = {b"n": b"\n", b"t": b"\t", b"0": b"\0", b"\\": b"\\"}
SETTINGS = b"16\nstatus settings\n"
# The request at the end of a fetch, and at the end of a session with a web server, when git no longer waits.
LAST = b"14\nstatus server\n"
SPECIAL = {b"0000", b"0001", b"0002"}


class Wrong(Exception):
    """Why a test vector failed."""


def packet(payload):
    return f"{len(payload) + 4:04x}".encode() + payload


def pack_of(count):
    """The header and the trailer of a pack with so many objects, in band 1."""
    head = b"PACK\0\0\0\2" + count.to_bytes(4, "big")
    return packet(b"\1" + head + hashlib.sha1(head).digest())


def packets_of(text):
    """The packet lines of a text, without their line ends."""
    found, at = [], 0
    while at < len(text):
        size = text[at:at + 4]
        length = 4 if size in SPECIAL else int(size, 16)
        found.append(size if size in SPECIAL else text[at + 4:at + length].removesuffix(b"\n"))
        at += length
    return found


def vectors_of(path):
    """The test vectors of a file: their names, and their lines as a number, a word and the rest."""
    vectors, parts = [], {}
    for number, line in enumerate(path.read_bytes().split(b"\n"), 1):
        word, _, rest = line.partition(b" ")
        if word in (b"vector", b"part"):
            lines = []
            if word == b"vector":
                vectors.append((rest.decode(), lines))
            parts[rest] = lines
        elif word == b"use":
            lines += [(number, *one[1:]) for one in parts[rest]]
        elif word == b"|":
            of, kind, text = lines[-1]
            lines[-1] = (of, kind, text + (b" | " if kind == "?" else b"") + rest)
        elif line and not line.startswith(b"#"):
            lines.append((number, word.decode(), rest))
    return vectors


class TestVector:
    """One test vector, and the program under test."""

    def __init__(self, room, program, lines):
        self.room, self.program, self.lines = room, program, lines
        self.replies, self.requests, self.errors, self.received = b"", b"", [], []
        self.sends, self.first_received, self.status, self.waits, self.begun, self.rested = b"", b"", 0, False, None, 0
        self.fetches = False
        for name in (*PIPES, WATCHER):
            self.path(name).write_bytes(b"")
        for name in ("requests", "answers"):
            os.mkfifo(room / name)
        # both ends stay open, so that no open waits
        self.asked, self.answers = (os.open(room / name, os.O_RDWR) for name in ("requests", "answers"))

    def text(self, given):
        """A text without its escapes."""
        read = ESCAPE.sub(lambda m: NAMED.get(m[1]) or bytes([int(m[1][1:], 16)]), given)
        return read.replace(b"@room", str(self.room).encode())

    def path(self, name):
        """The path of a file, or of a pipe by its purpose."""
        return self.room / PIPES.get(name, name)

    def begin(self):
        """Starts the program with the variables and settings of the lines."""
        given = {"url": [b"/srv/x"], "name": [b"origin"], "terminal": [b""], "set": [], "setting": []}
        for _, word, rest in self.lines:
            given.setdefault(word, []).append(self.text(rest))
        variables = {b"PATH": os.environb[b"PATH"], **dict(one.split(b"=", 1) for one in given["set"])}
        settings = [one.replace(b"=", b"\n", 1) for one in given["setting"]]
        startup = b"".join(field + b"\0" for field in (given["name"][-1], given["url"][-1], *settings))
        (self.room / STARTUP).write_bytes(given.get("startup", [startup])[-1])
        self.begun = subprocess.Popen(
            [self.program, MARK, given["terminal"][-1], "requests", "answers"], cwd=self.room, env=variables, stdin=subprocess.PIPE,
            stdout=subprocess.PIPE, stderr=(self.room / "errors").open("wb"))
        self.has_settings = "bare" in given

    # Waiting

    def fill(self, is_reply):
        """Waits for output to git or the shell. Returns whether the awaited kind came before the other kind and the end."""
        pipe, until = self.begun.stdout.fileno(), time.monotonic() + WAIT
        while time.monotonic() < until:
            ready = select.select([self.asked, pipe], [], [], 0.1)[0]
            asked = os.read(self.asked, 1 << 16) if self.asked in ready else b""
            replied = os.read(pipe, 1 << 16) if pipe in ready else b""
            self.requests, self.replies = self.requests + asked, self.replies + replied
            if not self.has_settings and self.requests == SETTINGS:
                self.requests, self.has_settings = b"", True
                self.answer(b"0")
            elif ready:
                return bool(replied if is_reply else asked)
        raise Wrong(f"the program wrote nothing for {WAIT} s")

    def look_at_watcher(self, rests):
        """Checks that the watcher rests, or that it watches since the last reply to git."""
        lines = self.path(WATCHER).read_bytes().splitlines()
        if lines != [WATCHES[at % 2] for at in range(1, len(lines) + 1)] or (len(lines) % 2 if rests else len(lines) <= self.rested):
            raise Wrong(f"the watcher received {lines}")
        self.rested = len(lines) if rests else self.rested

    def reply(self, wanted):
        """Takes a line of the replies to git."""
        self.settle()
        while b"\n" not in self.replies and self.fill(True):
            pass
        line, end, self.replies = self.replies.partition(b"\n")
        if line != wanted or not end:
            raise Wrong(f"the reply to git is {line + end!r}, expected {wanted!r}; requests to the shell: {self.requests!r}")
        self.look_at_watcher(True)
        self.fetches = False

    def request(self, wanted):
        """Takes a request. Its answer follows later."""
        self.settle()
        text = self.request_text(wanted)
        while not self.is_whole() and self.fill(False):
            pass
        found, self.requests = self.requests[:len(text)], self.requests[len(text):]
        if found != text:
            raise Wrong(f"the request to the shell is {found!r}, expected {text!r}; replies to git: {self.replies!r}")
        if found != SETTINGS:
            self.look_at_watcher(found == LAST and not self.fetches)
        if wanted.startswith(b"start server "):
            for name, content in (("server-in", b""), ("server-out", self.sends)):
                self.path(name).unlink()
                self.path(name).write_bytes(content)
            self.sends = b""
        self.waits = True

    def is_whole(self):
        """Whether a request is complete: a line with its size, and so many bytes."""
        size, end, lines = self.requests.partition(b"\n")
        return end and len(lines) >= int(size)

    def request_text(self, wanted):
        first, *more = wanted.split(b" | ")
        verb, *names = self.text(first).decode().split(" ")
        lines = [" ".join([verb, *names[:2], *(PIPES.get(name, name) for name in names[2:])]).encode()]
        for one in more:
            if one in SHORT:
                lines += [b"=" + name.encode() for name in SHORT[one]]
            else:
                lines.append((b"" if one.startswith(b"=") else b" ") + one.replace(b"@room", str(self.room).encode()))
        text = b"\n".join(lines) + b"\n"
        return str(len(text)).encode() + b"\n" + text

    def answer(self, given):
        if given == b"end":
            os.close(self.answers)
            self.answers = None
        else:
            os.write(self.answers, self.text(given) + b"\n")
        self.waits = False

    def settle(self):
        """Answers the last request, if the test vector doesn't."""
        if self.waits:
            self.answer(b"0")

    # The lines of a test vector

    def act(self, word, rest):
        if word in (">", ">>"):
            self.settle()
            self.begun.stdin.write(self.text(rest) + (b"\n" if word == ">" else b""))
            self.begun.stdin.flush()
            self.fetches = self.fetches or rest.startswith(b"fetch ")
        elif word == "<":
            self.reply(self.text(rest))
        elif word == "?":
            self.request(rest)
        elif word == "!":
            self.answer(rest)
        elif word == "end":
            self.settle()
            self.begun.stdin.close()
        elif word == "sends":
            kind, _, count = rest.partition(b" ")
            if kind == b"pack":
                self.sends += pack_of(int(count or 1))
            else:
                self.sends += rest if rest in SPECIAL else packet(self.text(rest) + b"\n")
        elif word == "sends!":
            self.sends += self.text(rest)
        elif word == "file":
            self.write(*rest.split(b" ", 1))
        elif word == "contains":
            self.look(*rest.split(b" ", 1))
        elif word == "received":
            self.received.append(self.text(rest))
        elif word == "received!":
            self.first_received += self.text(rest)
        elif word == "error":
            self.errors.append(self.text(rest))
        elif word == "status":
            self.status = int(rest)
        elif word not in ("url", "name", "set", "setting", "terminal", "bare", "startup"):
            raise Wrong(f"unknown word: {word}")

    def write(self, name, text=b""):
        path = self.path(name.decode())
        path.parent.mkdir(parents=True, exist_ok=True)
        path.write_bytes(self.text(text))

    def look(self, name, text=None):
        path, wanted = self.path(name.decode()), text and self.text(text)
        found = path.read_bytes() if path.exists() else None
        if found != wanted:
            raise Wrong(f"{path.name} contains {found!r}, expected {wanted!r}")

    def finish(self):
        """Checks the program's status, and that it wrote nothing more."""
        self.settle()
        if not self.begun.stdin.closed:
            self.begun.stdin.close()
        while not self.has_settings and self.fill(False):
            pass
        try:
            status = self.begun.wait(WAIT)
        except subprocess.TimeoutExpired:
            ready = select.select([self.asked], [], [], 0)[0]
            left = self.requests + (os.read(self.asked, 1 << 16) if ready else b"")
            raise Wrong(f"the program doesn't end; requests to the shell: {left!r}") from None
        self.replies += self.begun.stdout.read()
        errors = (self.room / "errors").read_bytes().splitlines()
        if self.replies or self.requests:
            raise Wrong(f"the program wrote more: replies to git {self.replies!r}, requests to the shell {self.requests!r}")
        if status != self.status:
            raise Wrong(f"status {status}: {errors}")
        if len(errors) != len(self.errors) or not all(part in line for part, line in zip(self.errors, errors)):
            raise Wrong(f"standard error has {errors}, expected {self.errors}")
        written = self.path("server-in").read_bytes()
        if not written.startswith(self.first_received):
            raise Wrong(f"the server received {written}")
        if self.received and (received := packets_of(written.removeprefix(self.first_received))) != self.received:
            raise Wrong(f"the server received {received}")

    def close(self):
        if self.begun and self.begun.poll() is None:
            self.begun.kill()
        if self.begun:
            self.begun.wait()
        for pipe in filter(None, (self.asked, self.answers)):
            os.close(pipe)


def try_vector(program, lines):
    """Why a test vector fails, or None."""
    with tempfile.TemporaryDirectory() as temporary:
        vector, at = TestVector(pathlib.Path(temporary).resolve(), program, lines), 0
        try:
            vector.begin()
            for at, word, rest in lines:
                vector.act(word, rest)
            vector.finish()
        except (Wrong, OSError) as e:
            said = (vector.room / "errors").read_bytes() if vector.begun else b""
            return f"line {at}: {e}; standard error {said!r}"
        finally:
            vector.close()


def main():
    parser = argparse.ArgumentParser(description=__doc__.splitlines()[0])
    parser.add_argument("--remote", type=pathlib.Path, default=REMOTE / "out" / "gixp_remote")
    parser.add_argument("--only", default="", help="only test vectors with this word in their names")
    parser.add_argument("files", metavar="FILE", type=pathlib.Path, nargs="*")
    given = parser.parse_args()
    program, passed, failed = given.remote.resolve(), 0, 0
    if not os.access(program, os.X_OK):
        sys.exit(f"there is no program {program}: `rt run` in crates/gixp_remote builds it")
    for path in given.files or sorted(VECTORS.glob("*.txt")):
        for name, lines in vectors_of(path):
            if given.only in name:
                wrong = try_vector(program, lines)
                passed, failed = passed + (not wrong), failed + bool(wrong)
                if wrong:
                    print(f"FAILED {path.name}: {name}: {wrong}", flush=True)
    print(f"{passed} passed, {failed} failed")
    return 1 if failed else 0


if __name__ == "__main__":
    sys.exit(main())
