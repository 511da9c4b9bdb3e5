#!/usr/bin/env python3
"""git's own server of version 0 or 1, without some of its capabilities: a server of an old git or of another client.

Usage: plain_server.py ssh WORD..
       plain_server.py listen PORT

With `ssh` it serves in place of ssh: the last word is the server's command. With `listen` it serves at a port of loopback, as git daemon
does. Variables change it:

    PLAIN_WITHOUT   the capabilities that it doesn't offer, with blanks between them
    PLAIN_VERSION   the version that it speaks at most: 1, otherwise 0
    PLAIN_MOST      how many bytes it sends before it dies
    PLAIN_REQUEST   a file that gets the lines of each conversation's first request, and an empty line after them
    PLAIN_SENT      a file that gets the number of bytes of the list and of all that it sends, for each conversation

It is strict. It ends with an error if a request has a capability that it doesn't offer, or a `want` line after a line of the boundary or
of a depth, as the servers of go-git 5.4 and dulwich 0.21 do.
"""
import os
import shlex
import socket
import subprocess
import sys
import threading


def packet(payload):
    return f"{len(payload) + 4:04x}".encode() + payload


def read_packet(stream):
    """The digits of a packet line and its payload; fewer bytes at the end of the stream."""
    digits = stream.read(4)
    if len(digits) < 4 or int(digits, 16) < 4:
        return digits, b""
    return digits, stream.read(int(digits, 16) - 4)


def name_of(word):
    return word.partition(b"=")[0]


class Refused(Exception):
    """A request that this server doesn't accept."""


class Server:
    """One conversation. It reads requests from `given` and writes responses to `taken`."""

    def __init__(self, path, given, taken, version):
        self.given, self.taken = given, taken
        self.without = set(os.environ.get("PLAIN_WITHOUT", "").encode().split())
        self.left, self.sent = int(os.environ.get("PLAIN_MOST") or 1 << 60), 0
        self.offered = set()
        environment = {name: value for name, value in os.environ.items() if not name.startswith("GIT_")}
        if version == "1":
            environment["GIT_PROTOCOL"] = "version=1"
        self.git = subprocess.Popen(["git", "upload-pack", path], stdin=subprocess.PIPE, stdout=subprocess.PIPE, env=environment)

    def tell(self, said):
        """Sends bytes. Dies after the last of them that it may send, without an error: over a socket a client gets no exit status."""
        self.taken.write(said[:self.left])
        self.taken.flush()
        self.left, self.sent = self.left - len(said), self.sent + len(said)
        if self.left <= 0:
            self.end(0)

    def end(self, status):
        self.git.kill()
        os._exit(status)

    def note(self, count):
        if path := os.environ.get("PLAIN_SENT"):
            with open(path, "a") as file:
                file.write(f"{count}\n")

    def advertise(self):
        """Sends the reference advertisement without these capabilities."""
        while True:
            digits, payload = read_packet(self.git.stdout)
            if b"\0" in payload:
                front, _, words = payload.rstrip(b"\n").partition(b"\0")
                kept = [word for word in words.split() if name_of(word) not in self.without]
                self.offered = set(map(name_of, kept))
                payload = front + b"\0" + b" ".join(kept) + b"\n"
                digits = packet(payload)[:4]
            self.tell(digits + payload)
            if digits in (b"0000", b""):
                return

    def check(self, lines):
        """Refuses a first request with these lines."""
        if path := os.environ.get("PLAIN_REQUEST"):
            with open(path, "ab") as file:
                file.writelines(line.rstrip(b"\n") + b"\n" for line in [*lines, b""])
        wants = [line.split() for line in lines if line.startswith(b"want ")]
        for word in (word for words in wants for word in words[2:]):
            if name_of(word) not in self.offered:
                raise Refused(f"the capability {word.decode()} isn't offered")
        if any(not line.startswith(b"want ") for line in lines[:len(wants)]):
            raise Refused("a line stands before a want")

    def pass_requests(self):
        """Checks the first request, and passes all on."""
        lines, text = [], b""
        while True:
            digits, payload = read_packet(self.given)
            text += digits + payload
            if digits in (b"0000", b""):
                break
            lines.append(payload)
        try:
            self.check(lines)
        except Refused as why:
            print(f"plain_server.py: {why}", file=sys.stderr, flush=True)
            self.end(1)
        self.git.stdin.write(text)
        self.git.stdin.flush()
        while said := self.given.read1(1 << 16):
            self.git.stdin.write(said)
            self.git.stdin.flush()
        self.git.stdin.close()

    def serve(self):
        self.advertise()
        self.note(self.sent)
        threading.Thread(target=self.pass_requests, daemon=True).start()
        while said := self.git.stdout.read1(1 << 16):
            self.tell(said)
        self.note(self.sent)
        return self.git.wait()


def listen(port):
    """Serves one conversation after another, each in a process of its own."""
    with socket.create_server(("127.0.0.1", port)) as listener:
        while True:
            connection, _ = listener.accept()
            if os.fork():
                connection.close()
                continue
            listener.close()
            given, taken = connection.makefile("rb"), connection.makefile("wb")
            command, *words = read_packet(given)[1].split(b"\0")
            version = "1" if b"version=1" in words and os.environ.get("PLAIN_VERSION") == "1" else "0"
            status = Server(command.decode().split(" ", 1)[1], given, taken, version).serve()
            connection.shutdown(socket.SHUT_RDWR)
            os._exit(status)


def main():
    if sys.argv[1] == "listen":
        listen(int(sys.argv[2]))
    path = shlex.split(sys.argv[-1])[1]
    version = "1" if os.environ.get("PLAIN_VERSION") == "1" and "version=1" in os.environ.get("GIT_PROTOCOL", "") else "0"
    sys.stdout.flush()
    status = Server(path, sys.stdin.buffer, sys.stdout.buffer, version).serve()
    os._exit(status)


if __name__ == "__main__":
    main()
