"""Cases of live.py for the output on a terminal of 80 columns, compared with git's."""
import difflib
import fcntl
import os
import pty
import re
import struct
import termios

from live_harness import by_path, commits, grow, make

RATE = re.compile(r",? [0-9.]+ (bytes|[KMG]iB)(/s)?( \| [0-9.]+ [KMG]?iB/s)?")


def seen(t, *words, at=None, name="xterm"):
    """The lines that a program writes to a terminal of this name, overwritten ones too."""
    ours, its = pty.openpty()
    fcntl.ioctl(its, termios.TIOCSWINSZ, struct.pack("HHHH", 24, 80, 0, 0))
    begun = t.begin(*words, at=at, more={"TERM": name}, stdin=its, stdout=its, stderr=its)
    os.close(its)
    told = b""
    try:
        while said := os.read(ours, 1 << 16):
            told += said
    except OSError:
        # the last process with the terminal ended
        pass
    os.close(ours)
    begun.wait()
    return [line for line in re.split("[\r\n]+", told.decode("latin1")) if "%" not in line or "100%" in line]


def alike(lines, url, *left_out):
    """The lines without rates, in sorted order, and without lines of these words: two runs differ in these."""
    without = [RATE.sub("", line.replace(url, "URL")) for line in lines]
    return sorted(line for line in without if not any(word in line for word in left_out))


def unlike(one, other):
    return [line for line in difflib.ndiff(one, other) if line[0] in "-+"]


def seen_clones(name, t):
    server = make(t, "server", 0)
    t.git("fast-import", "--quiet", "--date-format=raw", given=commits(300), at=server)
    for words in ([], ["-q"], ["-v"], ["--depth", "3"]):
        for terminal in ("xterm", "dumb"):
            told = []
            for url in by_path(server):
                lines = seen(t, "git", "clone", *words, url, "seen", name=terminal)
                told.append(alike(lines, url))
                t.run("rm", "-rf", "seen")
            is_same = told[0] == told[1] and ("-q" in words or any(line.startswith("remote: ") for line in told[1]))
            erases = any("\033[K" in line for line in told[1])
            is_right = is_same and erases == (terminal == "xterm" and "-q" not in words)
            t.check(f"{name}: {words} {terminal}", is_right, f"{erases} {unlike(*told)}")


def seen_fetches(name, t):
    """git unpacks a small pack and the helper keeps it. All other lines are equal."""
    server, clients = make(t, "server", 30), []
    for url in by_path(server):
        clients.append(t.folder("client"))
        t.git("clone", "-q", f"file://{server}", clients[-1])
        t.git("remote", "set-url", "origin", url, at=clients[-1])
    grow(t, server, 5)
    for words in ([], ["-q"], ["-v"]):
        told = []
        for url, client in zip(by_path(server), clients):
            copy = t.folder("copy")
            t.run("cp", "-a", client, copy)
            told.append(alike(seen(t, "git", "fetch", *words, at=copy), url, "Unpacking", "Receiving", "Resolving"))
        t.check(f"{name}: {words}", told[0] == told[1] and ("-q" in words) == (len(told[1]) < 2), unlike(*told))


def try_seen(t):
    for name, action in (("seen: clones", seen_clones), ("seen: fetches", seen_fetches)):
        t.case(name, action)
