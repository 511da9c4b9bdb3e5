"""Cases of live.py about how a fetch ends: a server that stops answering, and a signal to each process of a fetch at several moments."""
import contextlib
import os
import shlex
import shutil
import signal
import subprocess
import sys
import time

from live_harness import PROCESSES, by_both, end_session, files_left, leaves_nothing, make, running
from live_servers import GREETING, daemon_of, has_loopback, here_ssh, shell_ssh, ssh

MOMENTS = 20
# a pack whose header says two objects and that has one: its checksum reads as the beginning of the second
HUNGRY = "5041434b000000020000000239789c333134b7b0b43436e30200094601ba442815c5f04a20ae4bc5bb612b5a33fbf5609aed"
# passes on a few bytes each half second
TRICKLE = "import os, time\nwhile said := os.read(0, 700): os.write(1, said); time.sleep(0.5)"
# how many seconds git may take to end after a signal, on a loaded machine
AT_ONCE = 5
SIGNALS = signal.SIGTERM, signal.SIGINT, signal.SIGHUP
SERVERS = "upload-pack", "pack-objects", "slow-pack"


def frozen(name, t):
    """A server that sends nothing, or nothing after its first lines. The helper's timeout ends it."""
    for said in (b"", GREETING[:30], GREETING):
        path = t.folder("said")
        path.write_bytes(said)
        begun, more = time.time(), {**shell_ssh(t, f'cat "{path}"\nexec sleep 30'), "GIXP_TIMEOUT": "1"}
        status, out, err = t.run("git", "clone", "-q", "gixp::ssh://nowhere/x", t.folder("us"), more=more)
        is_in_time = status != 0 and time.time() - begun < 10
        t.check(f"{name} after {len(said)} bytes", is_in_time and leaves_nothing(t), f"{status} {err}")
    # the helper waits for a server that sends a little each half second
    server = make(t, "server", 30)
    more = {**shell_ssh(t, f'unset GIT_DIR\ngit upload-pack "{server}" | python3 -c "{TRICKLE}"'), "GIXP_TIMEOUT": "2"}
    status, out, err = t.run("git", "clone", "-q", "gixp::ssh://nowhere/x", t.folder("us"), more=more)
    t.check(f"{name}: slow", status == 0 and leaves_nothing(t), f"{status} {err}")
    status, out, err = t.run("git", "clone", "-q", "gixp::/nowhere/at/all", t.folder("us"))
    t.check(f"{name}: no repository", status != 0 and leaves_nothing(t), err)


def asking(t, *requests, answers=0):
    """A program in place of gixp_remote that sends requests to the shell, reads so many answers, and writes the last into a file."""
    program, told = t.folder("program"), t.folder("told")
    text = "".join(f"{len(request)}\n{request}" for request in requests)
    reads = "read -r answer <&6\n" * answers + (f'echo "$answer" > "{told}"\n' if answers else "")
    program.write_text(f"#!/bin/sh\nexec 5> \"$3\" 6< \"$4\"\ncat >&5 <<'end'\n{text}end\n{reads}exit 3\n")
    program.chmod(0o755)
    return program, told


def unanswered(name, t):
    """A program that ends without reading its answers: the shell prints nothing."""
    program, _ = asking(t, "start question command /dev/null /dev/null\n sleep\n 0.3\n", "status question\n")
    status, out, err = t.run("git", "ls-remote", "gixp::/x", more={"GIXP_REMOTE": program})
    t.check(name, status != 0 and "write error" not in err and leaves_nothing(t), f"{status} {err}")


def last_words(name, t):
    """A server gets the end of its input, and is waited for. A task that isn't running has no exit status."""
    for text, wanted, least, most in (("cat; exit 9", "9", 0, 5), ("sleep 7; exit 8", "8", 7, 12)):
        start = f"start server command 20 /dev/null\n sh\n -c\n {text}\n"
        program, told = asking(t, start, "status server\n", answers=2)
        at = time.monotonic()
        status, out, err = t.run("git", "ls-remote", "gixp::/x", more={"GIXP_REMOTE": program})
        took = time.monotonic() - at
        is_right = told.exists() and told.read_text().strip() == wanted and least <= took < most
        t.check(f"{name}: {text}", is_right and leaves_nothing(t), f"{took:.1f} s {told.exists() and told.read_text()} {err}")
    program, told = asking(t, "status question\n", answers=1)
    status, out, err = t.run("git", "ls-remote", "gixp::/x", more={"GIXP_REMOTE": program})
    t.check(f"{name}: no program", told.exists() and told.read_text().strip() == "256" and leaves_nothing(t), err)


# a program in place of gixp_remote whose /proc/PID/io the shell may not read (prctl(2), PR_SET_DUMPABLE)
UNSEEN = """#!{python}
import ctypes, sys
requests, answers = open(sys.argv[3], "wb", 0), open(sys.argv[4], "rb", 0)
ctypes.CDLL(None).prctl(4, 0)
request = b"start server command /dev/null /dev/null\\n sleep\\n 9\\n"
requests.write(b"%d\\n%s" % (len(request), request))
open("{told}", "wb").write(answers.readline())
sys.exit(3)
"""


def unseen(name, t):
    """With GIXP_TIMEOUT, a program whose reads can't be seen: the server isn't started, and a sentence says why."""
    # root can read it, unless it lacks a capability
    without = ("setpriv", "--bounding-set=-sys_ptrace", "--inh-caps=-sys_ptrace") if os.getuid() == 0 else ()
    if without and not shutil.which("setpriv"):
        return
    program, told = t.folder("program"), t.folder("told")
    program.write_text(UNSEEN.format(python=sys.executable, told=told))
    program.chmod(0o755)
    for seconds, wanted in (("5", "1"), ("0", "0")):
        status, out, err = t.run(*without, "git", "ls-remote", "gixp::/x", more={"GIXP_REMOTE": program, "GIXP_TIMEOUT": seconds})
        is_right = told.read_text().strip() == wanted and ("GIXP_TIMEOUT needs /proc/PID/io" in err) == (wanted == "1")
        t.check(f"{name}: {seconds}", status != 0 and is_right and leaves_nothing(t), f"{status} {told.read_text()} {err}")


def hungry(name, t):
    """A pack after which git waits for more: the helper ends all the same."""
    server, pack = make(t, "server", 3), t.folder("pack")
    pack.write_bytes(bytes.fromhex(HUNGRY))
    ends = [t.run("git", "clone", "-q", url, t.folder("to"), more=ssh(PACK=pack)) for url in by_both(server)]
    t.check(name, all(status == 128 and "early EOF" in err for status, out, err in ends) and leaves_nothing(t), ends)


def left_by(t, client=None):
    """What an ended fetch leaves after six seconds: processes, and files of a client."""
    until = time.monotonic() + 6
    while True:
        processes = running((*PROCESSES, *SERVERS, t.remote.name), t.room)
        left = [*files_left(client), *client.glob("objects/pack/tmp_*")] if client else []
        if not (processes or left) or time.monotonic() > until:
            return f"{processes} {left}" if processes or left else ""
        time.sleep(0.05)


def unlock(client, who):
    """Removes a ref's lock, as git's message asks for, where git itself was killed. Git leaves the lock, over its own transports too, if a
    signal comes while it creates the file."""
    if who == "git":
        for lock in (client / "refs").rglob("*.lock"):
            lock.unlink()


def first_found(t, begun, who):
    """The process of a fetch with this name, once it runs: git itself, or the oldest of that name. None if git ended."""
    while begun.poll() is None:
        if found := [begun.pid] if who == "git" else running(who, t.room):
            return min(found)
    return None


def slowly(t):
    """Has servers on this machine send packs in pieces, so that each part of a fetch takes a while."""
    script, mark = t.room / "tools" / "slow-pack", t.room / "slow"
    pieces = 'for n in 1 2 3 4 5 6 7 8; do head -c 4000; sleep 0.02; done; cat'
    script.write_text(f'#!/bin/sh\n[ -e {shlex.quote(str(mark))} ] || exec "$@"\n"$@" | {{ {pieces}; }}\n')
    script.chmod(0o755)
    t.git("config", "--global", "uploadpack.packObjectsHook", script)
    return mark


@contextlib.contextmanager
def way_to(t, server, over):
    """The URL of a server by a transport, and the variables for the helper."""
    if over == "ssh":
        yield f"gixp::ssh://host{server}", here_ssh(t)
    elif over == "git://":
        with daemon_of(t, server.parent) as port:
            yield f"gixp::git://127.0.0.1:{port}/{server.name}", {}
    else:
        yield f"gixp::file://{server}", {}


def kill_at(t, begun, who, number, sent, delay):
    """Sends a signal to a process of a fetch at some moment. Returns how many seconds git took to end, None if it didn't."""
    time.sleep(delay * number)
    found = first_found(t, begun, who)
    at = time.monotonic()
    if found:
        with contextlib.suppress(OSError):
            os.kill(found, sent)
    try:
        begun.wait(20)
        return time.monotonic() - at
    except subprocess.TimeoutExpired:
        end_session(begun)
        return None


def killed(name, t, who, signals, over="path"):
    """A process of a fetch gets a signal, at several moments. Nothing is left, and the next fetch succeeds."""
    server, mark = make(t, "server", 400), slowly(t)
    tip = t.git("rev-parse", "main", at=server)
    with way_to(t, server, over) as (url, more):
        for number in range(MOMENTS):
            client, sent = make(t, "client", 0), signals[number % len(signals)]
            words = ["git", "fetch", "-q", *(["--depth", "3"] if number % 2 else []), url, "main:refs/x/m"]
            what = f"{name}, moment {number}"
            mark.touch()
            begun = t.begin(*words, at=client, more=more)
            took = kill_at(t, begun, who, number, sent, 0.015)
            mark.unlink()
            if took is None:
                t.check(what, False, "no end")
                continue
            unlock(client, who)
            left = left_by(t, client)
            clean = t.run("git", "fsck", "--connectivity-only", at=client)[0] == 0
            status, out, err = t.run("git", "fetch", "-q", url, "main:refs/x/m", at=client, more=more)
            works = status == 0 and t.run("git", "rev-parse", "refs/x/m", at=client)[1] == tip and not left_by(t, client)
            t.check(what, not left and clean and works and took < AT_ONCE, f"{signal.Signals(sent).name} {took:.1f} s {left} {clean} {err}")


def orphaned(name, t):
    """SIGKILL ends the shell, at several moments. Its programs end by themselves, and the leftovers don't hinder the next fetch."""
    server, mark = make(t, "server", 400), slowly(t)
    tip = t.git("rev-parse", "main", at=server)
    for number in range(MOMENTS):
        client, words = make(t, "client", 0), ["git", "fetch", "-q", f"gixp::file://{server}", "main:refs/x/m"]
        mark.touch()
        took = kill_at(t, t.begin(*words, at=client), "git-remote-gixp", number, signal.SIGKILL, 0.015)
        mark.unlink()
        left = left_by(t)
        clean = t.run("git", "fsck", "--connectivity-only", at=client)[0] == 0
        status, out, err = t.run(*words, at=client)
        works = status == 0 and t.run("git", "rev-parse", "refs/x/m", at=client)[1] == tip
        t.check(f"{name}, moment {number}", took is not None and not left and clean and works, f"{took} {left} {clean} {err}")
    # the program waits for a server that waits for the program: the watcher ends it
    begun = t.begin("git", "ls-remote", "gixp::ssh://nowhere/x", more=shell_ssh(t, "exec cat"))
    took = kill_at(t, begun, "git-remote-gixp", 1, signal.SIGKILL, 0.3)
    left = left_by(t)
    t.check(f"{name}, a silent server", took is not None and not left, f"{took} {left}")


def try_ends(t):
    t.case("a server that freezes", frozen)
    t.case("a pack that wants more", hungry)
    t.case("a program that wants no answer", unanswered)
    t.case("the end of a server's input", last_words)
    t.case("a program whose reads can't be seen", unseen)
    ours, term, kill = t.remote.name, signal.SIGTERM, signal.SIGKILL
    for who, sent in (
        ("git-remote-gixp", term), (ours, term), (ours, kill), ("index-pack", term), ("index-pack", kill), ("upload-pack", term),
        ("git", term), ("git", kill),
    ):
        t.case(f"a kill of {who}{', at once' if sent == kill else ''}", killed, who, [sent])
    t.case("a kill of git-remote-gixp, at once", orphaned)
    for over in ("path", "ssh", "git://") if has_loopback() else ("path", "ssh"):
        for who in ("git-remote-gixp", ours, "index-pack", "upload-pack"):
            t.case(f"signals to {who} over {over}", killed, who, SIGNALS, over)
        t.case(f"signals to git over {over}", killed, "git", (*SIGNALS, kill), over)
