"""Cases of live.py for servers of version 0 or 1 that lack capabilities (`plain_server.py`), compared with git.

The server refuses a capability that it doesn't offer, and a `want` line after a line of a depth."""
import contextlib
import itertools
import pathlib
import shlex
import sys

from live_harness import (by_both, clone_both, commits, fetch_again, grow, is_clean, is_early, leaves_nothing, make, pruned, same,
                          tagged)
from live_servers import ended_after, free_port, has_loopback, wait_for_port

SERVER = pathlib.Path(__file__).resolve().parent / "plain_server.py"
BANDS = "side-band-64k side-band"
# what a server doesn't offer
WITHOUT = {
    "multi_ack_detailed": "multi_ack_detailed", "multi_ack": "multi_ack_detailed multi_ack", "side-band": BANDS,
    "both": f"multi_ack_detailed {BANDS}", "all": f"multi_ack_detailed multi_ack {BANDS} include-tag agent thin-pack ofs-delta no-progress",
    "include-tag": "include-tag", "side-band-64k": "side-band-64k", "nothing": "",
}
# git's errors for a server that closes its connection
HANG_UPS = ("fatal: Could not read from remote repository.", "fatal: the remote end hung up unexpectedly")
# the versions that a client requests, and that the server then speaks
VERSIONS = {"version 0": ("0", "0"), "version 1": ("1", "1"), "version 0 in place of 2": ("2", "0"), "version 0 in place of 1": ("1", "0")}


def plain(without, version="version 0", **more):
    """The variables with which git and the helper start this server in place of ssh, and the version that they request."""
    command = f"{sys.executable} {shlex.quote(str(SERVER))} ssh"
    wish = {f"PLAIN_{name}": str(value) for name, value in more.items()}
    asked, spoken = VERSIONS[version]
    return {"GIT_SSH_COMMAND": command, "GIT_SSH_VARIANT": "ssh", "PLAIN_WITHOUT": WITHOUT[without], "PLAIN_VERSION": spoken, **wish}, asked


def by_plain(server):
    """The whole server for git, and this one for us: git fails if a server without `multi_ack` acknowledges several haves."""
    return f"file://{server}", f"gixp::ssh://host{server}"


def served(t, count=30):
    server = make(t, "server", count, tags=True)
    t.git("config", "uploadpack.allowAnySHA1InWant", "true", at=server)
    t.git("config", "uploadpack.allowFilter", "true", at=server)
    return server


def fetch_both(t, version, words, at, more):
    """The same fetch by git and by the helper."""
    return (t.run("git", "-c", f"protocol.version={version}", "fetch", "-q", *words, at=at[0], more=more),
            t.run("git", "fetch", "-q", *words, at=at[1], more={"GIXP_VERSION": version, **more}))


def compare(t, name, by_git, by_us, first, second):
    """Both succeeded, and left the same."""
    t.check(f"{name}, ends", first[0] == second[0] == 0, f"{first} {second}")
    same(t, name, by_git, by_us, first, second)
    t.check(f"{name}, left", leaves_nothing(t))


def plain_clones(name, t, without, version, words):
    server = served(t)
    more, asked = plain(without, version)
    compare(t, name, *clone_both(t, server, *words, version=asked, urls=by_both(server), more=more))


def plain_fetches(name, t, without, version, words, change, cloned=(), **variables):
    server = served(t)
    more, asked = plain(without, version)
    by_git, by_us, first, second = clone_both(t, server, *cloned, version=asked, urls=by_plain(server), more=more)
    if first[0] or second[0]:
        return t.check(name, False, first[2] + second[2])
    change(t, server)
    words = [word.replace("ID", t.git("rev-parse", "main~2", at=server).strip()) for word in words]
    first, second = fetch_both(t, asked, words, (by_git, by_us), {**more, **variables})
    if any(map(is_early, words)) and not first[0] and not second[0]:
        fetch_again(t, name, by_git, by_us, asked, more)
    return compare(t, name, by_git, by_us, first, second)


def unchanged(t, server):
    pass


def grown(t, server):
    grow(t, server, 100)


def rewritten(t, server):
    grow(t, server, 5, back=6)


CLONES = ([], ["--mirror"], ["--no-tags"], ["--depth", "1"], ["--depth", "3", "--no-single-branch"], ["--shallow-since=1700000900"],
          ["--filter=blob:none", "--no-checkout"])
FETCHES = {
    "nothing new": ([], unchanged, []), "100 new commits": ([], grown, []), "a rewritten branch": ([], rewritten, []),
    "tags that follow": ([], tagged, []), "all tags": (["--tags"], tagged, []), "no tags": (["--no-tags"], tagged, []),
    "an id": (["origin", "ID:refs/x/id"], grown, []), "--prune": (["--prune"], pruned, []),
    "--depth 3": (["--depth", "3"], grown, ["--depth", "1", "--no-single-branch"]),
    "--deepen 2": (["--deepen", "2"], grown, ["--depth", "2", "--no-single-branch"]),
    "--unshallow": (["--unshallow"], grown, ["--depth", "2", "--no-single-branch"]),
    "into a depth of 2": ([], grown, ["--depth", "2", "--no-single-branch"]),
}


def many_mine(name, t, without, negotiator):
    """The client has more commits of its own than fit into one request, and many in common."""
    server = served(t, 400)
    more, asked = plain(without)
    by_git, by_us, first, second = clone_both(t, server, version=asked, urls=by_plain(server), more=more)
    for client in (by_git, by_us):
        mine = commits(300, branch="mine", parent="refs/remotes/origin/main^0", begin=1_900_000_000, seed=5)
        t.git("fast-import", "--quiet", "--date-format=raw", given=mine, at=client)
    grow(t, server, 3)
    first, second = fetch_both(t, asked, [], (by_git, by_us), {**more, "GIXP_NEGOTIATOR": negotiator})
    compare(t, name, by_git, by_us, first, second)


def few_objects(name, t, without):
    """A fetch of one commit gets few objects: the haves of the first request reach what both have."""
    server = served(t, 300)
    more, asked = plain(without)
    by_us = t.folder("us")
    t.run("git", "clone", "-q", f"gixp::ssh://host{server}", by_us, more=more)
    grow(t, server, 1)
    status, out, err = t.run("git", "-c", "fetch.unpackLimit=1", "fetch", "-q", at=by_us, more=more)
    packs = sorted(t.git("count-objects", "-v", at=by_us).splitlines())
    found = dict(line.split(": ") for line in packs)
    whole = t.git("rev-list", "--objects", "--all", "--count", at=by_us).strip()
    t.check(name, status == 0 and is_clean(t, by_us)[0] and int(found["in-pack"]) <= int(whole) + 4, f"{status} {err} {packs} {whole}")


def one_write(t):
    """A hook for the server: it passes on a pack in one write."""
    hook, said = t.folder("hook"), t.folder("pack")
    hook.write_text(f'#!/bin/sh\n"$@" > "{said}-$$" && cat "{said}-$$"\n')
    hook.chmod(0o755)
    return hook


def is_found_by_us(err):
    """Whether the helper found it. git would find a cut pack or missing objects too, and the server prints its progress."""
    return any(line.startswith("git-remote-gixp: ") or line in HANG_UPS for line in err.splitlines())


def cut(name, t, without, action):
    """A server that dies: in its list, after it, in its acknowledgements, in the pack. Nothing is kept."""
    server, sent = served(t), t.folder("sent")
    # threads make packs of different sizes, and a pack in several writes has more packets
    t.git("config", "pack.threads", "1", at=server)
    t.git("config", "--global", "uploadpack.packObjectsHook", one_write(t))
    more, _ = plain(without, SENT=sent)
    whole = t.folder("whole")
    t.run("git", "clone", "-q", f"gixp::ssh://host{server}", whole, more=more)
    first, last = map(int, sent.read_text().split()[-2:])
    if action == "fetch":
        grow(t, server, 20)
        sent.unlink()
        t.run("git", "clone", "-q", "--bare", f"file://{whole}", t.folder("copy"))
        t.run("git", "fetch", "-q", "--no-write-fetch-head", f"gixp::ssh://host{server}", "main:refs/x/whole", at=whole, more=more)
        first, last = map(int, sent.read_text().split()[-2:])
    places = 1, 20, first // 2, first - 2, first, first + 3, first + 9, first + 30, (first + last) // 2, last - 21, last - 1
    for most in places:
        cut, _ = plain(without, MOST=most)
        if action == "clone":
            by_us = t.folder("us")
            status, out, err = t.run("git", "clone", "-q", f"gixp::ssh://host{server}", by_us, more=cut)
            is_same = not by_us.exists()
        else:
            by_us = t.folder("us")
            t.git("clone", "-q", "--bare", f"file://{next(t.room.glob('*-copy'))}", by_us)
            before = t.git("count-objects", "-v", at=by_us), t.git("for-each-ref", at=by_us)
            status, out, err = t.run("git", "fetch", "-q", f"gixp::ssh://host{server}", "main:refs/x/cut", at=by_us, more=cut)
            is_same = before == (t.git("count-objects", "-v", at=by_us), t.git("for-each-ref", at=by_us))
        t.check(f"{name} at {most} of {first}, {last}",
                status not in (0, -1) and is_found_by_us(err) and is_same and leaves_nothing(t), f"{status} {is_same} {err}")


def requests(name, t):
    """The words of the first want, and the order of the lines."""
    for without in WITHOUT:
        server, request = served(t), t.folder("request")
        more, _ = plain(without, REQUEST=request)
        status, out, err = t.run("git", "clone", "-q", "--depth=2", "--no-single-branch", f"gixp::ssh://host{server}", t.folder("us"), more=more)
        lines = request.read_text().split("\n\n")[0].splitlines()
        kinds = [line.split()[0] for line in lines]
        words = lines[0].split()[2:]
        lacking = WITHOUT[without].split()
        acknowledges = [word for word in words if word.startswith("multi_ack")]
        wanted = ["multi_ack_detailed"] if "multi_ack_detailed" not in lacking else [] if "multi_ack" in lacking else ["multi_ack"]
        t.check(f"{name}: {without}", status == 0 and kinds == sorted(kinds, key=["want", "shallow", "deepen"].index)
                and acknowledges == wanted and not set(lacking) & set(words), f"{status} {err} {lines}")


def lines_of_fetch(t, server, client, without, to):
    """The first words of the lines of a fetch into a shallow repository, with a depth and a filter."""
    request = t.folder("request")
    more, asked = plain(without, REQUEST=request)
    t.git("clone", "-q", "--bare", "--depth=2", "--no-single-branch", f"file://{server}", client)
    # git may fail after its request: it takes one acknowledgement from a server without `multi_ack`
    t.run("git", "-c", f"protocol.version={asked}", "fetch", "-q", "--shallow-since=1700000900", "--shallow-exclude=light",
          "--filter=blob:none", to, "+refs/heads/*:refs/x/*", at=client, more={"GIXP_VERSION": asked, **more})
    return [line.split()[0] for line in request.read_text().split("\n\n")[0].splitlines()]


def orders(name, t):
    """The lines of the boundary, of a depth and of a filter come after all wants, in git's order."""
    for without in WITHOUT:
        server = served(t)
        sent = [lines_of_fetch(t, server, t.folder(who), without, f"{front}ssh://host{server}")
                for who, front in (("git", ""), ("us", "gixp::"))]
        # git repeats the want of a commit with several names
        by_git, by_us = ([word for word, _ in itertools.groupby(words)] for words in sent)
        is_whole = sorted(by_git) == ["deepen-not", "deepen-since", "filter", "shallow", "want"] and sent[1].count("want") > 1
        t.check(f"{name}: {without}", is_whole and by_us == by_git, f"git {sent[0]}, ours {sent[1]}")


@contextlib.contextmanager
def listening(t, without, spoken):
    port = free_port()
    more = {"PLAIN_WITHOUT": WITHOUT[without], "PLAIN_VERSION": spoken}
    with ended_after(t.begin(sys.executable, SERVER, "listen", port, more=more)) as begun:
        wait_for_port(port, begun)
        yield f"git://127.0.0.1:{port}"


def over_sockets(name, t, without, version):
    server = served(t)
    asked, spoken = VERSIONS[version]
    with listening(t, without, spoken) as front:
        url = f"{front}{server}"
        by_git, by_us, first, second = clone_both(t, server, "--depth", "3", "--no-single-branch", version=asked,
                                                 urls=(f"file://{server}", f"gixp::{url}"))
        compare(t, f"{name}: clone", by_git, by_us, first, second)
        grow(t, server, 20)
        first, second = fetch_both(t, asked, ["--unshallow"], (by_git, by_us), {})
        fetch_again(t, name, by_git, by_us, asked)
        compare(t, f"{name}: fetch", by_git, by_us, first, second)


def try_plain(t):
    for without in WITHOUT:
        for words in CLONES:
            t.case(f"plain: clone {' '.join(words)} without {without}", plain_clones, without, "version 0", words)
        for what, (words, change, cloned) in FETCHES.items():
            t.case(f"plain: fetch of {what} without {without}", plain_fetches, without, "version 0", words, change, cloned)
    for version in VERSIONS:
        for without in ("multi_ack_detailed", "all"):
            t.case(f"plain: clone without {without}, {version}", plain_clones, without, version, [])
            t.case(f"plain: fetch without {without}, {version}", plain_fetches, without, version, [], tagged)
            if has_loopback():
                t.case(f"plain: over git:// without {without}, {version}", over_sockets, without, version)
    for without in ("multi_ack_detailed", "multi_ack", "all"):
        for negotiator in ("consecutive", "skipping", "list", "noop"):
            t.case(f"plain: commits of its own without {without}, {negotiator}", many_mine, without, negotiator)
        t.case(f"plain: few objects without {without}", few_objects, without)
    for without in ("multi_ack", "side-band", "all"):
        for action in ("clone", "fetch"):
            t.case(f"plain: {action} without {without} from a server that dies", cut, without, action)
    t.case("plain: requests", requests)
    t.case("plain: the order of a request's lines", orders)
