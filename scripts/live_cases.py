"""Cases of live.py: git over gixp::, mostly compared with git over its own transports."""
import shutil
import time

from live_harness import (VERSIONS, by_both, by_path, clone_both, clones, commits, consecutive, fetches, files_left, grow, is_clean,
                          leaves_nothing, left_of_packs, lists, make, running, same, state, words_of)
from live_program import recorded
from live_servers import GREETING, bodies, daemon_of, frame, has_loopback, here_ssh, saying_ssh, shell_ssh, ssh, sshd_of, why_no_sshd

# Clones and fetches


def try_clones(t):
    empty, one = make(t, "empty", 0), make(t, "one", 1)
    large = make(t, "large", 2000, merges=True, tags=True)
    hidden = make(t, "hidden", 20, tags=True)
    t.git("config", "transfer.hideRefs", "refs/heads/side", at=hidden)
    small_shallow = t.folder("shallow")
    t.git("clone", "-q", "--bare", "--depth", "5", f"file://{large}", small_shallow)
    servers = (("an empty repository", empty), ("one commit", one), ("2,000 commits", large), ("hidden refs", hidden),
               ("a shallow repository", small_shallow))
    options = (["--depth", "1"], ["--depth", "3", "--no-single-branch"], ["--shallow-since=1700000900"], ["--shallow-exclude=v1"],
               ["--bare"], ["--mirror"], ["--no-tags"], ["--single-branch", "--branch", "side"], ["--branch", "v1"])
    for version in VERSIONS:
        for kind, server in servers:
            t.case(f"clone of {kind}, version {version}", clones, server, version)
            t.case(f"ls-remote of {kind}, version {version}", lists, server, version)
        for option in options:
            t.case(f"clone {' '.join(option)}, version {version}", clones, large, version, *option)
    t.case("clone --reject-shallow of a shallow repository", clones, small_shallow, "2", "--reject-shallow")
    # git puts the value of an option in quotes if it has such bytes
    quoted = make(t, "quoted", 30)
    t.git("tag", 'q"\u00e9', "main~9", at=quoted)
    for version in VERSIONS:
        t.case(f"clone --shallow-exclude of a name in quotes, version {version}", clones, quoted, version, '--shallow-exclude=q"\u00e9')


# Servers, and how they change between a clone and a fetch


def small(t):
    return make(t, "server", 30, tags=True)


def after(*changes):
    def change(t, server):
        for one in changes:
            one(t, server)
    return change


def grown(count, **more):
    return lambda t, server: grow(t, server, count, **more)


def done_by_git(*words):
    return lambda t, server: t.git(*words, at=server)


def tagged(*more):
    """Three commits and a tag of the last but one."""
    return after(grown(3), done_by_git("tag", "-a", "-m", "x", "new", "main~1"), *more)


DEPTHS = (
    ("--depth 3", ["--depth", "1"], ["--depth", "3"]), ("--deepen 2", ["--depth", "2"], ["--deepen", "2"]),
    ("--unshallow", ["--depth", "2"], ["--unshallow"]), ("--shallow-since", ["--depth", "1"], ["--shallow-since=1700000900"]),
    ("--shallow-exclude", ["--depth", "1"], ["--shallow-exclude=light"]), ("--depth 2 of a whole clone", [], ["--depth", "2"]),
    ("a new commit into a shallow clone", ["--depth", "2"], []),
)
SPECS = ("refs/heads/main:refs/x/main", "+refs/heads/*:refs/x/*", "main:x", "+refs/heads/s*:refs/x/s*", "HEAD:refs/x/head",
         "refs/tags/v1:refs/x/v1", "side", "refs/heads/*:refs/x/*")


def try_fetches(t):
    for version in VERSIONS:
        for name, words, change in (
            ("nothing new", [], None), ("1 new commit", [], grown(1)), ("100 new commits", [], grown(100)),
            ("a rewritten branch", [], grown(5, back=6)), ("a deleted branch", ["--prune"], done_by_git("branch", "-D", "side")),
            ("a new branch", [], done_by_git("branch", "fresh", "main~2")), ("tags that follow", [], tagged()),
            ("all tags", ["--tags"], tagged(done_by_git("tag", "other", "side~1"))), ("no tags", ["--no-tags"], tagged()),
        ):
            t.case(f"fetch of {name}, version {version}", fetches, small, words, version, change)
        for name, cloned, words in DEPTHS:
            t.case(f"fetch {name}, version {version}", fetches, small, words, version, grown(2), cloned)
    try_consecutive(t)
    t.case("fetch of 2,000 new commits", fetches, small, [], "2", grown(2000))
    for spec in SPECS:
        t.case(f"fetch origin {spec}", fetches, small, ["origin", spec], "2", grown(2))
    left_out = ["origin", "+refs/heads/*:refs/x/*", "^refs/heads/side"]
    t.case("fetch of refspecs with a negative one", fetches, small, left_out, "2", grown(2))
    t.case("fetch of a missing ref", fetches, small, ["origin", "nowhere"], "2")
    t.case("fetch of a fast-forward only", fetches, small, ["origin", "main:refs/remotes/origin/main"], "2", grown(3, back=4))
    t.case("fetch by a client that has only a tip", has_tip_alone)
    t.case("tags of a deepened history", deepened_tags)


def try_consecutive(t):
    """Fetches by git's consecutive negotiator."""
    for version in VERSIONS:
        for name, words, change, cloned in (
            ("nothing new", [], None, []), ("100 new commits", [], grown(100), []), ("a rewritten branch", [], grown(5, back=6), []),
            ("a new branch", [], after(grown(3), done_by_git("branch", "fresh", "main~9")), []),
            ("all tags", ["--tags"], tagged(done_by_git("tag", "other", "side~1")), []),
            ("a new commit into a shallow clone", [], grown(2), ["--depth", "2"]),
            ("--unshallow", ["--unshallow"], grown(2), ["--depth", "2"]), ("--depth 3", ["--depth", "3"], grown(2), ["--depth", "1"]),
            ("--depth 2 of a whole clone", ["--depth", "2"], grown(2), []),
        ):
            t.case(f"consecutive: fetch of {name}, version {version}", fetches, small, words, version, change, cloned, consecutive)
    t.case("consecutive: clone", clones, make(t, "few", 30, tags=True), "2", over=consecutive)


def has_tip_alone(name, t):
    """A client that has the tip of a branch, but not its history."""
    server = make(t, "server", 30)
    by_git, by_us, first, second = clone_both(t, server)
    grow(t, server, 5)
    for client in (by_git, by_us):
        tip = t.run("git", "cat-file", "commit", "main", at=server)[1]
        t.git("hash-object", "-t", "commit", "-w", "--stdin", given=tip.encode("latin1"), at=client)
    first, second = t.run("git", "fetch", "-q", at=by_git), t.run("git", "fetch", "-q", at=by_us)
    same(t, name, by_git, by_us, first, second)


def deepened_tags(name, t):
    """Tags that only the deepened history reaches. git looks for them before it knows the helper's pack, so the next fetch has them."""
    server = make(t, "server", 30, tags=True)
    by_git, by_us, first, second = clone_both(t, server, "--depth", "2")
    for words in (["--unshallow"], []):
        first, second = t.run("git", "fetch", "-q", *words, at=by_git), t.run("git", "fetch", "-q", *words, at=by_us)
    same(t, name, by_git, by_us, first, second)


def many_haves(name, t, version, over=None):
    """Thousands of commits that the server doesn't have, and then thousands that it has."""
    server = make(t, "server", 6000)
    urls, more = over(server) if over else (None, {})
    by_git, by_us, first, second = clone_both(t, server, urls=urls, more=more)
    for client in (by_git, by_us):
        mine = commits(6000, branch="mine", parent="refs/remotes/origin/main^0", begin=1_900_000_000, seed=5)
        t.git("fast-import", "--quiet", "--date-format=raw", given=mine, at=client)
        t.git("update-ref", "-d", "refs/remotes/origin/main", at=client)
        t.git("update-ref", "-d", "refs/remotes/origin/HEAD", at=client)
    grow(t, server, 1, back=5)
    first = t.run("git", "-c", f"protocol.version={version}", "fetch", "-q", at=by_git)
    for negotiator in ("consecutive", "skipping", "list"):
        copy = t.folder("copy")
        shutil.copytree(by_us, copy)
        wish = {"GIXP_VERSION": version, "GIXP_NEGOTIATOR": negotiator, "GIXP_COMMITS": "16384", **more}
        second = t.run("git", "fetch", "-q", at=copy, more=wish)
        equal = second[0] == 0 and is_clean(t, copy)[0] and state(t, copy)[0] == state(t, by_git)[0]
        t.check(f"{name}, {negotiator}", equal, second[2])


def try_haves(t):
    for version in ("0", "2"):
        t.case(f"6,000 haves in vain and 6,000 in common, version {version}", many_haves, version)
    t.case("bodies: 6,000 haves in vain and 6,000 in common", many_haves, "2", over=bodies)
    t.case("list: no process runs on", leaves_no_listing)


def try_bodies(t):
    """Servers that answer each request by itself."""
    large = make(t, "large", 2000, merges=True, tags=True)
    depths = ["--depth", "1"], ["--depth", "3", "--no-single-branch"], ["--shallow-since=1700000900"], ["--shallow-exclude=v1"]
    for words in ([], ["--mirror"], *depths):
        t.case(f"bodies: clone {' '.join(words)}", clones, large, "2", *words, over=bodies)
    for name, cloned, words, count in (
        ("nothing new", [], [], 0), ("100 new commits", [], [], 100), ("2,000 new commits", [], [], 2000),
        ("--depth 3", ["--depth", "1"], ["--depth", "3"], 2), ("--deepen 2", ["--depth", "2"], ["--deepen", "2"], 2),
        ("--unshallow", ["--depth", "2"], ["--unshallow"], 2), ("into a shallow clone", ["--depth", "2"], [], 2),
    ):
        change = grown(count) if count else None
        t.case(f"bodies: fetch {name}", fetches, small, words, "2", change, cloned, over=bodies)


def leaves_no_listing(name, t):
    """The list of a long history ends with the fetch, and with a failed fetch."""
    server = make(t, "server", 20_000)
    by_git, by_us, first, second = clone_both(t, server)
    grow(t, server, 3)
    url, more = f"ssh://host{server}", {"GIXP_NEGOTIATOR": "list"}

    def left():
        return running("rev-list", t.room) or [one for one in running("git", t.room) if "rev-list" in words_of(one)]

    for most in (1, 200, 500, 600):
        words = ["git", "fetch", "-q", f"gixp::{url}", "main:refs/x/main"]
        status, out, err = t.run(*words, at=by_us, more={**more, **ssh(MOST=most)})
        is_clear = status not in (0, -1) and leaves_nothing(t) and not left()
        t.check(f"{name}: a server that dies at {most}", is_clear, f"{status} {err} {left()}")
    for what in ("nothing new", "the same"):
        first, second = t.run("git", "fetch", "-q", at=by_git), t.run("git", "fetch", "-q", at=by_us, more=more)
        same(t, f"{name}: {what}", by_git, by_us, first, second)
        t.check(f"{name}: {what}, nothing runs", not left(), left())
    t.git("checkout", "-q", "--detach", at=by_us)
    grow(t, server, 3, seed=4)
    first, second = t.run("git", "fetch", "-q", at=by_git), t.run("git", "fetch", "-q", at=by_us, more=more)
    t.check(f"{name}: a detached head", second[0] == 0 and is_clean(t, by_us)[0] and not left(), second[2])


# Ways to a server


def over_ssh(name, t):
    """A program in place of ssh that runs the command on this machine, with a quoted path."""
    server = make(t, "served", 10)
    spaced = server.parent / "it's a server"
    spaced.symlink_to(server)
    more = {**here_ssh(t)}
    del more["GIT_SSH_VARIANT"]
    for url in (f"ssh://host{server}", f"host:{server}", f"ssh://host:22{server}", f"host:{spaced}"):
        by_us = t.folder("us")
        status, out, err = t.run("git", "clone", "-q", f"gixp::{url}", by_us, more=more)
        t.check(f"{name}: {url}", status == 0 and is_clean(t, by_us)[0], err)


def over_sshd(name, t):
    """OpenSSH on both sides, on loopback."""
    server = make(t, "it's served", 40, tags=True)
    with sshd_of(t) as (front, more):
        urls = f"{front}{server}", f"gixp::{front}{server}"
        for version in VERSIONS:
            ends = clone_both(t, server, version=version, urls=urls, more=more)
            same(t, f"{name}: clone, version {version}", *ends)
        by_git, by_us, first, second = ends
        grow(t, server, 3)
        first, second = t.run("git", "fetch", "-q", at=by_git, more=more), t.run("git", "fetch", "-q", at=by_us, more=more)
        same(t, f"{name}: fetch", by_git, by_us, first, second)
        same(t, f"{name}: clone --depth 2", *clone_both(t, server, "--depth", "2", urls=urls, more=more))
        listed = [t.run("git", "ls-remote", url, more=more) for url in urls]
        is_same = listed[0][0] == listed[1][0] == 0 and sorted(listed[0][1].split()) == sorted(listed[1][1].split())
        t.check(f"{name}: ls-remote", is_same, listed)
        refused = {**more, "GIT_SSH_COMMAND": more["GIT_SSH_COMMAND"].replace("/user ", "/host ")}
        ends = [t.run("git", "clone", "-q", url, t.folder("to"), more=refused) for url in urls]
        told = all(end[0] == 128 and "Permission denied" in end[2] for end in ends)
        t.check(f"{name}: a refused key", told and leaves_nothing(t), ends)
        ends = [t.run("git", "ls-remote", f"{url}/nowhere", more=more) for url in urls]
        told = all(end[0] == 128 and "does not appear to be a git repository" in end[2] for end in ends)
        t.check(f"{name}: no repository", told and leaves_nothing(t), ends)


def over_daemon(name, t):
    server, log = make(t, "served", 40, tags=True), t.folder("log")
    with daemon_of(t, server.parent, log) as port:
        url = f"git://127.0.0.1:{port}/{server.name}"
        for version in VERSIONS:
            log.write_text("")
            by_git, by_us, first, second = clone_both(t, server, version=version, urls=(url, f"gixp::{url}"))
            same(t, f"{name}: clone, version {version}", by_git, by_us, first, second)
            # one of them comes from git
            count = log.read_text().count("Request upload-pack")
            t.check(f"{name}: connections, version {version}", count == 2, log.read_text())
            if version == "2":
                grow(t, server, 3, seed=90)
                first, second = t.run("git", "fetch", "-q", at=by_git), t.run("git", "fetch", "-q", at=by_us)
                same(t, f"{name}: fetch", by_git, by_us, first, second)


def connections(name, t):
    """How many connections a clone, a fetch and a list make, by requested and spoken version."""
    servers = (("2", "2", 0), ("1", "1", 0), ("0", "0", 0), ("2", "1", 0), ("2", "0", 0), ("2", "2", 100), ("2", "2", 5000))
    for asked, spoken, pad in servers:
        server, starts = make(t, "counted", 30, tags=True), t.folder("starts")
        more = {**ssh(STARTS=starts, VERSION=spoken, **({"PAD": pad} if pad else {})), "GIXP_VERSION": asked}
        url, by_us = f"gixp::ssh://host{server}", t.folder("us")
        versions = f"version {asked} of {spoken}, {pad} bytes more"

        def done(what, *words, at=None):
            starts.write_text("")
            status, out, err = t.run("git", *words, at=at, more=more)
            found = len(starts.read_text().splitlines())
            t.check(f"{name}: {what}, {versions}", status == 0 and found == 1 and leaves_nothing(t), f"{status} {found} {err}")

        done("clone", "clone", "-q", url, by_us)
        done("nothing new", "fetch", "-q", at=by_us)
        grow(t, server, 5)
        done("fetch", "fetch", "-q", at=by_us)
        done("list", "ls-remote", url)
        tips = t.git("rev-parse", "main", at=server), t.git("rev-parse", "origin/main", at=by_us)
        t.check(f"{name}: what came, {versions}", is_clean(t, by_us)[0] and tips[0] == tips[1], tips)


def try_ways(t):
    t.case("connections", connections)
    if has_loopback():
        t.case("over git daemon", over_daemon)
        why = why_no_sshd(t)
        if why:
            print(f"sshd is not tested: {why}", flush=True)
        else:
            t.case("over sshd", over_sshd)
    else:
        print("there is no loopback: git daemon and sshd are not tested", flush=True)
    t.case("over ssh", over_ssh)


# Servers that die, or send errors or nonsense


def dies_later(name, t):
    """A server that dies: in its advertisement, after it, in the list, in the pack."""
    server = make(t, "server", 30, tags=True)
    conversation = recorded(t, server)
    first, whole = conversation.index(b"0000") + 4, len(conversation)
    for most in (1, 14, 20, first - 2, first, first + 3, first + 60, whole // 2, whole * 3 // 4, whole):
        by_us = t.folder("us")
        status, out, err = t.run("git", "clone", "-q", f"gixp::ssh://host{server}", by_us, more=ssh(MOST=most))
        t.check(f"{name} at {most}", status not in (0, -1) and err and not by_us.exists() and leaves_nothing(t), f"{status} {err}")


def fails_later(name, t):
    """A server's program that fails after its pack. The pack and the boundary stay, no ref is written, and a clone leaves nothing."""
    server = make(t, "server", 3)
    more = shell_ssh(t, 'for last; do :; done\nunset GIT_DIR\nsh -c "$last"\nexit 3')
    for version in (0, 2):
        for url in (f"ssh://host{server}", f"gixp::ssh://host{server}"):
            says = "exited with status 3" if url.startswith("gixp") else ""
            protocol = "-c", f"protocol.version={version}"
            status, out, err = t.run("git", *protocol, "clone", "-q", url, t.folder("to"), more=more)
            t.check(f"{name}: clone {url} {version}", status == 128 and says in err and leaves_nothing(t), f"{status} {err}")
            client = make(t, "client", 0)
            status, out, err = t.run("git", *protocol, "-c", "fetch.unpackLimit=1", "fetch", "--depth=1", url, "main:refs/heads/x", at=client, more=more)
            packs, boundary = list(client.glob("objects/pack/*.pack")), client / "shallow"
            refs = t.git("for-each-ref", at=client)
            t.check(f"{name}: fetch {url} {version}", status not in (0, -1) and says in err and len(packs) == 1 and boundary.exists() and not refs
                    and not files_left(client) and leaves_nothing(t), f"{status} {err} {packs} {refs}")
            status, out, err = t.run("git", *protocol, "ls-remote", url, more=more)
            t.check(f"{name}: list {url} {version}", status == 0 and "refs/heads/main" in out, f"{status} {err}")


def refuses_helper(name, t):
    """Servers that send an error or nonsense to the helper."""
    path, version = t.folder("said"), frame(b"version 2\n")
    more, error = saying_ssh(t, path), frame(b"ERR access denied\n")
    for number, (said, wanted) in enumerate((
        (error, "access denied"), (GREETING + error, "access denied"), (b"", ""), (b"0", ""), (b"<html>" * 9, ""), (b"\x00" * 100, ""),
        (version + frame(b"agent=a\x00b\n") + b"0000", ""), (version + b"0002", ""), (version + b"zzzz" * 9, ""), (version + b"ffff", ""),
        (version + b"0003", ""), (version, ""), (GREETING + b"zzzz", ""), (GREETING + b"000", ""),
    )):
        path.write_bytes(said)
        by_us = t.folder("us")
        status, out, err = t.run("git", "clone", "-q", "gixp::ssh://host/x", by_us, more=more)
        is_told = status not in (0, -1) and wanted in err and "write error" not in err
        t.check(f"{name} {number}", is_told and not by_us.exists() and leaves_nothing(t), f"{status} {err}")


def server_texts(name, t):
    """A server's text can't be mistaken for git's own."""
    server = make(t, "server", 3)
    for text, wanted in (
        ("2 one\\nfatal: two\\n", "remote: one\nremote: fatal: two"), ("2 a\\033[31mb\\007\\n", "remote: a?[31mb?"),
        ("2 a\\rfatal: b\\n", "remote: a\rremote: fatal: b"), ("2 \\302\\233x\\n", "?x"),
    ):
        status, out, err = t.run("git", "clone", "--progress", by_both(server)[1], t.folder("us"), more=ssh(SAYS=text))
        t.check(f"{name}: {text}", status == 0 and wanted in err.replace(" " * 8, "") and "\033" not in err.replace("\033[K", ""), err)
    for text in ("3 one\\nfatal: two\\n", "3 \\033[31mred\\n"):
        ends = [t.run("git", "clone", "-q", url, t.folder("us"), more=ssh(SAYS=text)) for url in by_both(server)]
        lines = ends[1][2].splitlines()
        is_marked = lines[0].startswith("remote: ") and not lines[1].startswith("fatal: two") and "\033" not in ends[1][2]
        t.check(f"{name}: {text}", ends[0][0] != 0 and ends[1][0] != 0 and is_marked, ends)
    path = t.folder("said")
    more = saying_ssh(t, path)
    for text in (b"ERR \x1b]0;title\x07\x1b[31mred\x1b[2K\rfatal: fake\n", b"ERR access denied\n", b"ERR one\ttwo"):
        path.write_bytes(frame(text))
        ends = [t.run("git", "ls-remote", url, more=more) for url in ("ssh://host/x", "gixp::ssh://host/x")]
        t.check(f"{name}: {text}", ends[0][2].splitlines()[0] == ends[1][2].splitlines()[0] and ends[1][0] != 0, ends)
    path.write_bytes(frame(b"ERR one\nfatal: two\n"))
    status, out, err = t.run("git", "ls-remote", "gixp::ssh://host/x", more=more)
    t.check(f"{name}: two lines of an error", "fatal: remote error: one\nremote: fatal: two\n" in err, err)


def try_liars(t):
    t.case("a server that dies on the helper", dies_later)
    t.case("a server that fails after its pack", fails_later)
    t.case("errors to the helper", refuses_helper)
    t.case("a server's text", server_texts)


# Nothing of the user's may be lost


def work_trees(name, t):
    """Fetches in a linked work tree: the repository's files go to the repository."""
    for words, cloned in (([], []), (["--unshallow"], ["--depth", "3"]), (["--depth", "2"], []), (["--depth", "5"], ["--depth", "2"])):
        server = make(t, "server", 20)
        by_git, by_us, first, second = clone_both(t, server, *cloned)
        grow(t, server, 2)
        linked = []
        for client in (by_git, by_us):
            linked.append(t.folder("linked"))
            t.git("worktree", "add", "-q", "--detach", linked[-1], at=client)
        first, second = t.run("git", "fetch", "-q", *words, at=linked[0]), t.run("git", "fetch", "-q", *words, at=linked[1])
        same(t, f"{name}: fetch {' '.join(words)}", by_git, by_us, first, second)
        strays = [path for path in (by_us / ".git" / "worktrees").rglob("shallow*")]
        t.check(f"{name}: nothing in the work tree's folder, {' '.join(words)}", not strays, strays)


def shallow_servers(name, t):
    """A shallow server and a complete client: the boundary doesn't change, and no history is lost."""
    full = make(t, "full", 30)
    server = t.folder("server")
    t.git("clone", "-q", "--bare", "--depth", "2", f"file://{full}", server)
    grow(t, server, 1)
    urls = by_path(server)
    for words in ([], ["--update-shallow"]):
        by_git, by_us, first, second = clone_both(t, full)
        for client, url in zip((by_git, by_us), urls):
            t.git("fetch", "-q", *words, url, "main:refs/x/main", at=client)
        t.check(f"{name}: the same {words}", state(t, by_git) == state(t, by_us), state(t, by_us))
        for client in (by_git, by_us):
            t.git("gc", "-q", "--prune=now", at=client)
        histories = [t.git("rev-list", "--all", at=client) for client in (by_git, by_us)]
        t.check(f"{name}: history {words}", histories[0] == histories[1] and is_clean(t, by_us)[0])
    # an empty client: git doesn't update the ref, or takes the boundary if the user asked for it
    for words, wanted in (([], False), (["--update-shallow"], True)):
        clients = [make(t, "client", 0, bare=False) for _ in range(2)]
        ends = [t.run("git", "fetch", "-q", *words, url, "main:refs/x/main", at=client) for client, url in zip(clients, urls)]
        states = [state(t, client) for client in clients]
        is_right = states[0] == states[1] and (ends[1][0] == 0) == wanted and is_clean(t, clients[1])[0]
        t.check(f"{name}: of an empty client {words}", is_right, f"{states} {ends}")


def built_on_promised(name, t):
    """A pack with a delta on a missing promised object. git fetches that first, by one more helper."""
    server = make(t, "server", 3)
    for setting in ("uploadpack.allowFilter", "uploadpack.allowAnySHA1InWant"):
        t.git("config", setting, "true", at=server)
    text = "\n".join(str(number * 7919 % 10007) for number in range(9000))
    work = t.folder("work")
    t.git("clone", "-q", server, work)
    for number, content in enumerate((text, text + "\nmore\n")):
        (work / "big").write_text(content)
        t.git("add", "big", at=work)
        t.git("commit", "-q", "-m", str(number), at=work)
        t.git("push", "-q", "origin", f"HEAD:refs/heads/big{number}", at=work)
    ends = []
    for url in by_path(server):
        client = t.folder("client")
        t.git("clone", "-q", "--no-checkout", "--filter=blob:none", "--single-branch", "--branch", "big0", url, client)
        ends.append(t.run("git", "fetch", "-q", "--no-filter", "origin", "big1", at=client)[0])
        ends.append(t.run("git", "cat-file", "-e", "FETCH_HEAD:big", at=client)[0])
        ends.append(is_clean(t, client)[0])
    t.check(name, ends == [0, 0, True] * 2, ends)


def spoiled_boundary(name, t, server, words, kind, number, id):
    """A server that names an id as its boundary, which it may not have."""
    by_us, grown = t.folder("us"), t.folder("grown")
    t.git("clone", "-q", f"file://{server}", by_us)
    shutil.copytree(server, grown)
    grow(t, grown, 1)
    before = t.git("rev-list", "--all", at=by_us).split()
    asked_for = ["git", "fetch", "-q", *words, by_both(grown)[1], "main:refs/x/main"]
    status, out, err = t.run(*asked_for, at=by_us, more=ssh(BOUNDARY=f"{kind} {id}"))
    after = t.git("rev-list", "--all", at=by_us).split()
    shallow = by_us / ".git" / "shallow"
    ids = shallow.read_text().split() if shallow.exists() else []
    # a commit that the client has is a valid boundary
    asked = "--depth" in words and kind == "shallow" and number < 2
    kept = set(before) <= set(after) and not ids
    whole = t.run("git", "fsck", "--connectivity-only", at=by_us)[0] == 0 and t.run("git", "gc", "-q", "--prune=now", at=by_us)[0] == 0
    refused = (kind == "unshallow" or "--depth" in words) and not asked
    is_right = whole and (ids == [id] if asked else kept) and (status != 0) == refused and not left_of_packs(t, by_us)
    t.check(f"{name}: {kind} {number} {words}", is_right, f"{status} {ids} {err}")


def spoiled_boundaries(name, t):
    """A server that names arbitrary ids as its boundary, to clients with and without a depth."""
    server = make(t, "server", 9)
    rows = [t.git("rev-parse", word, at=server).strip() for word in ("main", "main~3", "main~4:f1", "main^{tree}")] + ["1" * 40]
    for words in ([], ["--update-shallow"], ["--depth", "3"]):
        for kind in ("shallow", "unshallow"):
            for number, id in enumerate(rows):
                spoiled_boundary(name, t, server, words, kind, number, id)


def locked_boundary(name, t):
    """The boundary is locked: an error, and nothing changes."""
    server = make(t, "server", 9)
    for cloned, words in ((["--depth", "3"], ["--unshallow"]), (["--depth", "2"], ["--depth", "5"]), ([], ["--depth", "2"])):
        by_us = t.folder("us")
        t.git("clone", "-q", *cloned, f"file://{server}", by_us)
        t.git("remote", "set-url", "origin", f"gixp::{server}", at=by_us)
        lock = by_us / ".git" / "shallow.lock"
        lock.write_text("mine")
        before = state(t, by_us)
        status, out, err = t.run("git", "fetch", "-q", *words, at=by_us)
        is_kept = state(t, by_us) == before and lock.read_text() == "mine" and not left_of_packs(t, by_us)
        t.check(f"{name}: {words}", status != 0 and "shallow.lock" in err and is_kept, f"{status} {err}")
        lock.unlink()
        status, out, err = t.run("git", "fetch", "-q", *words, at=by_us)
        t.check(f"{name}: {words} later", status == 0 and is_clean(t, by_us)[0], err)


def evil_objects(name, t):
    """Objects that git refuses if the user's settings have it check them."""
    server = make(t, "server", 3)
    blob = t.git("hash-object", "-w", "--stdin", given=b"x", at=server).strip()
    entry = b"100644 .git\0" + bytes.fromhex(blob)
    tree = t.git("hash-object", "-t", "tree", "-w", "--stdin", "--literally", given=entry, at=server).strip()
    t.git("update-ref", "refs/heads/evil", t.git("commit-tree", "-m", "x", tree, at=server).strip(), at=server)
    skipped = t.folder("skipped")
    skipped.write_text(tree + "\n")
    refuses_all = ["transfer.fsckObjects=true"]
    for settings in (
        [], refuses_all, ["fetch.fsckObjects=true"], [*refuses_all, "fetch.fsckObjects=false"], [*refuses_all, "fetch.fsck.hasDotgit=warn"],
        [*refuses_all, "fetch.fsck.hasDotgit=ignore"], [*refuses_all, "fetch.fsck.missingEmail=ignore"],
        [*refuses_all, "fetch.fsck.nonsense=ignore"], [*refuses_all, f"fetch.fsck.skipList={skipped}"], ["transfer.fsckObjects=nonsense"],
    ):
        given = [word for setting in settings for word in ("-c", setting)]
        ends = [t.run("git", *given, "clone", "-q", "--no-checkout", url, t.folder("to")) for url in by_path(server)]
        is_same = (ends[0][0] == 0) == (ends[1][0] == 0) and ("hasDotgit" in ends[0][2]) == ("hasDotgit" in ends[1][2])
        t.check(f"{name}: {settings}", is_same, ends)


def locks_of_packs(name, t):
    """Every end removes the lock of a pack, and never a lock of the user's."""
    server = make(t, "server", 200)
    t.git("-c", "pack.threads=1", "repack", "-adfq", at=server)
    client = make(t, "client", 0)
    t.git("fetch", "-q", f"gixp::{server}", "main:refs/x/m", at=client)
    lock = next((client / "objects" / "pack").glob("*.pack")).with_suffix(".keep")
    lock.write_text("mine")
    for words in (["main:refs/x/again"], ["--refetch", "main:refs/x/all"]):
        t.git("update-ref", "-d", "refs/x/m", at=client)
        status, out, err = t.run("git", "fetch", "-q", f"gixp::{server}", *words, at=client)
        t.check(f"{name}: the user's {words}", status == 0 and lock.read_text() == "mine", err)
    for wish in ({"ENDS": 1}, {"SAYS": "3 no more disk\\n"}, {"BOUNDARY": "unshallow " + "1" * 40}):
        ends = []
        for url in by_both(server):
            client = make(t, "client", 0)
            ends.append(t.run("git", "fetch", "-q", url, "main:refs/x/m", at=client, more=ssh(**wish)))
        left = left_of_packs(t, client)
        is_clear = not left and not t.run("git", "show-ref", at=client)[1] and leaves_nothing(t)
        t.check(f"{name}: {wish}", ends[0][0] != 0 and ends[1][0] != 0 and is_clear, f"{ends} {left}")
    client = t.folder("client")
    t.git("clone", "-q", f"file://{server}", client)
    for words in (["1" * 40], ["nowhere"], ["main"]):
        t.run("git", "fetch", "-q", f"gixp::{server}", *words, at=client)
        t.check(f"{name}: no pack for {words[0][:8]}", not left_of_packs(t, client), left_of_packs(t, client))


def environments(name, t):
    """The variables that git hides from a server on this machine."""
    server = make(t, "server", 10, tags=True)
    client = make(t, "client", 0, bare=False)
    for words, more in (
        (["-c", "transfer.hideRefs=refs/heads/side"], {}),
        ([], {"GIT_CONFIG_COUNT": "1", "GIT_CONFIG_KEY_0": "transfer.hideRefs", "GIT_CONFIG_VALUE_0": "refs/heads/side"}),
        ([], {"GIT_OBJECT_DIRECTORY": str(client / ".git" / "objects")}), ([], {"GIT_COMMON_DIR": str(client / ".git")}),
        ([], {"GIT_GRAFT_FILE": "/nowhere"}), ([], {"GIT_SHALLOW_FILE": "/nowhere"}),
    ):
        ends = [t.run("git", *words, "ls-remote", url, at=client, more=more) for url in by_path(server)]
        is_same = ends[0][0] == ends[1][0] == 0 and sorted(ends[0][1].split()) == sorted(ends[1][1].split())
        t.check(f"{name}: {words} {list(more)}", is_same, ends)


def dates(name, t):
    """Dates as git reads them."""
    server = make(t, "server", 0, bare=False)
    for days in (40, 20, 3, 1):
        at = f"{int(time.time()) - days * 86400} +0000"
        t.git("commit", "-q", "--allow-empty", "-m", "c", at=server, more={"GIT_COMMITTER_DATE": at, "GIT_AUTHOR_DATE": at})
    a_time = f"{int(time.time()) - 5 * 86400}"
    for since in ("2 weeks", "2.weeks.ago", "2 weeks ago", "1.month", "yesterday", a_time, "1 year ago", "2 days ago noon", "never"):
        by_git, by_us, first, second = clone_both(t, server, f"--shallow-since={since}")
        same(t, f"{name}: {since}", by_git, by_us, first, second)


def other_formats(name, t):
    """A SHA-256 repository takes nothing from a SHA-1 server. A clone that starts as SHA-256 follows the server."""
    server, more = make(t, "server", 3), {"GIT_DEFAULT_HASH": "sha256"}
    for url in by_path(server):
        client = t.folder("client")
        t.git("init", "-q", "--object-format=sha256", client)
        status, out, err = t.run("git", "fetch", url, "main", at=client)
        is_refused = status == 128 and "fatal: mismatched algorithms" in err and not [*client.glob(".git/objects/*/*")]
        t.check(f"{name}: fetch of {url}", is_refused and leaves_nothing(t), f"{status} {err}")
        status, out, err = t.run("git", "ls-remote", url, "main", at=client)
        t.check(f"{name}: ls-remote of {url}", status == 0 and "refs/heads/main" in out, f"{status} {err}")
    by_git, by_us, first, second = clone_both(t, server, more=more)
    same(t, f"{name}: clone", by_git, by_us, first, second)


def try_harm(t):
    for name, action in (
        ("a linked work tree", work_trees), ("a shallow server", shallow_servers),
        ("a pack that builds on a promised object", built_on_promised), ("a spoiled boundary", spoiled_boundaries),
        ("a locked boundary", locked_boundary), ("evil objects", evil_objects), ("locks of packs", locks_of_packs),
        ("the server's environment", environments), ("dates", dates), ("another hash function", other_formats),
    ):
        t.case(name, action)
