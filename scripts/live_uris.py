"""Cases of live.py with packs that the server names by URIs (git-config, "fetch.uriProtocols"), compared with git."""
import contextlib
import signal
import socket
import sys

from live_harness import GRACE, clone_both, end_session, leaves_nothing, left_of_packs, make, same
from live_servers import ended_after, free_port, ssh, wait_for_port

BOTH = "fetch.uriProtocols=http,https"
ZEROS = "0" * 40


@contextlib.contextmanager
def packs_of(t):
    """A web server of packs: its folder, and the beginning of its URLs."""
    folder, port = t.folder("packs"), free_port()
    folder.mkdir()
    with ended_after(t.begin(sys.executable, "-m", "http.server", "--bind", "127.0.0.1", port, at=folder)) as begun:
        wait_for_port(port, begun)
        yield folder, f"http://127.0.0.1:{port}"


def server_with(t, files):
    """A repository with these files in its last commit. It may name packs by URIs."""
    server = make(t, "server", 4)
    work = t.folder("work")
    t.git("clone", "-q", server, work)
    for name, text in files.items():
        (work / name).write_text(text)
    t.git("add", ".", at=work)
    t.git("commit", "-q", "-m", "files", at=work)
    t.git("push", "-q", "origin", "HEAD:main", at=work)
    t.git("config", "uploadpack.allowSidebandAll", "true", at=server)
    return server


def name_pack(t, server, file, folder, front, name=None, uri=None):
    """Has a server name a pack with this file's content by a URI. Returns the name of the pack."""
    blob = t.git("rev-parse", f"main:{file}", at=server).strip()
    made = t.git("pack-objects", "-q", folder / "p", at=server, given=f"{blob}\n".encode()).strip()
    line = f"{blob} {name or made} {uri or f'{front}/p-{made}.pack'}"
    t.git("config", "--add", "uploadpack.blobPackfileUri", line, at=server)
    return made


def packs(client):
    return sorted(found.name for found in client.glob(".git/objects/pack/*") if found.suffix in (".pack", ".idx", ".keep", ".promisor"))


def both(t, server, *words, config=(BOTH,), more=None, urls=None):
    settings = [word for setting in config for word in ("-c", setting)]
    return clone_both(t, server, *settings, *words, more=more, urls=urls or (f"file://{server}", f"gixp::file://{server}"))


def alike(t, name, came):
    """Whether git and the helper have the same packs, or both failed, and nothing is left."""
    by_git, by_us, first, second = came
    same(t, name, *came)
    for lock in by_git.glob(".git/objects/pack/*.keep"):
        lock.unlink() # a fetch of git's leaves the lock of the server's own pack
    if not first[0] and not second[0]:
        t.check(f"{name}, packs", packs(by_git) == packs(by_us), f"{packs(by_git)} {packs(by_us)}")
        t.check(f"{name}, locks", left_of_packs(t, by_us) == [], left_of_packs(t, by_us))
    t.check(f"{name}, nothing left", leaves_nothing(t), "files or processes")


def uri_clones(name, t, words, wanted):
    """Clones in which two files come in packs of their own."""
    with packs_of(t) as (folder, front):
        server = server_with(t, {"one": "one\n", "two": "two\n", "three": "three\n"})
        t.git("config", "uploadpack.allowFilter", "true", at=server)
        for file in ("one", "two"):
            name_pack(t, server, file, folder, front)
        came = both(t, server, *words)
        alike(t, name, came)
        count = len([found for found in packs(came[1]) if found.endswith(".pack")])
        t.check(f"{name}, {wanted} packs", count == wanted, f"{packs(came[1])} {came[3]}")


def uri_fetches(name, t):
    """A fetch into a repository with commits: without the setting, with it, and once more without a URI."""
    with packs_of(t) as (folder, front):
        server = server_with(t, {"one": "one\n"})
        clients = both(t, server, config=("fetch.uriProtocols=",))
        alike(t, f"{name}: without a protocol", clients)
        work = t.folder("again")
        t.git("clone", "-q", server, work)
        (work / "later").write_text("later\n")
        t.git("add", ".", at=work)
        t.git("commit", "-q", "-m", "later", at=work)
        t.git("push", "-q", "origin", "HEAD:main", at=work)
        name_pack(t, server, "later", folder, front)
        ends = [t.run("git", "-c", BOTH, "fetch", "-q", at=client) for client in clients[:2]]
        alike(t, f"{name}: with it", (*clients[:2], *ends))
        t.check(f"{name}: a pack of its own", len(packs(clients[1])) == 6, packs(clients[1]))


def uri_checks(name, t):
    """The checks of objects if a `.gitmodules` is in another pack than its tree."""
    for label, text, is_good in (("good", '[submodule "x"]\npath = x\nurl = git://host/x.git\n', True),
                                 ("bad", '[submodule ".."]\npath = x\nurl = git://host/x.git\n', False)):
        with packs_of(t) as (folder, front):
            server = server_with(t, {".gitmodules": text})
            name_pack(t, server, ".gitmodules", folder, front)
            came = both(t, server, config=(BOTH, "transfer.fsckObjects=true"))
            alike(t, f"{name}: {label}", came)
            told = came[3][0] == 0 if is_good else "disallowed submodule name" in came[3][2]
            t.check(f"{name}: {label}, why", told, came[3])


def uri_refusals(name, t):
    """A wrong name, a missing pack, a file that is no pack, and a protocol that the user doesn't allow."""
    for label, change, says in (
        ("a wrong name", {"name": ZEROS}, f"does not match expected hash {ZEROS}"),
        ("no pack there", {"uri": "/missing.pack"}, "expected keep then TAB"),
        ("no pack", {"uri": "/text"}, "expected keep then TAB"),
    ):
        with packs_of(t) as (folder, front):
            (folder / "text").write_text("no pack\n")
            server = server_with(t, {"one": "one\n", "two": "two\n"})
            given = {word: f"{front}{value}" if word == "uri" else value for word, value in change.items()}
            name_pack(t, server, "two", folder, front)
            name_pack(t, server, "one", folder, front, **given)
            came = both(t, server)
            alike(t, f"{name}: {label}", came)
            t.check(f"{name}: {label}, words", all(end[0] and says in end[2] for end in came[2:]), came[2:])
            t.check(f"{name}: {label}, none kept", not came[1].exists(), "the clone is there")


def uri_lines(name, t):
    """Malformed lines of a server. git accepts a URI of any allowed protocol of curl. The helper refuses others than the setting's."""
    good = f"{ZEROS} http://127.0.0.1:1/x"
    for label, lines, git_says, says in (
        ("no URI", "nonsense", "expected '<hash> <uri>'", "expected '<hash> <uri>'"),
        ("no digits", f"{'g' * 40} http://127.0.0.1:1/x", "", "expected '<hash> <uri>'"),
        ("a blank", f"{ZEROS} http://127.0.0.1:1/x y", "", "expected '<hash> <uri>'"),
        ("a control character", f"{ZEROS} http://127.0.0.1:1/\\x1bx", "", "expected '<hash> <uri>'"),
        ("another protocol", f"{ZEROS} ftp://127.0.0.1:1/x", "", "fetch.uriProtocols doesn't have"),
        ("a protocol that isn't in the setting", f"{ZEROS} https://127.0.0.1:1/x", "", "fetch.uriProtocols doesn't have"),
        ("an option", f"{ZEROS} --stdin", "", "fetch.uriProtocols doesn't have"),
        ("no end", "*" + good, "", "expected '<hash> <uri>'"),
        ("cut off", "!" + good, "", "the remote end hung up"),
        ("too many", "\\n".join([good] * 1001), "", "expected '<hash> <uri>'"),
    ):
        server = server_with(t, {"one": "one\n"})
        t.git("config", "uploadpack.allowSidebandAll", "false", at=server)
        t.git("config", "uploadpack.blobPackfileUri", f"{ZEROS} {ZEROS} http://127.0.0.1:1/x", at=server)
        urls = f"ssh://host{server}", f"gixp::ssh://host{server}"
        if label == "too many":
            urls = "/nothing", urls[1]
        came = both(t, server, config=("fetch.uriProtocols=http",), more=ssh(URIS=lines), urls=urls)
        t.check(f"{name}: {label}", all(end[0] for end in came[2:]) and not came[1].exists(), came[2:])
        t.check(f"{name}: {label}, words", git_says in came[2][2] and says in came[3][2], came[2:])
        t.check(f"{name}: {label}, nothing left", leaves_nothing(t), "files or processes")


def uri_ends(name, t):
    """A download that never ends: it ends with git, whatever ends git."""
    for end in (signal.SIGTERM, signal.SIGINT, signal.SIGKILL):
        with socket.create_server(("127.0.0.1", 0)) as silent, packs_of(t) as (folder, front):
            silent.settimeout(30)
            server = server_with(t, {"one": "one\n"})
            name_pack(t, server, "one", folder, front, uri=f"http://127.0.0.1:{silent.getsockname()[1]}/x")
            client = t.folder("us")
            begun = t.begin("git", "-c", BOTH, "clone", "-q", f"gixp::file://{server}", client)
            with silent.accept()[0]:
                begun.send_signal(end)
                begun.wait(30)
                stay = end_session(begun, GRACE)
            t.check(f"{name}: {end.name}", not stay, stay)
            t.check(f"{name}: {end.name}, nothing left", leaves_nothing(t), "files or processes")


def try_uris(t):
    for words, wanted in (([], 3), (["--depth", "2"], 3), (["--filter=blob:none", "--no-checkout"], 1)):
        t.case(f"uris: clone {' '.join(words)}", uri_clones, words, wanted)
    t.case("uris: fetches", uri_fetches)
    t.case("uris: checks", uri_checks)
    t.case("uris: refusals", uri_refusals)
    t.case("uris: lines", uri_lines)
    t.case("uris: ends", uri_ends)
