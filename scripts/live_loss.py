"""Cases of live.py, compared with git, in which a helper could lose something: refs by --prune, history by a boundary, objects, or cookies."""
import shutil
import time

from live_harness import by_both, by_path, clone_both, counts, files_left, grow, is_clean, leaves_nothing, make, refs_of, state
from live_httpd import web_of
from live_servers import GREETING, ended_after, frame, saying_ssh, ssh
from live_web import urls_of

# a fetch that normally ends at once counts as hanging after so many seconds
ENDLESS = 30
# `git pack-objects` of nothing
NO_OBJECTS = bytes.fromhex("5041434b0000000200000000029d08823bd8a8eab510ad6ac75c823cfd3ed31e")


def timed(t, *words, **more):
    """Runs git. Returns its status (124 if it hangs) and its output."""
    return t.run("timeout", ENDLESS, "git", *words, **more)


def told_alike(first, second):
    """Whether git and the helper both succeeded, or both failed in time."""
    return (first[0] == 0) == (second[0] == 0) and second[0] not in (-1, 124)


def answering(t, web, server, at, answer):
    """A web server that sends this answer to each request with a word."""
    path = t.folder("answer")
    path.write_bytes(answer)
    return web_of(t, web, server.parent, ANSWER=path, ANSWER_AT=at)


# Lists that end too early


def mirrors(t, server):
    """Two mirrors of a server, which then gets another URL."""
    found = [t.folder("mirror") for _ in range(2)]
    for mirror in found:
        t.git("clone", "-q", "--mirror", f"file://{server}", mirror)
    return found


def prunes(t, name, server, urls, more=None):
    """A fetch with --prune into mirrors, over an incomplete list: an error, and each ref stays."""
    both, wanted = mirrors(t, server), refs_of(t, server)
    ends = [timed(t, "fetch", "-q", "--prune", url, "+refs/*:refs/*", at=mirror, more=more) for mirror, url in zip(both, urls)]
    left = [refs_of(t, mirror) for mirror in both]
    is_kept = left[0] == left[1] == wanted
    t.check(name, told_alike(*ends) and ends[1][0] and is_kept and leaves_nothing(t), f"{ends} {len(left[1])} of {len(wanted)} refs")


def cut_lists(name, t, web):
    """Over HTTP a response to ls-refs that ends too early."""
    server = make(t, "server", 20, tags=True)
    line = frame(refs_of(t, server)[0].split()[1].encode() + b" refs/heads/alias\n")
    for number, answer in enumerate((b"00", b"0032", line + b"00", line, line[:-9], b"", line + b"0001", line + b"0002")):
        with answering(t, web, server, "ls-refs", answer) as front:
            prunes(t, f"{name} {number}", server, urls_of(f"{front}/{server.name}"))


def cut_streams(name, t):
    """A list that ends at a delimiter packet or at the end of the stream."""
    server, said = make(t, "server", 20, tags=True), t.folder("said")
    line = frame(refs_of(t, server)[0].split()[1].encode() + b" refs/heads/alias\n")
    for number, answer in enumerate((b"0001", line + b"0001", line + b"0001" + line + b"0000", line + b"0002", line, b"")):
        said.write_bytes(GREETING + answer)
        prunes(t, f"{name} {number}", server, by_both("/x"), saying_ssh(t, said))


# Responses over HTTP that end too early


def cut_fetches(name, t, web):
    """A response to a fetch that ends after a packet line, or inside one."""
    server = make(t, "server", 20)
    for number, answer in enumerate((b"", b"00", frame(b"packfile\n"), frame(b"ERR upload-pack: no way\n"), frame(b"acknowledgments\n"),
                                     frame(b"shallow-info\n"), frame(b"packfile\n") + frame(b"\1PACK"))):
        with answering(t, web, server, "command=fetch", answer) as front:
            ends = [timed(t, "clone", "-q", url, t.folder("to")) for url in urls_of(f"{front}/{server.name}")]
            t.check(f"{name} {number}", told_alike(*ends) and ends[1][0] and leaves_nothing(t), ends)


def lost_object(name, t, web):
    """A server that lacks an object reports it and ends its response."""
    server = make(t, "server", 0, bare=False)
    (server / "f").write_text("x")
    t.git("add", "f", at=server)
    t.git("commit", "-qm", "x", at=server)
    id = t.git("rev-parse", "HEAD:f", at=server).strip()
    (server / ".git" / "objects" / id[:2] / id[2:]).unlink()
    with web_of(t, web, server.parent) as front:
        ends = [timed(t, "clone", "-q", url, t.folder("to")) for url in urls_of(f"{front}/{server.name}/.git")]
        t.check(name, told_alike(*ends) and ends[1][0] and leaves_nothing(t), ends)


def nothing_selected(name, t, web):
    """A date after all commits."""
    server = make(t, "server", 5)
    with web_of(t, web, server.parent) as front:
        for urls in (urls_of(f"{front}/{server.name}"), by_path(server)):
            ends = [timed(t, "clone", "-q", "--shallow-since=2033-10-12", url, t.folder("to")) for url in urls]
            t.check(f"{name}: {urls[0][:7]}", told_alike(*ends) and leaves_nothing(t), ends)


# The boundary


def false_unshallow(name, t, web):
    """A server that unshallows an id and doesn't send its parents."""
    server = make(t, "server", 5)
    parent = t.git("rev-parse", "main^", at=server).strip().encode()
    answer = (frame(b"acknowledgments\n") + frame(b"ready\n") + b"0001" + frame(b"shallow-info\n") + frame(b"unshallow " + parent + b"\n")
              + b"0001" + frame(b"packfile\n") + frame(b"\1" + NO_OBJECTS) + b"0000")
    clients = [t.folder("client") for _ in range(2)]
    for client in clients:
        t.git("clone", "-q", "--bare", "--depth", "2", f"file://{server}", client)
    before = state(t, clients[0])
    with answering(t, web, server, "command=fetch", answer) as front:
        urls = urls_of(f"{front}/{server.name}")
        ends = [timed(t, "fetch", "-q", "--depth=1", url, "main:refs/x/a", at=client) for url, client in zip(urls, clients)]
    is_kept = state(t, clients[0]) == state(t, clients[1]) == before and is_clean(t, clients[1])[0]
    t.check(name, told_alike(*ends) and is_kept, f"{ends} {is_clean(t, clients[1])}")


def shallow_again(name, t):
    """A shallow server's boundary would hide history: the fetch leaves nothing that hinders --update-shallow. git takes the refs that
    the boundary doesn't reach, the helper takes none."""
    full, server = make(t, "full", 9), t.folder("server")
    t.git("clone", "-q", "--bare", "--depth", "2", f"file://{full}", server)
    tree = t.git("rev-parse", "main^{tree}", at=server).strip()
    t.git("update-ref", "refs/heads/other", t.git("commit-tree", "-m", "root", tree, at=server).strip(), at=server)
    clients = [make(t, "client", 0, bare=False) for _ in range(2)]
    for words in ([], ["--update-shallow"], []):
        ends = [t.run("git", "fetch", "-q", *words, url, "refs/heads/*:refs/x/*", at=client)
                for url, client in zip(by_path(server), clients)]
        is_same = told_alike(*ends) and state(t, clients[0]) == state(t, clients[1])
        is_kept = ends[1][0] not in (0, -1) and not refs_of(t, clients[1]) and counts(t, clients[1]) == (0, 0, 0)
        is_right = (is_same or is_kept) and is_clean(t, clients[1])[0] and leaves_nothing(t)
        t.check(f"{name} {words}", is_right, f"{ends} {[refs_of(t, client) for client in clients]}")


def fetch_while(t, server, url, change):
    """A fetch into a shallow clone that changes after the request. Returns the status, the output and the clone."""
    client, said, waits = t.folder("client"), t.folder("said"), t.folder("waits")
    t.git("clone", "-q", "--bare", "--depth", "3", f"file://{server}", client)
    with open(said, "w") as stderr:
        words = ["git", "fetch", "-q", "--depth", "5", url, "main:refs/x/a"]
        begun = t.begin(*words, at=client, more=ssh(BODIES=1, WAITS=waits), stderr=stderr)
        with ended_after(begun):
            until = time.monotonic() + ENDLESS
            while not waits.exists() and time.monotonic() < until:
                time.sleep(0.01)
            change(client)
            waits.unlink()
            begun.wait(ENDLESS)
    return begun.returncode, said.read_text(), client


def changed_boundary(name, t):
    """The boundary changes during a fetch: an error, the change stays, and nothing is left. git compares the file's size."""
    server = make(t, "server", 20)
    mine = t.git("rev-parse", "main", "main~9", at=server)
    for label, change in (("written", lambda client: (client / "shallow").write_text(mine)),
                          ("taken away", lambda client: (client / "shallow").unlink())):
        ends = [fetch_while(t, server, url, change) for url in by_both(server)]
        is_told = all(end[0] == 128 and "shallow file has changed since we read it" in end[1] for end in ends)
        kept = [client.joinpath("shallow").read_text() if client.joinpath("shallow").exists() else "" for _, _, client in ends]
        is_kept = kept[0] == kept[1] == (mine if label == "written" else "") and not files_left(ends[1][2])
        t.check(f"{name}: {label}", is_told and is_kept and refs_of(t, ends[0][2]) == refs_of(t, ends[1][2]), f"{ends} {kept}")


# Objects


def promised(name, t):
    """A partial clone whose ref names a lost object: helpers don't start helpers without end."""
    server, shim, most = make(t, "server", 3), t.folder("shim"), 12
    for setting in ("allowFilter", "allowAnySHA1InWant"):
        t.git("config", f"uploadpack.{setting}", "true", at=server)
    shim.mkdir()
    count = shim / "count"
    ours = t.room / "tools" / "git-remote-gixp"
    text = f'echo >> "{count}"\n[ $(wc -l < "{count}") -le {most} ] || exit 1\nexec "{ours}" "$@"\n'
    (shim / "git-remote-gixp").write_text("#!/bin/sh\n" + text)
    (shim / "git-remote-gixp").chmod(0o755)
    more, ends = {"PATH": f"{shim}:{t.environment['PATH']}"}, []
    for url in by_path(server):
        client = t.folder("client")
        t.git("clone", "-q", "--filter=blob:none", url, client, more=more)
        shutil.rmtree(client / ".git" / "objects" / "pack")
        t.git("tag", "-f", "-a", "-m", url, "new", at=server)
        count.write_text("")
        ends.append(timed(t, "fetch", "-q", "--no-tags", "--recurse-submodules=no", "origin", "refs/tags/new", at=client, more=more))
    started = len(count.read_text().splitlines())
    t.check(name, ends[1][0] not in (-1, 124) and started < most, f"{started} helpers {ends}")


def borrowed(name, t):
    """Objects of alternates are not fetched again: the helper fetches as many objects as git, or fewer."""
    original = make(t, "original", 30, tags=True)
    server = t.folder("server")
    t.git("clone", "-q", "--bare", f"file://{original}", server)
    grow(t, server, 1)
    found = []
    for url, old in zip(by_path(server), by_path(original)):
        client, named, same_again = make(t, "client", 0), t.folder("named"), t.folder("same")
        (client / "objects" / "info").mkdir(exist_ok=True)
        (client / "objects" / "info" / "alternates").write_text(f"{original}/objects\n")
        t.git("fetch", "-q", url, "main:refs/x/it", at=client)
        t.git("clone", "-q", "--bare", "--reference", original, url, named)
        t.git("clone", "-q", "--bare", "--reference", original, old, same_again)
        found.append([counts(t, one) for one in (client, named, same_again)])
    is_right = all(ours[0] + ours[2] <= theirs[0] + theirs[2] for theirs, ours in zip(*found))
    t.check(name, is_right and leaves_nothing(t), found)


def packs_kept(name, t):
    """A small pack is unpacked, a large one kept, an empty one dropped, as by git."""
    server = make(t, "server", 30, tags=True)
    for words, cloned, count in (
        ([], [], 5), ([], [], 60), (["-c", "fetch.unpackLimit=1"], [], 5), (["-c", "transfer.unpackLimit=1"], [], 5),
        (["-c", "fetch.unpackLimit=9999"], [], 60), (["-c", "transfer.unpackLimit=1", "-c", "fetch.unpackLimit=50"], [], 5),
        ([], ["--depth", "2"], 0), ([], ["--depth", "2"], 3),
    ):
        copy = t.folder("copy")
        shutil.copytree(server, copy)
        by_git, by_us, first, second = clone_both(t, copy, *cloned)
        cloned_counts = [counts(t, client) for client in (by_git, by_us)]
        if count:
            grow(t, copy, count)
        depth = ["--depth=2"] if cloned else []
        for client in (by_git, by_us):
            for _ in range(3 if cloned else 1):
                t.git(*words, "fetch", "-q", *depth, at=client)
        found = [counts(t, client) for client in (by_git, by_us)]
        is_same = found[0] == found[1] and cloned_counts[0] == cloned_counts[1] and is_clean(t, by_us)[0]
        t.check(f"{name}: {words} {cloned} {count}", is_same, f"{cloned_counts} {found}")
    by_git, by_us, first, second = clone_both(t, server, "--reference", server)
    found = [counts(t, client) for client in (by_git, by_us)]
    t.check(f"{name}: nothing came", found[0] == found[1], found)


# Cookies and passwords


def saved_cookies(name, t, web):
    """A server's cookies are saved if the user's settings say so."""
    server, saved = make(t, "server", 5), []
    with web_of(t, web, server.parent, COOKIE="session=abc; Path=/; Max-Age=3600") as front:
        for url in urls_of(f"{front}/{server.name}"):
            for words in (["clone", "-q", url, t.folder("to")], ["ls-remote", url]):
                jar = t.folder("jar")
                jar.touch()
                status = t.run("git", "-c", f"http.cookieFile={jar}", "-c", "http.saveCookies=true", *words)[0]
                saved.append((status, "session\tabc" in jar.read_text()))
    t.check(name, saved == [(0, True)] * 4, saved)


def passwords(name, t, web):
    """A URL with a password, which git can't see after `gixp::`, is an error unless the user allows it. The password is never printed."""
    server = make(t, "server", 5)
    with web_of(t, web, server.parent) as front:
        plain, ours = urls_of(f"http://joe:secret@{front.removeprefix('http://')}/{server.name}")
        for value, is_taken in ((None, False), ("die", False), ("nonsense", None), ("warn", True), ("allow", True)):
            setting = ["-c", f"transfer.credentialsInUrl={value}"] if value else []
            first, second = (t.run("git", *setting, "clone", "-q", url, t.folder("to")) for url in (plain, ours))
            is_right = is_taken is None or (second[0] == 0) == is_taken
            warns = value != "warn" or "credential" in second[2]
            t.check(f"{name}: {value}", is_right and warns and "secret" not in second[2] and leaves_nothing(t), f"{first} {second}")


def other_hash(name, t):
    """A server with another hash function gets no request."""
    server, client = t.folder("server"), make(t, "client", 0)
    t.git("init", "-q", "--object-format=sha256", server)
    t.git("commit", "-q", "--allow-empty", "-m", "x", at=server)
    said = t.folder("said")
    greeting = GREETING.replace(frame(b"object-format=sha1\n"), frame(b"object-format=sha256\n"))
    said.write_bytes(greeting + frame(b"a" * 64 + b" refs/heads/main\n") + b"0000")
    for label, urls, more in (("a repository", by_path(server), {}), ("its words", by_both("/x"), saying_ssh(t, said))):
        ends = [timed(t, "fetch", "-q", url, "main", at=client, more=more) for url in urls]
        is_told = all(status == 128 and "mismatched algorithms" in err for status, out, err in ends)
        t.check(f"{name}: {label}", is_told and leaves_nothing(t), ends)


def try_loss(t):
    for name, action in (
        ("a list that a stream cuts", cut_streams), ("--update-shallow after a fetch", shallow_again),
        ("a boundary that changes", changed_boundary), ("a promised object that is lost", promised), ("alternates", borrowed),
        ("packs and loose objects", packs_kept), ("a server of SHA-256", other_hash),
    ):
        t.case(f"loss: {name}", action)


def try_web_loss(t, web):
    for name, action in (
        ("a list that is cut", cut_lists), ("a fetch that is cut", cut_fetches), ("an object that the server lost", lost_object),
        ("a time that selects nothing", nothing_selected), ("a false unshallow", false_unshallow), ("cookies", saved_cookies),
        ("passwords", passwords),
    ):
        t.case(f"loss, {web}: {name}", action, web)
