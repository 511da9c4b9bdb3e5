"""Cases of live.py over HTTP of versions 0 and 1, and over plain files (gitprotocol-http, "dumb"), compared with git."""
import re
import shutil
import signal
import time

from live_ends import AT_ONCE, MOMENTS, kill_at, slowly, unlock
from live_harness import PROCESSES, clone_both, commits, files_left, grow, leaves_nothing, make, pruned, running, same, state, tagged
from live_httpd import web_of
from live_web import missing, server_of, urls_of, web_accounts

# what a server speaks: the wish for live_httpd.py, and the version that the clients request
WAYS = {"version 0": ({"PLAIN": 1}, "2"), "version 1": ({}, "1"), "version 0 on request": ({}, "0"), "files": ({"FILES": 1}, "2")}
SMART = "version 0", "version 1"
# lines of git after a cut pack, of which one or another comes first
CHANCE = "bad pack header", "early EOF", "invalid index-pack output", "the remote end hung up unexpectedly"


def updated(t, server):
    """Writes the files that a client without git's protocol reads."""
    t.git("update-server-info", at=server)


def prepared(t, count=30, **more):
    server = server_of(t, count, **more)
    updated(t, server)
    return server


def version_of(way):
    return {"GIXP_VERSION": WAYS[way][1]}, ["-c", f"protocol.version={WAYS[way][1]}"]


def both(t, way, urls, words, at=(None, None), more=None, given=()):
    """The same command by git and by the helper. URL stands for the URL in its words."""
    ours, setting = version_of(way)
    ends = []
    for url, place, variables in zip(urls, at, ({}, ours)):
        filled = [url if word == "URL" else word for word in words]
        ends.append(t.run("git", *setting, *given, *filled, at=place, more={**variables, **(more or {})}))
    return ends


def relay_clones(name, t, web, way, words, **wish):
    server = prepared(t)
    with web_of(t, web, server.parent, **WAYS[way][0], **wish) as front:
        urls = urls_of(f"{front}/{server.name}")
        same(t, name, *clone_both(t, server, *words, version=WAYS[way][1], urls=urls))
        t.check(f"{name}, left", leaves_nothing(t))


def grown(t, server):
    grow(t, server, 5)


def relay_fetches(name, t, web, way, words, change, cloned=()):
    server = prepared(t)
    with web_of(t, web, server.parent, **WAYS[way][0]) as front:
        urls = urls_of(f"{front}/{server.name}")
        by_git, by_us, first, second = clone_both(t, server, *cloned, version=WAYS[way][1], urls=urls)
        if first[0] or second[0]:
            return t.check(name, False, first[2] + second[2])
        change(t, server)
        updated(t, server)
        words = [t.git("rev-parse", "main~2", at=server).strip() if word == "ID" else word for word in words]
        first, second = both(t, way, urls, ["fetch", *words], (by_git, by_us))
        told = [sorted(line.replace("gixp::", "") for line in err.splitlines()) for status, out, err in (first, second)]
        t.check(f"{name}, words", told[0] == told[1], told)
        same(t, name, by_git, by_us, first, second)
        kept = [sorted(one.suffix for one in client.glob(".git/objects/pack/*")) for client in (by_git, by_us)]
        return t.check(f"{name}, packs", kept[0] == kept[1] and leaves_nothing(t), kept)


def relay_lists(name, t, web, way):
    """Lists: of no refs, of some, of many."""
    for count, branches in ((0, 0), (3, 0), (2, 20_000)):
        server = make(t, "server", count)
        tip = t.git("rev-parse", "main", at=server).strip() if count else ""
        with open(server / "packed-refs", "a") as refs:
            refs.writelines(f"{tip} refs/heads/b{number:05d}\n" for number in range(branches))
        updated(t, server)
        with web_of(t, web, server.parent, **WAYS[way][0]) as front:
            for words in (["ls-remote", "URL"], ["ls-remote", "--symref", "URL", "HEAD"]):
                first, second = both(t, way, urls_of(f"{front}/{server.name}"), words)
                t.check(f"{name}: {branches} {words[1]}", first == second and leaves_nothing(t), f"{first[2]} {second[2]}")


def relay_accounts(name, t, web, way):
    web_accounts(name, t, web, WAYS[way][1], **WAYS[way][0])


def words_of_failure(text):
    """The lines of an error without names, places and counts. Whether a cut pack has a header is chance."""
    lines = re.sub(r"/\d+-to|127\.0\.0\.1:\d+|gixp::", "", text).splitlines()
    return [re.sub(r"\d+ (bytes|out of|ms)", "", line) for line in lines if not line.endswith(CHANCE)]


def relay_proxy(name, t, web, way):
    """A host that only a proxy knows."""
    server = prepared(t, 9)
    with web_of(t, "ours", server.parent, **WAYS[way][0]) as front:
        urls = urls_of(f"http://no.such.invalid/{server.name}")
        for proxy, is_there in ((front, True), ("http://127.0.0.1:1", False)):
            to = t.folder("git"), t.folder("us")
            first, second = (t.run("git", *version_of(way)[1], "-c", f"http.proxy={proxy}", "clone", "-q", url, one,
                                   more=version_of(way)[0]) for url, one in zip(urls, to))
            if is_there:
                same(t, name, *to, first, second)
            is_same = words_of_failure(first[2]) == words_of_failure(second[2])
            t.check(f"{name}: {is_there}", (second[0] == 0) == is_there and is_same and leaves_nothing(t), f"{first} {second}")


def relay_cookies(name, t, web, way):
    """A server's cookies are saved if the user's settings say so."""
    server, saved = prepared(t, 9), []
    with web_of(t, web, server.parent, COOKIE="session=abc; Path=/; Max-Age=3600", **WAYS[way][0]) as front:
        for words in (["clone", "-q", "URL"], ["ls-remote", "URL"]):
            for url in urls_of(f"{front}/{server.name}"):
                jar = t.folder("jar")
                jar.touch()
                filled = [url if word == "URL" else word for word in words] + ([t.folder("to")] if "clone" in words else [])
                settings = [*version_of(way)[1], "-c", f"http.cookieFile={jar}", "-c", "http.saveCookies=true"]
                status = t.run("git", *settings, *filled, more=version_of(way)[0])[0]
                saved.append((status, "session\tabc" in jar.read_text()))
    t.check(name, saved == [(0, True)] * 4, saved)


def shapes(text):
    """The kinds of lines that a fetch shows: without numbers, rates and names of folders."""
    lines = re.split(r"[\r\n]+", re.sub(r"\x1b\[K", "", text))
    return sorted({re.sub(r"[\d.,]+( ([KMG]iB|bytes)(/s)?)?", "N", line.split("'")[0]).strip(" .|") for line in lines if "done" in line})


def relay_progress(name, t, web, way):
    """Progress is shown if the user wants it, and a quiet clone shows nothing."""
    server = prepared(t, 300)
    with web_of(t, web, server.parent, **WAYS[way][0]) as front:
        for words in (["--progress"], ["-q"], []):
            ends = []
            for url in urls_of(f"{front}/{server.name}"):
                ends.append(t.run("git", *version_of(way)[1], "clone", *words, url, t.folder("to"), more=version_of(way)[0]))
            told = [shapes(err) for status, out, err in ends]
            is_shown = bool(told[1]) == (words == ["--progress"])
            t.check(f"{name}: {words}", told[0] == told[1] and (is_shown or way == "files") and not ends[1][0], ends)


def relay_partial(name, t, web, way):
    """A partial clone, and objects that are fetched when they are needed."""
    server = prepared(t, 50)
    with web_of(t, web, server.parent, **WAYS[way][0]) as front:
        for filter_of in ("blob:none", "tree:0", "blob:limit=10"):
            words = ["--no-checkout", f"--filter={filter_of}"]
            urls = urls_of(f"{front}/{server.name}")
            by_git, by_us, first, second = clone_both(t, server, *words, version=WAYS[way][1], urls=urls)
            counts = missing(t, by_git), missing(t, by_us)
            promised = [len(list(client.glob(".git/objects/pack/*.promisor"))) for client in (by_git, by_us)]
            t.check(f"{name}: {filter_of}", not second[0] and counts[0] == counts[1] and promised[0] == promised[1], f"{counts} {second}")
            ends = both(t, way, urls, ["checkout", "-q", "main"], (by_git, by_us))
            is_same = ends[0][0] == ends[1][0] == 0 and state(t, by_git) == state(t, by_us) and missing(t, by_git) == missing(t, by_us)
            t.check(f"{name}: {filter_of}, later", is_same and leaves_nothing(t), ends)


def failing(t, name, way, front, server, words=("clone", "-q")):
    """A command that fails by git and by the helper: the same status and the same words, and the same files are left."""
    urls = urls_of(f"{front}/{server.name}")
    to = t.folder("to"), t.folder("to")
    ends = []
    for url, one in zip(urls, to):
        ends.append(t.run("git", *version_of(way)[1], *words, url, one, more=version_of(way)[0]))
    told = [words_of_failure(err) for status, out, err in ends]
    is_same = ends[0][0] == ends[1][0] and told[0] == told[1] and [one.exists() for one in to] == [ends[0][0] == 0] * 2
    t.check(name, is_same and leaves_nothing(t), f"{ends[0]}\n{ends[1]}")


def relay_cuts(name, t, web, way):
    """Responses that end too early."""
    server = prepared(t, 300)
    t.git("repack", "-adq", at=server)
    updated(t, server)
    places = (("info/refs", (1, 30, 60, 150)), ("git-upload-pack", (1, 9, 30, 400, 3000, 20000)))
    if way == "files":
        places = (("info/refs", (1, 30, 60)), ("HEAD", (1, 20)), ("info/packs", (1, 30)), (".pack", (1, 30, 3000)), (".idx", (1, 1000)))
    for at, cuts in places:
        for cut in cuts:
            with web_of(t, web, server.parent, CUT=cut, CUT_AT=at, **WAYS[way][0]) as front:
                failing(t, f"{name}: {at} {cut}", way, front, server)


def relay_redirects(name, t, web, way):
    """Redirections of all requests, and of later ones."""
    server = prepared(t, 30)
    with web_of(t, web, server.parent, **WAYS[way][0]) as front:
        for at in ("info/refs", "git-upload-pack", "objects/", "/"):
            with web_of(t, web, server.parent, TO=front, TO_AT=at, **WAYS[way][0]) as other:
                failing(t, f"{name}: {at}", way, other, server)


def relay_changes(name, t, web):
    """A server that changes its version between two requests: git and the helper end alike, and nothing is left."""
    server = server_of(t, 30)
    for first, later in (("2", "0"), ("0", "2"), ("1", "0"), ("0", "1"), ("2", "1"), ("1", "2")):
        for count in range(5):
            ends, left = [], []
            for number in range(2):
                with web_of(t, web, server.parent, CHANGES=f"{count} {first} {later}") as front:
                    url, to = urls_of(f"{front}/{server.name}")[number], t.folder("to")
                    ends.append(t.run("git", "clone", "-q", url, to))
                    left.append(state(t, to) if to.exists() else None)
            is_same = (ends[0][0] == 0) == (ends[1][0] == 0) and left[0] == left[1]
            t.check(f"{name}: {first} to {later} after {count}", is_same and leaves_nothing(t), f"{ends} {left}")


def relay_troubles(name, t, web, way):
    """Missing repositories and hosts, and another hash function."""
    server = prepared(t, 9)
    with web_of(t, web, server.parent, **WAYS[way][0]) as front:
        failing(t, f"{name}: no repository", way, front, server.parent / "nothing")
        failing(t, f"{name}: a depth", way, front, server, ("clone", "-q", "--depth=2"))
        failing(t, f"{name}: a shallow server rejected", way, front, server, ("clone", "-q", "--reject-shallow"))
        shallow = t.folder("shallow")
        t.git("clone", "-q", "--bare", "--depth=2", f"file://{server}", shallow)
        updated(t, shallow)
        failing(t, f"{name}: a shallow server that is rejected", way, front, shallow, ("clone", "-q", "--reject-shallow"))
        other = t.folder("sha256")
        t.git("init", "-q", "--bare", "--object-format=sha256", other)
        t.git("fast-import", "--quiet", "--date-format=raw", given=commits(3), at=other)
        updated(t, other)
        urls = urls_of(f"{front}/{other.name}")
        same(t, f"{name}: SHA-256", *clone_both(t, other, version=WAYS[way][1], urls=urls))
    failing(t, f"{name}: nobody listens", way, "http://127.0.0.1:1", server)


def left_after(t, client):
    """The processes and files that a killed fetch leaves after six seconds."""
    until = time.monotonic() + 6
    while (processes := running((*PROCESSES, "fetch-pack", t.remote.name), t.room)) and time.monotonic() < until:
        time.sleep(0.05)
    return processes, [one.name for one in files_left(client) if one.suffix != ".keep"]


def relay_kills(name, t, web, way, who, sent):
    """A process of a fetch is killed at several moments: no process is left, and the next fetch succeeds."""
    server, mark = prepared(t, 400), slowly(t)
    tip = t.git("rev-parse", "main", at=server)
    with web_of(t, web, server.parent, **WAYS[way][0]) as front:
        url = urls_of(f"{front}/{server.name}")[1]
        for number in range(MOMENTS):
            client = make(t, "client", 0)
            mark.touch()
            words = ["git", "fetch", "-q", url, "main:refs/x/m"]
            took = kill_at(t, t.begin(*words, at=client, more=version_of(way)[0]), who, number, sent, 0.015)
            mark.unlink()
            if took is None:
                t.check(f"{name}, moment {number}", False, "no end")
                continue
            unlock(client, who)
            processes, left = left_after(t, client)
            clean = t.run("git", "fsck", "--connectivity-only", at=client)[0] == 0
            status, out, err = t.run(*words, at=client, more=version_of(way)[0])
            works = status == 0 and t.run("git", "rev-parse", "refs/x/m", at=client)[1] == tip
            is_well = clean and works and not processes and not left and took < AT_ONCE
            t.check(f"{name}, moment {number}", is_well, f"{took:.1f} s {processes} {left} {clean} {err}")
            shutil.rmtree(client)


def relay_timeout(name, t, web, way):
    """GIXP_TIMEOUT ends a server that sends nothing. A slow one is waited for."""
    server, mark = prepared(t, 400), slowly(t)
    mark.touch()
    with web_of(t, web, server.parent, **WAYS[way][0]) as front:
        url = urls_of(f"{front}/{server.name}")[1]
        status, out, err = t.run("git", "clone", "-q", url, t.folder("to"), more={"GIXP_TIMEOUT": "3", **version_of(way)[0]})
        t.check(name, status == 0 and leaves_nothing(t), f"{status} {err}")


CLONES = [], ["--mirror"], ["--depth", "3"], ["--shallow-since=1700000900"], ["--shallow-exclude=light"], \
    ["--single-branch", "--branch", "v1"], ["--no-tags"], ["--bare"]
FETCHES = (
    ("nothing new", [], lambda t, server: None, ()), ("5 commits", [], grown, ()), ("tags", [], tagged, ()),
    ("a rewritten branch", [], lambda t, server: grow(t, server, 5, back=6), ()), ("--tags", ["--tags"], tagged, ()),
    ("--no-tags", ["--no-tags"], tagged, ()), ("--dry-run", ["--dry-run"], grown, ()), ("--atomic", ["--atomic"], tagged, ()),
    ("--prune", ["--prune"], pruned, ()), ("--prune --prune-tags", ["--prune", "--prune-tags"], pruned, ()),
    ("--refetch", ["--refetch"], grown, ()), ("an id", ["origin", "ID"], grown, ()),
)
DEPTHS = (
    ("--depth", ["--depth", "7"], grown, ("--depth", "3")), ("--deepen", ["--deepen", "4"], grown, ("--depth", "3")),
    ("--unshallow", ["--unshallow"], grown, ("--depth", "3")), ("a shallow clone", [], grown, ("--depth", "3")),
    ("--shallow-since", ["--shallow-since=1700000500"], grown, ("--depth", "3")),
    ("--update-shallow", ["--update-shallow"], grown, ("--depth", "3")),
)


def try_way(t, web, way):
    """The cases that each web server has."""
    label = f"relay, {web}, {way}"
    for words in CLONES:
        t.case(f"{label}: clone {' '.join(words)}", relay_clones, web, way, words)
    for name, words, change, cloned in FETCHES[:4] + DEPTHS[:1] * (way in SMART):
        t.case(f"{label}: fetch of {name}", relay_fetches, web, way, words, change, cloned)
    for name, action in (("lists", relay_lists), ("accounts", relay_accounts), ("cut answers", relay_cuts)):
        t.case(f"{label}: {name}", action, web, way)


def try_once(t, web, way):
    """The cases that one web server has."""
    label = f"relay, {web}, {way}"
    for name, words, change, cloned in FETCHES[4:] + DEPTHS[1:] * (way in SMART):
        t.case(f"{label}: fetch of {name}", relay_fetches, web, way, words, change, cloned)
    for name, action in (("a proxy", relay_proxy), ("cookies", relay_cookies), ("progress", relay_progress),
                         ("redirections", relay_redirects), ("troubles", relay_troubles), ("GIXP_TIMEOUT", relay_timeout)):
        t.case(f"{label}: {name}", action, web, way)
    if way in SMART:
        t.case(f"{label}: partial clones", relay_partial, web, way)


def try_relay(t, servers):
    for web in servers:
        for way in ("version 0", "files"):
            try_way(t, web, way)
    for way in ("version 1", "version 0 on request"):
        try_way(t, servers[0], way)
    for way in ("version 0", "version 1", "files"):
        try_once(t, servers[0], way)
    t.case(f"relay, {servers[0]}: a version that changes", relay_changes, servers[0])
    ends = [("git-remote-gixp", signal.SIGTERM), (t.remote.name, signal.SIGTERM), (t.remote.name, signal.SIGKILL),
            ("git-remote-gixp", signal.SIGKILL), ("git", signal.SIGTERM), ("git", signal.SIGKILL)]
    for who, sent in (*ends, ("remote-http", signal.SIGTERM), ("remote-http", signal.SIGKILL), ("fetch-pack", signal.SIGTERM)):
        for way in ("version 0", "files")[:1 + (who != "fetch-pack")]:
            t.case(f"relay, {servers[0]}, {way}: a kill of {who}, {sent.name}", relay_kills, servers[0], way, who, sent)
