"""Cases of live.py over HTTP, compared with git: web servers on loopback, over `git http-backend`."""
from live_harness import clone_both, fetch_again, grow, is_clean, is_early, leaves_nothing, make, same, state
from live_httpd import web_of, web_servers
from live_servers import free_port


def urls_of(url):
    return url, f"gixp::{url}"


def server_of(t, count=30, **more):
    """A repository that serves single objects and filters."""
    server = make(t, "server", count, tags=True, **more)
    t.git("config", "uploadpack.allowFilter", "true", at=server)
    t.git("config", "uploadpack.allowAnySHA1InWant", "true", at=server)
    return server


def web_clones(name, t, web, words):
    server = server_of(t)
    with web_of(t, web, server.parent) as front:
        same(t, name, *clone_both(t, server, *words, urls=urls_of(f"{front}/{server.name}")))


def web_fetches(name, t, web, words, change, cloned=()):
    server = server_of(t)
    with web_of(t, web, server.parent) as front:
        by_git, by_us, first, second = clone_both(t, server, *cloned, urls=urls_of(f"{front}/{server.name}"))
        if first[0] or second[0]:
            return t.check(name, False, first[2] + second[2])
        change(t, server)
        first, second = t.run("git", "fetch", "-q", *words, at=by_git), t.run("git", "fetch", "-q", *words, at=by_us)
        if any(map(is_early, words)) and not first[0] and not second[0]:
            fetch_again(t, name, by_git, by_us)
        return same(t, name, by_git, by_us, first, second)


def web_lists(name, t, web):
    """Lists: of some refs, of many, and of none."""
    for count, branches in ((0, 0), (3, 0), (2, 50_000)):
        server = make(t, "server", count)
        tip = t.git("rev-parse", "main", at=server).strip() if count else ""
        with open(server / "packed-refs", "a") as refs:
            refs.writelines(f"{tip} refs/heads/b{number:05d}\n" for number in range(branches))
        with web_of(t, web, server.parent) as front:
            first, second = (t.run("git", "ls-remote", url) for url in urls_of(f"{front}/{server.name}"))
            is_same = first[0] == second[0] == 0 and sorted(first[1].splitlines()) == sorted(second[1].splitlines())
            t.check(f"{name}: {branches}", is_same, second[2])


def web_haves(name, t, web):
    """Many commits that the server lacks: the negotiation takes several requests."""
    server = server_of(t, 40)
    with web_of(t, web, server.parent) as front:
        by_git, by_us, first, second = clone_both(t, server, urls=urls_of(f"{front}/{server.name}"))
        for client in (by_git, by_us):
            grow(t, client, 600, branch="main", seed=7)
        grow(t, server, 5)
        first, second = t.run("git", "fetch", "-q", at=by_git), t.run("git", "fetch", "-q", at=by_us)
        same(t, name, by_git, by_us, first, second)


def words_alike(t, name, urls, more=None, given=()):
    """A clone that fails with git and with the helper, with the same error."""
    by_git, by_us = t.folder("git"), t.folder("us")
    first, second = (t.run("git", *given, "clone", "-q", url, to, more=more) for url, to in zip(urls, (by_git, by_us)))
    is_same = first[0] and second[0] and first[2] == second[2] and not by_us.exists() and leaves_nothing(t)
    t.check(name, is_same, f"{first} {second}")


def web_accounts(name, t, web, version="2", **wish):
    server, more, chosen = server_of(t, 9), {"GIXP_VERSION": version}, ("-c", f"protocol.version={version}")
    t.git("update-server-info", at=server)
    with web_of(t, web, server.parent, ACCOUNT="joe:secret", **wish) as front:
        url, host = f"{front}/{server.name}", front.removeprefix("http://")
        words_alike(t, f"{name}: none", urls_of(url), more, chosen)
        taken = "-c", "transfer.credentialsInUrl=allow"
        words_alike(t, f"{name}: a wrong one in the URL", urls_of(f"http://joe:wrong@{host}/{server.name}"), more, (*chosen, *taken))
        in_url = urls_of(f"http://joe:secret@{host}/{server.name}")
        same(t, f"{name}: in the URL", *clone_both(t, server, *taken, version=version, urls=in_url))
        refused = t.run("git", "clone", "-q", in_url[1], t.folder("to"), more=more)
        t.check(f"{name}: in the URL, which nothing allows", refused[0] and "secret" not in refused[2], f"{refused}")
        asked = t.folder("asked")
        asked.write_text("#!/bin/sh\ncase $1 in User*) echo joe ;; *) echo secret ;; esac\n")
        asked.chmod(0o755)
        same(t, f"{name}: asked", *clone_both(t, server, version=version, urls=urls_of(url), more={"GIT_ASKPASS": str(asked)}))
        for password in ("secret", "wrong"):
            left = []
            for one in urls_of(url):
                kept = t.folder("kept")
                kept.write_text(f"http://joe:{password}@{host.replace(':', '%3a')}\n")
                words = *chosen, "-c", f"credential.helper=store --file={kept}", "clone", "-q", one, t.folder("to")
                left.append((t.run("git", *words, more=more)[0] == 0, kept.read_text()))
            t.check(f"{name}: a stored one, {password}", left[0] == left[1] and left[0][0] == (password == "secret"), left)


def web_troubles(name, t, web):
    """Missing servers, and servers that are not git's."""
    server = server_of(t, 9)
    words_alike(t, f"{name}: nobody listens", urls_of(f"http://127.0.0.1:{free_port()}/x"))
    words_alike(t, f"{name}: no such host", urls_of("http://no.such.invalid/x"))
    with web_of(t, web, server.parent) as front:
        words_alike(t, f"{name}: no such repository", urls_of(f"{front}/nothing"))
        with web_of(t, web, server.parent, TO=front) as other:
            url = f"{other}/{server.name}"
            same(t, f"{name}: a redirection", *clone_both(t, server, urls=urls_of(url)))
        for setting in ("protocol.http.allow=never", "protocol.allow=never"):
            ends = [t.run("git", "-c", "protocol.gixp.allow=always", "-c", setting, "ls-remote", url)
                    for url in urls_of(f"{front}/{server.name}")]
            is_told = ends[1][0] == 128 and "transport 'http' not allowed" in ends[0][2] and "not allowed: 'http'" in ends[1][2]
            t.check(f"{name}: {setting}", ends[0][0] == 128 and is_told, ends)
    for said in ("500 oh", "403 no"):
        with web_of(t, web, server.parent, SAYS=said) as front:
            words_alike(t, f"{name}: {said}", urls_of(f"{front}/{server.name}"))
    # for git, a page without a line has no refs
    with web_of(t, web, server.parent, SAYS="200 <html>") as front:
        same(t, f"{name}: a page", *clone_both(t, server, urls=urls_of(f"{front}/{server.name}")))
        status, out, err = t.run("git", "ls-remote", f"gixp::{front}/{server.name}")
        t.check(f"{name}: a page, listed", status == 0 and not out + err and leaves_nothing(t), f"{status} {out} {err}")
    with web_of(t, web, server.parent, SAYS="200 <html>\n<body>\n") as front:
        words_alike(t, f"{name}: a page of lines", urls_of(f"{front}/{server.name}"))


def web_cuts(name, t, web):
    """Responses that end too early: git's error or our own sentence, and nothing is left."""
    server = server_of(t, 300)
    for cut in (1, 30, 60, 100, 300):
        with web_of(t, web, server.parent, CUT_HEAD=cut) as front:
            same(t, f"{name}: head {cut}", *clone_both(t, server, urls=urls_of(f"{front}/{server.name}")))
            t.check(f"{name}: head {cut}, left", leaves_nothing(t))
    for at, cuts in (("info/refs", (1, 60, 150)), ("git-upload-pack", (1, 30, 100, 400, 3000, 20000))):
        for cut in cuts:
            with web_of(t, web, server.parent, CUT=cut, CUT_AT=at) as front:
                by_us = t.folder("us")
                status, out, err = t.run("git", "clone", "-q", f"gixp::{front}/{server.name}", by_us)
                is_told = status not in (0, -1) and err and "Io" not in err.split()
                t.check(f"{name}: {at} {cut}", is_told and not by_us.exists() and leaves_nothing(t), f"{status} {err}")


def missing(t, client):
    """How many objects that refs reach are missing."""
    return t.git("rev-list", "--objects", "--all", "--missing=print", at=client).count("\n?")


def web_partial(name, t, web):
    """Partial clones, and later fetches by ids."""
    server = t.folder("server")
    t.git("init", "-q", "--bare", server)
    blobs = "".join(f"M 100644 inline f{number}\ndata {len(str(number))}\n{number}\n" for number in range(3000))
    t.git("fast-import", "--quiet", at=server, given=f"commit refs/heads/main\ncommitter x <a@b> 1 +0000\ndata 2\nc\n{blobs}\n".encode())
    t.git("config", "uploadpack.allowAnySHA1InWant", "true", at=server)
    for filters in ("true", "false"):
        t.git("config", "uploadpack.allowFilter", filters, at=server)
        with web_of(t, web, server.parent) as front:
            for urls in ((f"{front}/{server.name}", f"gixp::{front}/{server.name}"), (f"file://{server}", f"gixp::{server}")):
                words = ["--no-checkout", "--filter=blob:none"]
                by_git, by_us, first, second = clone_both(t, server, *words, urls=urls)
                label = f"{name}: {urls[1].split(':')[2]} {filters}"
                warned = "filtering not recognized" in second[2]
                t.check(f"{label}, words", first[0] == second[0] == 0 and warned == (filters == "false"), f"{first} {second}")
                counts = missing(t, by_git), missing(t, by_us)
                promised = [len(list(client.glob(".git/objects/pack/*.promisor"))) for client in (by_git, by_us)]
                t.check(f"{label}, missing", counts[0] == counts[1] and promised[0] == promised[1], f"{counts} {promised}")
                ends = [t.run("git", "checkout", "-q", "main", at=client) for client in (by_git, by_us)]
                is_there = (by_us / "f2999").exists() and t.git("status", "--short", at=by_us) == "" and missing(t, by_us) == 0
                t.check(f"{label}, later", ends[1][0] == 0 and is_there and leaves_nothing(t), ends)
                same_refs = state(t, by_git) == state(t, by_us) and is_clean(t, by_us)
                t.check(f"{label}, refs", same_refs, is_clean(t, by_us))


def grown(t, server):
    grow(t, server, 5)


def try_server(t, web):
    for words in ([], ["--mirror"], ["--depth", "3"], ["--shallow-since=1700000900"], ["--shallow-exclude=light"],
                  ["--single-branch", "--branch", "v1"], ["--no-tags"]):
        t.case(f"web, {web}: clone {' '.join(words)}", web_clones, web, words)
    for label, words, change, cloned in (
        ("nothing new", [], lambda t, server: None, ()), ("5 commits", [], grown, ()),
        ("a rewritten branch", [], lambda t, server: grow(t, server, 5, back=6), ()),
        ("--depth", ["--depth", "7"], grown, ("--depth", "3")), ("--deepen", ["--deepen", "4"], grown, ("--depth", "3")),
        ("--unshallow", ["--unshallow"], grown, ("--depth", "3")),
    ):
        t.case(f"web, {web}: fetch of {label}", web_fetches, web, words, change, cloned)
    for label, action in (("lists", web_lists), ("many haves", web_haves), ("accounts", web_accounts), ("troubles", web_troubles),
                          ("cut answers", web_cuts), ("partial clones", web_partial)):
        t.case(f"web, {web}: {label}", action, web)


def try_web(t):
    """All cases, over each installed web server, else over our own."""
    for web in web_servers():
        try_server(t, web)
