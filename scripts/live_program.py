"""Cases of live.py for gixp_fetch_pack alone, over two pipes: its report, its command line, its errors, and lists of commits."""
import os
import shlex
import sys

from live_harness import REAL_SPEC, VERSIONS, commits, grow, make
from live_servers import GREETING, ended_after, frame, serve

F_SETPIPE_SZ = 1031


def fetch_pack(t, command, *words, specs=(REAL_SPEC,)):
    """Runs the program against a server. Returns its status, its output and the folder."""
    room = t.folder("pack")
    room.mkdir()
    with serve(t, room, command):
        ran = t.run("timeout", 20, t.program, *words, "--", room / "from", room / "to", room / "pack", *specs)
    return (*ran, room)


def left_in(room):
    return [path.name for path in room.iterdir() if path.name not in ("from", "to")]


def saying(t, said):
    """The command of a server that sends these bytes and then reads its input to the end."""
    path = t.folder("said")
    path.write_bytes(said)
    return f'cat "{path}"; exec > /dev/null; cat > /dev/null'


def reports(name, t):
    server = make(t, "server", 30, tags=True)
    command = f'git upload-pack "{server}"'
    status, out, err, room = fetch_pack(t, command)
    head = t.git("rev-parse", "main", at=server).strip()
    whole = (room / "pack").exists() and not (room / "pack.lock").exists()
    lines = out.splitlines()
    t.check(f"{name}: a pack", status == 0 and whole, err)
    t.check(f"{name}: a mapping", f"map {head} refs/heads/main refs/remotes/origin/main" in lines, out)
    size = (room / "pack").stat().st_size if whole else 0
    t.check(f"{name}: its size", any(line.startswith(f"pack {size} ") for line in lines), out)
    status, out, err, room = fetch_pack(t, command, specs=["refs/heads/nowhere"])
    missing = "couldn't find remote ref refs/heads/nowhere"
    t.check(f"{name}: no such ref", status == 1 and missing in err and not (room / "pack").exists(), err)
    status, out, err, room = fetch_pack(t, command, specs=[REAL_SPEC, "refs/heads/nowhere:refs/x/y"])
    t.check(f"{name}: no such ref beside others", status == 1 and f"{missing}\n" in err and not (room / "pack").exists(), err)
    status, out, err, room = fetch_pack(t, command, specs=["refs/nowhere/*:refs/x/*"])
    is_nothing = status == 0 and out.splitlines()[-1:] == ["nothing"] and not (room / "pack").exists()
    t.check(f"{name}: a pattern that nothing matches", is_nothing, err)
    status, out, err, room = fetch_pack(t, command, specs=["a:b:c"])
    t.check(f"{name}: no refspec", status == 1 and not (room / "pack").exists(), err)
    room = t.folder("locked")
    room.mkdir()
    (room / "pack.lock").write_text("")
    with serve(t, room, command):
        status, out, err = t.run("timeout", 20, t.program, room / "from", room / "to", room / "pack", REAL_SPEC)
    t.check(f"{name}: a lock that is held", status == 1 and (room / "pack.lock").exists() and not (room / "pack").exists(), err)


def unwritten_boundary(name, t):
    """The boundary can't be written: the pack isn't kept, since some of its commits lack their parents."""
    server, texts = make(t, "server", 9), t.folder("texts")
    (texts / "shallow.new").mkdir(parents=True)
    for version in VERSIONS:
        command = f'GIT_PROTOCOL=version={version} git upload-pack "{server}"'
        status, out, err, room = fetch_pack(t, command, "--version", version, "--depth=3", "--shallow", texts / "shallow")
        is_told = status == 1 and "shallow.new" in err
        t.check(f"{name}: version {version}", is_told and not left_in(room), f"{status} {out} {err} {left_in(room)}")


def modes(name, t):
    """The updates of local refs, with the lists of a repository that has all commits."""
    server = make(t, "server", 30, tags=True)
    main, old, side, tag = (t.git("rev-parse", ref, at=server).strip() for ref in ("main", "main~3", "side", "v1"))
    texts = t.folder("texts")
    texts.mkdir()
    (texts / "commits").write_text(t.git("rev-list", "--all", "--date-order", "--timestamp", "--parents", at=server))
    (texts / "objects").write_text(f"{tag} tag\n")
    held = {"refs/x/same": main, "refs/x/forward": old, "refs/x/back": main, "refs/x/forced": main, "refs/tags/v1": main}
    (texts / "refs").write_text("".join(f"{id} {ref}\n" for ref, id in sorted(held.items())))
    specs = ["refs/heads/main:refs/x/same", "refs/heads/main:refs/x/forward", "refs/heads/main:refs/x/new", "refs/heads/side:refs/x/back",
             "+refs/heads/side:refs/x/forced", "refs/tags/v1:refs/tags/v1", "refs/heads/main"]
    wanted = [f"same map {main} refs/heads/main refs/x/same", f"fast-forward map {main} refs/heads/main refs/x/forward",
              f"new map {main} refs/heads/main refs/x/new", f"refused map {side} refs/heads/side refs/x/back",
              f"forced map {side} refs/heads/side refs/x/forced", f"refused map {tag} refs/tags/v1 refs/tags/v1",
              f"map {main} refs/heads/main -"]
    named = ["--refs", texts / "refs", f"--commits={texts / 'commits'}", f"--objects={texts / 'objects'}"]
    status, out, err, room = fetch_pack(t, f'git upload-pack "{server}"', *named, specs=specs)
    t.check(f"{name}: of commits that are known", status == 0 and sorted(out.splitlines()[:len(wanted)]) == sorted(wanted), out + err)
    status, out, err, room = fetch_pack(t, f'git upload-pack "{server}"', "--refs", texts / "refs", specs=specs)
    lines = out.splitlines()
    known = [line for line in wanted if line.split()[0] in ("same", "new", "map")]
    unknown = [line.split(" ", 1)[1] for line in wanted if line.split()[0] not in ("same", "new", "map")]
    t.check(f"{name}: of refs alone", status == 0 and sorted(lines[:len(wanted)]) == sorted(known + unknown), out + err)


def command_lines(name, t):
    for given, wanted in (
        (["--help"], 0), (["-V"], 0), ([], 2), (["a", "b"], 2), (["a", "b", "c"], 2), (["--nothing", "a", "b", "c", "d"], 2),
        (["--depth"], 2), (["--depth", "0", "--shallow", "s", "a", "b", "c", "d"], 2), (["--depth", "x", "a", "b", "c", "d"], 2),
        (["--depth", "1", "a", "b", "c", "d"], 2), (["--version", "3", "a", "b", "c", "d"], 2), (["--tags", "some", "a", "b", "c", "d"], 2),
        (["--depth", "1", "--since", "5", "--shallow", "s", "a", "b", "c", "d"], 2), (["--list", "a"], 2), (["--list", "a", "b", "c"], 2),
        (["--ask", "x", "a", "b", "c", "d"], 2), (["--answers=x", "a", "b", "c", "d"], 2), (["--ask"], 2),
        (["--keep-open", "a", "b", "c", "d"], 2), (["--depth", "1", "--deepen", "1", "--shallow", "s", "a", "b", "c", "d"], 2),
        (["--unshallow", "--exclude", "x", "--shallow", "s", "a", "b", "c", "d"], 2),
        (["--help", "--keep-open", "a"], 0), (["-V", "--help", "a"], 0),
        (["/nowhere/a", "/nowhere/b", "c", "d"], 1), (["--refs", "/nowhere/r", "a", "b", "c", "d"], 1),
        (["--refs=/nowhere/r", "a", "b", "c", "d"], 1), (["--depth=0", "--shallow=s", "a", "b", "c", "d"], 2),
        (["a", "-", "c", "d"], 2), (["--list", "a", "-"], 2), (["--quiet", "/nowhere/a", "-", "c", "d"], 1),
        (["--version=3", "a", "b", "c", "d"], 2), (["--quiet=yes", "a", "b", "c", "d"], 2), (["--nothing=1", "a", "b", "c", "d"], 2),
    ):
        status, out, err = t.run(t.program, *given)
        told = bool(out) if wanted == 0 else len(err.splitlines()) == 1
        t.check(f"{name}: {' '.join(given)}", status == wanted and told, f"{status} {err}")


def objects_in(t, room, repository):
    """The objects of a pack, from a repository with nothing else."""
    t.git("init", "-q", "--bare", repository)
    t.git("index-pack", "--stdin", "--promisor", given=(room / "pack").read_bytes(), at=repository)
    return objects_of(t, repository)


def objects_of(t, repository):
    return sorted(t.git("cat-file", "--batch-all-objects", "--batch-check", at=repository).splitlines())


def filters(name, t):
    """What a filter leaves out, compared with `git fetch-pack`. A server without filters."""
    server = make(t, "server", 30)
    specs = ["refs/heads/main:refs/x/main"]
    whole = objects_of(t, server)
    t.git("config", "uploadpack.allowFilter", "true", at=server)
    for spec in ("blob:none", "blob:limit=1k", "tree:0", "tree:1", "object:type=commit", "combine:blob:none+tree:2"):
        client = t.folder("client")
        t.git("init", "-q", "--bare", client)
        t.git("fetch-pack", "-q", f"--filter={spec}", f"file://{server}", "refs/heads/main", at=client)
        status, out, err, room = fetch_pack(t, f'git upload-pack "{server}"', "--filter", spec, specs=specs)
        wanted, found = objects_of(t, client), objects_in(t, room, t.folder("packed")) if status == 0 else []
        t.check(f"{name}: {spec}", found == wanted, f"{status} {err} {len(found)} objects, git has {len(wanted)}")
    status, out, err, room = fetch_pack(t, f'git upload-pack "{server}"', "--filter=nonsense", specs=specs)
    # upload-pack ends and prints the reason on its own standard error
    is_told = err == "fatal: the remote end hung up unexpectedly\n"
    t.check(f"{name}: one that the server doesn't know", status == 1 and is_told and not left_in(room), f"{status} {err}")
    t.git("config", "uploadpack.allowFilter", "false", at=server)
    status, out, err, room = fetch_pack(t, f'git upload-pack "{server}"', "--filter=blob:none", specs=specs)
    is_told = "warning: filtering not recognized by server, ignoring\n" in err
    found = objects_in(t, room, t.folder("packed")) if status == 0 else []
    t.check(f"{name}: a server without filters", is_told and found == whole, f"{status} {err} {len(found)}, {len(whole)}")


def unreadable_texts(name, t):
    """Malformed lists of the repository: the error has the number of the line."""
    server, room = make(t, "server", 3), t.folder("texts")
    room.mkdir()
    id = t.git("rev-parse", "main", at=server).strip()
    for option, text in (
        ("--commits", f"1 {id}\n2 {id}\n1 {id[:-1]}\n"), ("--commits", f"1 {id}\n2 {id}\nx {id}\n"),
        ("--commits", f"1 {id}\n2 {id}\n1 {id} x\n"),
        ("--refs", f"{id} refs/heads/a\n{id} refs/heads/b\n{id}\n"), ("--objects", f"{id} commit\n{id} tree\n{id} stone\n"),
        ("--objects", f"{id} commit\n{id} tag\nx missing\n"),
    ):
        (room / "text").write_text(text)
        status, out, err = t.run(t.program, option, room / "text", room / "from", room / "to", room / "pack", REAL_SPEC)
        t.check(f"{name}: {option} {text.splitlines()[2][-8:]}", status == 1 and "line 3" in err, err)


# Lists of commits


def by_list(t, server, lines, *words, specs=(REAL_SPEC,)):
    """Runs the program like `fetch_pack`, with these lines of commits, and counts the haves that the server received."""
    room = t.folder("list")
    room.mkdir()
    (room / "commits").write_text("".join(line + "\n" for line in lines))
    trace = room / "trace"
    command = f'GIT_TRACE_PACKET="{trace}" git upload-pack "{server}"'
    ran = fetch_pack(t, command, "--negotiator", "list", "--commits", room / "commits", *words, specs=specs)
    return *ran, trace.read_text().count("upload-pack< have ") if trace.exists() else 0


def lists_lazily(name, t):
    """The program reads commits as it offers them."""
    server = make(t, "server", 6000)
    lines = t.git("rev-list", "--all", "--timestamp", "--parents", at=server).splitlines()
    t.git("branch", "side", "main~3000", at=server)
    grow(t, server, 5)
    few = fetch_pack(t, f'git upload-pack "{server}"', specs=["refs/heads/side"])[1].split()
    size = int(few[few.index("pack") + 1])

    def small(out):
        return "pack " in out and int(out.split("pack ")[1].split()[0]) < size // 100

    spoiled = [*lines[:4999], "nonsense", *lines[5000:]]
    status, out, err, room, haves = by_list(t, server, spoiled, specs=["refs/heads/main"])
    t.check(f"{name}: a line that isn't reached", status == 0 and small(out) and haves == 16, f"{status} {haves} {out} {err}")
    for number in (1, 3, 16):
        spoiled = [*lines[:number - 1], lines[0][:-1], *lines[number:]]
        status, out, err, room, haves = by_list(t, server, spoiled, specs=["refs/heads/main"])
        wanted = f"/commits: line {number} is malformed\n"
        is_told = err.endswith(wanted) and len(err.splitlines()) == 1
        t.check(f"{name}: line {number}", status == 1 and is_told and not (room / "pack").exists(), f"{status} {err}")
    for text in ([""], [*lines[:3], ""]):
        status, out, err, room, haves = by_list(t, server, text, specs=["refs/heads/main"])
        t.check(f"{name}: an empty line {len(text)}", status == 1 and f"line {len(text)} " in err, f"{status} {err}")
    for count, is_small in ((0, False), (1, True), (5, True)):
        status, out, err, room, haves = by_list(t, server, lines[:count], specs=["refs/heads/main"])
        t.check(f"{name}: {count} lines", status == 0 and haves == count and small(out) == is_small, f"{status} {haves} {out} {err}")
    where = t.folder("text")
    where.mkdir()
    command = f'git upload-pack "{server}"'
    status, out, err, room = fetch_pack(t, command, "--negotiator=list", "--commits", where, specs=["refs/heads/main"])
    t.check(f"{name}: a folder", status == 1 and str(where) in err and not (room / "pack").exists(), f"{status} {err}")
    status, out, err, room = fetch_pack(t, command, "--negotiator=list", specs=["refs/heads/main"])
    t.check(f"{name}: no text", status == 0 and not small(out), f"{status} {err}")


def witness(t, command, at):
    """A program that answers for objects over pipes of 4,096 bytes, and the options that name the pipes."""
    room = t.folder("witness")
    room.mkdir()
    for end in ("ask", "answers"):
        os.mkfifo(room / end)
    small = shlex.quote(f"import fcntl; [fcntl.fcntl(end, {F_SETPIPE_SZ}, 4096) for end in (0, 1)]")
    begun = t.begin("sh", "-c", f'exec < "$0/ask" > "$0/answers"; {sys.executable} -c {small}; {command}', room, at=at)
    return ended_after(begun), [f"--ask={room / 'ask'}", "--answers", room / "answers"]


def with_many_branches(t):
    """A server with a branch at each commit, and a client that has them all."""
    server, client = make(t, "server", 300, tags=True), t.folder("client")
    ids = t.git("rev-list", "main", at=server).split()
    branches = "".join(f"create refs/heads/b{number} {id}\n" for number, id in enumerate(ids))
    t.git("update-ref", "--stdin", at=server, given=branches.encode())
    t.git("clone", "-q", "--bare", f"file://{server}", client)
    lines = t.folder("commits")
    lines.write_text(t.git("rev-list", "--all", "--timestamp", "--parents", at=client))
    return server, client, lines


def asks(name, t):
    """The program asks another program about objects once the server has listed its refs."""
    server, client, lines = with_many_branches(t)
    specs = [REAL_SPEC, "refs/tags/*:refs/tags/*"]

    def ask(answers, *words, version="2"):
        begun, named = witness(t, answers, client)
        with begun:
            command = f'GIT_PROTOCOL=version={version} git upload-pack "{server}"'
            return fetch_pack(t, command, "--version", version, *named, *words, specs=specs)

    for version in VERSIONS:
        for answers in ("git cat-file --batch-check", "git cat-file --batch-check='%(objectname) %(objecttype)'"):
            status, out, err, room = ask(answers, version=version)
            is_nothing = status == 0 and out.splitlines()[-1] == "nothing"
            t.check(f"{name}: nothing new, version {version}", is_nothing, f"{status} {out[-300:]} {err}")
    grow(t, server, 3)
    for version in VERSIONS:
        status, out, err, room = ask("git cat-file --batch-check", "--negotiator=list", f"--commits={lines}", version=version)
        told = out.splitlines()[-1].split() if out else []
        is_nine = status == 0 and told[0] == "pack" and int(told[2]) == 9
        t.check(f"{name}: 3 new commits, version {version}", is_nine, f"{status} {told} {err}")
    for answers, number in (
        ("echo nonsense", 1), ("git cat-file --batch-check | sed -u s/^......./0000000/", 1), ("head -n 3 | git cat-file --batch-check", 4),
        ("sed -u 's/$/ stone/'", 1), ("git cat-file --batch-check | sed -u '150s/$/ more/'", 150),
    ):
        status, out, err, room = ask(answers)
        is_told = err.endswith(f"/answers: line {number} is malformed\n")
        t.check(f"{name}: {answers}", status == 1 and is_told and not (room / "pack").exists(), f"{status} {err}")
    for words in (["--ask=/nowhere/a", "--answers=/nowhere/b"], ["--ask=/dev/null", "--answers=/nowhere/b"]):
        status, out, err, room = fetch_pack(t, f'git upload-pack "{server}"', *words, specs=specs)
        t.check(f"{name}: {' '.join(words)}", status == 1 and "/nowhere/" in err and not (room / "pack").exists(), f"{status} {err}")


def ends_at_common(name, t):
    """The server has the older half of the client's commits and a history that the client lacks: it is never ready."""
    server = make(t, "server", 3000, merges=True)
    client = t.folder("client")
    t.git("clone", "-q", "--bare", f"file://{server}", client)
    grow(t, client, 100, seed=7)
    lines = t.git("rev-list", "--all", "--timestamp", "--parents", at=client).splitlines()
    t.git("fast-import", "--quiet", "--date-format=raw", given=commits(3, branch="other", seed=9), at=server)
    turned = [*lines[98:102][::-1], *lines[:98], *lines[102:]]
    for kind, text, most in (
        ("newest first", lines, 300), ("a parent before its child", turned, 300), ("the common half alone", lines[100:], 40),
    ):
        status, out, err, room, haves = by_list(t, server, text, specs=["refs/heads/other"])
        t.check(f"{name}, {kind}", status == 0 and 0 < haves < most, f"{status} {haves} {out} {err}")
    held = t.folder("refs")
    held.write_text(t.git("show-ref", "-d", at=client))
    spoiled = [*lines[:1999], "nonsense", *lines[2000:]]
    for what, words, wanted in (("tips are known", [f"--refs={held}"], 0), ("tips aren't known", [], 1)):
        status, out, err, room, haves = by_list(t, server, spoiled, *words, specs=["refs/heads/other"])
        t.check(f"{name}, {what}", status == wanted and 0 < haves < 300, f"{status} {haves} {out} {err}")


# Servers that die, or send errors or nonsense


def recorded(t, server):
    """All bytes that a server sends during a clone by the program."""
    said, room = t.folder("conversation"), t.folder("pack")
    room.mkdir()
    with serve(t, room, f'git upload-pack "{server}" | tee "{said}"') as begun:
        status, out, err = t.run("timeout", 20, t.program, "--", room / "from", room / "to", room / "pack", REAL_SPEC)
        if status:
            raise RuntimeError(err)
        # it ends by itself after it wrote all
        begun.wait(20)
    return said.read_bytes()


def dies(name, t):
    """A server that dies after each of 20 parts of its output."""
    conversation = recorded(t, make(t, "server", 30, tags=True))
    whole = len(conversation)
    for place in sorted({whole * n // 20 for n in range(20)} | {whole - 1, whole - 4, whole - 21}):
        status, out, err, room = fetch_pack(t, saying(t, conversation[:place]))
        left = left_in(room)
        # if it received nothing, git prints more than one line, and so does the program
        is_said = len(err.splitlines()) == 1 if place else err.startswith("fatal: Could not read from remote repository.")
        t.check(f"{name} at {place} of {whole}", status == 1 and is_said and not left, f"{status} {err} {left}")


def pack_places(conversation):
    """The offsets of the pack's bytes in a version 2 server's output: those of band 1."""
    at, places = conversation.index(b"packfile\n") + len(b"packfile\n"), []
    while conversation[at:at + 4] != b"0000":
        size = int(conversation[at:at + 4], 16)
        if conversation[at + 4] == 1:
            places += range(at + 5, at + size)
        at += size
    return places


def spoiled_pack(name, t):
    """A pack with one byte changed."""
    conversation = recorded(t, make(t, "server", 30, tags=True))
    places = pack_places(conversation)
    for number in (0, 7, 13, len(places) - 10):
        bad = bytearray(conversation)
        bad[places[number]] ^= 0x40
        status, out, err, room = fetch_pack(t, saying(t, bytes(bad)))
        t.check(f"{name} at {number}", status == 1 and not left_in(room), f"{status} {err} {left_in(room)}")


def refuses(name, t):
    """Servers that send an error or nonsense."""
    id = t.git("rev-parse", "main", at=make(t, "server", 30)).strip().encode()
    refs = frame(id + b" refs/heads/main\n") + b"0000"
    error, packfile = frame(b"ERR access denied\n"), frame(b"packfile\n")
    for number, said in enumerate((error, GREETING + error, GREETING + refs + error)):
        status, out, err, room = fetch_pack(t, saying(t, said))
        t.check(f"{name}: an error after {number} answers", status == 1 and "access denied" in err and not (room / "pack").exists(), err)
    nonsense = (
        b"", b"0", b"zzzz", b"<html>", b"\x00" * 100, b"fffe" + b"x" * 50, GREETING + b"0000", GREETING + b"000",
        GREETING + frame(b"x\n") + b"0000", GREETING + refs + packfile + frame(b"\x01PACK") + b"0000",
        GREETING + refs + packfile + frame(b"\x03no more disk\n") + b"0000")
    for number, said in enumerate(nonsense):
        status, out, err, room = fetch_pack(t, saying(t, said))
        is_right = status == 1 or (status == 0 and said == GREETING + b"0000")
        t.check(f"{name}: nonsense {number}", is_right and not left_in(room), f"{status} {err} {left_in(room)}")


def try_program(t):
    for name, action in (
        ("list: commits one by one", lists_lazily), ("list: ends where both sides have a commit", ends_at_common),
        ("asks for objects", asks), ("filters", filters),
        ("words", command_lines), ("texts", unreadable_texts), ("reports", reports),
        ("a boundary that can't be written", unwritten_boundary), ("what becomes of refs", modes), ("errors", refuses),
        ("a server that dies", dies), ("a pack with a byte changed", spoiled_pack),
    ):
        t.case(name, action)
