"""The base of live.py's cases: a tester with its own folder and environment, repositories, and comparisons."""
import concurrent.futures
import itertools
import os
import pathlib
import random
import re
import shutil
import signal
import subprocess
import sys
import tempfile
import time

TOP = pathlib.Path(__file__).resolve().parent.parent
CRATE = TOP / "crates" / "gixp_fetch_pack"
REMOTE = TOP / "crates" / "gixp_remote"
VERSIONS = ("2", "1", "0")
REAL_SPEC = "+refs/heads/*:refs/remotes/origin/*"
# the seconds after which a program is killed, and the seconds that its processes may outlive it
TIMEOUT = 60
GRACE = 6
# git commands after which no process may run on
FETCHES = {"clone", "fetch", "ls-remote"}
# programs that run only for a fetch
PROCESSES = "git-remote-gixp", "index-pack", "rev-list", "cat-file", "show-ref", "remote-http", "http-fetch"
# the content of a lock that the user made
USERS = b"mine"
# a quarantine of the helper or of git, and the copy of a file out of one onto another file system
LEFTOVER = re.compile(r"tmp_objdir-|tmp_obj_(pack-|[0-9a-f]{38}$)")


class Tester:
    """Tries a case in a folder of its own. The tester with jobs begins the others and counts their results."""

    def __init__(self, room, program, remote, only=None, jobs=None, keeps=False):
        self.room, self.program, self.remote, self.only, self.keeps = room, program, remote, only, keeps
        self.passed, self.failed, self.made = 0, 0, itertools.count(1)
        self.pool = concurrent.futures.ThreadPoolExecutor(jobs) if jobs else None
        self.cases, self.told = [], []
        room.mkdir(parents=True, exist_ok=True)
        tools = room / "tools"
        tools.mkdir()
        shutil.copy(REMOTE / "git-remote-gixp", tools / "git-remote-gixp")
        (room / "home").mkdir()
        self.environment = {
            **{name: value for name, value in os.environ.items() if not name.startswith("GIT_")},
            "PATH": f"{tools}:{os.environ['PATH']}", "HOME": str(room / "home"), "GIT_CONFIG_NOSYSTEM": "1", "TMPDIR": str(room),
            "GIXP_REMOTE": str(remote), "GIT_TERMINAL_PROMPT": "0", "GIT_TEMPLATE_DIR": "", "LC_ALL": "C",
            "GIT_AUTHOR_NAME": "x", "GIT_AUTHOR_EMAIL": "a@b", "GIT_COMMITTER_NAME": "x", "GIT_COMMITTER_EMAIL": "a@b",
        }
        self.git("config", "--global", "init.defaultBranch", "main")
        self.git("config", "--global", "advice.detachedHead", "false")
        self.git("config", "--global", "gc.auto", "0")

    def begin(self, *words, more=None, at=None, **streams):
        """Begins a program in a session of its own, so that its processes can be found and killed."""
        streams = {"stdin": subprocess.DEVNULL, "stdout": subprocess.DEVNULL, "stderr": subprocess.DEVNULL, **streams}
        environment = {**self.environment, **(more or {})}
        return subprocess.Popen([str(word) for word in words], env=environment, cwd=at or self.room, start_new_session=True, **streams)

    def run(self, *words, given=None, more=None, at=None):
        """Runs a program. Returns its status and its output. The status is -1 if it doesn't end or leaves a process."""
        with tempfile.TemporaryFile() as out, tempfile.TemporaryFile() as err:
            source = subprocess.DEVNULL if given is None else subprocess.PIPE
            begun = self.begin(*words, more=more, at=at, stdin=source, stdout=out, stderr=err)
            try:
                begun.communicate(given, TIMEOUT)
                status, why = begun.returncode, ""
            except subprocess.TimeoutExpired:
                status, why = -1, f"it didn't end within {TIMEOUT} s\n"
            if (why or not FETCHES.isdisjoint(words)) and (stay := end_session(begun, 0 if why else GRACE)):
                status, why = -1, why + f"it left processes: {stay}\n"
            return status, read_all(out), why + read_all(err)

    def git(self, *words, at=None, given=None, more=None):
        status, out, err = self.run("git", *words, given=given, at=at, more=more)
        if status:
            raise RuntimeError(f"git {' '.join(str(word) for word in words)}: {err}")
        return out

    def folder(self, name):
        return self.room / f"{next(self.made):03d}-{name}"

    def check(self, name, holds, told=""):
        if holds:
            self.passed += 1
        else:
            self.failed += 1
            self.told.append(f"FAILED {name}: {str(told).strip()[:600]}")

    def case(self, name, action, *words, **more):
        """Begins a case with a tester of its own."""
        if not self.only or self.only in name:
            given = name, action, words, more
            self.cases.append((given, self.pool.submit(self.try_case, given)))

    def try_case(self, given):
        one = one_case(Tester(self.folder("case"), self.program, self.remote), *given)
        if not self.keeps:
            shutil.rmtree(one.room, ignore_errors=True)
        return one

    def finish(self, again):
        """Waits for all cases and counts them. With `again`, tries each failed case once more after all others."""
        for number, (given, done) in enumerate(self.cases):
            while concurrent.futures.wait([done], 20).not_done:
                print(f"{number} of {len(self.cases)} cases", file=sys.stderr, flush=True)
            say_all(done.result().told)
        for given, done in self.cases:
            one = done.result()
            if one.failed and again:
                print(f"again: {given[0]}", flush=True)
                one = self.try_case(given)
                say_all(one.told)
            self.passed, self.failed = self.passed + one.passed, self.failed + one.failed


def say_all(lines):
    for line in lines:
        print(line, flush=True)


def one_case(t, name, action, words, more):
    try:
        action(name, t, *words, **more)
    except (RuntimeError, OSError, LookupError, subprocess.SubprocessError) as e:
        t.check(name, False, f"{type(e).__name__}: {e}")
    return t


def read_all(file):
    file.seek(0)
    return file.read().decode("latin1")


# Processes


def members(session):
    """The processes of a session: ids and command lines."""
    found = {}
    for name in filter(str.isdigit, os.listdir("/proc")):
        try:
            with open(f"/proc/{name}/stat") as told:
                state, _, _, its_session = told.read().rpartition(")")[2].split()[:4]
            if int(its_session) == session and state not in "ZX":
                found[int(name)] = words_of(name)[:90]
        except OSError:
            pass
    return found


def words_of(process):
    try:
        return pathlib.Path(f"/proc/{process}/cmdline").read_bytes().decode("latin1").replace("\0", " ").strip()
    except OSError:
        return ""


def end_session(begun, grace=0):
    """Kills the processes of a program's session that are left after so many seconds. Returns them."""
    until = time.monotonic() + grace
    while (stay := members(begun.pid)) and time.monotonic() < until:
        time.sleep(0.02)
    for process in stay:
        try:
            os.kill(process, signal.SIGKILL)
        except OSError:
            pass
    begun.wait()
    return stay


def running(word, room):
    """The processes with one of these words in their command, whose folder or command line names this room."""
    wanted = (word,) if isinstance(word, str) else word
    found = []
    for process in pathlib.Path("/proc").glob("[0-9]*"):
        try:
            words = (process / "cmdline").read_bytes().decode("latin1").split("\0")
            place = os.readlink(process / "cwd") + " " + " ".join(words)
            if str(room) in place and any(word in one.split("/")[-1] for one in words[:3] for word in wanted):
                found.append(int(process.name))
        except OSError:
            pass
    return found


# Repositories


def commits(count, first=1, branch="main", parent=None, begin=1_700_000_000, step=60, merges=False, seed=1):
    """Input for `git fast-import` with so many commits, with marks from FIRST on."""
    rng, text, heads = random.Random(seed), [], [parent] if parent else []
    for number in range(first, first + count):
        begin += rng.choice([step, 0, -30]) if merges else step
        text.append(f"commit refs/heads/{branch}\nmark :{number}\ncommitter x <a@b> {begin} +0000\ndata 2\nc\n")
        if heads:
            text.append(f"from {heads[-1]}\n")
            if merges and len(heads) > 2 and rng.random() < 0.1:
                text.append(f"merge {rng.choice(heads[-20:-1])}\n")
        content = f"{seed} {number}\n"
        text.append(f"M 100644 inline f{number % 7}\ndata {len(content)}\n{content}\n")
        heads.append(f":{number}")
    return "".join(text).encode()


def make(t, name, count, merges=False, tags=False, bare=True):
    folder = t.folder(name)
    t.git("init", "-q", *(["--bare"] if bare else []), folder)
    if count:
        t.git("fast-import", "--quiet", "--date-format=raw", given=commits(count, merges=merges), at=folder)
    if tags:
        t.git("tag", "light", "main~3", at=folder)
        t.git("tag", "-a", "-m", "t", "v1", "main~5", at=folder)
        t.git("tag", "-a", "-m", "n", "nested", "v1", at=folder)
        t.git("branch", "side", "main~7", at=folder)
        t.git("symbolic-ref", "refs/heads/alias", "refs/heads/side", at=folder)
    return folder


def grow(t, repository, count, branch="main", seed=2, back=0):
    """Adds so many commits to a branch, after moving it back."""
    parent = t.git("rev-parse", f"refs/heads/{branch}~{back}", at=repository).strip()
    text = commits(count, branch=branch, parent=parent, begin=1_800_000_000, seed=seed)
    t.git("fast-import", "--quiet", "--force", "--date-format=raw", given=text, at=repository)


def tagged(t, server):
    """New commits with tags, and a tag of an old commit."""
    grow(t, server, 5)
    t.git("tag", "-a", "-m", "x", "new", "main~2", at=server)
    t.git("tag", "-a", "-m", "x", "old", "main~20", at=server)


def pruned(t, server):
    """A branch and a symbolic ref less."""
    t.git("branch", "-D", "side", at=server)
    t.git("symbolic-ref", "--delete", "refs/heads/alias", at=server)


# Comparisons


def state(t, repository):
    """The refs with HEAD, and the shallow boundary."""
    git_dir = t.git("rev-parse", "--absolute-git-dir", at=repository).strip()
    shallow = pathlib.Path(git_dir) / "shallow"
    refs = t.run("git", "show-ref", "-d", at=repository)[1]
    head = t.run("git", "symbolic-ref", "-q", "HEAD", at=repository)[1]
    return refs, head, sorted(set(shallow.read_text().split())) if shallow.exists() else ""


def is_clean(t, repository):
    """Whether the repository is whole, and the helper left nothing in it."""
    status, out, err = t.run("git", "fsck", "--strict", "--connectivity-only", at=repository)
    git_dir = pathlib.Path(t.git("rev-parse", "--absolute-git-dir", at=repository).strip())
    left = files_left(git_dir)
    return status == 0 and not left and "missing" not in out + err, f"{err}{left}"


def files_left(folder):
    """The files that a fetch may leave below a folder: quarantines, parts of copies, and locks that the user didn't make."""
    # os.walk passes over a folder that another process removes meanwhile
    names = (pathlib.Path(at) / name for at, folders, files in os.walk(folder) for name in (*folders, *files))
    found = [path for path in names if LEFTOVER.match(path.name) or path.suffix in (".keep", ".lock")]
    return [path for path in found if not (path.is_file() and path.read_bytes() == USERS)]


def leaves_nothing(t):
    """Whether all fetches of a case left no file and no process."""
    return not files_left(t.room) and not running((*PROCESSES, t.remote.name), t.room)


def left_of_packs(t, repository):
    """The leftovers among the packs."""
    objects = pathlib.Path(t.git("rev-parse", "--path-format=absolute", "--git-path", "objects", at=repository).strip())
    left = [found for found in (objects / "pack").iterdir() if found.suffix == ".keep" or found.name.startswith("tmp_")]
    return sorted(found.name.split(".")[-1][:8] for found in left)


def counts(t, repository):
    """The counts of `git count-objects`: loose objects, packs, objects in packs."""
    told = dict(line.split(": ") for line in t.git("count-objects", "-v", at=repository).splitlines())
    return int(told["count"]), int(told["packs"]), int(told["in-pack"])


def refs_of(t, repository):
    return t.git("for-each-ref", "--format=%(refname) %(objectname)", at=repository).splitlines()


def clone_both(t, server, *words, version="2", urls=None, more=None):
    by_git, by_us = t.folder("git"), t.folder("us")
    plain, ours = urls or by_path(server)
    first = t.run("git", "-c", f"protocol.version={version}", "clone", "-q", *words, plain, by_git, more=more)
    second = t.run("git", "clone", "-q", *words, ours, by_us, more={"GIXP_VERSION": version, **(more or {})})
    return by_git, by_us, first, second


def same(t, name, by_git, by_us, first, second):
    if (first[0] == 0) != (second[0] == 0):
        return t.check(name, False, f"git {first[0]} {first[2]}, ours {second[0]} {second[2]}")
    if first[0]:
        return t.check(name, True)
    clean, told = is_clean(t, by_us)
    equal = state(t, by_git) == state(t, by_us)
    return t.check(name, clean and equal, told if not clean else f"{state(t, by_git)}\n{state(t, by_us)}")


def clones(name, t, server, version, *words, over=None):
    urls, more = over(server) if over else (None, None)
    same(t, name, *clone_both(t, server, *words, version=version, urls=urls, more=more))


def is_early(word):
    """Whether this option deepens the history so that its tags come only with the next fetch (docs/DIFFERENCES.md)."""
    return word.startswith(("--deepen", "--unshallow", "--shallow-since"))


def without_tags(found):
    """A state without its tags."""
    refs, *others = found
    return [line for line in refs.splitlines() if " refs/tags/" not in line], *others


def fetch_again(t, name, by_git, by_us, version="2", more=None):
    """After such a fetch all but the tags is equal. The tags are equal after the next fetch."""
    states = [without_tags(state(t, client)) for client in (by_git, by_us)]
    t.check(f"{name}, before its tags", states[0] == states[1], states)
    t.run("git", "-c", f"protocol.version={version}", "fetch", "-q", at=by_git, more=more)
    t.run("git", "fetch", "-q", at=by_us, more={"GIXP_VERSION": version, **(more or {})})


def fetches(name, t, prepare, words, version="2", change=None, cloned=(), over=None):
    """A clone, a change of the server, a fetch."""
    server = prepare(t)
    urls, more = over(server) if over else (None, None)
    by_git, by_us, first, second = clone_both(t, server, *cloned, version=version, urls=urls, more=more)
    if first[0] or second[0]:
        return t.check(name, False, first[2] + second[2])
    if change:
        change(t, server)
    first = t.run("git", "-c", f"protocol.version={version}", "fetch", "-q", *words, at=by_git, more=more)
    second = t.run("git", "fetch", "-q", *words, at=by_us, more={"GIXP_VERSION": version, **(more or {})})
    if any(map(is_early, words)) and not first[0] and not second[0]:
        fetch_again(t, name, by_git, by_us, version, more)
    return same(t, name, by_git, by_us, first, second)


def lists(name, t, server, version):
    status, ours, err = t.run("git", "ls-remote", f"gixp::{server}", more={"GIXP_VERSION": version})
    theirs = t.git("-c", f"protocol.version={version}", "ls-remote", f"file://{server}")
    t.check(name, status == 0 and sorted(ours.splitlines()) == sorted(theirs.splitlines()), err + ours[:300])


# The ways to a server, for git and for us


def by_path(server):
    return f"file://{server}", f"gixp::{server}"


def by_both(server):
    """A server of our own, in place of ssh."""
    return f"ssh://host{server}", f"gixp::ssh://host{server}"


def consecutive(server):
    return by_path(server), {"GIXP_NEGOTIATOR": "consecutive"}
