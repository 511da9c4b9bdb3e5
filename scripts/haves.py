#!/usr/bin/env python3
"""Compares the haves of git's negotiators with this library's, over random histories.

Usage: haves.py [--protocol N] [--depth N] [--one] [--tags] [--seed N] [--keep FOLDER] [HISTORIES]

Makes HISTORIES histories (default 200) in which a server and a client both have new commits: linear, merged, with equal and with
backward dates, with many tips, mixed, and rewritten by the server. A third of the clients lost their remote-tracking refs. For each
it runs `git fetch` with the negotiation algorithms `consecutive` and `skipping` under GIT_TRACE_PACKET. It also runs the program in
scripts/haves (built in a temporary folder by `rt try`, without a proof; RT names another command) against another `git upload-pack`
under the same trace. It compares the different haves in their order. How they are split into requests may differ, and git repeats the
common ones in each request of version 2.

`--protocol` is the version of the protocol (default 2). With `--depth` both fetch so many commits of each ref. With `--one` both fetch
a single branch that moved. With `--tags` the histories have lightweight and annotated tags, which both fetch automatically.

Where the two differ, reference implementations of both algorithms explain it. For git's acknowledgements they must send git's haves,
and for the library's the library's haves. The causes are differences between these two, and which commits were wanted:

    tags as listed     git counts the commit of an annotated tag that the server lists as common, and uses it for the cutoff; the library
                       uses the tag's own id
    marks left off     `skipping` of git 2.39 stops marking common commits at one that it marked before; the library continues
    nothing marked     with a depth git marks no commit as complete, and reports no common commit to its negotiator beforehand; the
                       library does both
    history cut        with a depth, under versions 0 and 1, git applies the new boundary while it offers haves
    all that is listed under versions 0 and 1 git counts all listed refs that it has as common; the library counts the mapped ones
    other windows      under versions 0 and 1 git sends one more request before it reads an answer, and its windows are 16, 16, 32, 32, ..;
                       the library's are 16, 32, 64, 96, .., so each knows other common commits at that time
    haves after ready  under versions 0 and 1 git sends no have after `ACK .. ready`; the library continues
    other wants        git also wants tags that follow, and commits that it has but doesn't know to be complete

Prints a line for each difference with its cause, and how many histories agree. The status is 1 if a difference has no cause.
"""
import argparse
import heapq
import itertools
import os
import pathlib
import random
import re
import shutil
import subprocess
import sys
import tempfile
from collections import Counter

TOP = pathlib.Path(__file__).resolve().parent.parent
KINDS = ["linear", "merged", "equal", "backward", "tips", "mixed", "rewritten"]
ALGORITHMS = ("consecutive", "skipping")
BRANCHES = {"linear": 1, "tips": 8, "mixed": 4}
BRANCHES_SPEC = "+refs/heads/*:refs/remotes/o/*"
BATCH = 100
FIRST_WINDOW, MOST_IN_VAIN = 16, 256
RULES = {"tags as listed": "peels", "marks left off": "leaves_off", "nothing marked": "marks", "history cut": "cut"}


class Git:
    """Runs git with the configuration of the repository alone."""

    def __init__(self, room):
        self.environment = {**os.environ, "HOME": str(room), "GIT_CONFIG_NOSYSTEM": "1"}

    def __call__(self, repository, *words, given=None, more=None):
        ran = subprocess.run(["git", "-C", str(repository), *words], capture_output=True, env={**self.environment, **(more or {})}, input=given)
        if ran.returncode:
            raise SystemExit(f"git {' '.join(words)}: {ran.stderr.decode(errors='replace')}")
        return ran.stdout.decode("latin1")


class History:
    """Random commits on branches, as input for `git fast-import`."""

    def __init__(self, kind, rng, time, mark):
        self.kind, self.rng, self.time, self.mark = kind, rng, time, mark
        self.count, self.text, self.heads = 0, [], {}

    def next_time(self):
        kind = self.kind if self.kind != "mixed" else self.rng.choice(["linear", "equal", "backward", "merged"])
        if kind == "equal":
            self.time += 60 if self.rng.random() < 0.15 else 0
        elif kind == "backward":
            self.time += self.rng.choice([60, 60, -150, 200, -40, 10])
        else:
            self.time += self.rng.randint(1, 90)
        return self.time

    def commit(self, branch, parents):
        self.count += 1
        name = f":{self.count}"
        message, content = f"c{self.count}\n", f"{self.mark}{self.count}\n"
        text = f"commit {branch}\nmark {name}\ncommitter x <a@b> {self.next_time()} +0000\ndata {len(message)}\n{message}"
        if parents:
            text += f"from {parents[0]}\n" + "".join(f"merge {parent}\n" for parent in parents[1:])
        else:
            text = f"reset {branch}\n\n" + text
        text += f"M 100644 inline f{self.count % 5}\ndata {len(content)}\n{content}\n"
        self.text.append(text)
        self.heads[branch] = name

    def grow(self, branches, count):
        for _ in range(count):
            branch = self.rng.choice(branches)
            if branch in self.heads:
                parents = [self.heads[branch]]
            else:
                parents = [self.rng.choice(sorted(self.heads.values()))] if self.heads and self.rng.random() < 0.9 else []
            if parents and self.kind not in ("linear", "tips") and self.rng.random() < 0.25:
                others = sorted(set(self.heads.values()) - set(parents))
                if others:
                    parents += self.rng.sample(others, min(len(others), self.rng.choice([1, 1, 2])))
            self.commit(branch, parents)

    def write(self, git, repository):
        words = ["fast-import", "--quiet", "--force", "--date-format=raw"]
        git(repository, *words, given="".join(self.text).encode())
        self.text = []


def heads_of(git, repository, names):
    lines = git(repository, "for-each-ref", "--format=%(objectname) %(refname)", names).splitlines()
    return {line.split()[1]: line.split()[0] for line in lines}


def tag(git, rng, repository, prefix):
    commits = git(repository, "rev-list", "--all").split()
    for number in range(rng.choice([0, 2, 6])):
        annotated = ["-a", "-m", "t"] if rng.random() < 0.6 else []
        git(repository, "-c", "user.name=x", "-c", "user.email=a@b", "tag", *annotated, f"{prefix}{number}", rng.choice(commits))


def make_history(git, folder, number, seed, has_tags):
    """A server and a client in FOLDER with a common history and new commits on both sides."""
    rng, kind = random.Random(seed + number), KINDS[number % len(KINDS)]
    server, client = folder / "server.git", folder / "client.git"
    for repository in (server, client):
        git("/", "init", "-q", "--bare", "-b", "main", str(repository))
    base = History(kind, rng, 1_700_000_000, "b")
    base.grow(["refs/heads/main"] + [f"refs/heads/b{at}" for at in range(1, BRANCHES.get(kind, 3))], rng.randint(20, 150))
    base.write(git, server)
    if has_tags:
        tag(git, rng, server, "t")
    git(client, "config", "remote.o.url", f"file://{server}")
    git(client, "config", "remote.o.fetch", BRANCHES_SPEC)
    git(client, "fetch", "-q", *([] if has_tags else ["--no-tags"]), "o")
    # the server adds commits to some branches, which it may move back first
    ours = History(kind, rng, base.time + rng.choice([0, 0, 500, -300]), "s")
    ours.heads = heads_of(git, server, "refs/heads")
    if kind == "rewritten":
        for branch, head in sorted(ours.heads.items()):
            ours.heads[branch] = rng.choice(git(server, "rev-list", head).split()[:12])
    keep = sorted(ours.heads)
    ours.grow(rng.sample(keep, max(1, len(keep) - rng.choice([0, 1, 2]))), rng.randint(1, 60))
    ours.write(git, server)
    if has_tags:
        tag(git, rng, server, "u")
    # the client adds commits to branches of its own
    theirs = History(kind, rng, base.time + rng.choice([0, 0, 500, -300]), "c")
    known = heads_of(git, client, "refs/remotes")
    theirs.heads = {f"refs/x/{at}": head for at, head in enumerate(known.values())}
    theirs.grow([f"refs/heads/l{at}" for at in range(rng.choice([1, 1, 2, 5]))], rng.choice([1, 5, 20, 60, 120]))
    theirs.write(git, client)
    if number % 3 == 2:
        for name in known:
            git(client, "update-ref", "-d", name)
    (folder / "has").write_text(git(server, "cat-file", "--batch-all-objects", "--batch-check=%(objectname)"))
    return kind


def moved_branch(git, folder):
    """The refspec of the first branch whose commit the client lacks."""
    heads = heads_of(git, folder / "server.git", "refs/heads")
    there = set(git(folder / "client.git", "cat-file", "--batch-all-objects", "--batch-check=%(objectname)").split())
    name = next((name for name, id in heads.items() if id not in there), "refs/heads/main")
    return f"+{name}:{name.replace('refs/heads/', 'refs/remotes/o/')}"


def export(git, repository, folder):
    """Writes the input of the program: all objects by kind, all commits, and the refs with their targets."""
    folder.mkdir(parents=True)
    objects = git(repository, "cat-file", "--batch-all-objects", "--batch-check=%(objectname) %(objecttype)")
    (folder / "objects").write_text(objects)
    commits = [line.split()[0] for line in objects.splitlines() if line.endswith(" commit")]
    listed = git(repository, "rev-list", "--stdin", "--no-walk=unsorted", "--timestamp", "--parents", given="".join(f"{id}\n" for id in commits).encode())
    (folder / "commits").write_text(re.sub(r"(?m)^commit .*\n", "", listed))
    refs = git(repository, "for-each-ref", "--format=%(objectname) %(refname)").splitlines()
    peeled = git(repository, "cat-file", "--batch-check=%(objectname)", given="".join(f"{line.split()[1]}^{{}}\n" for line in refs).encode()).split()
    (folder / "refs").write_text("".join(f"{line.split()[0]} {target} {line.split()[1]}\n" for line, target in zip(refs, peeled)))


def fetch_by_git(git, folder, algorithm, wish):
    """Runs a fetch on a copy of the client, with its packet trace in FOLDER/ALGORITHM/git."""
    work = folder / algorithm
    work.mkdir()
    copy = work / "git.git"
    shutil.copytree(folder / "client.git", copy)
    words = ["-c", f"protocol.version={wish.protocol}", "-c", f"fetch.negotiationAlgorithm={algorithm}", "fetch", "-q"]
    words += ([] if wish.tags else ["--no-tags"]) + ([f"--depth={wish.depth}"] if wish.depth else [])
    git(copy, *words, "o", *([(folder / "spec").read_text()] if wish.one else []), more={"GIT_TRACE_PACKET": str(work / "git")})
    shutil.rmtree(copy)
    export(git, folder / "client.git", work / "texts")


def serve(git, folder, algorithm, wish):
    """Starts a server over two pipes, with its packet trace in FOLDER/ALGORITHM/ours."""
    work = folder / algorithm
    os.mkfifo(work / "from"), os.mkfifo(work / "to")
    words = ["sh", "-c", 'exec "$@" < "$0/to" > "$0/from" 2> "$0/server"', str(work), "git", "upload-pack", str(folder / "server.git")]
    environment = {**git.environment, "GIT_PROTOCOL": f"version={wish.protocol}", "GIT_TRACE_PACKET": str(work / "ours")}
    return subprocess.Popen(words, env=environment)


def distinct(ids):
    return list(dict.fromkeys(ids))


def trace(path):
    return path.read_text(errors="replace") if path.exists() else ""


def first_fetch(text, wish):
    """The lines of the first fetch in a trace: git may fetch tags in a second one."""
    if wish.protocol == 2:
        front, _, rest = text.partition(" fetch> command=fetch")
        return " fetch> command=fetch" + rest.partition(" fetch< packfile")[0] if rest else ""
    front, _, rest = text.partition(" fetch> want ")
    return " fetch> want " + rest.partition(" fetch> done")[0] if rest else ""


def listed_of(text, wish):
    """The refs that a server lists: name, id, and the target of a tag."""
    if wish.protocol == 2:
        front = text.partition(" fetch> command=fetch")[0]
        return re.findall(r" fetch< ([0-9a-f]{40}) (\S+)(?: symref-target:\S+)?(?: peeled:([0-9a-f]{40}))?", front)
    front = text.partition(" fetch> want ")[0].partition(" fetch> 0000")[0]
    refs = []
    for id, name in re.findall(r" fetch< ([0-9a-f]{40}) ([^\s\\]+)", front):
        if name.endswith("^{}"):
            refs[-1] = refs[-1][:2] + (id,)
        else:
            refs.append((id, name, ""))
    return refs


def is_mapped(name, wish, spec):
    source = spec[1:].partition(":")[0]
    return name == source or source.endswith("*") and name.startswith(source[:-1]) or wish.tags and name.startswith("refs/tags/")


def haves_of(text, wish):
    """The different haves of the first fetch of a trace."""
    return distinct(re.findall(r" fetch> have ([0-9a-f]+)", first_fetch(text, wish)))


class Model:
    """git's two algorithms (negotiator/default.c and negotiator/skipping.c of git 2.39), run over the acknowledgements of a trace."""

    def __init__(self, folder, algorithm, listed, leaves_off=True, marks=True, cut=()):
        self.skips, self.leaves_off = algorithm == "skipping", leaves_off
        self.commits = {}
        for line in (folder / algorithm / "texts" / "commits").read_text().splitlines():
            time, id, *parents = line.split()
            self.commits[id] = (int(time), [] if id in cut else parents)
        tips = [line.split()[1] for line in (folder / algorithm / "texts" / "refs").read_text().splitlines()]
        complete = self.complete(tips, listed) if marks else set()
        self.read = set(complete) | {id for id in [*tips, *listed] if id in self.commits}
        self.flags = {id: set() for id in self.commits}
        self.queue, self.number, self.steps, self.open = [], itertools.count(), {}, 0
        for id in listed:
            if id in complete and "SEEN" not in self.flags[id]:
                self.push(id, "REF")
                if not self.skips:
                    self.common(id, ancestors=True)
        for id in tips:
            if "SEEN" not in self.flags[id]:
                self.push(id)

    def complete(self, tips, listed):
        cutoff = max((self.commits[id][0] for id in listed if id in self.commits), default=0)
        complete, due = set(tips), list(tips)
        while cutoff and due:
            time, parents = self.commits[due.pop()]
            for parent in parents if time >= cutoff else []:
                if parent not in complete:
                    complete.add(parent)
                    due.append(parent)
        return complete

    def push(self, id, *marks):
        self.flags[id] |= {"SEEN", *marks}
        self.steps[id] = [0, 0]
        time = self.commits[id][0] if not self.skips or id in self.read else 0
        heapq.heappush(self.queue, (-time, next(self.number), id))
        self.open += self.skips or "COMMON" not in self.flags[id]

    def common(self, id, ancestors=False):
        if "COMMON" in self.flags[id]:
            return
        if self.skips:
            return self.common_skipping(id)
        if not ancestors:
            self.mark(id)
        due = [id]
        while due:
            id = due.pop()
            if "SEEN" not in self.flags[id]:
                self.push(id)
                continue
            for parent in self.commits[id][1]:
                if "COMMON" not in self.flags[parent]:
                    self.mark(parent)
                    due.append(parent)

    def mark(self, id):
        self.flags[id].add("COMMON")
        self.open -= "SEEN" in self.flags[id] and "POPPED" not in self.flags[id]

    def common_leaving_off(self, id):
        due = [id]
        while due:
            id = due.pop()
            if "COMMON" in self.flags[id]:
                return
            self.flags[id].add("COMMON")
            self.open -= "POPPED" not in self.flags[id]
            if id not in self.read:
                return
            due += [parent for parent in self.commits[id][1] if "SEEN" in self.flags[parent]]

    def common_skipping(self, id):
        if self.leaves_off:
            return self.common_leaving_off(id)
        self.flags[id].add("COMMON")
        due = [id]
        while due:
            id = due.pop()
            self.open -= "POPPED" not in self.flags[id]
            if id not in self.read:
                return
            for parent in self.commits[id][1]:
                if "SEEN" in self.flags[parent] and "COMMON" not in self.flags[parent]:
                    self.flags[parent].add("COMMON")
                    due.append(parent)

    def next(self):
        while self.queue and self.open > 0:
            id = heapq.heappop(self.queue)[2]
            self.flags[id].add("POPPED")
            self.read.add(id)
            self.open -= "COMMON" not in self.flags[id]
            if self.take_skipping(id) if self.skips else self.take(id):
                return id
        return None

    def take(self, id):
        spreads = self.flags[id] & {"COMMON", "REF"}
        offered = "COMMON" not in self.flags[id]
        for parent in self.commits[id][1]:
            if "SEEN" not in self.flags[parent]:
                self.flags[parent] |= {"COMMON"} if spreads else set()
                self.push(parent)
            if spreads:
                self.common(parent, ancestors=True)
        return offered

    def take_skipping(self, id):
        whole, left = self.steps[id]
        offered, pushed = "COMMON" not in self.flags[id] and not left, False
        for parent in self.commits[id][1]:
            if "POPPED" in self.flags[parent]:
                continue
            if "SEEN" not in self.flags[parent]:
                self.push(parent)
            pushed = True
            if self.flags[id] & {"COMMON", "REF"}:
                self.common(parent)
                continue
            step = whole if left else whole * 3 // 2 + 1
            if self.steps[parent][0] < step:
                self.steps[parent] = [step, left - 1 if left else step]
        return offered or ("COMMON" not in self.flags[id] and not pushed)

    def offer(self, offered):
        id = self.next()
        offered += [id] if id else []
        return id

    def hear(self, id):
        if "SEEN" in self.flags.get(id, ()):
            self.common(id)

    def haves(self, text, wish):
        """Its haves for the acknowledgements of a version 2 trace, as many as were sent."""
        sent, offered, window = [], [], FIRST_WINDOW
        for request in first_fetch(text, wish).split(" fetch> command=fetch")[1:]:
            new = [id for id in re.findall(r" fetch> have ([0-9a-f]+)", request) if id not in sent]
            for _ in new:
                self.offer(offered)
            sent += new
            # the haves ran out if a window isn't full, unless too many were in vain
            if len(new) < window and len(sent) < MOST_IN_VAIN:
                self.offer(offered)
            window *= 2
            for id in re.findall(r" fetch< ACK ([0-9a-f]+)", request):
                self.hear(id)
        return offered

    def replayed(self, events, runs_out):
        """The same under versions 0 and 1: haves, with acknowledgements where the client reads them."""
        offered = []
        for word, id in events:
            if word == "have":
                self.offer(offered)
            else:
                self.hear(id)
        if runs_out:
            self.offer(offered)
        return offered

    def alone(self, has, windows):
        """Its haves in these windows for a server with these commits, which acknowledges them at the end of each window."""
        offered = []
        for window in windows:
            new = []
            while len(new) < window and self.offer(new):
                pass
            offered += new
            if len(new) < window:
                return offered
            for id in new:
                if id in has:
                    self.hear(id)


def windows_of_library():
    window = FIRST_WINDOW
    while True:
        yield window
        window += min(window, 32)


def as_git_traces(text):
    """The trace of the library's server, written like a client's."""
    return text.replace(" upload-pack< ", " fetch> ").replace(" upload-pack> ", " fetch< ")


def events_of(text, wish):
    """The haves, acknowledgements and ends of requests of a trace of versions 0 and 1, in order."""
    found = re.findall(r" fetch[<>] (have|ACK|0000)(?: ([0-9a-f]{40}))?( ready)?", first_fetch(text, wish))
    return [("ready" if ready else word, id) for word, id, ready in found]


def runs_out(words):
    """Whether the haves ended because there were no more, not because too many were in vain."""
    return len(words) - 1 - max([at for at, word in enumerate(words) if word != "have"], default=-1) < MOST_IN_VAIN


def replay_git(model, text, wish):
    if wish.protocol == 2 or not first_fetch(text, wish):
        return model.haves(text, wish)
    events = [it for it in events_of(text, wish) if it[0] != "0000"]
    words = [word for word, _ in events]
    return model.replayed(events, "ready" not in words and runs_out(words))


def replay_library(model, text, wish):
    """A server acknowledges while it reads a request. The library reads the acknowledgements after it sent the request."""
    if wish.protocol == 2 or not first_fetch(text, wish):
        return model.haves(text, wish)
    events, haves, heard = [], [], []
    for word, id in [*events_of(text, wish), ("0000", "")]:
        if word == "have":
            haves.append((word, id))
        elif word == "ACK":
            heard.append((word, id))
        elif word == "0000":
            events, haves, heard = events + haves + heard, [], []
    return model.replayed(events, runs_out([word for word, _ in events]))


def wants(text, wish):
    return set(re.findall(r" fetch> want ([0-9a-f]+)", first_fetch(text, wish)))


def goes_on_after_ready(text, wish):
    """Whether a request has haves after an answer `ACK .. ready`."""
    words = [word for word, _ in events_of(text, wish)]
    after = words[words.index("ready"):] if "ready" in words else []
    return "0000" in after and "have" in after[after.index("0000"):]


def cause(folder, algorithm, ours, theirs, wish):
    """Why the haves differ, or None."""
    by_git, by_us = trace(folder / algorithm / "git"), as_git_traces(trace(folder / algorithm / "ours"))
    spec, early = (folder / "spec").read_text(), wish.protocol != 2
    cut = set(re.findall(r" fetch< shallow ([0-9a-f]+)", first_fetch(by_git, wish))) if early and wish.depth else set()
    refs, refs_here = listed_of(by_git, wish), listed_of(by_us, wish)
    mapped, mapped_here = ([it for it in found if is_mapped(it[1], wish, spec)] for found in (refs, refs_here))
    git_rules = {"listed": refs, "peels": True, "leaves_off": True, "marks": not wish.depth, "cut": cut}
    our_rules = {"listed": mapped_here, "peels": False, "leaves_off": False, "marks": True, "cut": set()}

    def model(listed, peels, **rules):
        return Model(folder, algorithm, [peeled if peeled and peels else id for id, _, peeled in listed], **rules)

    def sends(**others):
        return replay_git(model(**{**git_rules, **others}), by_git, wish)

    def gives(**others):
        return replay_library(model(**{**our_rules, **others}), by_us, wish)

    if sends() != theirs or gives() != ours:
        return None
    # The rules in which the two differ: what would each side send by the rule of the other?
    causes = [name for name, rule in RULES.items() if git_rules[rule] != our_rules[rule]
              and (sends(**{rule: our_rules[rule]}) != theirs or gives(**{rule: git_rules[rule]}) != ours)]
    if early:
        causes += ["all that is listed"] if sends(listed=mapped) != theirs or gives(listed=refs_here) != ours else []
        has = set((folder / "has").read_text().split())
        others = model(**git_rules).alone(has, windows_of_library())
        ended = len(theirs) if "ready" in [word for word, _ in events_of(by_git, wish)] else None
        causes += ["other windows"] if others[:ended] != theirs else []
        causes += ["haves after ready"] if goes_on_after_ready(by_us, wish) else []
    causes += ["other wants"] if wants(by_git, wish) != wants(by_us, wish) else []
    return ", ".join(causes) or None


def build(work):
    """Builds the program over a copy of the repository's crates in WORK."""
    shutil.copytree(TOP / "crates", work / "crates", ignore=shutil.ignore_patterns("out", "must-fail", "data"))
    source = work / "crates" / "gixp_haves" / "src"
    source.mkdir(parents=True)
    for path in (TOP / "scripts" / "haves").glob("*.rt.in"):
        shutil.copy(path, source / path.stem)
    for name in ("specs", "proofs"):
        (source.parent / name).mkdir()
        (source.parent / name / "Lib.antt").write_text("")
    shutil.copy(TOP / "HANDLES", work / "HANDLES")
    lines = (TOP / "crates.txt").read_text()
    (work / "crates.txt").write_text(lines + "gixp_haves: gix_protocol gixp_memory gixp_doubles bstr\n")
    return source.parent


def fetch_by_us(git, program, cases, wish):
    """Runs the program once for each case, with one server each."""
    folder = program / "cases"
    shutil.rmtree(folder, ignore_errors=True)
    folder.mkdir()
    servers = []
    for number, (history, algorithm) in enumerate(cases):
        work = history / algorithm
        words = [work / "from", work / "to", work / "texts", algorithm, wish.depth, "included" if wish.tags else "none"]
        words.append((history / "spec").read_text())
        (folder / f"{number:03d}").write_text("")
        (folder / f"{number:03d}.args").write_text("".join(f"{word}\n" for word in words))
        servers.append(serve(git, history, algorithm, wish))
    ran = subprocess.run([os.environ.get("RT", "rt"), "try", "--cases", str(folder)], cwd=program, capture_output=True, text=True)
    for server in servers:
        server.kill()
        server.wait()
    return ran.stdout + ran.stderr


def compare(histories, wish):
    agree, explained, unexplained = dict.fromkeys(ALGORITHMS, 0), dict.fromkeys(ALGORITHMS, 0), dict.fromkeys(ALGORITHMS, 0)
    counts = {algorithm: Counter() for algorithm in ALGORITHMS}
    for folder, kind in histories:
        for algorithm in ALGORITHMS:
            said = trace(folder / algorithm / "ours")
            ours = haves_of(as_git_traces(said), wish)
            theirs = haves_of(trace(folder / algorithm / "git"), wish)
            if said and ours == theirs:
                agree[algorithm] += 1
                continue
            why = cause(folder, algorithm, ours, theirs, wish) if said else None
            (explained if why else unexplained)[algorithm] += 1
            counts[algorithm].update([*(why.split(", ") if why else []), "fewer here" if len(ours) < len(theirs) else "not fewer here"])
            print(f"{folder.name} {kind} {algorithm}: git sent {len(theirs)}, we sent {len(ours)}: {why or 'NO CAUSE'}")
    for algorithm in ALGORITHMS:
        print(f"{algorithm}: {agree[algorithm]} of {len(histories)} agree, {explained[algorithm]} differ with a cause, {unexplained[algorithm]} without one")
        print("    " + ", ".join(f"{name}: {count}" for name, count in sorted(counts[algorithm].items())))
    return sum(unexplained.values())


def main():
    parser = argparse.ArgumentParser(description=__doc__.splitlines()[0])
    parser.add_argument("histories", nargs="?", type=int, default=200)
    parser.add_argument("--protocol", type=int, choices=[0, 1, 2], default=2, help="the version of the protocol")
    parser.add_argument("--depth", type=int, default=0, help="how many commits of each ref are fetched")
    parser.add_argument("--one", action="store_true", help="one branch is fetched, by its refspec")
    parser.add_argument("--tags", action="store_true", help="histories with tags")
    parser.add_argument("--seed", type=int, default=1000)
    parser.add_argument("--keep", type=pathlib.Path, help="a folder for the histories and traces; it is not removed")
    words = parser.parse_args()
    with tempfile.TemporaryDirectory() as temporary:
        room = words.keep.resolve() if words.keep else pathlib.Path(temporary) / "room"
        room.mkdir(parents=True)
        git = Git(room)
        program = build(pathlib.Path(temporary) / "program")
        histories = []
        for number in range(words.histories):
            folder = room / f"{number:03d}"
            folder.mkdir()
            histories.append((folder, make_history(git, folder, number, words.seed, words.tags)))
            (folder / "spec").write_text(moved_branch(git, folder) if words.one else BRANCHES_SPEC)
            for algorithm in ALGORITHMS:
                fetch_by_git(git, folder, algorithm, words)
        cases = [(folder, algorithm) for folder, _ in histories for algorithm in ALGORITHMS]
        for at in range(0, len(cases), 2 * BATCH):
            said = fetch_by_us(git, program, cases[at : at + 2 * BATCH], words)
            if "error" in said:
                print(said, file=sys.stderr)
        sys.exit(1 if compare(histories, words) else 0)


main()
