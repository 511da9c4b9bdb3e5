#!/usr/bin/env python3
"""Runs git's own tests with the remote helper in place of git's transports, and compares the results with a stored table.

Usage: git_tests.py [--source FOLDER] [--remote PATH] [--work FOLDER] [--quick] [--jobs N] [--run NUMBERS] [--again] [SCRIPT..]
       git_tests.py --quotes

FOLDER is the unpacked source of git 2.39.5, as `apt-get source git` leaves it. Without --source it is $GIT_SOURCE, else the result of
`apt-get source git`, if apt has a deb-src line. PATH is the program gixp_remote, by default the one that `rt run` left in
crates/gixp_remote/out. The SCRIPTs are names or patterns of files in git's t/, as t5510 or 't57*'; without any, t55* to t58* and the
other scripts that the table names. --quick runs only those of QUICK.

The source is copied into the scratch folder (--work, else $WORK, else /var/tmp/gixp-git-tests), changed by git_tests/via-helper.patch
and built once. In that git each clone, fetch, ls-remote and lazy fetch starts the helper that GIT_TEST_VIA_HELPER names. Without that
variable it is git itself. The scripts run as a user without privileges (--user), with a limit of processes and of time.

git_tests/table.txt has a line for each test that only git passes: the script, the number, the kind of reason, and the reason. The kinds are
    hidden      no remote helper can show it: a trace of git's own process, or messages of git's own transports
    language    gitremote-helpers(7) has no command for it
    documented  docs/DIFFERENCES.md has it, in the words between quotes
    harness     it tests what the patch removes, as clones by hard links, or depends on the build
A `?` after the number marks a test that passes at times.

Prints a line for each failed test that git passes and the table doesn't have, and for each line of the table whose test passes. The last
line is `N passed, M failed`, where a test of the table passes if it fails. The status is 1 if one failed. --again tries a script with
such a test once more, alone, and counts the second try. Without git's source --quick prints that, and its status is 0.
--quotes runs no test: it checks only that the table is well formed and that DIFFERENCES has the quoted words.
"""
import argparse
import concurrent.futures
import hashlib
import os
import pathlib
import pwd
import re
import shutil
import signal
import subprocess
import sys
import time

TOP = pathlib.Path(__file__).resolve().parent.parent
REMOTE = TOP / "crates" / "gixp_remote"
FILES = TOP / "scripts" / "git_tests"
PATCH, SHIM, TABLE = FILES / "via-helper.patch", FILES / "git-remote-gixp", FILES / "table.txt"
DIFFERENCES = TOP / "docs" / "DIFFERENCES.md"
VERSION = "2.39.5"
MAKE = ["NO_OPENSSL=1", "NO_GETTEXT=1", "NO_TCLTK=1", "NO_PYTHON=1", "PYTHON_PATH=/usr/bin/python3", "prefix=/usr",
        "gitexecdir=/usr/lib/git-core", f"GIT_VERSION={VERSION}", "CFLAGS=-O1 -g0"]
# the seconds after which a script is killed
SECONDS = 1200
# with --quick, for which a slow machine is no failure: the same, the seconds after which no script begins, and those for building git
QUICK_SECONDS, QUICK_BEGINS, QUICK_BUILD = 45, 45, 80
USUAL = ["t55*", "t56*", "t57*", "t58*", "t0410", "t2080", "t5330"]
QUICK = ["t5500", "t5503", "t5504", "t5512", "t5525", "t5537", "t5539", "t5552", "t5553", "t5570", "t5582", "t5604", "t5605", "t5606",
         "t5611", "t5612", "t5613", "t5700", "t5703", "t5705"]
KINDS = {"hidden", "language", "documented", "harness"}
# the status of `timeout` after it killed a script
LATE = {124, 137}
RESULT = re.compile(r"(ok|not ok) (\d+)(?: - (.*?))?(?:\s+# (TODO|SKIP)\b.*)?")


class Missing(Exception):
    """What is missing, so that no test can run."""


def options():
    parser = argparse.ArgumentParser(description=__doc__.splitlines()[0])
    parser.add_argument("--source", type=pathlib.Path, default=os.environ.get("GIT_SOURCE"), help="git's source, unpacked")
    parser.add_argument("--remote", type=pathlib.Path, default=REMOTE / "out" / "gixp_remote", help="the program gixp_remote")
    parser.add_argument("--work", type=pathlib.Path, default=os.environ.get("WORK", "/var/tmp/gixp-git-tests"), help="the scratch folder")
    parser.add_argument("--user", default="games", help="the user that runs the tests if this is root")
    parser.add_argument("--patience", type=int, default=60, help="the seconds after which the helper is killed as hanging")
    parser.add_argument("--processes", type=int, default=1000, help="how many processes this user may have at once")
    parser.add_argument("--quick", action="store_true", help="only the quickest scripts")
    parser.add_argument("--jobs", type=int, default=os.cpu_count(), help="how many scripts run at once")
    parser.add_argument("--run", metavar="NUMBERS", help="only these tests of each script, as 1,40-43")
    parser.add_argument("--again", action="store_true", help="try a failed script once more, alone, and count the second try")
    parser.add_argument("--quotes", action="store_true", help="check only the table and its quotes of DIFFERENCES")
    parser.add_argument("scripts", nargs="*", metavar="SCRIPT")
    return parser.parse_args()


# git, built to fetch through a helper


def find_source(given, work):
    """The folder of git's source."""
    if given:
        if not (given / "GIT-VERSION-GEN").exists():
            raise Missing(f"{given} is not the source of git")
        return given.resolve()
    folder = work / "source"
    folder.mkdir(parents=True, exist_ok=True)
    if not list(folder.glob("git-*/GIT-VERSION-GEN")) and shutil.which("apt-get"):
        if subprocess.run(["timeout", "60", "apt-get", "source", "git"], cwd=folder, capture_output=True).returncode:
            shutil.rmtree(folder)
    for found in folder.glob("git-*/GIT-VERSION-GEN"):
        return found.parent
    raise Missing("git's source is missing: set GIT_SOURCE, or give apt a deb-src line")


def build(source, work, given):
    """A patched and built copy of the source, made once for each source and patch."""
    if f"DEF_VER=v{VERSION}" not in (source / "GIT-VERSION-GEN").read_text():
        raise Missing(f"the source of git is not {VERSION}")
    tree, copied, built = work / "git", work / "git.copied", work / "git.built"
    wanted = hashlib.sha256("\0".join([str(source), PATCH.read_text(), *MAKE]).encode()).hexdigest()
    if not (copied.exists() and copied.read_text() == wanted):
        for one in (copied, built):
            one.unlink(missing_ok=True)
        for one in (tree, work / "plain"):
            shutil.rmtree(one, ignore_errors=True)
        shutil.copytree(source, tree, symlinks=True)
        subprocess.run(["patch", "-s", "-p1", "-i", PATCH], cwd=tree, check=True)
        copied.write_text(wanted)
    if not built.exists():
        words = ["timeout", str(QUICK_BUILD if given.quick else SECONDS), "make", "-s", f"-j{given.jobs}", "all", *MAKE]
        with open(work / "make.log", "w") as log:
            if subprocess.run(words, cwd=tree, stdout=log, stderr=log).returncode:
                raise Missing(f"the build of git failed or took too long ({work}/make.log)")
        subprocess.run(["chmod", "-R", "a+rX", tree], check=True)
        built.touch()
    return tree


def install(work, remote):
    """The folder of the helper and its shim, readable for the user of the tests."""
    if not os.access(remote, os.X_OK):
        sys.exit(f"there is no program {remote}: `rt run` in crates/gixp_remote builds it")
    tools = work / "tools"
    (tools / "helper").mkdir(parents=True, exist_ok=True)
    for source, folder in (SHIM, tools), (REMOTE / "git-remote-gixp", tools / "helper"), (remote, tools / "helper"):
        name = "gixp_remote" if source == remote else "git-remote-gixp"
        shutil.copy(source, folder / "new")
        (folder / "new").chmod(0o755)
        os.replace(folder / "new", folder / name)
    return tools


# A script of t/


class Suite:
    """Runs scripts of git's tests."""

    def __init__(self, work, tree, tools, given):
        self.work, self.tree, self.tools, self.given = work, tree, tools, given
        self.seconds, self.words = QUICK_SECONDS if given.quick else SECONDS, [f"--run={given.run}"] if given.run else []
        self.user = pwd.getpwnam(given.user) if os.geteuid() == 0 else None

    def folder(self, *names):
        """A folder that the user of the tests owns."""
        made = self.work.joinpath(*names)
        made.mkdir(parents=True, exist_ok=True)
        if self.user:
            os.chown(made, self.user.pw_uid, self.user.pw_gid)
        return made

    def run(self, script, via=True):
        """Runs a script through the helper, or else by git alone."""
        variant = "via" if via else "plain"
        out, trash = self.folder(variant, "results"), self.folder(variant, "trash")
        log, number = out / f"{script}.log", int(re.match(r"t(\d+)", script)[1]) % 1000
        log.write_text("")
        log.chmod(0o666)
        port = (20000 if via else 24000) + number
        environment = {
            "PATH": f"{self.tools}:/usr/local/bin:/usr/bin:/bin:/usr/sbin:/sbin", "HOME": "/nonexistent", "SHELL": "/bin/bash",
            "TERM": "dumb", "LANG": "C", "TMPDIR": "/var/tmp", "TEST_OUTPUT_DIRECTORY": str(out), "GIXP_TESTS_LOG": str(log),
            "GIXP_TESTS_SECONDS": str(self.given.patience), "GIT_TEST_VIA_HELPER": "gixp" if via else "",
            "GIT_TEST_CHAIN_LINT": "0", "LIB_HTTPD_PORT": str(port), "LIB_GIT_DAEMON_PORT": str(port + 2000),
        }
        user = ["setpriv", f"--reuid={self.user.pw_uid}", f"--regid={self.user.pw_gid}", "--clear-groups"] if self.user else []
        words = ["prlimit", f"--nproc={self.given.processes}", *user, "timeout", "-k", "10", str(self.seconds),
                 "bash", f"./{script}.sh", f"--root={trash}", "--no-color", "-V", *(self.words if via else [])]
        began = time.monotonic()
        with open(out / f"{script}.tap", "w") as tap, open(out / f"{script}.err", "w") as errors:
            ended = subprocess.run(words, cwd=self.tree / "t", env=environment, stdin=subprocess.DEVNULL, stdout=tap, stderr=errors)
        end_all(f"GIXP_TESTS_LOG={log}")
        ran = Ran(script, out / f"{script}.tap", log, time.monotonic() - began)
        ran.is_late = ended.returncode in LATE
        return ran

    def run_by_git(self, script):
        """The stored results of git alone."""
        stored = self.work / "plain" / "results" / f"{script}.tap"
        ran = Ran(script, stored, stored.with_suffix(".log"), 0) if stored.exists() else None
        return ran if ran and ran.is_whole else self.run(script, False)


class Ran:
    """The results of a script: for each number `pass`, `fail` or `skip`, and the title."""

    def __init__(self, script, tap, log, seconds):
        self.script, self.short, self.seconds = script, script.split("-")[0], seconds
        self.results, self.is_whole, self.is_late = {}, False, False
        for line in tap.read_text(errors="replace").splitlines():
            self.is_whole = self.is_whole or line.startswith("1..")
            if read := RESULT.fullmatch(line):
                state, number, title, mark = read.groups()
                # a test that git's developers expect to fail counts as skipped
                self.results[int(number)] = "skip" if mark else "pass" if state == "ok" else "fail", title or ""
        self.urls = log.read_text(errors="replace").splitlines() if log.exists() else []

    def complete(self, by_git):
        """Counts the tests after the end of a script that ended early as failed."""
        for number, (state, title) in by_git.results.items():
            self.results.setdefault(number, ("skip" if state == "skip" else "fail", f"{title} (didn't run)"))

    def numbers(self, state):
        return [number for number, (found, _) in self.results.items() if found == state]


def end_all(mark):
    """Ends each process that has this variable."""
    for _ in range(20):
        found = [int(one.parent.name) for one in pathlib.Path("/proc").glob("[0-9]*/environ") if mark in variables(one)]
        for process in found:
            try:
                os.kill(process, signal.SIGKILL)
            except OSError:
                pass
        if not found:
            return
        time.sleep(0.1)


def variables(path):
    try:
        return path.read_bytes().decode("latin1").split("\0")
    except OSError:
        return []


# The table


class Line:
    """A line of the table."""

    def __init__(self, text):
        self.text = text
        self.script, number, self.kind, self.reason = text.split(" ", 3)
        self.number, self.is_sometimes = int(number.rstrip("?")), number.endswith("?")


def read_table():
    """The lines of the table by script and number, and their faults."""
    lines, wrong = {}, []
    differences = " ".join(DIFFERENCES.read_text().split())
    for line in map(Line, filter(lambda text: text and not text.startswith("#"), TABLE.read_text().splitlines())):
        if line.kind not in KINDS or (line.script, line.number) in lines:
            wrong.append(f"TABLE unknown kind, or a second line for a test: {line.text}")
        quoted = re.findall(r'"([^"]+)"', line.reason)
        if line.kind == "documented" and not (quoted and all(words in differences for words in quoted)):
            wrong.append(f"TABLE docs/DIFFERENCES.md doesn't have the quoted words: {line.text}")
        lines[line.script, line.number] = line
    return lines, wrong


def judge(suite, ran, table):
    """Compares a script's results with the table: failed tests that git passes and the table doesn't have, and lines that pass."""
    if not ran.is_whole and not (ran.is_late and suite.given.quick):
        ran.complete(suite.run_by_git(ran.script))
    listed = {number for script, number in table if script == ran.short}
    wrong = [f"PASSES {table[ran.short, number].text}" for number in ran.numbers("pass")
             if number in listed and not table[ran.short, number].is_sometimes]
    if unlisted := [number for number in ran.numbers("fail") if number not in listed]:
        by_git = suite.run_by_git(ran.script).numbers("pass")
        wrong += [f"FAILED {ran.short} {number} {ran.results[number][1]}" for number in unlisted if number in by_git]
    return wrong + [f"HUNG {ran.short}: {url}" for url in ran.urls if url.startswith("HUNG")]


def chosen(tree, given, table):
    """The scripts to run, by size, the largest first."""
    patterns = given or USUAL + sorted({script for script, _ in table})
    found = {path.stem: path.stat().st_size for one in patterns for path in (tree / "t").glob(f"{pathlib.Path(one).stem}*.sh")
             if re.match(r"t\d{4}-", path.name)}
    return sorted(found, key=found.get, reverse=True)


def main():
    given = options()
    work = pathlib.Path(given.work).resolve()
    table, wrong = read_table()
    if given.quotes:
        say([*wrong, f"{len(table) - len(wrong)} passed, {len(wrong)} failed"])
        sys.exit(bool(wrong))
    try:
        source = find_source(given.source, work)
        tree, tools = build(source, work, given), install(work, given.remote.resolve())
    except Missing as missing:
        say([*wrong, f"{missing}: git's own tests are not run"])
        sys.exit(1 if wrong or not given.quick else 0)
    say(wrong)
    suite = Suite(work, tree, tools, given)
    scripts = chosen(tree, given.scripts or (QUICK if given.quick else []), table)
    if not scripts:
        sys.exit("git has no such script")
    until = time.monotonic() + (QUICK_BEGINS if given.quick else float("inf"))
    found = {}
    with concurrent.futures.ThreadPoolExecutor(given.jobs) as pool:
        for done in concurrent.futures.as_completed([pool.submit(run_until, until, suite, script) for script in scripts]):
            if not (ran := done.result()):
                continue
            found[ran.script] = ran, judge(suite, ran, table)
            say(found[ran.script][1])
            print(f"{len(found)} of {len(scripts)} scripts: {ran.script}, {ran.seconds:.0f} s", file=sys.stderr, flush=True)
    for script in [script for script, (_, lines) in found.items() if lines and given.again]:
        say([f"again: {script}"])
        ran = suite.run(script)
        found[script] = ran, judge(suite, ran, table)
        say(found[script][1])
    if left := [script for script in scripts if script not in found or found[script][0].is_late]:
        say([f"the machine is slow: these scripts did not run, or not to the end: {' '.join(left)}"])
    finish([ran for ran, _ in found.values()], len(wrong) + sum(len(lines) for _, lines in found.values()))


def run_until(until, suite, script):
    return suite.run(script) if time.monotonic() < until else None


def say(lines):
    for line in lines:
        print(line, flush=True)


def finish(all_ran, wrong):
    """Prints the numbers and ends."""
    passed, failed = (sum(len(ran.numbers(state)) for ran in all_ran) for state in ("pass", "fail"))
    runs = sum(len(ran.urls) for ran in all_ran)
    if not runs:
        say(["FAILED git never started the helper"])
    say([f"{len(all_ran)} of git's scripts: {passed} of their tests pass, {failed} fail, in {runs} runs of the helper",
         f"{max(passed + failed - wrong, 0)} passed, {wrong + (not runs)} failed"])
    sys.exit(1 if wrong or not runs else 0)


if __name__ == "__main__":
    main()
