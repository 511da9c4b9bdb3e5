"""Cases of live.py for git's caller: its open files, variables, shell commands, settings, and reused process ids."""
import fcntl
import itertools
import os
import re
import shutil
import subprocess

from live_harness import by_both, by_path, clone_both, grow, leaves_nothing, make, same, state
from live_servers import here_ssh, shell_ssh

# a session id in git's form, after the ids of git's own processes
SESSION_ID = re.compile(r"session-id=(\S*/)?\d{8}T\d{6}\.\d{6}Z-H[0-9a-f]{8}-P[0-9a-f]{8}\b")

# Open files


def opened(t, numbers, *words, more=None):
    """Runs git with these files open. Returns its status, its output, and what was written to the files."""
    path, said = t.folder("open"), t.folder("said")
    with open(path, "w+") as file, open(said, "w+") as err, open(os.devnull, "w") as nothing:
        high = fcntl.fcntl(file.fileno(), fcntl.F_DUPFD, 1000)

        def open_all():
            for number in range(3, 1000):
                try:
                    os.close(number)
                except OSError:
                    pass
            for number in numbers:
                os.dup2(high, number)
            os.close(high)

        ran = subprocess.run(["timeout", "30", "git", *map(str, words)], env={**t.environment, **(more or {})}, cwd=t.room, stdin=nothing,
                             stdout=nothing, stderr=err, close_fds=False, preexec_fn=open_all, check=False)
        os.close(high)
        return ran.returncode, said.read_text(), path.read_text()


def open_files(name, t):
    """Files that the caller left open, at the numbers that the helper uses and at the one that bash uses for the script."""
    server = make(t, "server", 5)
    most = range(3, 256)
    rows = [(f"only {number}", [number]) for number in (*range(3, 64), 253, 254, 255)]
    rows += [(f"3 to {last}", range(3, last + 1)) for last in (9, 19, 20, 27, 33, 62, 254, 255, 300)]
    rows += [(f"all but {number}", [one for one in most if one != number]) for number in (3, 9, 10, 20, 21, 27, 33, 34, 63, 255)]
    for label, numbers in rows:
        status, err, written = opened(t, numbers, "clone", "-q", by_path(server)[1], t.folder("to"))
        t.check(f"{name}: {label}", status == 0 and not err and not written, f"{status} {err} {written[:99]}")
    t.check(f"{name}: nothing is left", leaves_nothing(t))


def traces(name, t):
    """git writes its trace to a file that the caller opened. The helper's programs write there too."""
    server = make(t, "server", 5)
    for number in range(3, 10):
        told = []
        for url in by_path(server):
            status, err, written = opened(t, [number], "clone", "-q", url, t.folder("to"), more={"GIT_TRACE": str(number)})
            told.append((status, err, "index-pack" in written))
        t.check(f"{name}: {number}", told[0] == told[1] == (0, "", True), told)


# Variables


def with_variables(t, more):
    """The variables that git and the helper pass to a program in place of ssh, and both statuses."""
    server, told = make(t, "server", 5), []
    for url in by_both(server):
        got = t.folder("got")
        script = f'tr "\\0" "\\n" < /proc/self/environ > "{got}"\nfor last; do :; done\nunset GIT_DIR\nexec sh -c "$last"'
        status, out, err = t.run("git", "ls-remote", url, more={**shell_ssh(t, script), **more})
        given = got.read_text().splitlines() if got.exists() else []
        told.append((status, out, err, sorted(line for line in given if line.split("=")[0] in more)))
    return told


def variables(name, t):
    """Variables that bash reads, or that have a name of the helper's shell. They change nothing, and the started programs get them."""
    startup = t.folder("startup")
    startup.write_text("echo printed\nexec 20>&- 21<&-\ncd /\nset -e\n")
    functions = {f"BASH_FUNC_{word}%%": "() { echo changed\n}" for word in ("git", "cat", "read", "kill", "exec", "wait", "trap", "printf")}
    names = dict.fromkeys(("name", "words", "kind", "one", "line", "begun", "shell", "mark", "program", "input", "output", "IFS"), "mine")
    for label, more in (
        ("BASH_ENV", {"BASH_ENV": str(startup)}), ("ENV", {"ENV": str(startup)}), ("functions", functions), ("names", names),
        ("TMOUT", {"TMOUT": "1"}), ("POSIXLY_CORRECT", {"POSIXLY_CORRECT": "1"}), ("FUNCNEST", {"FUNCNEST": "1"}),
        ("SHELLOPTS", {"SHELLOPTS": "braceexpand:xtrace:noexec"}), ("CDPATH", {"CDPATH": "/"}),
    ):
        by_git, by_us = with_variables(t, more)
        is_same = by_us[:3] == by_git[:3] and by_git[0] == 0 and (by_us[3] == by_git[3] or label in ("SHELLOPTS", "names"))
        t.check(f"{name}: {label}", is_same and leaves_nothing(t), f"{by_git} {by_us}")
    server = make(t, "server", 5)
    slow = shell_ssh(t, 'sleep 3\nfor last; do :; done\nunset GIT_DIR\nexec sh -c "$last"')
    status, out, err = t.run("git", "ls-remote", by_both(server)[1], more={**slow, "TMOUT": "1"})
    t.check(f"{name}: TMOUT and a slow server", status == 0 and not err, f"{status} {err}")


def shell_words(name, t):
    """GIT_SSH_COMMAND runs in the same shell as with git."""
    server = make(t, "server", 5)
    run = 'for last; do :; done; unset GIT_DIR; sh -c "$last"; }; run'
    bash = {"BASH_FUNC_exported%%": "() { echo exported >&2\n}"}
    for text in ("run() { echo -e 'a\\tb' >&2; " + run, "run() { exported; " + run, "run() { [[ a = a ]] && echo bash >&2; " + run,
                 "run() { echo \"$0\" >&2; " + run, "nosuchprogram --word", "false;", "run() { echo $((2#11)) >&2; " + run):
        more = {"GIT_SSH_COMMAND": text, "GIT_SSH_VARIANT": "ssh", **bash}
        ends = [t.run("git", "ls-remote", url, more=more) for url in by_both(server)]
        is_same = ends[0][0] == ends[1][0] and ends[0][1] == ends[1][1]
        words = [re.sub("(?m)^(fatal|error): .*", "", end[2]).split("\n")[0] for end in ends]
        is_said = words[0] == words[1] or "nosuch" in text
        t.check(f"{name}: {text[:40]}", is_same and is_said and leaves_nothing(t), f"{ends}")


# Options and settings


def families(name, t):
    """-4 and -6 reach the program in place of ssh. A program without such an option is an error."""
    server, told = make(t, "server", 5), t.folder("told")
    script = f'echo "$*" >> "{told}"\nfor last; do :; done\nunset GIT_DIR\nexec sh -c "$last"'
    for variant in ("ssh", "plink", "tortoiseplink", "simple"):
        for word in ("-4", "-6"):
            ends = []
            for url in by_both(server):
                told.write_text("")
                more = {**shell_ssh(t, script), "GIT_SSH_VARIANT": variant}
                status, out, err = t.run("git", "clone", "-q", word, url, t.folder("to"), more=more)
                ends.append((status, [line.split() for line in told.read_text().splitlines()]))
            t.check(f"{name}: {variant} {word}", ends[0] == ends[1] and leaves_nothing(t), ends)


def session_ids(name, t):
    """The helper sends a session id if the user's settings say so and the server has one."""
    for client, server_says in itertools.product(("true", "false"), repeat=2):
        server, sent = make(t, "server", 5), []
        t.git("config", "transfer.advertiseSID", server_says, at=server)
        for version in ("0", "2"):
            for url in by_path(server):
                trace = t.folder("trace")
                words = ["-c", f"protocol.version={version}", "-c", f"transfer.advertiseSID={client}"]
                t.git(*words, "clone", "-q", url, t.folder("to"), more={"GIT_TRACE_PACKET": str(trace)})
                lines = [line for line in trace.read_text().splitlines() if "upload-pack< " in line]
                sent.append([bool(SESSION_ID.search(line)) for line in lines if "session-id=" in line])
        t.check(f"{name}: {client}, server {server_says}", sent[0] == sent[1] and sent[2] == sent[3], sent)


def severities(name, t):
    """Severities of fetch.fsck.*: some that git refuses, and message ids that it doesn't know."""
    server = make(t, "server", 3)
    for setting in ("unterminatedHeader=warn", "nulInHeader=ignore", "nosuchid=warn", "missingEmail=nonsense", "missingEmail=warn",
                    "UNTERMINATEDHEADER=warn", "unterminatedHeader=error"):
        ends = []
        for url in by_path(server):
            client = make(t, "client", 0)
            words = ["-c", "fetch.fsckObjects=true", "-c", f"fetch.fsck.{setting}", "fetch", "-q", url, "HEAD:refs/x/a"]
            ends.append((*t.run("git", *words, at=client), state(t, client)))
        first = [[line for line in end[2].splitlines() if "fsck" in line or "demote" in line or "type" in line][:1] for end in ends]
        is_same = (ends[0][0] == 0) == (ends[1][0] == 0) and ends[0][3] == ends[1][3] and first[0] == first[1]
        t.check(f"{name}: {setting}", is_same and leaves_nothing(t), ends)


def control_characters(name, t):
    """Control characters of a URL are not printed."""
    for host in ("a\033[31mb", "a\rb", "\x9b31mb", "a\x7fb"):
        for url in (f"git://{host}.invalid/x", f"git://{host}.invalid:1/x", f"git://127.0.0.1:1/{host}", f"http://{host}.invalid/x"):
            status, out, err = t.run("git", "ls-remote", f"gixp::{url}")
            shown = [character for character in err if character not in "\n\t" and (ord(character) < 32 or ord(character) == 127)]
            t.check(f"{name}: {url!r}", status not in (0, -1) and not shown, f"{status} {err!r}")


# Reused process ids

# Runs in a pid namespace: a process of the helper ends, a `sleep` gets its process id, and then the helper ends.
REUSE = r"""
. "$1"
for i in $(seq 200); do [ -e "$waiting" ] && break; sleep 0.05; done
number=$(cat "$numbered")
for i in $(seq 100); do [ -e "/proc/$number" ] || break; sleep 0.05; done
[ ! -e "/proc/$number" ] || exit 3
for i in $(seq 50); do
    echo $((number - 1)) > /proc/sys/kernel/ns_last_pid; sleep 1000 & other=$!; [ $other = "$number" ] && break; kill $other
done
[ $other = "$number" ] || exit 4
touch "$go"; wait $fetch || exit 5; sleep 1; kill -0 $other || exit 6; kill $other
"""


def git_that_waits(t, room, who, waits, numbered):
    """git's programs, one of which waits: the server ends before the pack is indexed, or the list of commits before the pack."""
    core, place = t.git("--exec-path").strip(), shutil.which("git")
    room.mkdir()
    for path in os.listdir(core):
        if path != "git":
            (room / path).symlink_to(f"{core}/{path}")
    case = {"server": f'*" index-pack "*) {place} "$@"; r=$?; {waits}; exit $r ;;',
            "listing": f'*" rev-list "*--parents*) echo $$ > "{numbered}" ;;'}[who]
    (room / "git").write_text(f'#!/bin/bash\ncase " $* " in {case}\nesac\nexec {place} "$@"\n')
    (room / "hook").write_text("#!/bin/sh\n" + (waits if who == "listing" else ":") + '\nexec "$@"\n')
    for path in (room / "git", room / "hook"):
        path.chmod(0o755)
    t.git("config", "--global", "uploadpack.packObjectsHook", room / "hook")
    return {"GIT_EXEC_PATH": str(room)}


def reused_number(name, t, who):
    """A process that got the process id of an ended process of the helper gets no signal."""
    server, client, begin, script = make(t, "server", 5), t.folder("client"), t.folder("begin"), t.folder("script")
    waiting, numbered, go = (t.folder(word) for word in ("waiting", "numbered", "go"))
    t.git("clone", "-q", "--bare", f"file://{server}", client)
    grow(t, server, 1)
    waits = f'touch "{waiting}"; while [ ! -e "{go}" ]; do sleep 0.05; done'
    number = f'echo $$ > "{numbered}"' if who == "server" else ":"
    more = {**git_that_waits(t, t.folder("core"), who, waits, numbered), "GIXP_VERSION": "0",
            **shell_ssh(t, f'{number}\nunset GIT_DIR\nexec git upload-pack "{server}"')}
    begin.write_text(f'waiting="{waiting}" numbered="{numbered}" go="{go}"\ncd "{client}"\n'
                     f'timeout 60 git fetch -q "{by_both("/x")[1]}" main:refs/x/a & fetch=$!\n')
    script.write_text(REUSE)
    status, out, err = t.run("unshare", "--pid", "--fork", "--mount-proc", "bash", script, begin, more=more)
    t.check(name, status == 0, f"{status} {err}")


def can_unshare():
    """Whether this machine lets us choose the next process id."""
    words = ["unshare", "--pid", "--fork", "--mount-proc", "sh", "-c", "echo 100 > /proc/sys/kernel/ns_last_pid"]
    return bool(shutil.which("unshare")) and subprocess.run(words, stderr=subprocess.DEVNULL, check=False).returncode == 0


def older_bash(name, t):
    """A bash that makes a file of a here-string, not a pipe, as 5.0 does."""
    server = make(t, "server", 30, tags=True)
    for words in ([], ["--depth", "3"]):
        more = {**here_ssh(t), "BASH_COMPAT": "5.0"}
        by_git, by_us, first, second = clone_both(t, server, *words, urls=by_both(server), more=more)
        t.check(f"{name}: {words}, done", first[0] == second[0] == 0, f"{first} {second}")
        same(t, f"{name}: {words}", by_git, by_us, first, second)


def locales(name, t):
    """A path that is not ASCII, in a single-byte locale, in a UTF-8 locale, and in a missing one, about which bash warns once."""
    server = make(t, "sërvér 中", 30, tags=True)
    for locale in ("C", "C.UTF-8", "xx_YY.UTF-8"):
        by_git, by_us, first, second = clone_both(t, server, urls=by_path(server), more={"LC_ALL": locale})
        t.check(f"{name}: {locale}, done", first[0] == second[0] == 0, f"{first} {second}")
        same(t, f"{name}: {locale}", by_git, by_us, first, second)
        t.check(f"{name}: {locale}, warnings", second[2].count("setlocale") == locale.startswith("xx"), second[2])


def try_caller(t):
    for name, action in (
        ("open files", open_files), ("files of traces", traces), ("variables", variables), ("GIT_SSH_COMMAND", shell_words),
        ("-4 and -6", families), ("session ids", session_ids), ("severities", severities),
        ("control characters", control_characters), ("an older bash", older_bash), ("locales", locales),
    ):
        t.case(f"caller: {name}", action)
    if can_unshare():
        for who in ("server", "listing"):
            t.case(f"caller: the number of a {who} that ended", reused_number, who)
    else:
        print("reused process ids are not tested: that needs root and unshare", flush=True)
