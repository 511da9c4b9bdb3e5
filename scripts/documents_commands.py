"""Runs the commands of documents, in a temporary clone of the checkout, over the programs that its gate built."""
import contextlib
import os
import re
import shutil
import signal
import subprocess
import sys
import tempfile
from pathlib import Path

import live_httpd
from live_servers import free_port, wait_for_port

TOP = Path(__file__).resolve().parent.parent
MOST_SECONDS = 600
COMMAND = re.compile(r"\(?(?:rt|git|cargo|python3|printf|mkfifo|gixp_fetch_pack|scripts/\w+\.\w+)\b|\(cd ")
# in prose: commands with words or options
INLINE = re.compile(r"`((?:rt \w+|cargo|python3|mkfifo|scripts/\w+\.\w+) [^`]+|git [a-z-]+ [^`]*--[^`]*)`")
STAYS = re.compile(r"cd |export |[A-Z]+=")
# Commands that don't run, with reasons. .ci/run must have those of the gate.
GATE = ".ci/run runs it"
LEFT_OUT = {
    "scripts/bindings.sh": GATE,
    "python3 scripts/build_web_module.py": GATE,
    "scripts/page.py": GATE,
    "python3 scripts/page.py --serve 8000": "it serves until it is ended",
    "python3 models/expected.py": GATE,
    "scripts/names.py": GATE,
    "python3 scripts/mutants_test.py": GATE,
    "python3 scripts/live_harness_test.py": GATE,
    "scripts/without_contract.py": GATE,
    "scripts/claims.py": GATE,
    "scripts/counts.py": GATE,
    "scripts/reference.py": GATE,
    "scripts/dialogue.py": GATE,
    "scripts/stored_runs.py": GATE,
    "scripts/live.py": GATE,
    "scripts/git_tests.py": GATE,
    "scripts/git_tests.py --quick": GATE,
    "rt ci": GATE,
    "scripts/documents.py": "it is this script",
    "rt check --only refs::parse": "proves the five crates below gixp_refs from nothing",
    "rt check": "proves a crate and those below it from nothing",
    "rt plant": "proves a crate from nothing, and each mutation of it",
    "rt must-fail gixp_refs": "proves gixp_refs and those below it from nothing",
    "rt check --only fetch::arguments": "proves a change that isn't made here",
    "rt check --only command::table": "proves a change that isn't made here",
    "scripts/mutants.py CRATE..": "a proof for each mutant",
    "scripts/mutants.py --changed REV CRATE..": "a proof for each mutant",
    "scripts/mutants.py --gate": "a proof for each mutant, some hours",
    "gixp_fetch_pack [OPTION..] FROM TO PACK SPEC..": "scripts/live.py runs it in many ways",
    "gixp_fetch_pack --list [OPTION..] FROM TO": "scripts/live.py runs it in many ways",
    "mkfifo to from; GIT_PROTOCOL=version=2 git upload-pack REPO <to >from &": "one side of a conversation",
    "git http-fetch --packfile": "wants a pack's name and a server of it",
}
# What runs in place of a command: the program that the gate built, if a proof would take an hour; or a whole command for a part.
IN_PLACE = {
    "(cd crates/gixp_remote && rt run -- x)": "! (cd crates/gixp_remote && out/gixp_remote x)",
    "(cd crates/gixp_fetch_pack && rt run -- --help)": "(cd crates/gixp_fetch_pack && out/gixp_fetch_pack --help)",
    "gixp_fetch_pack --help": "out/gixp_fetch_pack --help",
    "rt new crates/mine start_io": "rt new crates/mine start_io; rm -r crates/mine",
    "rt try --test": "cd crates/gixp_test_lower; rt try --test",
    "rt try -- refs FILE": "cd crates/gixp_plan; cp ../../examples/tagged.ls .; rt try -- refs tagged.ls",
    "rt fmt": "cd crates/gixp_plan; rt fmt; git diff --exit-code .",
    "rt try --data cases=data/cases -- --only requests_v2 cases":
        "cd crates/gixp_replay; rt try --data cases=data/cases -- --only requests_v2 cases",
    "git index-pack --stdin --fix-thin": "echo main | git pack-objects -q --revs --stdout | git index-pack --stdin --fix-thin",
    "git upload-pack --stateless-rpc": "printf 0000 | git upload-pack --stateless-rpc .",
    "git ls-remote --symref": "git ls-remote --symref .",
}
# What a reader writes in place of a word.
WORDS = [
    ("https://HOST/PATH FOLDER", "$WEB/small.git $(mktemp -d)/cloned"), ("http://127.0.0.1:8461", "$WEB"),
    ("git://HOST/PATH", "$DAEMON/small.git copy"), ("REPOSITORY", "$SMALL"), ("REPO ", "$SMALL "), ("PACK", "pack"), ("REV", "HEAD"),
    ("ID..", "main"),
]
# Programs of the gate that a command needs, and its folder if that isn't the top, the crate or the folder of earlier lines.
NEEDS = [
    (r"out/gixp_remote|gixp::", "crates/gixp_remote/out/gixp_remote"), (r"out/gixp_plan", "crates/gixp_plan/out/gixp_plan"),
    (r"out/gixp_fetch_pack", "crates/gixp_fetch_pack/out/gixp_fetch_pack"), (r"cargo|clone\.py|-C cloned", "bindings/build/libgixp.a"),
]
FOLDERS = [("docs/LANGUAGES.md", r"cargo|git .*small\.git", "bindings/rust"), ("", r"git [a-z-]+ [^`]*--", "$SMALL")]


def shown_in(block):
    """The commands of a block of code, each with its offset and the output that the block shows."""
    shows = any(line.startswith("$ ") for line in block)
    for number, line in enumerate(block):
        if line.startswith("$ "):
            end = next((n for n in range(number + 1, len(block)) if block[n].startswith("$ ")), len(block))
            yield number, line[2:], [it.rstrip() for it in block[number + 1:end]]
        elif not shows and (COMMAND.match(line) or STAYS.match(line)):
            yield number, re.sub(r"\s{2,}#.*", "", line), None


def commands_of(document):
    """The commands of a document as (line, command, shown output, earlier lines with variables); in prose those with options."""
    text = (TOP / document).read_text()
    before, lines, fenced, last = [], text.splitlines(), False, ""
    number = 0
    while number < len(lines):
        line = lines[number]
        fenced ^= line.startswith("```")
        if fenced or not re.match(r" {4,}\S", line):
            yield from ((number + 1, found[1], None, []) for found in INLINE.finditer("" if fenced else line))
            last = line or last
            number += 1
            continue
        end = next((n for n in range(number, len(lines)) if lines[n] and not lines[n].startswith("    ")), len(lines))
        indent = len(line) - len(line.lstrip())
        block = [it[indent:] for it in "\n".join(lines[number:end]).rstrip().split("\n")]
        if "rom the top" in last:
            before = []
        for place, command, shown in shown_in(block):
            if STAYS.match(command):
                before = [*before, command]
            else:
                yield number + place + 1, command, shown, before
        number = end


@contextlib.contextmanager
def begun(words, port, **more):
    program = subprocess.Popen([str(word) for word in words], stdout=subprocess.DEVNULL, stderr=subprocess.DEVNULL, **more)
    try:
        wait_for_port(port, program)
        yield port
    finally:
        program.terminate()
        program.wait()


@contextlib.contextmanager
def room_of():
    """Makes a clone with the programs of the gate, a small repository, and servers of it. Yields the clone and the variables for them."""
    with tempfile.TemporaryDirectory(prefix="documents-") as folder, contextlib.ExitStack() as servers:
        room = Path(folder)
        clone, small = room / "clone", room / "small.git"
        (room / "tmp").mkdir()
        subprocess.run(["git", "clone", "-q", TOP, clone], check=True)
        for built in [*TOP.glob("crates/*/out/gixp_*"), *TOP.glob("bindings/build/libgixp.*")]:
            if built.is_file():
                to = clone / built.relative_to(TOP)
                to.parent.mkdir(parents=True, exist_ok=True)
                shutil.copy2(built, to)
        subprocess.run(["git", "init", "-q", "--bare", "-b", "main", small], check=True)
        subprocess.run(["git", "-C", small, "fast-import", "--quiet"], stdin=open(TOP / "examples/small.stream"), check=True)
        web, daemon = free_port(), free_port()
        backend = live_httpd.write_backend(room, room, {})
        servers.enter_context(begun([sys.executable, live_httpd.__file__, "serve", web, backend], web))
        words = ["git", "daemon", f"--base-path={room}", "--export-all", "--listen=127.0.0.1", f"--port={daemon}", "--reuseaddr", room]
        servers.enter_context(begun(words, daemon))
        yield clone, {
            **os.environ, "SMALL": str(small), "WEB": f"http://127.0.0.1:{web}", "DAEMON": f"git://127.0.0.1:{daemon}",
            "GIT_CONFIG_GLOBAL": os.devnull, "TMPDIR": str(room / "tmp"), "GIXP_LIB": str(clone / "bindings/build"),
        }


def run(script, folder, variables):
    """The output of a script and its status (None if it took too long)."""
    program = subprocess.Popen(["bash", "-ec", "set -o pipefail; " + script], cwd=folder, env=variables, stdin=subprocess.DEVNULL,
                               stdout=subprocess.PIPE, stderr=subprocess.STDOUT, start_new_session=True)
    try:
        said, _ = program.communicate(timeout=MOST_SECONDS)
        return said.decode("utf-8", "replace"), program.returncode
    except subprocess.TimeoutExpired:
        os.killpg(program.pid, signal.SIGKILL)
        return program.communicate()[0].decode("utf-8", "replace"), None


def script_of(document, command, before):
    """The script for a command, with its folder in the clone."""
    crate = re.match(r"crates/\w+(?=/README)", document)
    script = command if crate and command == "rt try --test" or before else IN_PLACE.get(command, command)
    for word, other in WORDS:
        script = script.replace(word, other)
    where = next((folder for file, words, folder in FOLDERS if file in document and re.match(words, command)), crate[0] if crate else ".")
    return "; ".join([f'cd "{where}"', *before, script])


def try_document(document, clone, variables, fault):
    """Runs the commands of a document. Returns how many ran and how many were left out."""
    ran = left = 0
    for line, command, shown, before in commands_of(document):
        if command.startswith("scripts/") and not os.access(TOP / command.split()[0], os.X_OK):
            fault(f"{document}:{line}: `{command}` is not executable")
        script = script_of(document, command, before)
        missing = next((path for words, path in NEEDS if re.search(words, script) and not (clone / path).exists()), None)
        if command in LEFT_OUT or missing:
            left += 1
            if missing:
                print(f"{document}:{line}: left out: the gate built no {missing}", flush=True)
            continue
        ran += 1
        said, status = run(script, clone, variables)
        if status is None:
            fault(f"{document}:{line}: `{command}` takes more than {MOST_SECONDS} seconds")
        elif status:
            fault("\n    ".join([f"{document}:{line}: `{command}` ends with {status}:", *said.splitlines()[-9:]]))
        elif shown is not None and [it.rstrip() for it in said.splitlines()] != shown:
            fault("\n    ".join([f"{document}:{line}: `{command}` prints", *said.splitlines()[:9]]))
    return ran, left


def stale(documents, fault):
    """Reports commands that no document has, and commands of the gate that .ci/run doesn't have."""
    known = {command for document in documents for _, command, *_ in commands_of(document)}
    gate = (TOP / ".ci/run").read_text()
    for command in [*LEFT_OUT, *IN_PLACE]:
        if command not in known:
            fault(f"scripts/documents_commands.py: no document has `{command}`")
    for command, reason in LEFT_OUT.items():
        if reason == GATE and command.removeprefix("python3 ").split(" --")[0] not in gate:
            fault(f"scripts/documents_commands.py: .ci/run has no `{command}`")
