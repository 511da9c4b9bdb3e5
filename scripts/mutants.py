#!/usr/bin/env python3
"""Tries mutants, and prints which ones break a proof.

A mutant is a change of the code that breaks a promise. mutants/CRATE has the mutants of a crate, one after the other, with an empty
line between them:

    mutant: NAME
    file: src/x.rt
    old: TEXT
    new: TEXT
    in: MODULE::FUNCTION

Each old text occurs once in its file. A mutant may have several pairs of old and new. The line `in` names the function whose contract
must fail, and is needed only where no function surrounds the old text. The gate (`rt ci`) tries those of crates/CRATE/must-fail/ itself.

Without options all mutants of mutants/ are tried, or those of the crates named. --gate adds those of the gate. --changed REV picks the
mutants of the functions that changed since the commit REV, the mutants that are new or changed since then, and all mutants of the crates
named. A change outside functions, as of a type or a definition, picks none: name the crates.

Each crate is copied with its out/ folder, and checked once without a mutant. Then mutants of different functions are tried together, by
one `rt check --allow-holes` of these functions alone. Each function is proved against the contracts of the others, so an open goal of a
function comes from its own mutant. A mutant that leaves no goal open there is tried alone: first its function, then the whole crate. RT
names another command than `rt`.

The first word of a line is the verdict:

    killed        a goal is open: a contract refuses the mutant
    name          only a proof file names what the mutant removed, which shows nothing
    types         the borrow checker or the types refuse it, or a function isn't covered, which shows nothing
    unreadable    it can't be applied, or the changed text can't be read
    survived      the contracts let it through

The last lines count the verdicts. The status is 1 unless all are killed.
"""
import argparse
import os
import re
import shutil
import subprocess
import sys
import tempfile
from collections import Counter
from concurrent.futures import ThreadPoolExecutor
from contextlib import contextmanager
from dataclasses import dataclass
from pathlib import Path

TOP = Path(__file__).resolve().parent.parent
RT = os.environ.get("RT", "rt")
CAN_NOT_READ = r"is not in scope|is no name|operand is missing|expected the end|cannot continue"
LOST_NAME = re.compile(r"(\./)?proofs/.*(has no field|is not in scope|has no `|was not admitted)")
NO_GOAL = re.compile(r"borrow checker|does not cover|error\[[\w-]+\]|was not admitted|no function `|functions are named")
FUNCTION = re.compile(r"( *)(?:pub(?:\([\w ]+\))? |final |const )*fn (\w+)")
BLOCK = re.compile(r"(?:pub(?:\([\w ]+\))? )?(?:impl|trait)\b(.*)")
PROVED = re.compile(r"fn (\S+): proved")
NOT_PROVED = re.compile(r"fn (\S+): (?:no proof|not proved)")
ANY = r"[\w+]*"
HUNK = re.compile(r"@@ -\S+ \+(\d+)(?:,(\d+))? @@")


class Unreadable(Exception):
    """Why a mutant can't be applied."""


@dataclass
class Mutant:
    name: str
    pairs: list  # each of them a file of the crate, an old text and a new one
    functions: set  # the functions that surround its old texts, None for a text outside functions
    why: str = ""  # it can't be applied


def texts_of(path):
    """The name and the lines of each mutant of a file of mutants/."""
    blocks = [it.partition("\n") for it in path.read_text().strip("\n").split("\n\n")] if path.is_file() else []
    for head, _, lines in blocks:
        word, _, name = head.partition(": ")
        if word != "mutant" or not name:
            sys.exit(f"{path}: a line begins a mutant and isn't `mutant: NAME`: {head}")
        yield name, lines


def read_mutant(text):
    """The pairs of texts of a mutant, and the functions that it names."""
    pairs, named, file, old = [], set(), None, None
    for line in text.split("\n"):
        word, _, rest = line.partition(":")
        rest = rest.removeprefix(" ")
        if word == "file":
            file = rest.strip()
        elif word == "old":
            old = rest
        elif word == "new" and file and old:
            pairs.append((file, old, rest))
            old = None
        elif word == "in" and rest:
            named.add(rest.strip())
        elif line:
            raise Unreadable(f"a line is none of file, old, new and in, or out of place: {line}")
    if not pairs:
        raise Unreadable("it has no pair of texts")
    return pairs, named


def applied(pairs, crate):
    """The texts that pairs make of the files of a crate, and the functions that surround their old texts."""
    texts, functions = {}, set()
    for file, old, new in pairs:
        path = crate / file
        if not path.is_file():
            raise Unreadable(f"there is no file {file}")
        text = texts.get(path) or path.read_text()
        if text.count(old) != 1:
            raise Unreadable(f"an old text occurs {text.count(old)} times in {file}")
        front, _, rest = text.partition(old)
        functions.add(function_around(path, crate, text.split("\n"), front.count("\n")))
        texts[path] = front + new + rest
    return texts, functions


def without_generics(text):
    shorter = re.sub(r"<[^<>]*>", "", text.replace("->", ""))
    return text if shorter == text else without_generics(shorter)


def function_around(path, crate, lines, at):
    """A pattern for the end of the name that `rt check` gives the function that surrounds a line of a file, or None."""
    begin = next((it for it in range(at, -1, -1) if FUNCTION.match(lines[it])), None)
    if begin is None or crate / "src" not in path.parents:
        return None
    margin, function = FUNCTION.match(lines[begin]).groups()
    heads = [it for it in range(begin) if BLOCK.match(lines[it])] if margin else []
    is_behind = any(it.startswith((margin + "}", "}")) for it in lines[begin + 1:at])
    if is_behind or margin and not heads:
        return None
    module = [it for it in path.relative_to(crate / "src").with_suffix("").parts if it not in ("lib", "main")][-1:]
    block = []
    if heads:
        # `Trait<U> for module::Type<V>` is TypeTrait, and may have U and V in it
        head = without_generics(re.split(r"\{| where ", BLOCK.match(" ".join(lines[heads[-1]:begin]))[1])[0])
        named, _, whose = head.partition(" for ")
        words = [re.findall(r"\w+", it)[-1] for it in (whose, named.partition(": ")[0]) if it]
        block = [ANY.join([*words, ""])]
    return "::".join(module + block + [function])


def names_of(patterns, lines):
    """The names of functions, in lines of a check that proved all; None for a function that they don't have."""
    names = [found[1] for found in map(PROVED.match, lines) if found]
    found = set()
    for pattern in patterns - {None}:
        exact = [it for it in names if it.endswith("::" + pattern.replace(ANY, ""))]
        # an `impl` may be outside the module of its type
        block = pattern.partition("::")[2]
        found.update(exact or [it for it in names if re.search(f"::{pattern}$", it)]
                     or [it for it in names if "::" in block and re.search(f"::{block}$", it)] or [None])
    return found | patterns & {None}


def check(crate, functions=(), *options):
    """Whether `rt check` passes, and the lines that it prints."""
    only = [word for it in sorted(functions) for word in ("--only", it)]
    done = subprocess.run([RT, "check", *only, *options], cwd=crate, stdin=subprocess.DEVNULL, stdout=subprocess.PIPE,
                          stderr=subprocess.STDOUT, text=True, errors="replace")
    # a message may continue in indented lines
    return done.returncode == 0, re.sub(r"\n  +", " ", done.stdout).splitlines()


def verdict_of(is_proved, lines):
    """The verdict on a checked crate, and the line that shows it."""
    if is_proved:
        return "survived", ""
    messages = [it for it in lines if re.match(r"(note: )?(\./)?\S+:\d+:\d+: ", it) and "large solution" not in it]
    errors = [it for it in messages if ": error" in it] or messages
    goals = [it for it in errors if not LOST_NAME.match(it) and not NO_GOAL.search(it)]
    unread = [it for it in goals if re.search(CAN_NOT_READ, re.sub(r"`[^`]*`", "", it))]
    if unread:
        return "unreadable", unread[0]
    if goals:
        return "killed", goals[0]
    lost = [it for it in errors if LOST_NAME.match(it)]
    if lost and len(lost) == len(errors):
        return "name", lost[0]
    rest = [it for it in lines if "error" in it]
    return "types", (errors or rest or lines[-1:] or [""])[0]


def open_goals(lines):
    """The functions of which a check left goals of their own open and refused nothing else, each with a line that shows it."""
    found = {}
    for line in filter(NOT_PROVED.match, lines):
        name = NOT_PROVED.match(line)[1]
        of_its_own = re.compile(r"(\./)?proofs/" + "/".join(name.split("::")[1:]) + r"/\w+\.antt:\d+:\d+: error")
        errors = list(filter(of_its_own.match, lines))
        is_plain = not NO_GOAL.search(line) and all(verdict_of(False, [it])[0] == "killed" for it in errors)
        if is_plain and (errors or "did not prove" in line):
            found[name] = (errors or [line])[0]
    return found


@contextmanager
def changed(crate, mutants):
    """A crate with mutants applied, restored at the end."""
    texts, _ = applied([pair for it in mutants for pair in it.pairs], crate)
    kept = {path: path.read_text() for path in texts}
    try:
        for path, text in texts.items():
            path.write_text(text)
        yield
    finally:
        for path, text in kept.items():
            path.write_text(text)


def try_alone(mutant, crate):
    with changed(crate, [mutant]):
        found = verdict_of(*check(crate, mutant.functions)) if None not in mutant.functions else ("", "")
        return found if found[0] == "killed" else verdict_of(*check(crate))


def try_together(mutants, crate):
    """Tries mutants of different functions by one check, and yields each with its verdict."""
    if len(mutants) == 1:
        yield mutants[0], *try_alone(mutants[0], crate)
        return
    with changed(crate, mutants):
        _, lines = check(crate, {name for it in mutants for name in it.functions}, "--allow-holes")
    goals, left = open_goals(lines), []
    for mutant in mutants:
        line = next((goals[it] for it in sorted(mutant.functions) if it in goals), None)
        if line:
            yield mutant, "killed", line
        else:
            left.append(mutant)
    # an unreadable one hides the verdicts on the others
    size = (len(left) + 1) // 2 if left == mutants else 1
    for at in range(0, len(left), size):
        yield from try_together(left[at:at + size], crate)


def can_be_joined(mutants, crate):
    """Whether mutants change different functions, and each finds its old texts next to the others."""
    functions = [name for it in mutants for name in it.functions]
    try:
        applied([pair for it in mutants for pair in it.pairs], crate)
    except Unreadable:
        return False
    return None not in functions and len(functions) == len(set(functions))


def batches_of(mutants, crate):
    batches = []
    for mutant in mutants:
        batch = next((it for it in batches if can_be_joined([*it, mutant], crate)), None)
        if batch:
            batch.append(mutant)
        else:
            batches.append([mutant])
    return batches


def with_those_below(name, crates):
    found = [name] + [part for below in crates[name] if below in crates for part in with_those_below(below, crates)]
    return list(dict.fromkeys(found))


def link(source, target):
    """Links a file that doesn't change, or copies it to another disk."""
    try:
        os.link(source, target)
    except OSError:
        shutil.copy2(source, target)


def copy_with_those_below(name, crates, top):
    """Copies a crate with its out/ folder, and the crates below it with their libraries."""
    parts = with_those_below(name, crates)
    for part in parts:
        crate = TOP / "crates" / part
        is_built = part != name and (crate / "out" / "rlib" / "stamp").is_file()
        shutil.copytree(crate, top / "crates" / part, ignore=shutil.ignore_patterns(*["incremental"] * is_built),
                        copy_function=link if is_built else shutil.copy2)
    shutil.copyfile(TOP / "HANDLES", top / "HANDLES")
    (top / "crates.txt").write_text("".join(f"{it}: {' '.join(crates[it])}\n" for it in parts))
    return top / "crates" / name


def try_crate(name, mutants, crates, room):
    """Tries mutants of a crate on a copy of it, and counts their verdicts."""
    counts = Counter()

    def say(mutant, verdict, line):
        counts[verdict] += 1
        print(f"{verdict:13}{name}/{mutant.name}{': ' + line[:160] if line else ''}", flush=True)

    crate = copy_with_those_below(name, crates, room / name)
    is_proved, lines = check(crate)
    for mutant in mutants:
        mutant.functions = names_of(mutant.functions, lines)
        mutant.why = mutant.why or "" if is_proved else "the crate isn't proved without a mutant"
        if mutant.why:
            say(mutant, "unreadable", mutant.why)
    for batch in batches_of([it for it in mutants if not it.why], crate):
        for found in try_together(batch, crate):
            say(*found)
    shutil.rmtree(room / name)
    return counts


def git(*words):
    done = subprocess.run(["git", *words], cwd=TOP, capture_output=True, text=True)
    if done.returncode:
        sys.exit(done.stderr)
    return done.stdout.splitlines()


def changed_functions(revision, crate):
    """The functions of a crate that have lines which changed since a commit."""
    found = set()
    for line in git("diff", "-U0", "--dst-prefix=b/", revision, "--", crate / "src"):
        if line.startswith("+++ "):
            path = TOP / line.removeprefix("+++ b/")
            lines = path.read_text().split("\n") if path.is_file() else []
        elif HUNK.match(line) and lines:
            first, count = (int(it or 1) for it in HUNK.match(line).groups())
            places = range(max(first - 1, 0), first - 1 + max(count, 1))
            found.update(function_around(path, crate, lines, at) for at in places)
    return found - {None}


def changed_names(revision, name):
    """The mutants of a crate that are new or changed since a commit."""
    path = f"mutants/{name}"
    old = git("show", f"{revision}:{path}") if git("ls-tree", revision, path) else []
    before = {it for it in "\n".join(old).split("\n\n")}
    return {it for it, lines in texts_of(TOP / path) if f"mutant: {it}\n{lines}" not in before}


def mutants_of(name, options):
    """The mutants of a crate that the options pick."""
    crate = TOP / "crates" / name
    texts = [*texts_of(TOP / "mutants" / name)]
    texts += [(it.stem, it.read_text()) for it in sorted((crate / "must-fail").glob("*.edit"))] * options.gate
    found = []
    for mutant, text in texts:
        if options.only not in mutant:
            continue
        try:
            pairs, named = read_mutant(text)
            around = applied(pairs, crate)[1]
            found.append(Mutant(mutant, pairs, around - {None} | named if named else around))
        except Unreadable as why:
            found.append(Mutant(mutant, [], set(), str(why)))
    if name in options.crates:
        return found
    if options.changed:
        functions, names = changed_functions(options.changed, crate), changed_names(options.changed, name)
        return [it for it in found if it.why or it.name in names or it.functions & functions]
    return [] if options.crates else found


def main():
    parser = argparse.ArgumentParser(description=__doc__, formatter_class=argparse.RawDescriptionHelpFormatter)
    parser.add_argument("--gate", action="store_true", help="the gate's own mutants too")
    parser.add_argument("--only", metavar="WORD", default="", help="mutants whose name has WORD")
    parser.add_argument("--changed", metavar="REV", help="mutants of what changed since the commit REV")
    parser.add_argument("--jobs", metavar="N", type=int, default=1, help="N crates side by side")
    parser.add_argument("crates", metavar="CRATE", nargs="*")
    options = parser.parse_args()
    lines = [it.partition(":") for it in (TOP / "crates.txt").read_text().splitlines() if not it.startswith("#")]
    crates = {name.split()[0]: below.split() for name, colon, below in lines if colon}
    if any(it not in crates for it in options.crates):
        parser.error("crates.txt has no such crate")
    picked = {name: mutants_of(name, options) for name in crates}
    counts = Counter()
    with tempfile.TemporaryDirectory(prefix="mutants-") as room, ThreadPoolExecutor(max(1, options.jobs)) as pool:
        tried = [pool.submit(try_crate, name, mutants, crates, Path(room)) for name, mutants in picked.items() if mutants]
        for it in tried:
            counts += it.result()
    for verdict in sorted(counts) or ["killed"]:
        print(f"{counts[verdict]} {verdict}")
    return 1 if sum(counts.values()) != counts["killed"] else 0


if __name__ == "__main__":
    sys.exit(main())
