#!/usr/bin/env python3
"""Counts what the documents count: test vectors, tests, crates, mutants, public functions, worked rows, variants of enums.

Usage: counts.py [--write]

Prints each wrong number with its file and line, and each sentence that isn't in its document any more. `sentences` lists the sentences
with numbers of their own. Anywhere else a number before `rows`, `test vectors`, `tests`, `crates`, `mutants`, `mutants of the gate`,
`public functions` or `methods of public traits` must be the number of the whole repository, except in a line that names a commit. The
public names and the definitions that the README of a crate lists must exist. The status is 1 if something is wrong. --write corrects
the numbers in the documents.
"""
import re
import subprocess
import sys
from functools import cache
from pathlib import Path

TOP = Path(__file__).resolve().parent.parent
CRATES = TOP / "crates"
DATA = CRATES / "gixp_replay" / "data"
sys.path.insert(0, str(TOP / "models"))
import reference
import vectors as models_vectors

NUMBER = r"([0-9][0-9,]*)"
WORDS = "no one two three four five six seven eight nine ten eleven twelve".split()
WORD = rf"({'|'.join(WORDS)})"
TESTED, ARCHITECTURE = "docs/reference/TESTED.md", "docs/ARCHITECTURE.md"
DOCUMENTS = ["README.md", "CONTRIBUTING.md", "docs/*.md", TESTED, "models/README.md", "crates/*/README.md", "examples/**/*.md"]
TEST_MODULES = {
    "gixp_test_lower": ["streams", "response_end", "packfile_uris", "plain_responses", "plain_requests", "fetch", "graph", "negotiators", "memory", "refspecs"],
    "gixp_test_fetch": ["handshakes", "negotiations", "fetches", "updates"],
    "gixp_test_client": ["planner"],
}


@cache
def crates():
    """The crates that crates.txt lists, each with what it depends on."""
    lines = [line.partition(":") for line in (TOP / "crates.txt").read_text().splitlines() if line and not line.startswith("#")]
    return {name.split()[0]: rest.split() for name, _, rest in lines}


def repository_uses(crate):
    return [it for it in crates()[crate] if it in crates()]


@cache
def below(crate):
    """The crates of the repository that a crate depends on, with all that these depend on."""
    return set(repository_uses(crate)).union(*map(below, repository_uses(crate)))


def sources(crate):
    return sorted((CRATES / crate / "src").rglob("*.rt"))


def tests(crate, module=None):
    """The tests of a crate, or of one of its modules."""
    count = 0
    for path in sources(crate):
        place = path.relative_to(CRATES / crate / "src").with_suffix("").parts
        if module in (None, place[0]):
            count += len(re.findall(r"(?m)^\s*#\[test\]", path.read_text()))
    return count


def public_functions():
    """What can be named from outside its crate, of gix_protocol and of the crates that it re-exports: functions with the methods of
    types, and the methods of traits."""
    items = {where for crate in ["gix_protocol", *repository_uses("gix_protocol")] for where in reference.public_items(crate)}
    firsts = {where: next(iter(reference.described(*where))) for where in items}
    aliases = {where for where, first in firsts.items() if first.startswith("pub type ")}
    aliased = {reference.behind_alias(*where[:2], firsts[where]) for where in aliases} - {None}
    lines = [line for where in items - aliases | aliased for line in reference.described(*where)]
    return sum(bool(re.match(r" *pub (?:const )?fn ", line)) for line in lines), sum(
        bool(re.match(r" *(?:final )?fn ", line)) for line in lines)


def mutants():
    """How many mutants mutants/ and must-fail/ have."""
    others = sum(line.startswith("mutant: ") for path in (TOP / "mutants").iterdir() for line in path.read_text().splitlines())
    return others, len(list(CRATES.glob("*/must-fail/*.edit")))


def read_rows():
    """The rows of each file that `args` names, as (name, mode)."""
    files = (CRATES / "gixp_replay" / "args").read_text().split()
    return {name: [(row.name, row.mode) for row in models_vectors.read(DATA / name)[0]] for name in files}


def worked_rows():
    said = subprocess.run([sys.executable, TOP / "models" / "definitions.py"], capture_output=True, text=True).stdout
    return int(re.search(r"([0-9]+) worked examples", said)[1])


def variants(path, name):
    """The variants of an enum."""
    text = re.search(rf"(?ms)^pub enum {name} \{{\n(.*?)^\}}", (CRATES / path).read_text())[1]
    return len(re.findall(r"(?m)^    [A-Z]\w*", text))


def in_words(number):
    return WORDS[number] if number < len(WORDS) else f"{number:,}"


def rows_of_table(text, first):
    """How many rows the table has that begins with this head."""
    lines = text.partition(f"\n{first}\n")[2].partition("\n\n")[0].splitlines()
    return len(lines) - 1


def sentences():
    """The file of each sentence, a pattern of it with its numbers, and what they are to be."""
    rows = read_rows()
    modes = [mode for _, mode in rows["refspecs"]]
    peers = [name.partition("_")[0] for name, _ in rows["peers"]]
    names = [mode for _, mode in rows["names"]]
    yield TESTED, rf"`crates/gixp_replay/data` has {NUMBER} test vectors", [sum(map(len, rows.values()))]
    for name, found in rows.items():
        yield TESTED, rf"(?m)^\| `{name}` \| {NUMBER} \|", [len(found)]
    yield TESTED, rf"{NUMBER} texts with their value or error; {NUMBER} names with what .*? of them; {NUMBER} lists of refspecs", [
        modes.count("refspec"), modes.count("ref-name"), modes.count("prefixes") + modes.count("matches")]
    yield TESTED, rf"`gogit_..`, {NUMBER} .*? `dulwich_..`, {NUMBER} .*? `git_..`, {NUMBER} ", [
        peers.count("gogit"), peers.count("dulwich"), peers.count("git")]
    yield TESTED, rf"{NUMBER} names \(`git_name`\) and {NUMBER} refspecs", [names.count("ref-name"), names.count("refspec")]
    for crate in crates():
        if tests(crate):
            parts = TEST_MODULES.get(crate, [])
            found = "".join(rf"[^|\n]*?\({NUMBER}\)" for _ in parts)
            yield TESTED, rf"(?m)^\| `{crate}` \| {NUMBER} \|{found}", [tests(crate), *(tests(crate, part) for part in parts)]
    yield "docs/DIFFERENCES.md", rf"one `read::Error` with {WORD} variants", [in_words(variants("gixp_packetline/src/read.rt", "Error"))]
    parts = rows_of_table((TOP / "docs/SESSION.md").read_text(), "| part of the sentence | clause of `headline` |")
    yield "docs/SESSION.md", rf"in each of the {WORD} parts", [in_words(parts)]
    yield "models/README.md", rf"it checks {NUMBER} worked examples", [worked_rows()]


def wholes():
    """What a number in front of these words is to be, anywhere."""
    rows = sum(map(len, read_rows().values()))
    others, of_the_gate = mutants()
    functions, methods = public_functions()
    return {
        "rows": rows,
        "test vectors": rows,
        "tests": sum(tests(crate) for crate in crates()),
        "crates": len(crates()),
        "mutants of the gate": of_the_gate,
        "mutants": others + of_the_gate,
        "public functions": functions,
        "methods of public traits": methods,
    }


def line_at(text, place):
    return text.count("\n", 0, place) + 1


def check_sentences(texts, wrong):
    """Adds what is wrong of the sentences, as (file, place, end, right number or what is missing); returns where their numbers are."""
    known = set()
    for file, pattern, numbers in sentences():
        found = list(re.finditer(pattern, texts[file]))
        if len(found) != 1:
            wrong.append((file, 0, 0, f"{len(found)} sentences like {pattern}"))
            continue
        for group, number in enumerate(numbers, 1):
            start, end = found[0].span(group)
            known.add((file, start))
            right = number if isinstance(number, str) else f"{number:,}"
            if found[0][group] != right:
                wrong.append((file, start, end, right))
    return known


def check_wholes(texts, known, wrong):
    counts = wholes()
    pattern = re.compile(r"(?<![\w.,/-])" + NUMBER + r" (" + "|".join(sorted(counts, key=len, reverse=True)) + r")\b")
    for file, text in texts.items():
        for found in pattern.finditer(text):
            line = text[text.rfind("\n", 0, found.start()) + 1:text.find("\n", found.end())]
            if (file, found.start()) in known or re.search(r"`[0-9a-f]{8,40}`", line):
                continue
            if found[1] != f"{counts[found[2]]:,}":
                wrong.append((file, *found.span(1), f"{counts[found[2]]:,}"))


def check_lists(texts, wrong):
    """Each crate is in the table of crates, follows in crates.txt what it depends on, and has no more mutants in must-fail/ than it may."""
    table = texts[ARCHITECTURE].partition("\n## Crates\n")[2].partition("\n## ")[0]
    firsts = {name for line in table.splitlines() if line.startswith("| `") for name in re.findall(r"`(\w+)`", line.split("|")[1])}
    place_of_crates = texts[ARCHITECTURE].find("\n## Crates\n") + 1
    for name in sorted(crates().keys() ^ firsts):
        wrong.append((ARCHITECTURE, place_of_crates, 0, f"the crate {name} is in one of table and crates.txt"))
    order = list(crates())
    for crate in order:
        if any(order.index(it) > order.index(crate) for it in repository_uses(crate)):
            wrong.append((ARCHITECTURE, place_of_crates, 0, f"{crate} comes before what it depends on in crates.txt"))
        if len(list((CRATES / crate / "must-fail").glob("*.edit"))) > 4:
            text = texts["CONTRIBUTING.md"]
            wrong.append(("CONTRIBUTING.md", text.find("at most four a crate"), 0, f"{crate} has more than four mutants in must-fail/"))


@cache
def names_of(crate):
    """The names that the sources of a crate give or re-export."""
    code = "\n".join(re.sub(r"(?m)^\s*//.*$", "", path.read_text()) for path in sources(crate))
    used = " ".join(re.findall(r"pub use ([^;]*);", code))
    return set(re.findall(r"\b(?:fn|struct|enum|trait|type|const|mod) (\w+)", code)).union(re.findall(r"\w+", used))


def lists(text):
    """The lists of names in a README, as (place, text, whether they are definitions): items of a list, and columns of tables."""
    for begin, is_definition in (("**Public:**", False), ("**Definitions** in `specs/`:", True)):
        for item in re.finditer(rf"(?m)^- {re.escape(begin)}(.*(?:\n  .*)*)", text):
            yield item.start(), item[1], is_definition
    for table in re.finditer(r"(?m)^\|.*\|\n\|[-|]+\|\n(?:\|.*\|\n?)+", text):
        head, _, *rows = [[cell.strip() for cell in line.split("|")] for line in table[0].splitlines()]
        for title, is_definition in (("public", False), ("definitions in `specs/`", True)):
            if title in head:
                yield table.start(), " ".join(row[head.index(title)] for row in rows), is_definition


def check_names(texts, wrong):
    """The public names that a README has are in its crate or those below it, and the definitions in its `specs/`."""
    for crate in crates():
        file = f"crates/{crate}/README.md"
        names = {"Read"}.union(*(names_of(it) for it in {crate} | below(crate)))
        specs = {path.stem for path in (CRATES / crate / "specs").glob("*.antt")}
        for place, listed, is_definition in lists(texts.get(file, "")):
            word = r"[A-Z]\w*" if is_definition else r"\w*[^\W_]\b"
            found = {name for code in re.findall(r"`([^`]+)`", listed) for name in re.findall(rf"\b{word}", code)}
            wrong.extend((file, place, 0, f"there is no {name}") for name in sorted(found - (specs if is_definition else names)))


def write(texts, wrong):
    for file in texts:
        text = texts[file]
        for _, start, end, right in sorted((it for it in wrong if it[0] == file and it[2]), reverse=True):
            text = text[:start] + right + text[end:]
        if text != texts[file]:
            (TOP / file).write_text(text)


def main():
    paths = [path for pattern in DOCUMENTS for path in sorted(TOP.glob(pattern))]
    texts = {str(path.relative_to(TOP)): path.read_text() for path in paths}
    wrong = []
    known = check_sentences(texts, wrong)
    check_wholes(texts, known, wrong)
    check_lists(texts, wrong)
    check_names(texts, wrong)
    for file, start, end, right in sorted(wrong):
        said = f"{texts[file][start:end]}, and it is {right}" if end else right
        print(f"{file}:{line_at(texts[file], start)}: {said}")
    if sys.argv[1:] == ["--write"]:
        write(texts, wrong)
    return 1 if wrong else 0


if __name__ == "__main__":
    sys.exit(main())
