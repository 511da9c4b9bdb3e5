#!/usr/bin/env python3
"""Checks the documents: commands, links, names of functions and files, and numbers.

Usage: documents.py [--jobs N] [--only commands|links|names|numbers] [DOCUMENT..]

Commands: in README, USING, LANGUAGES, CONTRIBUTING and the READMEs of crates, each command runs in a temporary clone of this checkout, over
the programs that its gate built. If the document shows output, the output must be the same. documents_commands.py lists the commands
that don't run, with reasons. Numbers: in the same documents, counts.py or a table below must count each number. Links: in all documents,
each relative link must lead to a file and a heading, and each path of the repository to a file. Names: each name in backquotes with `::` or
`()` must be an item of a crate, of the reference or of a script.

Prints a line for each fault and for each document, and `N passed, M failed`. The status is 1 if something failed. --jobs sets how many
documents are checked at once.
"""
import argparse
import contextlib
import re
import sys
from concurrent.futures import ThreadPoolExecutor
from fnmatch import fnmatch
from functools import cache
from pathlib import Path

import counts
import documents_commands
from documents_names import OTHERS, Names, names_in, words_in

TOP = Path(__file__).resolve().parent.parent
sys.path.insert(0, str(TOP / "models"))
import definitions

TRIED = ["README.md", "docs/USING.md", "docs/LANGUAGES.md", "CONTRIBUTING.md", "crates/*/README.md"]
ALL = [*TRIED, "CHANGELOG.md", "docs/*.md", "docs/reference/*.md", "models/README.md", "bench/README.md"]
GENERATED = "PUBLIC.md", "CLAIMS.md"
LINK = re.compile(r"\[[^\]\n]*\]\(([^)\s]+)\)")
FILE = re.compile(r"`((?:\.ci|bench|bindings|crates|docs|examples|include|models|mutants|scripts)/[\w./-]*\w)[^`\n]*`")
NUMBER = re.compile(r"(?<![\w.,/-])([0-9]+(?:[.,][0-9]+)*)(?![\w-])")
# Numbers that name something: versions, bands, statuses, files, digits, formulas.
NAMED = re.compile(r"(?i)versions? [0-9]+(?:(?:,| and| or| to) [0-9]+)*|bands? [0-9](?: and [0-9])?|status(?:es)?(?: is| isn't)? [0-9]+"
                   r"|files? [0-9]+(?: (?:and|to) [0-9]+)*|offsets [0-9]+ to [0-9]+|places [0-9]+ to [0-9]+|Python [0-9]|SHA-[0-9]+|n / 16 \+ 1|from 1 on")


def lines_of(file):
    return lambda: len((TOP / file).read_text().splitlines())


def of(file, said):
    """The number in a file that is at the `#` of these words."""
    def number():
        return re.search(re.escape(said).replace(r"\#", NUMBER.pattern), (TOP / file).read_text())[1]
    return number


def rounds_to(haves):
    """After how many rounds of versions 0 and 1 a window has about this many haves."""
    windows = [definitions.window_size(False, None)]
    while windows[-1] < haves - 16:
        windows.append(definitions.window_size(False, windows[-1]))
    return len(windows) - 1


UPSTREAM, GIT = of("docs/DIFFERENCES.md", "Rust crate `gix-protocol` #"), of("scripts/git_tests.py", 'VERSION = "#"')
# The right value of the number at the `#` of these words of a document.
COUNTED = [
    ("README.md", "a listing in # of git's time", of("bench/README.md", "`git ls-remote` on the same bytes | # of its time")),
    ("README.md", "and # of a plain C program's", of("bench/README.md", "(`refs.c`) | # of its time")),
    ("README.md", "a clone of # MiB in", of("bench/README.md", "a clone of # MiB from a server")),
    ("README.md", "MiB in # of git's", of("bench/README.md", "over `file://` | # of its time (3.6 s")),
    ("README.md", "`gix-protocol` #", UPSTREAM),
    ("CONTRIBUTING.md", "`gix-protocol` #", UPSTREAM),
    ("CONTRIBUTING.md", "the source of git #", GIT),
    ("CONTRIBUTING.md", "at most # processes", of("scripts/git_tests.py", '"--processes", type=int, default=#')),
    ("docs/USING.md", "after # rounds", lambda: rounds_to(2500)),
    ("docs/USING.md", "`client::Windowed` does with #", of("crates/gixp_client/src/windows.rt", "MOST_HAVES: usize = #")),
    ("docs/USING.md", "of # bytes each", lambda: len("0000ACK  common\n") + 40),
    ("docs/LANGUAGES.md", "It has # lines", lines_of("bindings/python/clone.py")),
    ("docs/LANGUAGES.md", "(`ls_remote.rs`, # lines)", lines_of("bindings/rust/examples/ls_remote.rs")),
    ("docs/LANGUAGES.md", "(`fetch.rs`, # lines)", lines_of("bindings/rust/examples/fetch.rs")),
    ("docs/LANGUAGES.md", "its pack the number is #", of("crates/gixp_calls/src/texts.rt", '# => "the negotiation ended without a pack"')),
    ("docs/LANGUAGES.md", "rounds over # refs", of("bench/README.md", "a session of # refs and")),
    ("docs/LANGUAGES.md", "refs and # haves", of("bench/README.md", "refs and # haves, ten rounds")),
    ("docs/LANGUAGES.md", "`gixp.refs` over # refs", of("bench/README.md", "# refs from Python")),
    ("crates/gixp_packetline/README.md", "one buffer of # bytes", of("crates/gixp_packetline/src/packet.rt", "MAX_FRAME: usize = #")),
    ("crates/gixp_planner/README.md", "# mappings at a time", of("crates/gixp_planner/src/printed.rt", "PART: usize = #")),
    ("crates/gixp_requests/README.md", "an id from # bytes",
     of("crates/gixp_requests/src/fetch/arguments/line.rt", "let mut line = [0; #]")),
    ("crates/gixp_replay/README.md", "`x\\*65516;` is # times `x`", lambda: 65516),
    ("crates/gixp_test_fetch/README.md", "what git # does", GIT),
]
# Why the numbers in these words aren't counted.
UNCOUNTED = [
    ("README.md", "some # to # ms more", "what bench measures, rounded"),
    ("docs/USING.md", "A check of # lines takes", "an estimate"),
    ("docs/USING.md", "some # common ones", "how many answers two pipes hold, rounded"),
    ("docs/LANGUAGES.md", "takes # of the time of a plain parser", "what bench measures, rounded"),
    ("docs/LANGUAGES.md", "takes # to # of the time", "what bench measures, rounded"),
    ("docs/LANGUAGES.md", "over # refs with a plain parser", "what bench.js measures"),
    ("docs/LANGUAGES.md", "It takes # to # of its time in Node #", "what bench.js measures, rounded"),
    ("docs/LANGUAGES.md", "The module has # KB", "what build_web_module.py prints, rounded"),
    ("docs/LANGUAGES.md", "has a memory of # bits", "a condition"),
    ("docs/LANGUAGES.md", "and Node # has them", "a condition"),
    ("CONTRIBUTING.md", "at most # columns", "a rule"),
    ("CONTRIBUTING.md", "and # if possible", "a rule"),
    ("crates/gixp_hash/README.md", "# digits of either case", "git's ids"),
    ("crates/gixp_remote/README.md", "needs bash # or later", "a condition"),
    ("crates/gixp_remote/README.md", "a number on a line: # if", "a status"),
    ("crates/gixp_remote/README.md", "or with # if no such program", "a status"),
    ("crates/gixp_remote/README.md", "| #, # | the server", "files"),
    ("crates/gixp_remote/README.md", "| # | git or another program", "a file"),
    ("crates/gixp_remote/README.md", "| #, # | git that lists", "files"),
    ("crates/gixp_remote/README.md", "| #, # | git that indexes", "files"),
    ("crates/gixp_remote/README.md", "| # | the watcher", "a file"),
    ("crates/gixp_remote/README.md", "The first # bytes of a pack", "the format of packs"),
    ("crates/gixp_replay/README.md", "more than # equal ones", "how models/values.py shows bytes"),
]


def plain(text):
    """The text with blanks in place of code, of link targets, and of the numbers of lists."""
    def blank(found):
        return re.sub(r"[^\n]", " ", found[0])
    for pattern in (r"(?ms)^```.*?^```", r"(?m)^ {4,}\S.*$", r"`[^`\n]*`", r"(?<=\])\([^)\s]*\)", r"(?m)^[0-9]+\. "):
        text = re.sub(pattern, blank, text)
    return text


def literal(said):
    return re.escape(said).replace(r"\#", NUMBER.pattern)


def check_numbers(document, text, fault):
    """Checks each number of a document against its table. Returns how many were counted."""
    spans = []
    for file, said, number in COUNTED:
        for found in re.finditer(literal(said), text) if file == document else ():
            spans.append(found.span())
            right = str(number())
            if found[1].replace(",", "") != right.replace(",", ""):
                fault(found.start(), f"{found[1]} in `{found[0]}` must be {right}")
    counted = len(spans)
    for file, said, _ in UNCOUNTED:
        spans += [found.span() for found in re.finditer(literal(said), text) if file == document]
    for file, said, *_ in (*COUNTED, *UNCOUNTED):
        if file == document and not re.search(literal(said), text):
            fault(0, f"no sentence has `{said}`")
    spans += [found.span() for found in NAMED.finditer(plain(text))]
    known, wholes, wrong = counts_of()
    for file, start, end, right in wrong:
        if file == document:
            fault(start, f"{text[start:end]} must be {right}" if end else right)
    counted += sum(file == document for file, _ in known)
    for found in NUMBER.finditer(plain(text)):
        if any(re.match(rf" {whole}\b", text[found.end():]) for whole in wholes):
            counted += 1
        elif (document, found.start()) not in known and not any(start <= found.start() < end for start, end in spans):
            fault(found.start(), f"no script counts {found[0]}: `{text[found.start() - 20:found.end() + 20]!r}`")
    return counted


@cache
def counts_of():
    """The offsets of the numbers that counts.py has a sentence for, the words before which it counts any number, and the wrong numbers."""
    texts, wrong = {str(path.relative_to(TOP)): path.read_text() for pattern in counts.DOCUMENTS for path in sorted(TOP.glob(pattern))}, []
    known = counts.check_sentences(texts, wrong)
    counts.check_wholes(texts, known, wrong)
    return known, list(counts.wholes()), wrong


def heading(line):
    """The anchor of a heading."""
    return re.sub(r"[^\w\- ]", "", re.sub(r"\[([^\]]*)\]\([^)]*\)", r"\1", line).lower()).replace(" ", "-")


def check_links(document, text, fault):
    found = list(LINK.finditer(re.sub(r"(?ms)^```.*?^```", lambda it: re.sub(r"[^\n]", " ", it[0]), text)))
    for link in found:
        to, _, name = link[1].partition("#")
        path = (TOP / document).parent / to if to else TOP / document
        if "://" in link[1]:
            continue
        if not path.exists():
            fault(link.start(), f"there is no {link[1]}")
        elif name and name not in map(heading, re.findall(r"(?m)^#+ (.*)$", path.read_text())):
            fault(link.start(), f"there is no heading {link[1]}")
    for file in FILE.finditer(text):
        is_made = re.search(r"/out/|/build/|/[A-Z]+/", file[1] + "/")
        if not (is_made or (TOP / file[1]).exists() or (TOP / f"{file[1]}.antt").exists()):
            fault(file.start(), f"there is no {file[1]}")
    return len(found)


def check_names(text, names, fault):
    found = list(names_in(text))
    for place, name in found:
        if name in OTHERS:
            names.others.add(name)
        elif not names.is_known(name):
            fault(place, f"there is no {name}")
    for place, word in words_in(text):
        if word in OTHERS:
            names.others.add(word)
        elif word not in names.words:
            fault(place, f"no file has the word {word}")
    return len(found)


def check(document, what, names, room, fault):
    """Checks a document. Returns how many checks of each kind it made."""
    text, did = (TOP / document).read_text(), {}
    at = lambda place, said: fault(f"{document}:{counts.line_at(text, place)}: {said}")
    if "links" in what:
        did["links"] = check_links(document, text, at)
    if "names" in what:
        did["names"] = check_names(text, names, at)
    if any(fnmatch(document, pattern) for pattern in TRIED):
        if "numbers" in what:
            did["numbers"] = check_numbers(document, text, at)
        if room:
            did["commands"], did["left out"] = documents_commands.try_document(document, *room, fault)
    return did


def main():
    parser = argparse.ArgumentParser(description=__doc__.splitlines()[0])
    parser.add_argument("--jobs", type=int, default=1)
    parser.add_argument("--only", choices=["commands", "links", "names", "numbers"])
    parser.add_argument("documents", nargs="*")
    given = parser.parse_args()
    every = [str(path.relative_to(TOP)) for pattern in ALL for path in sorted(TOP.glob(pattern)) if path.name not in GENERATED]
    what = [given.only] if given.only else ["commands", "links", "names", "numbers"]
    faults, passed, names = [], 0, Names()

    def fault(said):
        faults.append(said)
        print(said, flush=True)

    with contextlib.ExitStack() as begun, ThreadPoolExecutor(given.jobs) as pool:
        room = begun.enter_context(documents_commands.room_of()) if "commands" in what else None
        chosen = given.documents or list(dict.fromkeys(every))
        for document, did in zip(chosen, pool.map(lambda it: check(it, what, names, room, fault), chosen)):
            print(f"{document}: " + ", ".join(f"{count} {kind}" for kind, count in did.items()), flush=True)
            passed += sum(did.values()) - did.get("left out", 0)
    if not given.documents:
        documents_commands.stale([it for it in every if any(fnmatch(it, pattern) for pattern in TRIED)], fault)
        for name in OTHERS if "names" in what else ():
            if name not in names.others:
                fault(f"scripts/documents_names.py: no document has {name}")
    print(f"{passed - len(faults)} passed, {len(faults)} failed")
    return bool(faults)


if __name__ == "__main__":
    sys.exit(main())
