#!/usr/bin/env python3
"""Fails if two things share a name.

Usage: names.py [--all]

Prints, with their files:

- a capitalised name that two files of crates/*/specs/ define;
- a public type (struct, enum, trait or type) that two crates define. A `type` that renames a type of the same name is a re-export;
- a file name that two folders of one crate's src/ have. Crates of tests are left out: their folders are named for the crates under test;
- a script name that two of scripts/, models/ and bench/ have.

SAME_DEFINITION, SAME_TYPE and SAME_FILE list the exceptions with their reasons. An exception that isn't needed is printed too. The status is 1 if anything
is printed. Definitions of two crates that say the same under different names are counted. --all lists them, and then they count as a
failure.
"""
import argparse
import re
import sys
from collections import defaultdict
from pathlib import Path

TOP = Path(__file__).resolve().parent.parent
CRATES = TOP / "crates"
# the first line of a definition; one with a capital letter at any depth, since a field or a constructor may have one too
HEAD = re.compile(r"(?:(?:abbrev|unfoldable) )*(?:pub )?(?:(?:data|record|abbrev) )?([^\W\d_][\w\-']*)\s*(?=[:({]|$)")
CAPITALISED = re.compile(r"\s*(?:(?:abbrev|unfoldable) )*pub (?:(?:data|record|abbrev) )?([A-Z][\w\-']*)\s*(?=[:({]|$)")
NO_DEFINITION = ("--", "use ", "pub use ", "pub mod ")
TYPE = re.compile(r"(?m)^pub (struct|enum|trait|type) (\w+)([^;{]*)")
TESTS = re.compile(r"(?ms)^#\[cfg\(test\)\]\nmod tests \{.*?^\}\n")
# definitions that several crates may have
SAME_DEFINITION = {}
# public types that several crates may define
SAME_TYPE = {
    "Error": "each is the error of its module, as in gitoxide",
    "Action": "gix-credentials and gix-protocol (`fetch::negotiate`) have one each",
    "Context": "gix-protocol has two: `fetch::Context` and `fetch::refmap::init::Context`",
    "Mapping": "gix-refspec (`match_group`) and gix-protocol (`fetch::refmap`) have one each",
    "Options": "gix-protocol (`fetch`) and gix (`refs::update`) have one each",
    "Outcome": "gix-credentials, gix-refspec (`match_group`) and gix-protocol (`fetch`) have one each",
    "Place": "gix_protocol has no path to either",
    "State": "gix-protocol (`fetch::negotiate::one_round`) has one; a session's is `client::State`",
}
# files that may share a name in one crate
SAME_FILE = {
    ("gix_protocol", "client"): "the paths `client` and `transport::client` are the Rust crate's",
}


def definitions(path):
    """The top-level definitions of a file: names, and their texts without comments."""
    name, lines = None, []
    for line in [*path.read_text().splitlines(), ""]:
        found = None if line.startswith(NO_DEFINITION) else HEAD.match(line)
        ends = not line.strip() or line.startswith(NO_DEFINITION) or (found and found[1] != name)
        if name and ends:
            yield name, "\n".join(lines)
            name, lines = None, []
        if found and not name:
            name = found[1]
        if name:
            lines.append(line)


def without_name(name, text):
    """The text of a definition without its name and its layout."""
    return " ".join(re.sub(rf"(?<![\w'\-]){re.escape(name)}(?![\w'\-])", "_", text).split())


def shared(places):
    return {name: sorted(files) for name, files in sorted(places.items()) if len(files) > 1}


def shared_definitions(paths):
    places = defaultdict(set)
    for path in paths:
        for line in path.read_text().splitlines():
            if found := CAPITALISED.match(line):
                places[found[1]].add(str(path.relative_to(TOP)))
    return shared(places)


def public_types():
    """The crates that define a public type, and the files: for each name of a type."""
    places = defaultdict(dict)
    for path in sorted(CRATES.glob("*/src/**/*.rt")):
        for kind, name, rest in TYPE.findall(TESTS.sub("", path.read_text())):
            if not (kind == "type" and re.search(rf"(?:= *|::){name}\b", rest)):
                places[name].setdefault(path.relative_to(CRATES).parts[0], str(path.relative_to(TOP)))
    return places


def shared_types():
    return {name: sorted(crates.values()) for name, crates in sorted(public_types().items()) if len(crates) > 1}


def shared_files():
    """The file names that two folders of one crate have, by crate and name."""
    places = defaultdict(set)
    for path in CRATES.glob("*/src/**/*.rt"):
        crate = path.relative_to(CRATES).parts[0]
        if not crate.startswith("gixp_test_"):
            places[crate, path.stem].add(str(path.relative_to(TOP)))
    return shared(places)


def shared_scripts():
    places = defaultdict(set)
    for folder in ("scripts", "models", "bench"):
        for path in (TOP / folder).glob("*.py"):
            places[path.stem].add(str(path.relative_to(TOP)))
    return shared(places)


def unless_allowed(found, allowed):
    """The names that no exception allows, and a line for each exception without a name."""
    yield from ((name, files) for name, files in found.items() if name not in allowed)
    yield from ((name, ["an exception of names.py that isn't needed"]) for name in allowed if name not in found)


def alike(paths):
    """Definitions of two crates that say the same: for each, its names and files."""
    places = defaultdict(list)
    for path in paths:
        for name, text in definitions(path):
            places[without_name(name, text)].append((name, str(path.relative_to(CRATES))))
    return sorted(found for found in places.values() if len({file.split("/")[0] for _, file in found}) > 1)


def main():
    parser = argparse.ArgumentParser(description=__doc__, formatter_class=argparse.RawDescriptionHelpFormatter)
    parser.add_argument("--all", action="store_true", help="list definitions of two crates that say the same, too")
    given = parser.parse_args()
    paths = sorted(CRATES.glob("*/specs/**/*.antt"))
    found = [
        *unless_allowed(shared_definitions(paths), SAME_DEFINITION),
        *((f"type {name}", files) for name, files in unless_allowed(shared_types(), SAME_TYPE)),
        *((f"file {key[1]} of {key[0]}", files) for key, files in unless_allowed(shared_files(), SAME_FILE)),
        *((f"script {name}", files) for name, files in shared_scripts().items()),
    ]
    for name, files in found:
        print(f"{name}: {', '.join(files)}")
    same = alike(paths)
    for places in same if given.all else ():
        print("; ".join(f"{name} of {file}" for name, file in places))
    if same:
        print(f"{len(same)} definitions say the same in two crates" + ("" if given.all else "; --all lists them"))
    return 1 if found or (same and given.all) else 0


if __name__ == "__main__":
    sys.exit(main())
