#!/usr/bin/env python3
"""Compares the functions without a contract, in the libraries that a program depends on, with the list in docs/reference/TESTED.md.

Usage: without_contract.py [--all | --write]

A function has no contract where no `ensures` is between its head and its body. Functions of an impl of a trait have the contract of
the trait, and are left out; so are `main`, tests and doubles. TESTED lists the others in the tables of `## Functions without a
contract`: under the name of their crate, in the row of their file. Prints each function that isn't listed there, and each listed one that
is gone or has a contract. The status is 1 where there is any. `--all` prints all functions without a contract. `--write` corrects the
names in the rows of TESTED, and adds a row for a file that has none; what its functions do and what tests them is to be added by hand.
"""
import re
import sys
from pathlib import Path

TOP = Path(__file__).resolve().parent.parent
CRATES = TOP / "crates"
PAGE = TOP / "docs" / "reference" / "TESTED.md"
PROGRAMS = "gixp_plan", "gixp_fetch_pack", "gixp_remote"
FUNCTION = re.compile(r"( *)(?:pub(?:\([\w ]+\))? |final |const )*fn (\w+)")
END = re.compile(r"^(?! *ensures\b).*\{$|\{\}$|;$")
TRAIT_IMPL = re.compile(r"(?ms)^impl\b[^{;]*?\bfor\b.*?^\}")
SECTION = "\n## Functions without a contract\n"
TABLE_HEAD = "| file | functions | what they do | tested by |\n|---|---|---|---|\n"
UNKNOWN = "TO BE ADDED"


def libraries():
    """The crates below the programs."""
    lines = (line.partition(":") for line in (TOP / "crates.txt").read_text().splitlines() if not line.startswith("#"))
    below = {name: rest.split() for name, _, rest in lines}
    found, left = set(), [*PROGRAMS]
    while left:
        for name in below[left.pop()]:
            if name in below and name not in found:
                found.add(name)
                left.append(name)
    return sorted(found)


def heads(text):
    """The name of each function, its line, and the text between its name and its body."""
    lines = text.split("\n")
    for at, line in enumerate(lines):
        if found := FUNCTION.match(line):
            ends = (it for it in range(at, len(lines)) if END.search(lines[it]))
            yield found[2], at + 1, "\n".join(lines[at:next(ends, at) + 1])


def without_trait_impls(text):
    return TRAIT_IMPL.sub(lambda found: "\n" * found[0].count("\n"), text)


def functions():
    """The functions without a contract: for each crate and name of a file their names, each with its place."""
    found = {}
    for crate in libraries():
        for path in sorted((CRATES / crate / "src").rglob("*.rt")):
            for name, line, head in heads(without_trait_impls(path.read_text())):
                if "ensures" not in head:
                    found.setdefault((crate, path.stem), {}).setdefault(name, f"{path.relative_to(TOP)}:{line}")
    return found


def rows(page):
    """The rows of the section: the crate and the file of each, with its line and the names in it."""
    before, _, rest = page.partition(SECTION)
    crate = None
    for number, line in enumerate(rest.split("\n"), before.count("\n") + 3):
        if line.startswith("## "):
            return
        if heading := re.match(r"### (\w+)$", line):
            crate = heading[1]
        elif crate and (row := re.match(r"\| (\w+) \| (`[^|]*`) \| (.*) \|$", line)):
            yield (crate, row[1]), number, re.findall(r"`(\w+)`", row[2]), row[3]


def corrected(page, found):
    """The page with the names of each row corrected, and a row for each file that has none."""
    lines, listed = page.split("\n"), set()
    for key, number, _, rest in rows(page):
        listed.add(key)
        names = ", ".join(f"`{name}`" for name in found.get(key, ()))
        lines[number - 1] = f"| {key[1]} | {names} | {rest} |" if names else None
    page = "\n".join(line for line in lines if line is not None)
    for crate, file in sorted(found.keys() - listed):
        row = f"| {file} | " + ", ".join(f"`{name}`" for name in found[crate, file]) + f" | {UNKNOWN} | {UNKNOWN} |\n"
        section = re.search(rf"\n### {crate}\n(?:(?!\n#).)*?\|---\|---\|---\|---\|\n", page, re.S)
        end = re.compile(r"\n## |\Z").search(page, page.index(SECTION) + len(SECTION)).start() + 1
        at = section.end() if section else end
        page = page[:at] + (row if section else f"### {crate}\n\n{TABLE_HEAD}{row}\n") + page[at:]
    return page


def compare(found):
    page, wrong, listed = PAGE.read_text(), [], {}
    for key, number, names, _ in rows(page):
        if key in listed:
            wrong.append(f"docs/reference/TESTED.md:{number}: a second row of {key[1]} of {key[0]}")
        listed[key] = number, names
    for key, names in found.items():
        wrong += [f"{place}: {name} has no contract, and TESTED doesn't list it"
                  for name, place in names.items() if name not in listed.get(key, (0, ()))[1]]
    for (crate, file), (number, names) in listed.items():
        wrong += [f"docs/reference/TESTED.md:{number}: {file} of {crate} has no function {name} without a contract"
                  for name in names if name not in found.get((crate, file), ())]
    wrong += [f"docs/reference/TESTED.md:{page.count(chr(10), 0, it.start()) + 1}: a row isn't filled in" for it in re.finditer(UNKNOWN, page)]
    print("".join(f"{it}\n" for it in wrong), end="")
    return 1 if wrong else 0


def main():
    found = functions()
    if "--all" in sys.argv[1:]:
        for names in found.values():
            print("".join(f"{place}: {name}\n" for name, place in names.items()), end="")
        return 0
    if "--write" in sys.argv[1:]:
        PAGE.write_text(corrected(PAGE.read_text(), found))
    return compare(found)


if __name__ == "__main__":
    sys.exit(main())
