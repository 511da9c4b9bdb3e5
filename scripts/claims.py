#!/usr/bin/env python3
"""Makes docs/reference/CLAIMS.md: for each library crate its laws and its public functions, each with its purpose and with the
definitions that its contract cites.

Usage: claims.py [--write | --all CRATE..]

Without an option it compares the page, prints the first line that differs, and ends with status 1. `--write` writes the page. `--all`
prints the tables of some crates with all private functions that have a contract.

A purpose is the first sentence of a comment. A contract is all clauses of a function and the ghost members of an `impl`. A clause that
names a ghost member of a trait without functions cites what that member cites, if the trait is of the same crate. A definition counts
where a file of `specs/` of a crate has it; definitions of the toolchain's library aren't listed. The page has private functions of two
kinds: those of the crates of `PROGRAMS`, and those of `same.rt`, which state what `==` and `cmp` mean.
"""
import functools
import re
import sys

import reference
from reference import CRATES, TOP

PAGE = TOP / "docs" / "reference" / "CLAIMS.md"
HEAD = """# Claims, crate by crate

`scripts/claims.py --write` makes this page from the sources. [PROOFS](../PROOFS.md) says what the claims mean together.

- **Function**: a link to its file. An `impl` of a trait owes the contracts of the trait, and its ghost members say with which values.
- **Purpose**: the first sentence of its comment. The comment itself has the errors and what each error leaves.
- **Definitions**: what its contract cites, after the file in `specs/` that defines it. A dash means that the contract uses only the terms of the toolchain's library. What has no contract of its own is in [TESTED](TESTED.md), unless the trait's contract is all that it owes.
- **Theorem**: a proved fact about definitions in `specs/`, for crates above.
- *Private* functions are listed where they carry a claim that no public function has: in the crates of programs, and for `==` and `cmp`.
"""
# Crates of a program's parts, whose private functions carry the claims.
PROGRAMS = "gixp_planner gixp_fetch_session gixp_fetch_cli gixp_remote_session".split()
# Traits of std whose implementations say nothing that a reader looks for here.
PLAIN = "Clone Default Drop Model From Error Display Debug Flags".split()
NOT_LISTED = re.compile(r"gixp_test_|gixp_(examples|watcher)$")
GHOST_USE = re.compile(r"ghost use Rattle\.(gi\w+)\.specs\.([\w.]+)(?:\.\{([^}]*)\}| as (\w+))\s*;")
HEADER = re.compile(r"(?ms)^(?P<indent>(?:    )?)(?P<words>(?:pub(?:\([\w ]+\))? |final |const |unsafe |extern \"C\" )*)fn (?P<name>\w+)\b")
CLAUSE = re.compile(r"\s+(?:ensures|requires)\b[^{;]*\{")
BLOCK = re.compile(r"(?m)^(?P<words>(?:pub(?:\([\w ]+\))? )?(?P<kind>impl|trait)\b)(?P<rest>[^{;]*?)\{")
# A ghost member of an implementation of a trait, as a clause names it.
QUOTE = re.compile(r"\bas (\w+)(?:<[^⟧]*)?⟧\.(\w+)")


def libraries():
    """The crates with a library whose functions are listed, in the order of crates.txt."""
    for line in (TOP / "crates.txt").read_text().splitlines():
        name = line.partition(":")[0].partition(" ")[0]
        if name and not name.startswith("#") and (CRATES / name / "src" / "lib.rt").is_file() and not NOT_LISTED.match(name):
            yield name


@functools.cache
def file_of(crate, path):
    """The file of a module of definitions, if a crate of the repository has it: a `Lib.antt` may re-export it under its name or another."""
    file = CRATES / crate / "specs" / (path.replace(".", "/") + ".antt")
    lib = CRATES / crate / "specs" / "Lib.antt"
    if file.is_file() or not lib.is_file():
        return file if file.is_file() else None
    for other, module, name in re.findall(r"(?m)^pub use Rattle\.(\w+)\.specs\.([\w.]+?)(?: as (\w+))?$", lib.read_text()):
        if (name or module.rpartition(".")[2]) == path:
            return None if module.startswith("declared") else file_of(other, module)
    return None


def definitions(text):
    """What the `ghost use` lines of a text bring of the repository's definitions: each name with its file."""
    found = {}
    for crate, path, names, alias in GHOST_USE.findall(text):
        file = None if path.startswith(("declared", "contracts")) else file_of(crate, path)
        if file is None:
            continue
        for name in names.split(","):
            name, _, other = (part.strip() for part in name.strip().partition(" as "))
            if name:
                found[other or name] = name, file
        if alias:
            found[alias] = alias, file
    return found


def purpose(lines, is_law=False):
    """The first sentence of a comment; of a law's all of it."""
    said = []
    for line in lines:
        if not (line or is_law):
            break
        said.append(line)
    text = re.sub(r"\[(`[^`]+`)\](?:\([\w:]+\))?", r"\1", " ".join(said))
    if is_law:
        return " ".join(text.split())
    sentence = re.match(r"(.*?[^.]\.)(?=\s|$)", text)
    return sentence[1] if sentence else text


def comment_before(text, place, begin="//"):
    """The lines of the comment that ends in front of a place; attributes may be between them."""
    lines = []
    for line in reversed(text[:place].split("\n")[:-1]):
        line = line.strip()
        if line.startswith(begin) and not line.startswith("//!"):
            lines.insert(0, line.lstrip(begin[0]).strip())
        elif not line.startswith("#["):
            break
    return lines


def clauses(head, kind=r"(?:ensures|requires)"):
    """The texts of the clauses of a kind between a function's name and its body."""
    found, at = [], 0
    while clause := CLAUSE.search(head, at):
        body = reference.block(head, clause.end() - 1)
        if re.match(kind, clause[0].strip()):
            found.append(body)
        at = clause.end() + len(body)
    return found


def head_of(text, place):
    """The text from a function's name to its body or its end."""
    depth, at = 0, place
    while at < len(text):
        if clause := CLAUSE.match(text, at):
            at = clause.end() + len(reference.block(text, clause.end() - 1)) + 1
            continue
        depth += (text[at] in "([") - (text[at] in ")]")
        if depth == 0 and text[at] in "{;":
            return text[place:at]
        at += 1
    return text[place:]


def cited(texts, known):
    """The definitions that these texts name, by their files, in the order of their names' first sight."""
    found = {}
    for text in texts:
        for name in re.findall(r"(?<![\w.'])[A-Za-z_][\w']*", re.sub(r"//.*", "", text)):
            if name in known:
                word, file = known[name]
                found.setdefault(file, {})[word] = None
    return found


def link(file):
    return f"../../{file.relative_to(TOP)}"


def row(name, file, said, where, is_public=True):
    """A row of a table."""
    private = "" if is_public else " (private)"
    return f"| [`{name}`]({link(file)}){private} | {said.replace('|', chr(92) + '|')} | {where} |"


class Function:
    """A function, or an implementation of a trait, with what its contract cites."""

    def __init__(self, name, path, said, has_contract, found, is_public):
        self.name, self.path, self.purpose = name, path, said
        self.has_contract, self.cited, self.is_public = has_contract, found, is_public

    def row(self):
        files = (f"[{file.stem}]({link(file)}): " + ", ".join(f"`{name}`" for name in names) for file, names in self.cited.items())
        where = "; ".join(files) or ("-" if self.has_contract else "no contract of its own")
        return row(self.name, self.path, self.purpose, where, self.is_public)


def type_of(rest):
    """The trait of an `impl`, if it is one's, and its type, without parameters."""
    words = " ".join(re.sub(r"\bwhere\b.*", "", rest, flags=re.S).split())
    depth, plain = 0, ""
    for at, c in enumerate(words):
        depth -= c == ">" and words[at - 1] != "-"
        plain += c if depth == 0 and c != ">" else ""
        depth += c == "<"
    plain = plain.replace("<", "").strip()
    trait, _, name = plain.rpartition(" for ")
    return trait.strip(), re.sub(r"'\w+ ?|\bmut ", "", name).strip()


@functools.cache
def public_of(crate):
    """What can be named from outside a crate, as (module, name); of exports to other languages only the words `extern "C"` show it."""
    if 'extern "C"' in "".join(path.read_text() for path in (CRATES / crate / "src").glob("*.rt")):
        return set()
    return {(where[1], where[2]) for where in reference.public_items(crate)}


def module_of(crate, path):
    parts = path.relative_to(CRATES / crate / "src").with_suffix("").parts
    return () if parts == ("lib",) else parts


class Block:
    """An `impl` or a trait of a file."""

    def __init__(self, text, found):
        self.body = reference.block(text, found.start())
        self.begin, self.end = found.start(), found.end() + len(self.body)
        self.is_trait = found["kind"] == "trait"
        self.trait, self.name = ("", re.match(r"\s*(\w+)", found["rest"])[1]) if self.is_trait else type_of(found["rest"])


def implementation(crate, path, text, block, known):
    """What the implementation of a trait says: by its ghost members, and by clauses of its functions."""
    members = re.findall(r"(?ms)^    ghost \w+ = (\{.*?\});", block.body)
    members += [it for found in HEADER.finditer(block.body) for it in clauses(head_of(block.body, found.start()))]
    is_public = block.name.startswith("&") or any(name == block.name for _, name in public_of(crate))
    said = purpose(comment_before(text, block.begin)) or "As the trait promises."
    return Function(f"{block.name}: {block.trait.rpartition('::')[2]}", path, said, bool(members), cited(members, known), is_public)


@functools.cache
def ghost_members(crate):
    """What the ghost members of the crate's traits without functions cite, by the names of the trait and the member."""
    texts = [path.read_text() for path in files_of(crate)]
    blocks = [(text, Block(text, found)) for text in texts for found in BLOCK.finditer(text)]
    traits = {block.name for _, block in blocks if block.is_trait and not HEADER.search(block.body)}
    found = {}
    for text, block in blocks:
        if block.trait in traits:
            for name, body in re.findall(r"(?ms)^    ghost (\w+) = (\{.*?\});", block.body):
                found[block.trait, name] = cited([body], definitions(text))
    return found


def cited_by(crate, texts, known):
    """The definitions that these clauses name, themselves or by a ghost member."""
    found = cited(texts, known)
    for member in QUOTE.findall("\n".join(texts)):
        for file, names in ghost_members(crate).get(member, {}).items():
            found.setdefault(file, {}).update(names)
    return found


def function(crate, path, text, found, block, known):
    """What a function or method says, but for one of an implementation of a trait."""
    module, name, is_marked = module_of(crate, path), found["name"], "pub " in found["words"]
    if block is None:
        is_public = (module, name) in public_of(crate) or is_marked and 'extern "C"' in found["words"]
        name = f"laws::{name}" if path.stem == "laws" else name
    else:
        is_public = (block.is_trait or is_marked) and any(it == block.name for _, it in public_of(crate))
        name = f"{block.name}::{name}"
    head, said = head_of(text, found.start()), purpose(comment_before(text, found.start()), path.stem == "laws")
    return Function(name, path, said, bool(clauses(head, "ensures")), cited_by(crate, clauses(head), known), is_public)


def functions_in(crate, path):
    """The implementations and functions of a file, in their order."""
    text = re.sub(r"(?ms)^#\[cfg\(test\)\]\nmod tests \{.*?^\}\n", "", path.read_text())
    known = definitions(text)
    blocks = [Block(text, found) for found in BLOCK.finditer(text)]
    for block in blocks:
        if block.trait and block.trait.rpartition("::")[2] not in PLAIN:
            yield implementation(crate, path, text, block, known)
    for found in HEADER.finditer(text):
        block = next((it for it in blocks if it.begin < found.start() < it.end), None)
        if bool(block) == bool(found["indent"]) and not (block and block.trait) and found["name"] != "main":
            yield function(crate, path, text, found, block, known)


def files_of(crate):
    """The files of a crate, laws first."""
    files = sorted((CRATES / crate / "src").rglob("*.rt"))
    return sorted(files, key=lambda path: path.stem != "laws")


def theorems(crate):
    """The rows of the theorems that a crate's `specs/` prove of its definitions, for crates above."""
    for path in sorted((CRATES / crate / "specs").glob("*Laws.antt")):
        text = path.read_text()
        for found in re.finditer(r"(?m)^pub (\w[\w']*) :", text):
            said = purpose(comment_before(text, found.start(), "--"), True)
            if said:
                yield row(found[1], path, said, "theorem")


def table(crate, with_private):
    """The lines of a crate's table."""
    rows = {}
    for path in files_of(crate):
        for it in functions_in(crate, path):
            private = it.has_contract and (with_private or crate in PROGRAMS and it.cited or path.stem == "same")
            if it.is_public or private:
                rows[it.row()] = None
    return [*rows, *theorems(crate)]


def page():
    yield HEAD
    for crate in libraries():
        rows = table(crate, False)
        if rows:
            yield "\n".join([f"## {crate}\n", "| function | purpose | definitions |", "|---|---|---|", *rows, ""])


def main():
    if "--all" in sys.argv[1:]:
        for crate in sys.argv[2:]:
            print("\n".join(table(crate, True)))
        return 0
    made = "\n".join(page())
    if "--write" in sys.argv[1:]:
        PAGE.write_text(made)
        return 0
    return reference.differs(PAGE, made)


if __name__ == "__main__":
    sys.exit(main())
