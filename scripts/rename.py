#!/usr/bin/env python3
"""Renames identifiers and modules over the repository: code, definitions, proofs, mutants and documents.

Usage: rename.py [--check] TABLE

TABLE is a file with one rename a line. A line that begins with # is a comment.

    name OLD NEW [CRATE..]        an identifier, in these crates, or in all of them
    module CRATE OLD NEW          a module of a crate: its file, its folders of proofs, the paths that name it
    local CRATE MODULE OLD NEW    an identifier in the file of a module and in the proofs of its functions alone
    crate OLD NEW                 a crate, wherever a file of the repository names it

The other lines name crates by their old names. Of several lines that fit, the first is taken. An identifier that a file imports from another crate follows the lines of that crate.
Strings and comments stay as they are, but for what a comment has between backticks. The folders of proofs and the files of definitions
follow the names that they are named for. In a document without a crate only names with a capital letter or an underscore are renamed.

Prints each file in which a new name is in use already, and each import that the renames left without a file or a name. The status is
1 where there is one. --check only prints the first. Afterwards run `rt fmt` in each crate that changed.
"""
import argparse
import re
import subprocess
import sys
from collections import defaultdict
from pathlib import Path

TOP = Path(__file__).resolve().parent.parent
WORD = re.compile(r"(?<![\w'])([A-Za-z_]\w*)")
STRING = re.compile(r'b?"(?:\\.|[^"\\])*"')
USE = re.compile(r"Rattle\.(gixp_\w+|gix_protocol)((?:\.\w+)*)(\.\{[^}]*\})?")
RUST_USE = re.compile(r"\buse (gixp_\w+|gix_protocol)::([^;]*);")
COMMENT = {".rt": "//", ".antt": "--"}


class Table:
    """The renames of a file."""

    def __init__(self, path):
        self.names, self.modules, self.locals = defaultdict(list), defaultdict(dict), defaultdict(dict)
        self.crates = {}
        for line in path.read_text().splitlines():
            kind, *words = line.split() or ["#"]
            if kind == "name":
                self.names[words[0]].append((words[1], words[2:]))
            elif kind == "module":
                self.modules[words[0]][words[1]] = words[2]
            elif kind == "local":
                self.locals[words[0], words[1]][words[2]] = words[3]
            elif kind == "crate":
                self.crates[words[0]] = words[1]
            elif not kind.startswith("#"):
                sys.exit(f"{path}: a line is none of name, module, local and crate: {line}")

    def new(self, word, crate):
        """The new name of an identifier in a crate, or the old one."""
        return next((new for new, crates in self.names.get(word, []) if not crates or crate in crates), word)

    def path(self, crate, part):
        """The new name of a part of a path in a crate."""
        return self.modules[crate].get(part) or self.new(part, crate)


class File:
    """A file of a crate: which name an identifier gets there."""

    def __init__(self, table, path, text):
        parts = path.relative_to(TOP / "crates").parts
        self.table, self.crate, self.is_rust = table, parts[0], path.suffix == ".rt"
        self.imports = {}
        for found in USE.finditer(text):
            self.imports.update((it, table.new(it, found[1])) for it in WORD.findall(found[3] or ""))
        for found in RUST_USE.finditer(text):
            self.imports.update((it, table.new(it, found[1])) for it in WORD.findall(found[2]))
        module = Path(*parts[2:]).with_suffix("") if parts[1] == "src" else Path(*parts[2:-1])
        self.locals = {}
        for (crate, of), names in table.locals.items():
            if crate == self.crate and (module == Path(of) or parts[1] == "proofs" and Path(of) in module.parents):
                self.locals |= names

    def new(self, word):
        return self.locals.get(word) or self.imports.get(word) or self.table.new(word, self.crate)

    def words(self, text):
        return WORD.sub(lambda it: self.new(it[1]), text)

    def code(self, text):
        """A text without strings and comments."""
        out, at = [], 0
        for found in USE.finditer(text):
            crate = found[1]
            path = "".join(f".{self.table.path(crate, it)}" for it in found[2].split(".")[1:])
            names = WORD.sub(lambda it, crate=crate: self.table.new(it[1], crate), found[3] or "")
            out += [self.words(self.modules(text[at:found.start()])), f"Rattle.{crate}{path}{names}"]
            at = found.end()
        return "".join([*out, self.words(self.modules(text[at:]))])

    def modules(self, text):
        """A text with new names of modules in paths of Rust."""
        for crate, names in self.table.modules.items():
            front = rf"\b(?:{crate}|crate|super|self)" if crate == self.crate else rf"\b{crate}"
            for old, new in names.items():
                text = re.sub(rf"({front}::(?:\w+::)*){old}\b", rf"\g<1>{new}", text)
                if crate == self.crate:
                    text = re.sub(rf"\b(mod {old};|use {old}::)", lambda it, old=old, new=new: it[0].replace(old, new), text)
        return text

    def line(self, line):
        if line.strip().startswith(COMMENT[".rt" if self.is_rust else ".antt"]):
            return re.sub(r"`[^`]*`", lambda it: self.code(it[0]), line)
        out, at = [], 0
        for found in STRING.finditer(line):
            out += [self.code(line[at:found.start()]), found[0]]
            at = found.end()
        return "".join([*out, self.code(line[at:])])


def crate_files(*suffixes):
    """The files of crates with these endings, but for what a build left."""
    return [it for it in sorted((TOP / "crates").rglob("*")) if it.suffix in suffixes and "out" not in it.relative_to(TOP).parts]


def write(path, old, new):
    if new != old:
        path.write_text(new)


def rename_code(table):
    """Renames in code, definitions and proofs, and returns each file by its path."""
    files = {}
    for path in crate_files(".rt", ".antt"):
        text = path.read_text()
        files[path] = file = File(table, path, text)
        write(path, text, "\n".join(map(file.line, text.split("\n"))))
    return files


def rename_mutants(table, files):
    for path in [*sorted((TOP / "mutants").iterdir()), *crate_files(".edit")]:
        crate = path.name if path.parent.name == "mutants" else path.relative_to(TOP).parts[1]
        text, lines, file = path.read_text(), [], None
        for line in text.split("\n"):
            word, _, rest = line.partition(": ")
            if word == "file":
                file = files.get(TOP / "crates" / crate / rest.strip())
                line = f"file: {moved(table, crate, Path(rest.strip()))}"
            elif word in ("old", "new", "in") and file:
                line = f"{word}: {file.line(rest)}"
            lines.append(line)
        write(path, text, "\n".join(lines))


def rename_documents(table):
    for path in [*TOP.glob("*.md"), *(TOP / "docs").rglob("*.md"), *(TOP / "crates").glob("*/README.md"), *TOP.glob("*/README.md")]:
        parts, text = path.relative_to(TOP).parts, path.read_text()
        crate = parts[1] if parts[0] == "crates" else None

        def new(found):
            plain = crate is None and re.fullmatch(r"[a-z]+", found[1])
            return found[1] if plain else table.new(found[1], crate)

        write(path, text, re.sub(r"`[^`\n]+`", lambda it: WORD.sub(new, it[0]), text))


def moved(table, crate, path):
    """The new path of a file or folder within a crate."""
    folder, *parts = path.parts
    at = Path(*[it.partition(".")[0] for it in parts])
    names = {old: new for (of, module), names in table.locals.items() if of == crate and Path(module) in at.parents
             for old, new in names.items() if folder == "proofs"}
    new = []
    for part in parts:
        stem, dot, ending = part.partition(".")
        new.append((names.get(stem) or table.path(crate, stem)) + dot + ending)
    return Path(folder, *new)


def move_files(table):
    for path in crate_files(".rt", ".antt"):
        crate = path.relative_to(TOP).parts[1]
        inside = path.relative_to(TOP / "crates" / crate)
        target = TOP / "crates" / crate / moved(table, crate, inside)
        if inside.parts[0] in ("src", "specs", "proofs") and target != path:
            target.parent.mkdir(parents=True, exist_ok=True)
            subprocess.run(["git", "mv", path, target], cwd=TOP, check=True)


def rename_crates(table):
    for path in subprocess.run(["git", "ls-files"], cwd=TOP, capture_output=True, text=True, check=True).stdout.splitlines():
        try:
            text = (TOP / path).read_text()
        except UnicodeDecodeError:
            continue
        write(TOP / path, text, re.sub(r"\bgixp_\w+", lambda it: table.crates.get(it[0], it[0]), text))
    for old, new in table.crates.items():
        for folder in "crates", "mutants":
            if (TOP / folder / old).exists():
                subprocess.run(["git", "mv", f"{folder}/{old}", f"{folder}/{new}"], cwd=TOP, check=True)


def lost_imports():
    """The imports of definitions and lemmas that have no file, or no such name in it."""
    for path in crate_files(".rt", ".antt"):
        for found in USE.finditer(path.read_text()):
            parts = found[2].split(".")[1:]
            file = (TOP / "crates" / found[1]).joinpath(*parts).with_suffix(".antt")
            if found[1] == "gix_protocol" or {"declared", "contracts", "Goals", "Given"} & set(parts):
                continue
            if not parts or not file.is_file():
                yield f"{path.relative_to(TOP)}: no file for {found[0][:100]}"
                continue
            known = set(WORD.findall(file.read_text()))
            for name in re.sub(r"\bas \w+", "", found[3] or "").strip(".{}").split(","):
                if (word := WORD.search(name)) and word[1] not in known:
                    yield f"{path.relative_to(TOP)}: no {word[1]} in {file.relative_to(TOP)}"


def names_in_use(table):
    """The files that have a new name next to the old one."""
    for path in crate_files(".rt", ".antt"):
        text = path.read_text()
        file, mark = File(table, path, text), COMMENT[path.suffix]
        words = {it for line in text.split("\n") if not line.strip().startswith(mark) for it in WORD.findall(STRING.sub("", line))}
        for word in sorted(words):
            if file.new(word) != word and file.new(word) in words:
                yield f"{path.relative_to(TOP)}: {word} -> {file.new(word)}, which is in use"


def main():
    parser = argparse.ArgumentParser(description=__doc__, formatter_class=argparse.RawDescriptionHelpFormatter)
    parser.add_argument("--check", action="store_true", help="change nothing")
    parser.add_argument("table", metavar="TABLE", type=Path)
    options = parser.parse_args()
    table = Table(options.table)
    found = [*names_in_use(table)]
    if not options.check:
        before = {*lost_imports()}
        rename_mutants(table, rename_code(table))
        rename_documents(table)
        move_files(table)
        rename_crates(table)
        found += [it for it in lost_imports() if it not in before]
    print("\n".join([*found, f"{len(found)} found"]))
    return 1 if found else 0


if __name__ == "__main__":
    sys.exit(main())
