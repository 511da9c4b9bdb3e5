#!/usr/bin/env python3
"""Makes docs/reference/PUBLIC.md: every public name of gix_protocol, with its path, its purpose, its signature and its traits. Methods of
traits have their contracts, since an implementation owes them. The contracts of functions are in the source.

Usage: reference.py [--write]

Without `--write` it compares the page, and prints the first line that differs. It also prints the Rust code of README and USING that no
file of the crates has, leaving out contracts, comments and names that aren't imported. The status is 1 for any difference.
"""
import functools
import re
import sys
from pathlib import Path

TOP = Path(__file__).resolve().parent.parent
CRATES = TOP / "crates"
REFERENCE = TOP / "docs" / "reference" / "PUBLIC.md"
HEAD = """# Public names

Every public name of `gix_protocol`, with its path, its purpose and its signature. `impl` lists the traits of a type, except `From`. Methods of a trait have their contracts, since an implementation owes them. All other contracts and comments are in the file that is named. [CLAIMS](CLAIMS.md) lists what the contracts cite. `scripts/reference.py --write` makes this page.
"""
QUOTING = "README.md", "docs/USING.md"
ITEM = r"pub (?:const )?(?:fn|struct|enum|trait|type|const) {name}\b"


def text_of(crate, module):
    """The text of a module, without comments, and its file."""
    path = CRATES / crate / "src" / (("/".join(module) or "lib") + ".rt")
    if not path.is_file():
        return None, path
    text = re.sub(r"(?m)^\s*//.*\n", "", path.read_text())
    return re.sub(r"(?ms)^#\[cfg\(test\)\]\nmod tests \{.*?^\}\n", "", text), path


def names_in(tree, prefix=()):
    """The names that a `use` tree brings, as (path, name)."""
    tree = tree.strip()
    if "{" in tree:
        front, rest = tree.split("{", 1)
        parts, depth, part = [], 0, ""
        for c in rest[: rest.rindex("}")]:
            depth += (c == "{") - (c == "}")
            if c == "," and depth == 0:
                parts.append(part)
                part = ""
            else:
                part += c
        parts.append(part)
        front = tuple(x for x in front.split("::") if x.strip())
        for part in parts:
            if part.strip():
                yield from names_in(part, prefix + front)
        return
    path, _, other = tree.partition(" as ")
    path = prefix + tuple(x.strip() for x in path.split("::"))
    if path[-1] == "self":
        path = path[:-1]
    yield path, other.strip() or path[-1]


def uses(text):
    for found in re.finditer(r"(?ms)^pub use (.*?);", text):
        yield from names_in(" ".join(found[1].split()))


def resolve(crate, module, name):
    """What a name of a module is: ("module", crate, module) or ("item", crate, module, name)."""
    text, _ = text_of(crate, module)
    if text is None:
        return None
    if re.search(rf"(?m)^pub (?:\(crate\) )?mod {name};", text):
        return "module", crate, module + (name,)
    if re.search(r"(?m)^" + ITEM.format(name=name), text):
        return "item", crate, module, name
    for path, brought in uses(text):
        if brought == name:
            return follow(crate, module, path)
    return None


def follow(crate, module, path):
    first = path[0]
    if first == "crate":
        at, rest = (crate, ()), path[1:]
    elif (CRATES / first).is_dir():
        at, rest = (first, ()), path[1:]
    else:
        at, rest = (crate, module), path
    for i, part in enumerate(rest):
        text, _ = text_of(*at)
        if i < len(rest) - 1 and text is not None and re.search(rf"(?m)^(?:pub(?:\([a-z]+\))? )?mod {part};", text):
            at = at[0], at[1] + (part,)
            continue
        found = resolve(*at, part)
        if found is None:
            return None
        if found[0] == "item" or i == len(rest) - 1:
            return found
        at = found[1:]
    return "module", *at


def purpose(crate, module, name):
    """The first paragraph of an item's comment; none where it has none."""
    text = text_of(crate, module)[1].read_text()
    found = re.search(r"(?m)^" + ITEM.format(name=name), text)
    lines = []
    for line in reversed(text[: found.start()].split("\n")[:-1]):
        if line.startswith("///"):
            lines.insert(0, line[3:].strip())
        elif not line.startswith("#["):
            break
    paragraph = lines[: lines.index("")] if "" in lines else lines
    # a link into the code goes nowhere from the page
    return re.sub(r"\[(`[^`]+`)\](?:\([\w:]+\))?", r"\1", " ".join(paragraph))


def end_of(text):
    """Where a signature ends: at its contract or body."""
    depth = 0
    for i, c in enumerate(text):
        if c in "([{" and not (c == "{" and depth == 0):
            depth += 1
        elif c in ")]}":
            depth -= 1
        elif depth == 0 and (c in "{;" or re.match(r"\s(?:requires|ensures|ghost)\b", text[i:])):
            return i
    return len(text)


def contract(text):
    """The clauses behind a signature, each on a line."""
    at = end_of(text)
    while clause := re.match(r"\s*((?:requires|ensures)\b[^{]*)", text[at:]):
        body = block(text, at)
        yield f"{' '.join(clause[1].split())} {{ {' '.join(body.split())} }}"
        at = text.index("{", at) + len(body) + 2


def cut(text):
    """A signature up to its contract or body, on one line."""
    line = " ".join(text[: end_of(text)].split()).replace("( ", "(").replace(", )", ")").replace(",)", ")").rstrip(",")
    return re.sub(r"<\s+", "<", re.sub(r",\s*>", ">", line)).replace("& ", "&")


def block(text, start):
    """The text between the braces that open after a place."""
    begin = text.index("{", start)
    depth = 0
    for i in range(begin, len(text)):
        depth += (text[i] == "{") - (text[i] == "}")
        if depth == 0:
            return text[begin + 1 : i]
    return text[begin + 1 :]


def implementing(crate, path, name):
    """The texts of the files that may have methods of a type: its own first, then those that bring it in."""
    brings = re.compile(rf"(?m)^use crate::[^;]*\b{name}\b[^;]*;")
    others = sorted(other for other in (CRATES / crate / "src").rglob("*.rt") if other != path)
    for other in [path, *others]:
        text = re.sub(r"(?m)^\s*//.*\n", "", other.read_text())
        if other == path or brings.search(text):
            yield text


@functools.cache
def texts():
    """The texts of all files of the crates that implement a trait."""
    found = {file: file.read_text() for file in sorted(CRATES.glob("*/src/**/*.rt"))}
    return {file: text for file, text in found.items() if re.search(r"(?m)^impl", text)}


def names_of_type(crate, module, name):
    """For each file in which a type has a name, that name and the text: `Error`, or `read::Error` where its module is brought in."""
    own = text_of(crate, module)[1]
    for file, text in texts().items():
        root = "crate" if CRATES / crate in file.parents else crate
        brought = " ".join(found[0] for found in re.finditer(rf"(?m)^use {root}::[^;]*;", text))
        if file == own or re.search(rf"\b{name}\b", brought):
            yield name, text
        if module and re.search(rf"\b{module[-1]}\b", brought):
            yield f"{module[-1]}::{name}", text


def derived_in(front):
    """The traits that the lines of attributes derive which end a text."""
    for line in reversed(front.rstrip("\n").split("\n")):
        if not line.startswith("#["):
            return
        derived = re.match(r"#\[derive\((.*)\)\]", line)
        for trait in derived[1].split(",") if derived else []:
            # thiserror's derive, which is brought in by this name, writes both
            yield from ("Display", "Error") if trait.strip() in ("DeriveError", "Error", "thiserror::Error") else (trait.strip(),)


def traits_of(crate, module, name, front):
    """The traits of a type, but `From`, whose lines of attributes end the text in front of it."""
    found = set(derived_in(front))
    for named, text in names_of_type(crate, module, name):
        for head in re.finditer(rf"(?m)^impl(?:<[^{{]*?>)? ([\w:]+)(?:<[^{{]*?>)?\s+for {named}(?![\w:])", text):
            found.add(head[1].rpartition("::")[2])
    return sorted(found - {"From"})


def methods_of(crate, module, name):
    """The signatures of a type's methods."""
    for text in implementing(crate, text_of(crate, module)[1], name):
        for found in re.finditer(rf"(?m)^impl(?:<[^{{]*?>)? {name}\b[^{{]*?\{{", text):
            if " for " in " ".join(found[0].split()):
                continue
            body = block(text, found.start())
            for method in re.finditer(r"(?m)^    pub (?:const )?fn ", body):
                yield "    " + cut(body[method.start() :].lstrip())


def behind_alias(crate, module, line):
    """The type that an alias names by a path, as (crate, module, name)."""
    named = re.match(r"[A-Za-z][\w:]*", line.split("=", 1)[1].strip())
    if not named:
        return None
    path = tuple(named[0].split("::"))
    found = follow(crate, module, path) if len(path) > 1 else resolve(crate, module, path[0])
    return found[1:] if found and found[0] == "item" else None


def described(crate, module, name):
    """The lines that describe an item."""
    text, _ = text_of(crate, module)
    found = re.search(r"(?m)^" + ITEM.format(name=name), text)
    kind = re.match(r"pub (?:const )?(\w+)", found[0])[1]
    if kind in ("fn", "type", "const"):
        line = text[found.start() :]
        yield cut(line.split("=", 1)[0] if kind == "const" else line)
        aliased = behind_alias(crate, module, line) if kind == "type" else None
        if aliased:
            behind = text_of(*aliased[:2])[0]
            begins = re.search(r"(?m)^" + ITEM.format(name=aliased[2]), behind).start()
            traits = traits_of(*aliased, behind[:begins])
            yield from [f"    impl {', '.join(traits)}"] if traits else ()
            yield from methods_of(*aliased)
        return
    yield cut(text[found.start() :])
    traits = traits_of(crate, module, name, text[: found.start()]) if kind in ("struct", "enum") else []
    if traits:
        yield f"    impl {', '.join(traits)}"
    if text[found.end() :].split("\n", 1)[0].rstrip().endswith("{") or "{" in text[found.start() :].split("\n\n", 1)[0].split(";", 1)[0]:
        body = block(text, found.start())
        if kind == "struct":
            for field in re.finditer(r"(?m)^    pub (?!ghost)(\w+: .*?),$", body):
                yield f"    pub {field[1]}"
        elif kind == "enum":
            depth, part = 0, ""
            for c in re.sub(r"(?ms)#\[error\(.*?\)\]\n", "", body):
                depth += (c in "({[") - (c in ")}]")
                if c == "," and depth == 0:
                    yield "    " + " ".join(part.split()).replace(", }", " }")
                    part = ""
                else:
                    part += c
        else:
            for member in re.finditer(r"(?m)^    (type|ghost|const|final fn|fn) .*", body):
                rest = body[member.start() :]
                if member[1] == "ghost" and " use " in member[0]:
                    continue
                is_method = member[1] not in ("type", "ghost", "const")
                line = cut(rest.lstrip()) if is_method else " ".join(rest.split(";", 1)[0].split())
                yield f"    {line}"
                yield from (f"        {clause}" for clause in contract(rest.lstrip()) if is_method)
    yield from methods_of(crate, module, name)


def public_in(path, crate, module):
    """What can be named in a module from outside its crate: items, as (name, where), and modules."""
    text, _ = text_of(crate, module)
    names = {found[1] for found in re.finditer(r"(?m)^pub mod (\w+);", text)}
    names |= {found[1] for found in re.finditer(r"(?m)^pub (?:const )?(?:fn|struct|enum|trait|type|const) (\w+)", text)}
    names |= {name for _, name in uses(text)}
    items, modules = [], []
    for name in sorted(names):
        found = resolve(crate, module, name)
        if found is None:
            sys.exit(f"{path}::{name} isn't found")
        (items if found[0] == "item" else modules).append((name, found[1:]))
    return items, modules


def public_items(crate, module=(), seen=None):
    """Where each item stands that can be named from outside its crate."""
    seen = set() if seen is None else seen
    if (crate, module) not in seen:
        seen.add((crate, module))
        items, modules = public_in(crate, crate, module)
        yield from (where for _, where in items)
        for _, where in modules:
            yield from public_items(*where, seen)


def listed(path, crate, module, seen):
    """The sections of a module and of those in it."""
    items, modules = public_in(path, crate, module)
    if items:
        yield f"\n## {path}\n"
    for what, name, where in [*(("", *it) for it in items), *(("the module ", *it) for it in modules)]:
        here = f"{path}::{name}"
        first = seen.setdefault(where, here)
        if first != here:
            yield f"`{here}`: {what}`{first}`\n"
        elif what:
            yield from listed(here, *where, seen)
        else:
            file = text_of(*where[:2])[1].relative_to(TOP)
            lines = "\n".join(described(*where))
            said = purpose(*where)
            yield f"`{here}` ({file})\n\n{said + chr(10) * 2 if said else ''}```rust\n{lines}\n```\n"


def code_of(text):
    """The lines of some code without comments and ending semicolons; of an import each name is a line."""
    text = re.sub(r"(?m)^ *//.*$|\s+//.*$", "", text)
    text = re.sub(r"(?m)^((?:ghost )?use [^;{]*)\{([^{}]*)\};", lambda it: "\n".join(it[1] + name.strip() for name in it[2].split(",")), text)
    return [line.strip().removesuffix(";") for line in text.splitlines() if line.strip()]


def holds(lines, item):
    """Whether the lines of an item stand among these, in their order; imports in any."""
    rest = iter(lines)
    return all(line in lines if "use " in line else any(line == it for it in rest) for line in item)


def not_quoted():
    """The items of Rust in documents that stand in no file of the crates: the document, the line and the item's first line."""
    files = [code_of(path.read_text()) for path in sorted(CRATES.glob("*/src/**/*.rt"))]
    for document in QUOTING:
        text = (TOP / document).read_text()
        for block_found in re.finditer(r"(?ms)^```rust\n(.*?)^```$", text):
            for item in re.split(r"\n\n(?=\S)", block_found[1]):
                lines = code_of(item)
                if lines and not any(holds(it, lines) for it in files):
                    yield document, text.count("\n", 0, block_found.start(1)) + 1, lines[0]


def main():
    wrong = list(not_quoted())
    for document, line, first in wrong:
        print(f"{document}:{line}: no file of the crates has the code that begins {first!r}")
    return compare() or bool(wrong)


def compare():
    """Writes the page, or compares it."""
    page = HEAD + "\n".join(listed("gix_protocol", "gix_protocol", (), {}))
    if "--write" in sys.argv[1:]:
        REFERENCE.write_text(page)
        return 0
    return differs(REFERENCE, page)


def differs(path, page):
    """Whether a file isn't this page; prints the first line that differs."""
    name, stored = path.relative_to(TOP), path.read_text() if path.is_file() else ""
    if stored == page:
        return 0
    for number, (is_line, line) in enumerate(zip(stored.split("\n"), page.split("\n")), 1):
        if is_line != line:
            print(f"{name}:{number}: is {is_line!r}, and is to be {line!r}")
            return 1
    print(f"{name} has another length")
    return 1


if __name__ == "__main__":
    sys.exit(main())
