"""The names that documents may use: names in the sources of crates, in the reference and in scripts."""
import re
from collections import defaultdict

import reference

TOP = reference.TOP
ITEM = re.compile(r"(?m)^ *(?:pub(?:\([a-z]+\))? )?(?:final )?(?:const )?(?:fn|struct|enum|trait|type|const|static|mod|ghost) (\w+)")
HEAD = re.compile(r"(?m)^(?:pub(?:\([a-z]+\))? )?(struct|enum|trait|impl|type)\b(?:<[^{;=]*?>(?= ))?([^{;]*)")
PATH = re.compile(r"[A-Za-z_]\w*(?:::[A-Za-z_]\w*)+")
CALL = re.compile(r"([A-Za-z_]\w*)\(\)")
# not a placeholder in capitals, nor a commit
WORD = re.compile(r"(?<!\w)(?![A-Z]+\b|[0-9a-f]{8}\b)[A-Za-z_]\w{2,}")
# where the words that documents quote come from
SOURCES = ["crates/*/src", "crates/*/specs", "crates/*/data", "crates.txt", "scripts", "models", "bench",
           "bindings", "include", "mutants"]
MADE = {"build", "target", "__pycache__"}
# names in documents from elsewhere: std, crates of the toolchain, gitoxide, git, or placeholders
OTHERS = """
anyhow::Error ErrorKind::Other fmt::Error fmt::Write io::Error io::ErrorKind io::Result
indexmap::IndexSet NonZeroU32::MIN Read::read Read::remaining FnMut() stderr() stdin() stdout()
Remote::connect client::capabilities gix::Remote::connect gix::remote::fetch::refs::update gix_date::Time gix_negotiate::Graph
remote::fetch::refs transport::client::blocking_io transport::client::capabilities
gixp::URL gixp::server MODULE::FUNCTION
async AtomicBool AuthenticateFn clap copy_error DynNestedProgress packetline revwalk sudo type_change
asks_wait_for_done can_use_ can_use_wait_for_done feature_by_another_in_can_use_wait_for_done wait_for_done
""".split()


def trait_and_type(words):
    """The trait of an `impl` (None without one), and its type."""
    found = re.match(r"(?:<.*?>)?\s*(?:([\w:]+)(?:<.*>)? for )?([&\w:]+)", " ".join(words.split()))
    return [name and name.rpartition("::")[2] for name in found.groups()] if found else [None, None]


class Names:
    """The items of each module, type and trait by its last name, and the traits and aliases from which a type has more names."""

    def __init__(self):
        self.inside, self.beside, self.others = defaultdict(set), defaultdict(set), set()
        for path in sorted(TOP.glob("crates/*/src/**/*.rt")):
            self.read(path)
        self.words = words_of_sources()
        scripts = [path for folder in ("scripts", "models", "bindings", "bench") for path in TOP.glob(f"{folder}/**/*.py")]
        self.functions = set().union(*self.inside.values(), *(re.findall(r"def (\w+)", path.read_text()) for path in scripts))
        listed = [path.split("::") for path in re.findall(r"(?m)^`([\w:]+)`", reference.REFERENCE.read_text())]
        for parts in listed:
            for outer, name in zip(parts, parts[1:]):
                self.inside[outer].add(name)

    def read(self, path):
        text = re.sub(r"(?m)^\s*//.*\n", "", path.read_text())
        module = path.relative_to(TOP).parts[1] if path.stem == "lib" else path.stem
        self.inside[module].update(ITEM.findall(text), (name for _, name in reference.uses(text)))
        for head in HEAD.finditer(text):
            kind, words = head.groups()
            if kind == "type":
                alias = re.match(r" (\w+)[^=]*= *([\w:]+)", words)
                if alias:
                    self.beside[alias[1]].add(alias[2].rpartition("::")[2])
            elif text[head.end():head.end() + 1] == "{":
                self.read_body(kind, words, reference.block(text, head.start()))

    def read_body(self, kind, words, body):
        trait, name = trait_and_type(words) if kind == "impl" else (None, re.match(r" (\w+)", words)[1])
        if trait:
            self.beside[name].add(trait)
        self.inside[name].update(ITEM.findall(body))
        if kind == "struct":
            self.inside[name].update(re.findall(r"(?m)^    (?:pub(?:\([a-z]+\))? )?(\w+):", body))
        elif kind == "enum":
            self.inside[name].update(re.findall(r"(?m)^    (\w+)", body))

    def has(self, outer, name, seen=()):
        return name in self.inside[outer] or any(
            self.has(other, name, (*seen, outer)) for other in self.beside[outer] if other not in (*seen, outer))

    def is_known(self, name):
        if name.endswith("()"):
            return name[:-2] in self.functions
        parts = name.split("::")
        return all(self.has(outer, inner) for outer, inner in zip(parts, parts[1:]))


def words_of_sources():
    """The words of the files in SOURCES but documents, and the names of files, of proofs too."""
    words = {path.stem for path in TOP.glob("crates/*/proofs/**/*")}
    for found in (found for pattern in SOURCES for found in TOP.glob(pattern)):
        for path in [found, *found.rglob("*")]:
            words.update(re.findall(r"\w+", path.name))
            if path.is_file() and path.suffix != ".md" and not MADE.intersection(path.parts):
                words.update(re.findall(r"\w+", path.read_text(errors="replace")))
    return words


def words_in(text):
    """The words of the names and paths in backquotes, each with its offset."""
    prose = re.sub(r"(?ms)^```.*?^```", lambda block: " " * len(block[0]), text)
    for code in re.finditer(r"`([^`\n]+)`", prose):
        for found in WORD.finditer(code[1]):
            yield code.start(), found[0]


def names_in(text):
    """The names in backquotes that have `::` or `()`, each with its offset."""
    for code in re.finditer(r"`([^`\n]+)`", text):
        for found in PATH.finditer(code[1]):
            yield code.start(), found[0]
        for found in CALL.finditer(code[1]):
            yield code.start(), found[0]
