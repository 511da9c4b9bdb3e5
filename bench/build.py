"""Builds the program of a benchmark over the crates of the repository, in a temporary folder.

The source of a program ends in `.rt.in`, so that no check of the repository reads it. The program depends on the crates that its `use`
lines name: crates of crates.txt with all their dependencies, and libraries of the toolchain. The copy includes what earlier checks left in
the crates' out/ folders. Needs `rt`, or the command that RT names.
"""
import os
import re
import shutil
import subprocess
import sys
import tempfile
from contextlib import contextmanager
from pathlib import Path

TOP = Path(__file__).resolve().parent.parent
USED = re.compile(r"(?m)^\s*use (\w+)::")
NOT_LISTED = {"std", "crate", "self", "super"}


def dependencies():
    """The dependencies of each crate of crates.txt."""
    lines = [line.partition(":") for line in (TOP / "crates.txt").read_text().splitlines() if not line.startswith("#")]
    return {name: rest.split() for name, _, rest in lines if name}


def with_those_below(names):
    """These crates and their dependencies in the repository, in the order of crates.txt."""
    listed, found = dependencies(), set()

    def add(name):
        if name in listed and name not in found:
            found.add(name)
            for below in listed[name]:
                add(below)

    for name in names:
        add(name)
    return [name for name in listed if name in found]


@contextmanager
def built(folder, *words, modules=()):
    """Builds the program of `folder`, with modules from other places, by a first run on these words. It exists until the block ends."""
    with tempfile.TemporaryDirectory() as room:
        crates, name = Path(room) / "crates", f"{folder.name}_bench"
        source = crates / name / "src"
        source.mkdir(parents=True)
        for path in [folder / "main.rt.in", *modules]:
            shutil.copy(path, source / path.name.removesuffix(".in"))
        texts = [path.read_text() for path in sorted(source.glob("*.rt"))]
        inside = {path.stem for path in source.glob("*.rt")}
        uses = sorted({it for text in texts for it in USED.findall(text)} - NOT_LISTED - inside)
        below = with_those_below(uses)
        for crate in below:
            shutil.copytree(TOP / "crates" / crate, crates / crate, ignore=shutil.ignore_patterns("must-fail"))
        shutil.copy(TOP / "HANDLES", room)
        listed = dependencies()
        lines = [f"{crate}: {' '.join(listed[crate])}" for crate in below] + [f"{name}: {' '.join(uses)}"]
        (Path(room) / "crates.txt").write_text("".join(f"{line}\n" for line in lines))
        run = subprocess.run([os.environ.get("RT", "rt"), "run", "--", *words], cwd=source.parent, capture_output=True, text=True)
        if run.returncode:
            sys.exit(run.stdout + run.stderr)
        yield source.parent / "out" / name
