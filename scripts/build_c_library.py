#!/usr/bin/env python3
"""Builds the static library gixp_c over the libraries that `rt ci` left in the crates' out/ folders: crates/gixp_c/out/libgixp_c.a.

`rt ci` proves a static library but doesn't build it, and `rt lib` would prove every library below it again. So this calls the toolchain's
compiler as `rt` does. It proves gixp_c once more.
"""
import shutil
import subprocess
import sys
from pathlib import Path

TOP = Path(__file__).resolve().parent.parent
KIT = Path(shutil.which("rt")).resolve().parent.parent
sys.path.insert(0, str(KIT / "bin"))
import rtlib

crate = rtlib.Crate(str(TOP / "crates" / "gixp_c"), str(TOP), {})
(Path(crate.folder) / "out").mkdir(exist_ok=True)
words = [*crate.words(["--jobs", "1"], keeps=False), "--toolchain", str(KIT / "toolchain"), "--backend", "llvm"]
sys.exit(subprocess.run([rtlib.RATTLE, "build", *words, "-o", "out/libgixp_c.a"], cwd=crate.folder).returncode)
