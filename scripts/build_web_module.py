#!/usr/bin/env python3
"""Builds the WebAssembly module of gixp_web, bindings/build/gixp.wasm, over the libraries that `rt ci` left in the crates' out/ folders.

Usage: build_web_module.py [--keep FILE | --module FILE]

The toolchain's compiler for WebAssembly refuses a crate that allocates: that target has no heap there. So this takes the route of a static
library for x86-64. `rattle build` proves gixp_web, writes it as one LLVM module and passes that to the toolchain's clang. Here a clang of
our own stands between: it copies the module. Both processors have addresses of 64 bits, so the same clang compiles the copy for
WebAssembly. It is linked with a heap in C, bindings/js/heap.c. Nothing is built unless gixp_web is proved.

--keep writes the LLVM module into FILE. --module takes an LLVM module from FILE and proves nothing: for development alone.
"""
import argparse
import gzip
import os
import re
import shutil
import subprocess
import sys
import tempfile
from pathlib import Path

TOP = Path(__file__).resolve().parent.parent
KIT = Path(shutil.which("rt")).resolve().parent.parent
CLANG = KIT / "toolchain" / "bin" / "clang"
BUILD = TOP / "bindings" / "build"
EXPORTS = ["gixp_refs", "gixp_advertised", "gixp_next", "gixp_piece", "gixp_map", "gixp_prefixes", "gixp_error_text", "gixp_take", "gixp_give"]
# Vectors of 128 bits: without them the search for a byte takes three times as long.
TARGET = ["--target=wasm64-unknown-unknown", "-mcpu=lime1", "-msimd128"]
SIMD = ["-Xclang", "-target-feature", "-Xclang", "+simd128"]
# A page of the stack is 64 KiB. The memory starts with a few and grows by need up to 16 GiB.
STACK = 1 << 20
# What names a processor, or asks for code of one.
OF_X86 = re.compile(r' (?:"(?:target-cpu|frame-pointer|probe-stack|stack-probe-size)"="[^"]*"|sanitize_address)')
# Crates that run once for a request, and not for each ref: their code is compiled for size.
SMALL = re.compile(r'^(define .*@"gixp_(?:engine|fetch|negotiate|negotiators|handshake|refmap|requests|response|graph|transport|sidebands|shallow'
                   r'|memory|capabilities|progress)::.*?)( #\d+ \{)$')
LAYOUT = 'target datalayout = "e-m:e-p:64:64-p10:8:8-p20:8:8-i64:64-i128:128-n32:64-S128"'
# What the heap's functions return: whether there is memory, and its address.
RESULT = """  %ok = icmp ne ptr %p, null
  %first = zext i1 %ok to i64
  %second = ptrtoint ptr %p to i64
  %one = insertvalue { i64, i64 } poison, i64 %first, 0
  %both = insertvalue { i64, i64 } %one, i64 %second, 1
  ret { i64, i64 } %both"""
# The heap's functions as the library calls them: the pointer is null where an allocation failed.
HEAP = """
declare ptr @gixp_heap_take(i64)
declare ptr @gixp_heap_resize(ptr, i64, i64)
declare void @gixp_heap_give(ptr)
define { i64, i64 } @rattle_alloc(i64 %n, i64 %a) {
  %p = call ptr @gixp_heap_take(i64 %n)
RESULT
}
define { i64, i64 } @rattle_realloc(ptr %at, i64 %kept, i64 %n, i64 %a) {
  %p = call ptr @gixp_heap_resize(ptr %at, i64 %kept, i64 %n)
RESULT
}
define void @rattle_dealloc(ptr %at) {
  call void @gixp_heap_give(ptr %at)
  ret void
}
""".replace("RESULT", RESULT)
HEAP_NAMES = ["rattle_alloc", "rattle_realloc", "rattle_dealloc"]


def run(*words, **more):
    subprocess.run([str(word) for word in words], check=True, **more)


def toolchain_that_copies(folder, to):
    """A toolchain folder whose clang copies the module that it compiles into a file."""
    (folder / "bin").mkdir(parents=True)
    for tool in (KIT / "toolchain" / "bin").iterdir():
        if tool.name != "clang":
            (folder / "bin" / tool.name).symlink_to(tool.resolve())
    (folder / "lib").symlink_to(KIT / "toolchain" / "lib")
    clang = folder / "bin" / "clang"
    clang.write_text('#!/bin/bash\ncase " $* " in *" module.bc "*) cp module.bc "%s" ;; esac\nexec -a "$0" "%s" "$@"\n' % (to, CLANG))
    clang.chmod(0o755)
    return folder


def proved_module(folder):
    """Proves gixp_web, and returns the file of its LLVM module."""
    sys.path.insert(0, str(KIT / "bin"))
    import rtlib

    crate = rtlib.Crate(str(TOP / "crates" / "gixp_web"), str(TOP), {})
    (Path(crate.folder) / "out").mkdir(exist_ok=True)
    module = folder / "proved.bc"
    toolchain = toolchain_that_copies(folder / "toolchain", module)
    words = [*crate.words(["--jobs", "1"], keeps=False), "--toolchain", str(toolchain), "--backend", "llvm"]
    run(rtlib.RATTLE, "build", *words, "-o", "out/libgixp_web.a", cwd=crate.folder)
    return module


def for_web(text):
    """The LLVM module as text, for WebAssembly."""
    lines = []
    for line in text.splitlines():
        if line.startswith("target datalayout"):
            line = LAYOUT
        elif line.startswith("target triple"):
            line = 'target triple = "wasm64-unknown-unknown"'
        elif line.startswith("attributes #"):
            line = OF_X86.sub("", line).replace("{ }", "{ nounwind }")
        elif line.startswith("declare") and any("@%s(" % name in line for name in HEAP_NAMES):
            continue
        lines.append(SMALL.sub(r"\1 optsize\2", line))
    return "\n".join(lines) + HEAP


def unproved_exports(text):
    """The module of a program that calls the exports, with its exports as a static library's: for development alone."""
    for name in EXPORTS:
        text = re.sub(r'define internal (.*?)@"[\w:]+::%s"\(' % name, r"define \1@%s(" % name, text)
        text = re.sub(r'@"[\w:]+::%s"' % name, "@" + name, text)
    return text


def link(folder, objects, to):
    flags = ["-flavor", "wasm", "-mwasm64", "--no-entry", "--stack-first", "-z", "stack-size=%d" % STACK, "--gc-sections", "--strip-all",
             "--threads=1", "--export=gixp_scratch", *["--export=" + name for name in EXPORTS]]
    run("ld.lld", *flags, "-o", to, *objects, executable=str(CLANG), cwd=folder)


def build(module, folder, unproved):
    """Compiles an LLVM module for WebAssembly, and links it with the heap."""
    text = folder / "module.ll"
    run(CLANG, "-x", "ir", module, "-S", "-emit-llvm", "-Xclang", "-disable-llvm-passes", "-o", text)
    said = text.read_text()
    text.write_text(for_web(unproved_exports(said) if unproved else said))
    common = [CLANG, *TARGET, "-O3", "--no-default-config", "-ffunction-sections", "-fdata-sections"]
    run(*common, *SIMD, "-Wno-override-module", "-c", "-x", "ir", text, "-o", folder / "module.o")
    run(*common, "-ffreestanding", "-nostdinc", "-Wall", "-Wextra", "-Werror", "-c", TOP / "bindings/js/heap.c", "-o", folder / "heap.o")
    BUILD.mkdir(parents=True, exist_ok=True)
    made = folder / "gixp.wasm"
    link(folder, [folder / "module.o", folder / "heap.o"], made)
    shutil.copyfile(made, BUILD / "gixp.wasm")


def main():
    words = argparse.ArgumentParser(description=__doc__, formatter_class=argparse.RawDescriptionHelpFormatter)
    words.add_argument("--keep", type=Path)
    words.add_argument("--module", type=Path)
    words = words.parse_args()
    with tempfile.TemporaryDirectory(prefix="gixp-web-") as place:
        folder = Path(place)
        module = words.module or proved_module(folder)
        if words.keep:
            shutil.copyfile(module, words.keep)
        build(module.resolve(), folder, words.module is not None)
    data = (BUILD / "gixp.wasm").read_bytes()
    print("%s: %d bytes, %d gzipped%s" % (os.path.relpath(BUILD / "gixp.wasm"), len(data), len(gzip.compress(data, 9)),
                                          ", proved=no" if words.module else ""))


if __name__ == "__main__":
    try:
        main()
    except subprocess.CalledProcessError as e:
        sys.exit("build_web_module.py: %s failed with status %d" % (Path(str(e.cmd[0])).name, e.returncode))
