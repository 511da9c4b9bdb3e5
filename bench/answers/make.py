#!/usr/bin/env python3
"""make.py WHAT COUNT: `answer`, an answer of versions 0 and 1 of that many different `ACK` lines in front of a pack;
`repeats`, the same with each id twice; `section`, the ids of `answer` under version 2; or `refs`, an advertisement of
that many refs behind one of 3,000 symrefs, each ref named as the last of them."""
import hashlib
import sys


def frame(line):
    return b"%04x" % (len(line) + 4) + line


def id_of(number):
    return int.from_bytes(hashlib.sha1(b"%d" % number).digest(), "big")


def main():
    what, count = sys.argv[1], int(sys.argv[2])
    out = sys.stdout.buffer
    if what == "section":
        out.write(frame(b"acknowledgments\n"))
        for number in range(count):
            out.write(frame(b"ACK %040x\n" % id_of(number)))
        out.write(frame(b"ready\n") + b"0001" + frame(b"packfile\n"))
        return
    if what in ("answer", "repeats"):
        different = count if what == "answer" else count // 2
        for number in range(count):
            out.write(frame(b"ACK %040x common\n" % id_of(number % different)))
        out.write(frame(b"PACK"))
        return
    symrefs = b" ".join(b"symref=refs/%05d:x" % number for number in range(3000))
    out.write(frame(b"0" * 40 + b" capabilities^{}\0" + symrefs + b"\n"))
    for number in range(count):
        out.write(frame(b"%040x refs/02999\n" % number))
    out.write(b"0000")


main()
