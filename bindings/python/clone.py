#!/usr/bin/env python3
"""Clones a repository over HTTP or HTTPS: clone.py URL FOLDER [DEPTH]. It needs git and the library."""
import pathlib
import subprocess
import sys
import urllib.error
import urllib.request

import gixp

SPECS = [b"+refs/heads/*:refs/remotes/origin/*", b"+refs/tags/*:refs/tags/*"]


def ask(url, request=None):
    """Requests the server's advertisement, or sends a request. Returns the response, which the caller reads."""
    headers = {"Git-Protocol": "version=2"}
    if request is None:
        url += "/info/refs?service=git-upload-pack"
    else:
        url += "/git-upload-pack"
        headers["Content-Type"] = "application/x-git-upload-pack-request"
    return urllib.request.urlopen(urllib.request.Request(url, request, headers))


def receive(folder, pieces):
    """Passes the pack to git, and shows the progress."""
    index = ["git", "-C", folder, "index-pack", "--stdin", "--fix-thin"]
    git = subprocess.Popen(index, stdin=subprocess.PIPE, stdout=subprocess.DEVNULL)
    size, said = 0, ""
    for piece in pieces:
        if piece.band is gixp.Band.CONTENT:
            git.stdin.write(piece.text)
            size += len(piece.text)
        else:
            said = piece.text.decode("utf-8", "replace").split("\r")[-1]
        if piece.band is gixp.Band.ERROR:
            sys.exit("remote: " + said)
        print("\r%9d KiB  %-60.60s" % (size >> 10, said), end="", file=sys.stderr)
    print(file=sys.stderr)
    git.stdin.close()
    if git.wait():
        sys.exit("the pack isn't whole")


def write_refs(folder, refs):
    """Writes the server's branches as remote-tracking branches of `origin`, and its tags."""
    lines = [b"update %s %s\n" % (ref.name.replace(b"refs/heads/", b"refs/remotes/origin/", 1), ref.id.hex().encode())
             for ref in refs if ref.id and ref.name.startswith((b"refs/heads/", b"refs/tags/"))]
    subprocess.run(["git", "-C", folder, "update-ref", "--stdin"], input=b"".join(lines), check=True)


def write_boundary(folder, ids):
    """Writes the shallow boundary. The repository has no other objects, so also a shallow server's own boundary is right."""
    if ids:
        pathlib.Path(folder, ".git/shallow").write_text("".join(id.hex() + "\n" for id in ids))


def main(url, folder, depth="0"):
    subprocess.run(["git", "init", "-q", "--object-format=sha1", folder], check=True)
    session = gixp.Session(SPECS, depth=int(depth))
    session.answer(gixp.without_service(ask(url).read()))
    step, answer = session.step(), None
    while isinstance(step, gixp.Request):
        answer = ask(url, step.data)
        step = session.read_step(answer.read)
    if isinstance(step, gixp.Pack):
        receive(folder, gixp.read_pieces(session.answers[-1], step.place, answer.read))
        write_boundary(folder, step.boundary)
        write_refs(folder, gixp.refs(session.answers[1]))


if __name__ == "__main__":
    if len(sys.argv) not in (3, 4):
        sys.exit(__doc__)
    try:
        main(sys.argv[1].rstrip("/"), *sys.argv[2:])
    except (gixp.GixpError, urllib.error.URLError) as e:
        sys.exit("clone.py: %s" % e)
