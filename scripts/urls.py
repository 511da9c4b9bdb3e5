#!/usr/bin/env python3
"""Makes the test vectors of URLs, and records what git reads in each URL.

Usage: urls.py [--check]

Writes crates/gixp_replay/data/urls, a test vector for each URL, and models/urls.tsv, a line for each: the URL, and git's answer, with
tabs between its parts. The answer is the protocol, the host, the port (NONE) and the path that `git fetch-pack --diag-url` prints,
and `password` where git finds one (git-config, "transfer.credentialsInUrl"). It is `refused` where git finds no protocol, or where
`git ls-remote` refuses the URL. For a web server git reads the scheme alone and passes the URL to a program: the path is what that
program is given.
`--check` writes nothing. The status is 1 where a file isn't as it would be written.
"""
import argparse
import subprocess
import sys
import tempfile
from pathlib import Path

TOP = Path(__file__).resolve().parent.parent
VECTORS = TOP / "crates" / "gixp_replay" / "data" / "urls"
ANSWERS = TOP / "models" / "urls.tsv"
HOSTS = [
    "host", "u@host", "host:22", "u@host:22", "host:", "host:abc", "host:65535", "host:65536", "host:000022", "[::1]", "u@[::1]",
    "[::1]:22", "u@[::1]:22", "[::1]:", "[::1]x", "[host]", "[host:22]", "u@[host:22]", "[u@host:22]", "[::1", "a:b@host",
    "-host", "u@-host", "[-host]", "-u@host", "1.2.3.4:9",
]
URLS = [
    "/a/b", "./a", "../a", "a", "a/b", "sub/a:b", "/a:b", "./a:b", "a%20b", "/a%20b", "file:///a/b", "file://localhost/a",
    "file:///a%20b", "file:///a%2fb", "file:///a%zz", "file:///a%00b", "file:///a%2", "file:///%41%62%3a", "file:///~u/a",
    "file://", "file:a", "file:/a", "host:a", "host:/a", "host:~/a", "host:~u/a", "host:/~u/a", "host:a~b", "host:a:b", "host:",
    "u@host:a", "u@host:a%20b", "[::1]:a", "u@[::1]:/a", "[host:22]:a", "u@[host:22]:~a", "ssh://host", "ssh://host/",
    "ssh://host/~", "ssh://host/~u/a", "ssh://host/a/~u", "ssh://host/a:b", "ssh://host/a%20b%7e", "ssh://ho%73t/a",
    "git://host", "git://host/", "git://host/~u", "git://host:1/a", "git+ssh://host/a", "ssh+git://host/a", "foo://host/a",
    "FILE:///a", "http://host/a", "://a", "a://b", "/a://b", "host:a://b", "+ssh://host/a", "s_sh://host/a", "host:-a",
    "--upload-pack=x:a", "https://host/a", "https://u:p@host:1/a%20b", "http://", "HTTP://host/a", "http:a", "http:/a",
    "https://-host/a", "httpx://host/a", "http://u:p@host/a", "http://u:@host/a", "http://:p@host/a", "http://u@host:80/a",
    "http://host/u:p@x", "http://host?u:p@x", "http://host#u:p@x", "http://u%3ap@host/a", "ssh://u:p@host/a", "git://u:p@host/a",
    "file://u:p@host/a", "u:p@host:a",
]


def is_blocked(url, room):
    """Whether git would read the host or the path as an option."""
    variables = {"PATH": "/usr/bin:/bin", "GIT_SSH_COMMAND": "false", "GIT_SSH_VARIANT": "ssh"}
    asked = subprocess.run(["git", "ls-remote", "--", url], cwd=room, capture_output=True, text=True, env=variables)
    return "blocked" in asked.stderr


def web_reading(url, room):
    """The scheme and the URL that git passes to the program for a web server, or nothing."""
    answer = Path(room) / "answer"
    answer.write_text("")
    for scheme in ("http", "https"):
        program = Path(room) / f"git-remote-{scheme}"
        program.write_text(f'#!/bin/sh\nprintf "{scheme}\\t\\tNONE\\t%s" "$2" > "{answer}"\n')
        program.chmod(0o755)
    variables = {"PATH": "/usr/bin:/bin", "GIT_EXEC_PATH": room, "GIT_SSH_COMMAND": "false", "GIT_SSH_VARIANT": "ssh"}
    subprocess.run(["git", "ls-remote", "--", url], cwd=room, capture_output=True, env=variables, check=False)
    return answer.read_text()


def has_password(url, room):
    """Whether git finds a password in the URL."""
    words = "-c", "transfer.credentialsInUrl=die", "-c", f"remote.x.url={url}", "remote", "get-url", "x"
    return "plaintext credentials" in subprocess.run(["git", *words], cwd=room, capture_output=True, text=True).stderr


def reading(url, room):
    read = reading_alone(url, room)
    return f"{read}\tpassword" if read != "refused" and has_password(url, room) else read


def reading_alone(url, room):
    if url.lower().startswith("http") and (found := web_reading(url, room)):
        return found
    ran = subprocess.run(["git", "fetch-pack", "--diag-url", url], cwd=room, capture_output=True, text=True)
    found = dict(line.removeprefix("Diag: ").split("=", 1) for line in ran.stdout.splitlines() if line.startswith("Diag: "))
    if "protocol" not in found:
        return "refused"
    if found["protocol"] == "ssh" and is_blocked(url, room):
        return "refused"
    host = found.get("userandhost", found.get("hostandport"))
    return "\t".join([found["protocol"], host, found.get("port", "NONE"), found["path"]])


def vector(number, url):
    """The test vector of a URL; a backslash is one by its number."""
    escaped = url.replace("\\", "\\5c")
    return f"url/{number} url\n|{escaped}\\\n"


def main():
    parser = argparse.ArgumentParser(description=__doc__.splitlines()[0])
    parser.add_argument("--check", action="store_true", help="write nothing, and compare")
    checks = parser.parse_args().check
    before_colon = [host for host in HOSTS if ":" not in host or host.startswith("[")]
    urls = [*URLS, *(f"ssh://{host}/a" for host in HOSTS), *(f"{host}:a" for host in before_colon),
            *(f"git://{host}/a" for host in HOSTS if "-" not in host)]
    # git takes a word that begins with a dash for an option
    urls = [url for url in dict.fromkeys(urls) if not url.startswith("-")]
    with tempfile.TemporaryDirectory() as room:
        subprocess.run(["git", "init", "-q", room], check=True)
        answers = [reading(url, room) for url in urls]
    status = 0
    for path, text in ((VECTORS, "\n".join(vector(number, url) for number, url in enumerate(urls, 1))),
                       (ANSWERS, "".join(f"{url}\t{answer}\n" for url, answer in zip(urls, answers)))):
        if checks and path.read_text() != text:
            print(f"{path.relative_to(TOP)} isn't as git answers")
            status = 1
        elif not checks:
            path.write_text(text)
    return status


if __name__ == "__main__":
    sys.exit(main())
