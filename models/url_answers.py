"""What git reads in URLs. git is the reference implementation: scripts/urls.py records its answers in urls.tsv."""
from pathlib import Path

from vectors import Unreadable
from values import quoted

ANSWERS = dict(line.split("\t", 1) for line in (Path(__file__).parent / "urls.tsv").read_text().splitlines())


def url_vector(vector):
    url = vector.data.decode("ascii")
    if url not in ANSWERS:
        raise Unreadable("git's answer isn't in models/urls.tsv")
    if ANSWERS[url] == "refused":
        return "refused"
    scheme, host, port, path, *password = ANSWERS[url].split("\t")
    return " ".join([scheme, quoted(host.encode()), port, quoted(path.encode()), *password])
