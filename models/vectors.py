"""The test vectors of gixp_replay. Its README describes them."""
import re

from definitions import MAX

OVER, NO_YES = ("bodies", "connection"), ("no", "yes")
# The settings of each mode: its allowed words (None: a number), and its default.
SETTINGS = {
    "lines": dict(version=(None, 2)),
    "bands": {"version": (None, 2), "interrupt-at": (None, MAX), "memory-at": (None, MAX)},
    "refs": dict(version=(None, 2), refs=(("all", "each"), "all")),
    "handshake": dict(over=(OVER, "bodies"), version=(None, 2)),
    "places": dict(each=(("beginning", "size"), "beginning"), version=(None, 2)),
    "opening": dict(version=(None, 2), service=(("git-upload-pack", "git-receive-pack"), "git-upload-pack"),
                    host=(NO_YES, "no"), letters=(None, 0)),
    "answer": dict(version=(None, 2), pack=(NO_YES, "no"), negotiates=(NO_YES, "no"), bands=(NO_YES, "no"),
                   over=(("reader", "connection", "body"), "reader"), lines=(None, 0)),
    "pack": {"version": (None, 2), "limit": (None, MAX), "reads": (None, 0), "interrupt-at": (None, MAX),
             "memory-at": (None, MAX)},
    "capabilities": dict(form=(("line", "lines"), "line")),
    "answer-line": {}, "agent": {},
    "boundary": dict(call=(("read", "write"), "read")),
    "requests": dict(version=(None, 2), over=(OVER, "bodies")),
    "session": {"over": (OVER, "bodies"), "version": (None, 2), "done-at": (None, 1), "reads": (None, 0)},
    "refspec": {}, "ref-name": {}, "prefixes": {}, "matches": {}, "url": {},
    "ref-map": dict(prefixes=(NO_YES, "no"), tags=(NO_YES, "no"), filters=(NO_YES, "no")),
    "account": dict(over=(OVER, "bodies"), version=(None, 2),
                    accepts=(("any", "0", "1", "0,1", "2", "0,2", "1,2", "0,1,2"), "any")),
    "listing": dict(over=(OVER, "bodies"), version=(None, 2),
                    by=(("obtain", "prepare", "prepare-all", "prepare-twice"), "obtain"),
                    without=(("nothing", "unborn", "ref-prefix", "agent"), "nothing"), letters=(None, 0)),
    "progress": dict(error=(NO_YES, "no")),
    "fetch": dict(over=(OVER, "bodies"), version=(None, 2), cut=(("nowhere", "each"), "nowhere")),
    "negotiation": {"shallow": (("no", "depth", "deepen", "since", "exclude"), "no"), "by": (None, 0),
                    "tags": (("all", "included", "none"), "none"), "over": (("bodies", "bodies-1", "connection"), "bodies"),
                    "ref-in-want": (NO_YES, "no"), "offer-fails": (None, 0)},
    "plan": dict(refspecs=(None, 1), room=(None, 0), denied=(None, 0)),
}
EACH = {"pieces": (None, 0), "random-pieces": (None, 0), "fail-at": (None, 0),
        "fail-as": (("interrupted", "timed-out", "denied"), "interrupted"), "again": (None, 0), "from": (None, 0),
        "halves": (NO_YES[:1] + ("each",), "no")}


class Unreadable(Exception):
    """The text doesn't parse as a test vector, or its mode doesn't know a word of its bytes."""


class TestVector:
    def __init__(self, name, mode, values, data):
        self.name, self.mode, self.values, self.data = name, mode, values, data

    def __getitem__(self, setting):
        return self.values[setting]


def bytes_of(lines):
    """The bytes of lines from which the `|` was removed."""
    out = bytearray()
    for line in lines:
        at = 0
        while at < len(line):
            if line[at] != "\\":
                out += line[at].encode()
                at += 1
            elif at + 1 == len(line):
                break
            elif line[at + 1] == "*":
                times = re.match("([0-9]+);", line[at + 2:])
                if not times or not out:
                    raise Unreadable("an escape without a byte or an end")
                out += out[-1:] * (int(times.group(1)) - 1)
                at += 2 + times.end()
            else:
                if not re.fullmatch("[0-9a-f]{2}", line[at + 1:at + 3]):
                    raise Unreadable("an escape without a byte or an end")
                out.append(int(line[at + 1:at + 3], 16))
                at += 3
        else:
            out += b"\n"
    return bytes(out)


def vector_of(head, lines):
    words = head.split("#")[0].split()
    if head.startswith("|"):
        raise Unreadable("bytes that belong to no vector")
    if len(words) < 2 or words[1] not in SETTINGS:
        raise Unreadable("there is no mode of this name")
    known = dict(SETTINGS[words[1]])
    for name, setting in EACH.items():
        known.setdefault(name, setting)
    values = {name: default for name, (_, default) in known.items()}
    for word in words[2:]:
        name, _, value = word.partition("=")
        if name not in known:
            raise Unreadable("its mode doesn't have this setting")
        allowed = known[name][0]
        if not (value in allowed if allowed else re.fullmatch("[0-9]+", value)):
            raise Unreadable("the setting doesn't have this value")
        values[name] = value if allowed else int(value)
    data = bytes_of(lines)
    return TestVector(words[0], words[1], values, data + data[values["from"]:] * values["again"])


def texts_of(text):
    """Yields the head of each test vector, and its lines of bytes without their `|`."""
    lines = text.split("\n")
    at = 0
    while at < len(lines):
        head = lines[at]
        at += 1
        if head == "" or head.startswith("#"):
            continue
        body = []
        while at < len(lines) and lines[at].startswith("|"):
            body.append(lines[at][1:])
            at += 1
        yield head, body


def read(path):
    """The test vectors of a file, up to an unreadable one -> (test vectors, its error as the program prints it, or None)."""
    vectors = []
    for number, (head, lines) in enumerate(texts_of(open(path, encoding="ascii").read()), 1):
        try:
            vectors.append(vector_of(head, lines))
        except Unreadable as e:
            return vectors, "test vector %d (%s): %s" % (number, head.split(" ")[0], e)
    return vectors, None
