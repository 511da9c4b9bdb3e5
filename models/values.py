"""Values as text, as the line of a test vector has them."""
from itertools import groupby

from definitions import unpack

LONGEST_RUN = 64


def runs_of(items):
    """Each run of equal items: the item, and how often it repeats."""
    return [(item, len(list(run))) for item, run in groupby(items)]


def escaped(b):
    """Bytes as plain letters, others as two digits after a backslash, a long run of one byte as `x\\*N;`."""
    out = ""
    for byte, count in runs_of(b):
        one = chr(byte) if 32 < byte < 127 and byte not in (92, 39) else "\\%02x" % byte
        out += "%s\\*%d;" % (one, count) if count > LONGEST_RUN else one * count
    return out


def quoted(b):
    return "'" + escaped(b) + "'"


def id_digits(i):
    return i.hex()


def ref_words(r):
    name, target, peeled = unpack(r)
    tail = "0" if target is None else "1" if peeled is None else "2"
    if r[0] == "Direct":
        t = "D:" + id_digits(r[2]) + quoted(r[1])
    elif r[0] == "Peeled":
        t = "P:" + id_digits(r[2]) + ":" + id_digits(r[3]) + quoted(r[1])
    elif r[0] == "Symbolic":
        t = "S:" + (id_digits(r[3]) if r[3] is not None else "-") + ":" + id_digits(r[4]) + quoted(r[1]) + quoted(r[2])
    else:
        t = "U:" + quoted(r[1]) + quoted(r[2])
    return t + tail + " "


def ack_words(a):
    return ("C" + id_digits(a[1]) if a[0] == "Common" else a[0][0]) + " "


def update_words(u):
    return ("+" if u[0] == "Shallow" else "-") + id_digits(u[1]) + " "


def answer_words(a):
    return "acks " + "".join(map(ack_words, a["acks"])) + "shallow " + "".join(map(update_words, a["shallows"])) + "wanted " \
        + "".join(id_digits(i) + quoted(p) + " " for i, p in a["wanted"]) + ("pack " if a["pack"] else "nopack ")


def source_words(source):
    return quoted(source[1]) if source[0] == "FullName" else id_digits(source[1])


def conflicts_text(conflicts):
    return "".join("%s<%s<%s;" % (quoted(local), "".join(map(quoted, specs)), "".join(map(source_words, sources)))
                   for local, sources, specs in conflicts)


def messages_text(texts):
    return quoted("".join("[%d:%s]" % (3 if e else 2, quoted(t)) for e, t in texts).encode())


def runs(results, first):
    """The results of consecutive offsets. Equal ones are shown once, after their first and last offset."""
    out, at = "", first
    for result, count in runs_of(results):
        out += "%d%s: %s " % (at, "-%d" % (at + count - 1) if count > 1 else "", result)
        at += count
    return out
