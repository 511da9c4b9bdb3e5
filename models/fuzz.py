"""Compares definitions with a second reading of each, step by step, over all short inputs and some random ones.

python3 models/fuzz.py    prints a line for each definition, in some 20 s. The status is 1 if any input differs"""
import heapq
import itertools
import random
import sys

from definitions import (A, Arguments, B, BLANK, C, GIT, IA, Err, all_prefixes, all_rounds, complete_set, cutoff_of, frame, id_of,
                         id_text, ids, is_id, kind_of_v1_line, mappings_of, refspec_of, symref_table, trim, v1_answer, v1_ref_list,
                         validated)

REF_LINES = [A + b" t", A + b" u", B + b" t^{}", B + b" u^{}", b"zz t^{}", b"shallow " + C, b"shallow zz", b"0 capabilities^{}",
             b"zz t", b"nothing", A + b" HEAD", B + b" HEAD^{}", A + b" N", B + b" N^{}", B + b" capabilities^{}"]
CAPABILITIES = [(b"symref", b"HEAD:refs/heads/m"), (b"symref", b"N:(null)")]
ANSWER_ITEMS = [("line", b"NAK\n"), ("line", b"ACK " + A), ("line", b"ready"), ("line", b"shallow " + B), ("line", b"\x01P"),
                ("line", b"NAK \xff"), ("stop", "Flush")]
SPECS = [b"HEAD", b"m", b"refs/heads/m", b"refs/heads/*:refs/r/*", b"refs/heads/*:o/*", b"*:x*", b"^refs/heads/m", A, b"m:x",
         b"+t:tags/t"]
NAMES = [b"HEAD", b"m", b"refs/m", b"refs/heads/m", b"refs/tags/m", b"refs/remotes/m/HEAD", b"refs/notes/m", b"refs/heads/HEAD"]


def sequential_v1(lines, caps):
    table = symref_table(caps)
    names = [n for n, _ in table]
    refs, ups = [], []                     # refs: [value, is_plain_direct_candidate]
    for line in lines:
        t = trim(line)
        left, blank, path = t.partition(BLANK)
        if not blank or not path:
            raise Err("MalformedV1RefLine", t)
        if path.endswith(b"^{}"):
            base = path[:-3]
            if set(left) <= {48} and base == b"capabilities":
                continue
            if not refs or not refs[-1][1]:
                raise Err("InvariantViolation", "preceded")
            if refs[-1][0][1] != base:
                raise Err("InvariantViolation", "same base")
            i = id_of(left)
            refs[-1] = [("Peeled", base, refs[-1][0][2], i), False]
        elif is_id(left):
            first = next((x for n, x in table if n == path), None)
            refs.append([("Symbolic", path, first, None, id_of(left)), False] if first is not None
                        else [("Direct", path, id_of(left)), path not in names])
        elif left == b"shallow":
            ups.append(("Shallow", id_of(path)))
        else:
            id_of(left)
    return [r for r, _ in refs], ups


def loop_v1_answer(items, error, expects, negotiates):
    acks, shallows, ready, at, stop_before = [], [], False, 0, False
    while True:
        if at == len(items):
            if error.name == "Io" and not stop_before:
                return dict(acks=acks, shallows=shallows, wanted=[], pack=False), at
            raise error
        if items[at][0] == "stop":
            if stop_before:
                return dict(acks=acks, shallows=shallows, wanted=[], pack=False), at + 1
            stop_before, at = True, at + 1
            continue
        stop_before = False
        kind, v = kind_of_v1_line(items[at][1])
        if kind == "other":
            return dict(acks=acks, shallows=shallows, wanted=[], pack=True), at
        at += 1
        if kind == "shallow":
            shallows.append(v)
            continue
        if not (v[0] == "Common" and v in acks):
            acks.append(v)
        if v == ("Nak",) and negotiates and not (expects and ready):
            return dict(acks=acks, shallows=shallows, wanted=[], pack=False), at
        ready |= v == ("Ready",)


def got(f, *a):
    try:
        return f(*a)
    except Err as e:
        return (e.name,) + (e.rest[:1] if e.name != "InvariantViolation" else ())


def sequences(parts, most):
    """All sequences of at most so many parts."""
    for length in range(most + 1):
        yield from map(list, itertools.product(parts, repeat=length))


def compared(name, pairs):
    """Counts the inputs for which two readings differ, and prints the first."""
    count = differ = 0
    for given, one, other in pairs:
        count += 1
        if one != other:
            differ += 1
            if differ < 5:
                print(name, given, one, other)
    print(f"{name}: {count} inputs, {differ} differ", flush=True)
    return differ


def refs():
    for lines in sequences(REF_LINES, 4):
        yield lines, got(v1_ref_list, lines, CAPABILITIES), got(sequential_v1, lines, CAPABILITIES)


def answers():
    for items in sequences(ANSWER_ITEMS, 5):
        for error in (Err("Io", "UnexpectedEof"), Err("Server", b"m")):
            for expects, negotiates in itertools.product((False, True), repeat=2):
                given = items, error, expects, negotiates
                yield given, got(v1_answer, *given), got(loop_v1_answer, *given)


def without_remotes(mapped):
    """Mappings without the index of their ref, which changes if refs are left out."""
    is_error = isinstance(mapped, tuple) and mapped and isinstance(mapped[0], str)
    return mapped if is_error else ([one[1:] for one in mapped[0]], mapped[1])


def prefixes():
    """Leaving out refs without one of the prefixes changes nothing."""
    for texts in sequences(SPECS, 3):
        if texts:
            specs = [refspec_of(text) for text in texts]
            wanted = all_prefixes(specs)
            kept = [name for name in NAMES if any(name.startswith(prefix) for prefix in wanted)]
            yield texts, *(without_remotes(got(lambda: validated(mappings_of(specs, names), specs))) for names in (NAMES, kept))


def walk(commits, tips, cutoff):
    marked, queue = set(), []
    for t in tips:
        if t in commits and t not in marked:
            marked.add(t)
            heapq.heappush(queue, (-commits[t][0], t))
    while cutoff is not None and queue and -queue[0][0] >= cutoff:
        for p in commits[heapq.heappop(queue)[1]][1]:
            if p in commits and p not in marked:
                marked.add(p)
                heapq.heappush(queue, (-commits[p][0], p))
    return marked


def walks(rng):
    """The least set of complete commits, compared with a walk from the newest commit."""
    for _ in range(20000):
        n = rng.randrange(1, 8)
        commits = {k: (rng.randrange(-3, 6), [rng.randrange(n + 2) for _ in range(rng.randrange(3))])
                   for k in range(n) if rng.random() < .9}
        tips = [rng.randrange(n + 2) for _ in range(rng.randrange(3))]
        cut = cutoff_of(commits, [rng.randrange(n + 2) for _ in range(rng.randrange(3))])
        yield (commits, tips, cut), complete_set(commits, tips, cut), walk(commits, tips, cut)


def random_answer(rng, version, pool):
    end = b"" if version == 2 else b" common"
    acks = b"".join(frame(b"ACK " + id_text(rng.choice(pool)) + end) for _ in range(rng.randrange(2)))
    return (b"0014acknowledgments\n" if version == 2 else b"") + acks + b"0008NAK\n" + (b"0000" if version == 2 else b"")


def rounds(rng):
    """The bound on rounds, for random responses."""
    for _ in range(3000):
        n, pool = rng.randrange(0, 1200), ids(6)
        version, persists = rng.choice([(2, False), (2, True), (1, False), (1, True)])
        said = [random_answer(rng, version, pool) for _ in range(80)]
        args = Arguments(GIT, version, [])
        args.want(IA)
        _, found, requests, _ = all_rounds(version, persists, ids(n), b"".join(said) if persists else said, args)
        sent, windows = sum(r[0] for r in found), sum(r[2] for r in found[:-1])
        yield (n, version, persists), sent <= n and windows <= n and len(requests) <= n // 16 + 1, True


def main():
    rng = random.Random(7)
    return sum([compared("refs of versions 0 and 1, line by line", refs()),
                compared("answers of versions 0 and 1, line by line", answers()),
                compared("refs that no prefix begins left out", prefixes()), compared("complete commits, by a walk", walks(rng)),
                compared("the bound on rounds", rounds(rng))])


if __name__ == "__main__":
    sys.exit(1 if main() else 0)
