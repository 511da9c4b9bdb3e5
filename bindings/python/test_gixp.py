#!/usr/bin/env python3
"""Tests of gixp.py: the test vectors of gixp_replay against the reference implementations in models/, and a clone over HTTP from git's
own server."""
import collections
import http.server
import os
import pathlib
import shutil
import subprocess
import sys
import tempfile
import threading
import unittest

HERE = pathlib.Path(__file__).resolve().parent
TOP = HERE.parent.parent
sys.path[:0] = [str(HERE), str(HERE.parent), str(TOP / "models")]

sys.setrecursionlimit(100_000)  # definitions.py groups the lines of an advertisement by recursion

import definitions  # noqa: E402
import gixp  # noqa: E402
import vectors  # noqa: E402
from git_server import Backend, git  # noqa: E402

# The number of each error in definitions.py.
CODES = {"Io": 10, "HexDecode": 11, "DataLengthLimitExceeded": 12, "DataIsEmpty": 13, "InvalidLineLength": 14, "Server": 15,
         "UnexpectedFrame": 16, "Id": 20, "MalformedV2RefLine": 21, "UnknownAttribute": 22, "InvariantViolation": 23}


# The same for the start of an advertisement.
FIRST_CODES = {name: CODES[name] for name in CODES if name not in ("MalformedV2RefLine", "UnknownAttribute", "InvariantViolation")}
FIRST_CODES.update({"MalformedV1RefLine": 21, "InvariantViolation": 24, "MalformedSymref": 25, "MissingDelimitingNullByte": 46,
                    "UnsupportedProtocolVersion": 48})
VERSION_TWO = 47


def all_rows():
    for file in sorted((TOP / "crates/gixp_replay/data").iterdir()):
        yield from vectors.read(file)[0]


def packet(text):
    return b"%04x%s" % (len(text) + 4, text)


def read_all(call, data):
    """The results of a call for some bytes, and the number and the message of the error after them; 0 and no message without an error."""
    found = []
    try:
        found.extend(call(data))
    except gixp.GixpError as e:
        return found, e.code, e.words
    return found, 0, b""


class Refs(unittest.TestCase):
    def test_rows(self):
        """Reads each test vector as an `ls-refs` response, with the same result as definitions.py."""
        codes = collections.Counter()
        for row in all_rows():
            found, code, words = read_all(gixp.refs, row.data)
            try:
                wanted = definitions.v2_ref_list(row.data, definitions.v2_listed)
                self.assertEqual((code, [(r.name, r.id, r.peeled) for r in found]), (0, list(map(definitions.unpack, wanted))), row.name)
                self.assertEqual([r.target for r in found], [r[2] if r[0] in ("Symbolic", "Unborn") else None for r in wanted], row.name)
            except definitions.Err as e:
                self.assertEqual(code, CODES[e.rest[0] if e.name == "Decode" else e.name], row.name)
                self.assertEqual(words, e.rest[0] if e.name == "Server" else b"", row.name)
            codes[code] += 1
        self.assertTrue(all(codes[code] for code in CODES.values()), codes)

    def test_malformed_packets(self):
        ref = packet(b"%040x HEAD\n" % 1)
        for bad, code in [(b"zzzz", 11), (b"fff1" + b"x" * 10, 12), (b"0004", 13), (b"0003", 14), (packet(b"ERR no\n"), 15),
                          (b"0002", 16), (b"", 10), (b"00", 10), (b"0032abc", 10), (packet(b"x y\n"), 20),
                          (packet(b"%040x\n" % 1), 21), (packet(b"%040x a b:c\n" % 1), 22), (packet(b"unborn a\n"), 23)]:
            with self.subTest(bad=bad):
                found = []
                with self.assertRaises(gixp.GixpError) as caught:
                    for r in gixp.refs(ref + bad):
                        found.append(r)
                self.assertEqual((caught.exception.code, [r.name for r in found]), (code, [b"HEAD"]))
                self.assertEqual(caught.exception.words, b"no" if code == 15 else b"")
                self.assertTrue(str(caught.exception))

    def test_beginnings(self):
        data = b"".join(packet(b"%040x refs/heads/%d\n" % (i, i)) for i in range(600)) + b"0000"
        self.assertEqual(len(list(gixp.refs(data))), 600)
        self.assertEqual(len(list(gixp.refs(data + b"rest"))), 600)
        for end in (0, 3, 100, len(data) - 1):
            with self.assertRaises(gixp.GixpError) as caught:
                list(gixp.refs(data[:end]))
            self.assertIs(caught.exception.kind, gixp.Kind.INCOMPLETE)


class Advertisements(unittest.TestCase):
    def test_rows(self):
        """Reads each test vector as an advertisement, with the same result as definitions.py."""
        codes = collections.Counter()
        for row in all_rows():
            found, code, words = read_all(gixp.advertised, row.data)
            try:
                items = definitions.items_of(row.data, 0)[0]
                if items and items[0][0] != "stop" and definitions.trim(items[0][1]) == b"version 2":
                    self.assertEqual(code, VERSION_TWO, row.name)
                    codes[code] += 1
                    continue
                wanted = definitions.advertisement(row.data, definitions.v1_listed_class)["refs"]
                self.assertEqual((code, [(r.name, r.id, r.peeled) for r in found]), (0, list(map(definitions.unpack, wanted))), row.name)
                self.assertEqual([r.target for r in found], [r[2] if r[0] == "Symbolic" else None for r in wanted], row.name)
            except definitions.Err as e:
                self.assertEqual(code, FIRST_CODES[e.rest[0] if e.name == "Decode" else e.name], row.name)
                self.assertEqual(words, e.rest[0] if e.name == "Server" else b"", row.name)
            codes[code] += 1
        self.assertTrue(all(codes[code] for code in [0, VERSION_TWO, *FIRST_CODES.values()]), codes)


class Pieces(unittest.TestCase):
    def test_bands(self):
        data = packet(b"\1PACK") + packet(b"\2half\n") + packet(b"\1") + packet(b"\3bad") + b"0000rest"
        found = [(p.band, p.text) for p in gixp.pieces(data)]
        band = gixp.Band
        self.assertEqual(found, [(band.CONTENT, b"PACK"), (band.PROGRESS, b"half"), (band.CONTENT, b""), (band.ERROR, b"bad")])
        cut = iter([data[10:20], data[20:]])
        self.assertEqual([(p.band, p.text) for p in gixp.read_pieces(data[:10], 0, lambda n: next(cut, b""))], found)
        for place in (-1, len(data) + 1, 2 ** 70):
            with self.assertRaises(gixp.GixpError):
                gixp.piece(data, place)
        with self.assertRaises(gixp.GixpError) as caught:
            gixp.piece(packet(b"\4x"), 0)
        self.assertIs(caught.exception.kind, gixp.Kind.UNKNOWN_BAND)


def payloads(data):
    """The lines of a request, without flush and delimiter packets."""
    found, at = [], 0
    while at < len(data):
        size = int(data[at:at + 4], 16)
        if size > 4:
            found.append(data[at + 4:at + size].rstrip(b"\n"))
        at += max(size, 4)
    return found


class Sessions(unittest.TestCase):
    greeting = packet(b"version 2\n") + packet(b"ls-refs=unborn\n") + packet(b"fetch=shallow\n") + b"0000"
    listed = packet(b"%040x refs/heads/main\n" % 5) + b"0000"
    advertised = packet(b"%040x HEAD\0multi_ack_detailed side-band-64k\n" % 5) + listed

    def session(self, *answers, **more):
        session = gixp.Session([b"refs/heads/*:refs/remotes/o/*"], **more)
        for answer in answers:
            session.answer(answer)
        return session

    def code(self, *answers, **more):
        with self.assertRaises(gixp.GixpError) as caught:
            self.session(*answers, **more).step()
        return caught.exception.code

    def test_steps(self):
        step = self.session(self.greeting).step()
        self.assertTrue(step.data.startswith(b"0014command=ls-refs\n"))
        step = self.session(self.greeting, self.listed, haves=[b"\7" * 20]).step()
        self.assertIn(b"want %040x" % 5, step.data)
        self.assertIn(b"have " + b"07" * 20, step.data)
        self.assertIn(b"deepen 3", self.session(self.greeting, self.listed, depth=3).step().data)
        pack = packet(b"packfile\n") + packet(b"\1PACK") + b"0000"
        for end in (len(pack), 13, 20):
            step = self.session(self.greeting, self.listed, pack[:end]).step()
            self.assertEqual(step, gixp.Pack(13))
        self.assertEqual(self.session(self.greeting, b"0000").step(), gixp.Nothing())
        self.assertEqual(self.session(self.greeting, self.listed, haves=[bytes(19) + b"\5"]).step(), gixp.Nothing())

    def test_beginnings(self):
        """Each proper prefix of a response is reported as incomplete."""
        pack = packet(b"acknowledgments\n") + packet(b"NAK\n") + packet(b"ready\n") + b"0001" + packet(b"packfile\n")
        for before, answer in [((), self.greeting), ((), self.advertised), ((), packet(b"version 1\n") + self.advertised),
                               ((self.greeting,), self.listed), ((self.greeting, self.listed), pack)]:
            for end in range(len(answer)):
                self.assertEqual(self.code(*before, answer[:end], haves=[b"\7" * 20]), 10, answer[:end])
            self.session(*before, answer, haves=[b"\7" * 20]).step()

    def test_refused(self):
        self.assertEqual(self.code(), 30)
        self.assertEqual(self.code(self.greeting, b"0000", b"0000"), 31)
        self.assertEqual(self.code(self.greeting, haves=[b"short"]), 3)
        self.assertEqual(self.code(self.greeting, shallow=[b"short"]), 3)
        self.assertEqual(self.code(b""), 10)
        self.assertEqual(self.code(self.greeting[:-4]), 10)
        self.assertEqual(self.code(b"<html>"), 43)
        self.assertEqual(self.code(self.greeting, self.listed[:-4] + b"0001"), 53)
        self.assertEqual(self.code(self.greeting, self.listed, packet(b"packfile\n")[:5]), 10)
        session = gixp.Session([b"a:b:c"])
        session.answer(self.greeting)
        with self.assertRaises(gixp.GixpError) as caught:
            session.step()
        self.assertIs(caught.exception.kind, gixp.Kind.BAD_SPEC)
        with self.assertRaises(gixp.GixpError) as caught:
            self.session(self.greeting, packet(b"ERR go away\n")).step()
        self.assertEqual((caught.exception.code, caught.exception.words), (15, b"go away"))


    def test_white_space(self):
        """A list of refs with a name that ends in white space outside ASCII is refused, and ASCII blanks at its end are ignored."""
        for end, code in ((b"\xc2\xa0\n", 21), (b"\xe3\x80\x80", 21), (b"\xc2\x85\t\n", 21), (b" \t\r\n", 0), (b"\xc2\xa0x\n", 0)):
            line = packet(b"%040x refs/heads/x" % 5 + end)
            listed, advertised = line + b"0000", packet(b"%040x HEAD\0side-band-64k\n" % 5) + line + b"0000"
            first = packet(b"%040x HEAD" % 5 + end.rstrip(b"\n") + b"\0multi_ack_detailed side-band-64k\n") + b"0000"
            for call, data in ((gixp.refs, listed), (gixp.advertised, advertised), (gixp.advertised, first)):
                self.assertEqual(read_all(call, data)[1], code, (call, end))
            for answers in ((self.greeting, listed), (self.advertised[:-4] + line + b"0000",), (first,)):
                try:
                    self.session(*answers).step()
                    found = 0
                except gixp.GixpError as e:
                    found = e.code
                self.assertEqual(found, code, (answers, end))
        # neither the response to a fetch nor capabilities are lists of refs
        pack = packet(b"packfile\n") + packet(b"\1\xc2\xa0") + b"0000"
        self.assertEqual(self.session(self.greeting, self.listed, pack).step(), gixp.Pack(13))
        session = gixp.Session([b"%040x" % 5])
        session.answer(self.greeting)
        session.answer(pack)
        self.assertEqual(session.step(), gixp.Pack(13))
        self.session(packet(b"%040x HEAD\0multi_ack_detailed side-band-64k agent=\xc2\xa0\n" % 5) + self.listed).step()

    def test_limits(self):
        """The lines of each limit, as `git fetch` sends them (gitprotocol-pack, "Packfile Negotiation")."""
        filters = packet(b"version 2\n") + packet(b"ls-refs=unborn\n") + packet(b"fetch=shallow filter\n") + b"0000"
        rows = [(dict(depth=3), [b"deepen 3"]), (dict(deepen=2), [b"deepen 2", b"deepen-relative"]),
                (dict(since=1700000000), [b"deepen-since 1700000000"]), (dict(since=-5), [b"deepen-since -5"]),
                (dict(exclude=[b"refs/tags/v1", b"old"]), [b"deepen-not refs/tags/v1", b"deepen-not old"]),
                (dict(since=7, exclude=[b"old"]), [b"deepen-since 7", b"deepen-not old"]),
                (dict(filter=b"blob:none"), [b"filter blob:none"]),
                (dict(filter=b"tree:0", depth=1), [b"deepen 1", b"filter tree:0"]), ({}, [])]
        for more, lines in rows:
            data = self.session(filters, self.listed, **more).step().data
            found = [line for line in payloads(data) if line.startswith((b"deepen", b"filter"))]
            self.assertEqual(found, lines, more)

    def test_wants(self):
        """Each want has the id that the server listed, also if the server offers `ref-in-want` (gitprotocol-v2, "fetch")."""
        greeting = self.greeting.replace(packet(b"fetch=shallow\n"), packet(b"fetch=shallow ref-in-want filter\n"))
        wants = [line for line in payloads(self.session(greeting, self.listed).step().data) if line.startswith(b"want")]
        self.assertEqual(wants, [b"want %040x" % 5])

    def test_head(self):
        """A source that is `@` alone means `HEAD` (gitrevisions)."""
        for spec, same in ((b"@:refs/heads/x", b"HEAD:refs/heads/x"), (b"+@", b"+HEAD")):
            requests = []
            for text in (spec, same):
                session = gixp.Session([text])
                session.answer(self.greeting)
                requests.append(session.step())
                session.answer(packet(b"%040x HEAD\n" % 5) + b"0000")
                requests.append(session.step())
            self.assertEqual(requests[:2], requests[2:])
            self.assertIn(b"ref-prefix HEAD", payloads(requests[0].data))
            self.assertIn(b"want %040x" % 5, payloads(requests[1].data))

    def test_ids(self):
        """If all refspecs are ids, only the fetch is requested, as git does (git-fetch, "<refspec>")."""
        specs, pack = [b"%040x" % 5, b"+%040x:refs/heads/x" % 6], packet(b"packfile\n") + packet(b"\1PACK") + b"0000"
        session = gixp.Session(specs)
        session.answer(self.greeting)
        step = session.step()
        self.assertTrue(step.data.startswith(b"0012command=fetch\n"))
        self.assertEqual([line for line in payloads(step.data) if line.startswith(b"want")], [b"want %040x" % n for n in (5, 6)])
        session.answer(pack)
        self.assertEqual(session.step(), gixp.Pack(13))
        session.answer(b"0000")
        with self.assertRaises(gixp.GixpError) as caught:
            session.step()
        self.assertEqual(caught.exception.code, 31)
        session = gixp.Session(specs, haves=[bytes(19) + b"\5", bytes(19) + b"\6"])
        session.answer(self.greeting)
        self.assertEqual(session.step(), gixp.Nothing())
        for others in ([b"refs/heads/main"], [b"refs/heads/*:refs/x/*"], [b"@"]):
            session = gixp.Session(specs + others)
            session.answer(self.greeting)
            self.assertTrue(session.step().data.startswith(b"0014command=ls-refs\n"), others)
        session = gixp.Session(specs[:1])
        session.answer(self.advertised)
        self.assertTrue(payloads(session.step().data)[0].startswith(b"want %040x" % 5))

    def test_no_limits(self):
        """A server without a feature: nothing is requested of it that needs the feature."""
        for more in (dict(filter=b"blob:none"), dict(filter=b"tree:0", depth=1)):
            self.assertEqual(self.code(self.greeting, **more), 70)
            self.assertEqual(self.code(self.advertised, **more), 70)
        plain = self.greeting.replace(packet(b"fetch=shallow\n"), packet(b"fetch\n"))
        for more in (dict(depth=1), dict(deepen=1), dict(since=1), dict(exclude=[b"a"]), dict(shallow=[b"\7" * 20])):
            self.assertEqual(self.code(plain, self.listed, **more), 63, more)
            self.assertEqual(self.code(self.advertised, **more), 63, more)
        some = packet(b"%040x HEAD\0multi_ack_detailed side-band-64k shallow filter\n" % 5) + self.listed
        for more in (dict(deepen=1), dict(since=1), dict(exclude=[b"a"])):
            self.assertEqual(self.code(some, **more), 63, more)
        want, line, *_ = payloads(self.session(some, filter=b"tree:0").step().data)
        self.assertIn(b"filter", want.split())
        self.assertEqual(line, b"filter tree:0")
        for code, more in ((80, dict(filter=b"\xff")), (81, dict(exclude=[b"a..b"])), (81, dict(exclude=[b"a", b"", b"b"]))):
            self.assertEqual(self.code(self.greeting, **more), code)
        for more in (dict(depth=1, deepen=1), dict(depth=1, since=0), dict(deepen=0, exclude=[b"a"])):
            with self.assertRaises(gixp.GixpError) as caught:
                self.session(**more)
            self.assertEqual((caught.exception.code, caught.exception.kind), (82, gixp.Kind.BAD_LIMIT))
        for more in (dict(deepen=2 ** 32), dict(deepen=-1), dict(since=2 ** 63)):
            with self.assertRaises(gixp.GixpError) as caught:
                self.session(**more)
            self.assertIs(caught.exception.kind, gixp.Kind.BAD_PLACE)

    def test_boundary(self):
        """The boundary after a pack, by the lines of gitprotocol-pack ("Packfile Negotiation") and gitprotocol-v2 ("fetch")."""
        new, old = bytes(19) + b"\1", b"\7" * 20
        lines = packet(b"shallow %s" % new.hex().encode()) + packet(b"unshallow %s" % old.hex().encode())
        answer = packet(b"shallow-info\n") + lines + b"0001" + packet(b"packfile\n") + packet(b"\1PACK") + b"0000"
        for more in (dict(depth=1), dict(deepen=1), dict(since=1), dict(exclude=[b"a"]), dict(since=1, exclude=[b"a"])):
            step = self.session(self.greeting, self.listed, answer, shallow=[old], **more).step()
            self.assertEqual(step, gixp.Pack(answer.index(b"0009\1"), (new,), False), more)
        step = self.session(self.greeting, self.listed, answer, shallow=[old]).step()
        self.assertEqual((step.boundary, step.is_unasked), ((new,), True))
        plain = packet(b"packfile\n") + packet(b"\1PACK") + b"0000"
        for shallow in ([], [old], [old, new]):
            step = self.session(self.greeting, self.listed, plain, shallow=shallow, depth=1).step()
            self.assertEqual((step.boundary, step.is_unasked), (tuple(shallow), False))
        some = packet(b"%040x HEAD\0multi_ack_detailed side-band-64k shallow\n" % 5) + self.listed[:-4]
        answer = lines + b"0000" + packet(b"NAK\n") + packet(b"\1PACK") + b"0000"
        step = self.session(some + b"0000", answer, shallow=[old], depth=1).step()
        self.assertEqual(step, gixp.Pack(answer.index(b"0009\1"), (new,), False))
        step = self.session(some + packet(b"shallow %s" % new.hex().encode()) + b"0000", packet(b"NAK\n") + packet(b"\1PACK")).step()
        self.assertEqual((step.boundary, step.is_unasked), ((new,), True))
        many = [bytes(16) + n.to_bytes(4, "big") for n in range(1, 3000)]
        step = self.session(self.greeting, self.listed, plain, shallow=many, depth=1).step()
        self.assertEqual(step.boundary, tuple(many))


class Maps(unittest.TestCase):
    def test_rows(self):
        """Maps the names of each test vector by its refspecs, with the same result as definitions.py."""
        count = 0
        for row in all_rows():
            if row.mode != "matches":
                continue
            line, _, names = row.data.partition(b"\n")
            words = []
            for word in line.split(b" "):
                try:
                    definitions.refspec_of(word, True)
                    words.append(word)
                except definitions.Err:
                    pass
            specs, names = [definitions.refspec_of(w, True) for w in words], names.split(b"\n")
            if any(b"\n" in w or not w for w in words):
                continue
            found = gixp.map_refs(names, words)
            try:
                maps, fixes = definitions.validated(definitions.mappings_of(specs, names), specs)
                self.assertEqual([m.local for m in found.mappings], [m[2] for m in maps], row.name)
                self.assertEqual(found.removed, [f[0] for f in fixes], row.name)
                sources = [names[m.item] if m.item is not None else None for m in found.mappings]
                self.assertEqual(sources, [m[1][1] if m[1][0] == "FullName" else None for m in maps], row.name)
            except definitions.Err as e:
                self.assertEqual(found.conflicts, [issue[0] for issue in e.rest[0]], row.name)
            self.assertEqual(list(dict.fromkeys(gixp.prefixes(words))), definitions.all_prefixes(specs), row.name)
            count += 1
        self.assertGreater(count, 50)

    def test_head(self):
        """A source that is `@` alone means `HEAD` (gitrevisions)."""
        self.assertEqual(gixp.prefixes([b"@", b"@:refs/x", b"+@:refs/x"]), [b"HEAD"] * 3)
        names = [b"refs/heads/main", b"HEAD", b"refs/heads/@x"]
        for spec, item in ((b"@:refs/heads/x", 1), (b"+@:refs/heads/x", 1), (b"@x:refs/heads/x", 2)):
            self.assertEqual(gixp.map_refs(names, [spec]).mappings, [gixp.Mapping(item, 0, b"refs/heads/x")], spec)
        self.assertEqual(gixp.map_refs(names, [b"HEAD:refs/heads/x", b"^@"]).mappings, [])
        with self.assertRaises(gixp.GixpError) as caught:
            gixp.prefixes([b"refs/heads/x:@"])
        self.assertIs(caught.exception.kind, gixp.Kind.BAD_SPEC)


@unittest.skipUnless(shutil.which("git"), "git isn't here")
class Clones(unittest.TestCase):
    def setUp(self):
        self.folder = tempfile.mkdtemp()
        self.addCleanup(shutil.rmtree, self.folder)
        work = os.path.join(self.folder, "work")
        git("init", "-q", work)
        for n in range(30):
            pathlib.Path(work, "file").write_bytes(os.urandom(20000))
            git("add", ".", folder=work)
            git("commit", "-qm", str(n), folder=work)
        git("tag", "-am", "one", "v1", folder=work)
        git("branch", "other", "HEAD~10", folder=work)
        # More refs than one read returns.
        lines = b"".join(b"create refs/heads/%s/%d HEAD\n" % (b"a" * 60, n) for n in range(1000))
        git("update-ref", "--stdin", folder=work, input=lines)
        git("clone", "-q", "--bare", work, os.path.join(self.folder, "served.git"))
        self.server = http.server.ThreadingHTTPServer(("127.0.0.1", 0), Backend)
        self.server.root = self.folder
        thread = threading.Thread(target=self.server.serve_forever, daemon=True)
        thread.start()
        self.addCleanup(self.server.server_close)
        self.addCleanup(self.server.shutdown)
        self.url = "http://127.0.0.1:%d/served.git" % self.server.server_port

    def test_clone(self):
        to = os.path.join(self.folder, "cloned")
        run = subprocess.run([sys.executable, str(HERE / "clone.py"), self.url, to], stderr=subprocess.PIPE)
        self.assertEqual(run.returncode, 0, run.stderr)
        self.assertIn(b"KiB", run.stderr)
        git("fsck", "--strict", folder=to)
        served = git("for-each-ref", "--format=%(objectname) %(refname)", folder=os.path.join(self.folder, "served.git"))
        cloned = git("for-each-ref", "--format=%(objectname) %(refname)", folder=to)
        self.assertEqual(sorted(cloned.replace(b"refs/remotes/origin/", b"refs/heads/").split(b"\n")), sorted(served.split(b"\n")))

    def test_shallow_clone(self):
        to, other = os.path.join(self.folder, "cloned"), os.path.join(self.folder, "by-git.git")
        run = subprocess.run([sys.executable, str(HERE / "clone.py"), self.url, to, "3"], stderr=subprocess.PIPE)
        self.assertEqual(run.returncode, 0, run.stderr)
        git("fsck", "--strict", folder=to)
        git("clone", "-q", "--bare", "--depth=3", "--no-single-branch", "file://" + os.path.join(self.folder, "served.git"), other)
        by_git = pathlib.Path(other, "shallow").read_text().split()
        self.assertEqual(sorted(pathlib.Path(to, ".git/shallow").read_text().split()), sorted(by_git))
        # A clone of the shallow clone has its boundary.
        git("clone", "-q", "--bare", other, os.path.join(self.folder, "shallow.git"))
        again = os.path.join(self.folder, "again")
        run = subprocess.run([sys.executable, str(HERE / "clone.py"), self.url.replace("served", "by-git"), again], stderr=subprocess.PIPE)
        self.assertEqual(run.returncode, 0, run.stderr)
        git("fsck", "--strict", folder=again)
        self.assertEqual(sorted(pathlib.Path(again, ".git/shallow").read_text().split()), sorted(by_git))

    def fetch(self, version, served, specs=(b"refs/heads/main:refs/remotes/o/main",), **more):
        """A fetch from `git upload-pack`: the last step, the pack's bytes, and the number of requests."""
        def upload_pack(words=(), data=b""):
            env = dict(os.environ, GIT_PROTOCOL="version=%d" % version)
            run = subprocess.run(["git", "-c", "uploadpack.allowFilter=true", "upload-pack", "--stateless-rpc", *words, served],
                                 env=env, input=data, stdout=subprocess.PIPE, stderr=subprocess.PIPE)
            return run.stdout

        session = gixp.Session(specs, **more)
        session.answer(upload_pack(["--http-backend-info-refs"]))
        step = session.step()
        while isinstance(step, gixp.Request):
            session.answer(upload_pack(data=step.data))
            step = session.step()
        pieces = gixp.pieces(session.answers[-1], step.place)
        return step, b"".join(piece.text for piece in pieces if piece.band is gixp.Band.CONTENT), len(session.answers) - 1

    def test_head_and_ids(self):
        """By each version of the protocol: `HEAD` by `@`, and an object by its id. Under version 2 the refs aren't listed for an id."""
        served = os.path.join(self.folder, "served.git")
        head = git("rev-parse", "HEAD", folder=served).strip()
        for version in (0, 1, 2):
            for spec, requests in ((b"@:refs/heads/x", 1 + (version == 2)), (head, 1)):
                _, pack, sent = self.fetch(version, served, [spec])
                here = os.path.join(self.folder, "%d%s" % (version, spec[:1].decode()))
                git("init", "-q", "--bare", here)
                git("index-pack", "--stdin", folder=here, input=pack)
                self.assertEqual(git("rev-list", "--count", head.decode(), folder=here).strip(), b"30", (version, spec))
                self.assertEqual(sent, requests, (version, spec))

    def test_limits_and_filters(self):
        """By each version of the protocol: the boundary and the objects that `git clone` or `git fetch` gets with the same options."""
        served = os.path.join(self.folder, "served.git")
        for n in range(10):
            tree = git("rev-parse", "main^{tree}", folder=served).strip().decode()
            env = dict(os.environ, GIT_COMMITTER_DATE="%d +0000" % (1700000000 + n), GIT_AUTHOR_DATE="1700000000 +0000")
            parent = ["-p", "refs/heads/dated"] if n else []
            commit = git("commit-tree", tree, *parent, "-m", str(n), folder=served, env=env).strip().decode()
            git("update-ref", "refs/heads/dated", commit, folder=served)
        git("update-ref", "refs/heads/main", "refs/heads/dated", folder=served)
        git("update-ref", "refs/tags/cut", "refs/heads/dated~6", folder=served)
        rows = [("--depth=2", dict(depth=2)), ("--shallow-since=1700000004", dict(since=1700000004)),
                ("--shallow-exclude=cut", dict(exclude=[b"cut"])), ("--filter=blob:none", dict(filter=b"blob:none")),
                ("--filter=tree:0", dict(filter=b"tree:0")), ("--filter=blob:limit=1k", dict(filter=b"blob:limit=1024"))]
        git("config", "uploadpack.allowFilter", "true", folder=served)
        for version in (0, 1, 2):
            for option, more in rows:
                by_git, here = (os.path.join(self.folder, "%s%d%s" % (name, version, option)) for name in ("git", "here"))
                git("-c", "protocol.version=%d" % version, "clone", "-q", "--bare", "--single-branch", "-b", "main", "--no-tags", option,
                    "file://" + served, by_git)
                step, pack, _ = self.fetch(version, served, **more)
                git("init", "-q", "--bare", here)
                git("index-pack", "--stdin", "--fix-thin", "--promisor", folder=here, input=pack)
                shallow = pathlib.Path(by_git, "shallow")
                boundary = sorted(shallow.read_text().split()) if shallow.exists() else []
                self.assertEqual((sorted(id.hex() for id in step.boundary), step.is_unasked), (boundary, False), (version, option))
                found = [sorted(git("cat-file", "--batch-all-objects", "--batch-check", folder=to).split(b"\n")) for to in (by_git, here)]
                self.assertEqual(found[0], found[1], (version, option))
                if "depth" not in more:
                    continue
                # `git fetch --deepen` from there: the same boundary.
                git("-c", "protocol.version=%d" % version, "fetch", "-q", "--no-tags", "--deepen=3", "origin", "main", folder=by_git)
                step, _, _ = self.fetch(version, served, shallow=step.boundary, haves=[bytes.fromhex(commit)], deepen=3)
                boundary = sorted(shallow.read_text().split())
                self.assertEqual((sorted(id.hex() for id in step.boundary), step.is_unasked), (boundary, False), version)

    def test_no_repository(self):
        run = subprocess.run([sys.executable, str(HERE / "clone.py"), self.url + "x", os.path.join(self.folder, "none")],
                             stderr=subprocess.PIPE)
        self.assertNotEqual(run.returncode, 0)
        self.assertIn(b"404", run.stderr)


if __name__ == "__main__":
    unittest.main(warnings="ignore")
