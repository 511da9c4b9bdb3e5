"""Reference implementations of the definitions in crates/*/specs, one slow function a definition, with worked examples as a self-test.
They are written from the definitions alone, never from the program. Run: python3 models/definitions.py
An id is 20 bytes. An error is raised as Err(name, ...)."""

import inspect
import itertools

from request_table import GIT


class Err(Exception):
    def __init__(self, name, *rest):
        super().__init__(name, *rest)
        self.name, self.rest = name, rest


BLANK, LF = b" ", b"\n"
WHITE = [chr(c).encode() for c in
         [9, 10, 11, 12, 13, 32, 0x85, 0xA0, 0x1680, *range(0x2000, 0x200B), 0x2028, 0x2029, 0x202F, 0x205F, 0x3000]]


def trim(line):
    """The line without white space at its end, by characters. A tail that is not UTF-8 is not white space."""
    while True:
        for w in WHITE:
            if line.endswith(w):
                line = line[:-len(w)]
                break
        else:
            return line


def without_lf(t):
    return t[:-1] if t.endswith(LF) else t


# ---------------------------------------------------------------- packet lines, items of a stream, ids
def frames_of(data):
    """-> (frames, end); end is ('Ended',) or ('Bad', why)."""
    out, at = [], 0
    while True:
        if len(data) - at < 4:
            return out, ("Ended",)
        head = data[at:at + 4]
        if any(c not in b"0123456789abcdefABCDEF" for c in head):
            return out, ("Bad", "HexDecode")
        n = int(head, 16)
        if n in (0, 1, 2):
            out.append((("Flush", "Delimiter", "ResponseEnd")[n], b""))
            at += 4
        elif n == 3:
            return out, ("Bad", "InvalidLineLength")
        elif n == 4:
            return out, ("Bad", "DataIsEmpty")
        elif n > 0xfff0:
            return out, ("Bad", "DataLengthLimitExceeded")
        elif len(data) - at < n:
            return out, ("Ended",)
        else:
            out.append(("Data", data[at + 4:at + n]))
            at += n


def items_of(data, version, banded=False):
    """-> (items, error). Items: ('line', b), ('text', is_error, b), ('stop', kind)."""
    frames, end = frames_of(data)
    items = []
    for kind, payload in frames:
        if kind == "Data":
            if payload.startswith(b"ERR "):
                return items, Err("Server", without_lf(payload[4:]))
            if not banded:
                items.append(("line", payload))
            elif payload[0] == 1:
                if payload[1:]:
                    items.append(("line", payload[1:]))
            elif payload[0] in (2, 3):
                if without_lf(payload[1:]):
                    items.append(("text", payload[0] == 3, without_lf(payload[1:])))
            else:
                return items, Err("BadBand", payload[0])
        elif kind == "Flush" or (kind == "Delimiter" and version == 2):
            items.append(("stop", kind))
        else:
            return items, Err("UnexpectedFrame")
    return items, (Err("Io", "UnexpectedEof") if end == ("Ended",) else Err("Decode", end[1]))


def lines_of(data, version):
    """The lines before the first stop, or (lines, error) if no stop follows."""
    items, error = items_of(data, version)
    out = []
    for it in items:
        if it[0] == "stop":
            return out
        if it[0] == "line":
            out.append(it[1])
    return out, error


def id_of(text):
    if len(text) != 40:
        raise Err("Id", Err("InvalidLength", len(text)))
    if any(c not in b"0123456789abcdefABCDEF" for c in text):
        raise Err("Id", Err("InvalidDigit"))
    return bytes.fromhex(text.decode())


def is_id(text):
    try:
        id_of(text)
        return True
    except Err:
        return False


def id_text(i):
    return i.hex().encode()


# ---------------------------------------------------------------- lines of answers
def acknowledgement(line):
    t = trim(line)
    if t == b"ready" or t.startswith(b"ready "):
        return ("Ready",)
    if t == b"NAK" or t.startswith(b"NAK "):
        return ("Nak",)
    for tail, value in ((b"", "Common"), (b" common", "Common"), (b" ready", "Ready")):
        if t.startswith(b"ACK ") and len(t) == 44 + len(tail) and t.endswith(tail) and is_id(t[4:44]):
            return ("Common", id_of(t[4:44])) if value == "Common" else ("Ready",)
    raise Err("UnknownLineType", line)


def shallow_update(line):
    t = trim(line)
    for word, value in ((b"shallow ", "Shallow"), (b"unshallow ", "Unshallow")):
        if t.startswith(word) and is_id(t[len(word):]):
            return (value, id_of(t[len(word):]))
    raise Err("UnknownLineType", line)


def wanted_ref(line):
    left, blank, path = trim(line).partition(BLANK)
    if blank and is_id(left):
        return (id_of(left), path)
    raise Err("UnknownLineType", line)


# ---------------------------------------------------------------- refs of version 2
def v2_ref(line):
    t = trim(line)
    pieces = t.split(BLANK, 3)
    if len(pieces) < 2:
        raise Err("MalformedV2RefLine", t)
    unborn = pieces[0] == b"unborn"
    ident = None if unborn else id_of(pieces[0])
    name = pieces[1]
    if not name:
        raise Err("MalformedV2RefLine", t)
    target = peeled = None
    for p in pieces[2:]:
        attr, colon, value = p.partition(b":")
        if not colon or not value:
            raise Err("MalformedV2RefLine", t)
        if attr == b"peeled":
            peeled = id_of(value)
        elif attr == b"symref-target":
            target = value
        else:
            raise Err("UnknownAttribute", attr, t)
    if unborn:
        if target == b"(null)":
            raise Err("InvariantViolation", "got 'unborn' while (null) was a symref target")
        if target is not None:
            return ("Unborn", name, target)
        raise Err("InvariantViolation", "got 'unborn' as tag target" if peeled is not None
                      else "got 'unborn' as object name of direct reference")
    if target in (None, b"(null)"):
        return ("Direct", name, ident) if peeled is None else ("Peeled", name, ident, peeled)
    return ("Symbolic", name, target, None, ident) if peeled is None else ("Symbolic", name, target, ident, peeled)


def loses_white_space(line):
    """White space outside ASCII at the end of the line isn't read."""
    return any(byte > 127 for byte in line[len(trim(line)):])


def v2_listed(line):
    """The ref of a line that loses no white space."""
    ref = v2_ref(line)
    if loses_white_space(line):
        raise Err("MalformedV2RefLine", line)
    return ref


def v2_ref_list(data, ref_of=v2_ref):
    got = lines_of(data, 2)
    lines, error = got if isinstance(got, tuple) else (got, None)
    refs = [ref_of(x) for x in lines]      # an error of a line precedes an error of the stream after it
    if error:
        raise error
    return refs


# ---------------------------------------------------------------- refs of versions 0 and 1
def symref_table(caps):
    out = []
    for name, value in caps:
        if name == b"symref" and value is not None:
            left, colon, right = value.partition(b":")
            if not colon or not left or not right:
                raise Err("MalformedSymref", value)
            out.append((left, None if right == b"(null)" else right))
    return out


def v1_class(line):
    """-> (class, left, path)."""
    t = trim(line)
    left, blank, path = t.partition(BLANK)
    if not blank or not path:
        return ("malformed", t, b"")
    if path.endswith(b"^{}"):
        if set(left) <= {ord("0")} and path[:-3] == b"capabilities":
            return ("capabilities", left, path)
        return ("peeled", left, path[:-3])
    if is_id(left):
        return ("ref", left, path)
    if left == b"shallow":
        return ("shallow", left, path) if is_id(path) else ("bad id", path, b"")
    return ("bad id", left, b"")


def v1_listed_class(line):
    """The class of a line that loses no white space."""
    found = v1_class(line)
    return ("malformed", line, b"") if found[0] not in ("malformed", "bad id") and loses_white_space(line) else found


def v1_grouping(kept, names):
    """The groups of the whole list, or None."""
    if not kept:
        return []
    if kept[0][0] != "ref":
        return None
    answers = []
    rest = v1_grouping(kept[1:], names)
    if rest is not None:
        answers.append([(kept[0], None)] + rest)
    if len(kept) > 1 and kept[1][0] == "peeled" and kept[0][2] not in names \
            and kept[1][2] == kept[0][2] and is_id(kept[1][1]):
        rest = v1_grouping(kept[2:], names)
        if rest is not None:
            answers.append([(kept[0], kept[1])] + rest)
    assert len(answers) <= 1          # the definition is a function: at most one grouping
    return answers[0] if answers else None


def v1_ref_list(lines, caps, class_of=v1_class):
    table = symref_table(caps)
    names = [n for n, _ in table]
    classes = [class_of(x) for x in lines]
    for k in range(1, len(classes) + 1):         # the earliest line with which no grouping continues
        kept = [c for c in classes[:k] if c[0] not in ("capabilities", "shallow")]
        if v1_grouping(kept, names) is None:
            c, before = classes[k - 1], v1_grouping(kept[:-1], names)
            if c[0] == "malformed":
                raise Err("MalformedV1RefLine", c[1])
            if c[0] == "bad id":
                id_of(c[1])
            if c[0] == "peeled":
                if not before or before[-1][1] is not None or before[-1][0][2] in names:
                    raise Err("InvariantViolation", "Expecting peeled refs to be preceded by direct refs")
                if before[-1][0][2] != c[2]:
                    raise Err("InvariantViolation", "Expecting peeled refs to have the same base path as the "
                                                        "previous, unpeeled one")
                id_of(c[1])
    refs = []
    for ref, peel in v1_grouping([c for c in classes if c[0] not in ("capabilities", "shallow")], names):
        first = next((t for n, t in table if n == ref[2]), None)
        if peel:
            refs.append(("Peeled", ref[2], id_of(ref[1]), id_of(peel[1])))
        elif first is not None:
            refs.append(("Symbolic", ref[2], first, None, id_of(ref[1])))
        else:
            refs.append(("Direct", ref[2], id_of(ref[1])))
    return refs, [("Shallow", id_of(c[2])) for c in classes if c[0] == "shallow"]


# ---------------------------------------------------------------- capabilities and advertisements
def name_value(piece):
    name, eq, value = piece.partition(b"=")
    return (name, value if eq else None)


def capabilities_of_bytes(data):
    at = data.find(b"\0")
    if at < 0:
        raise Err("MissingDelimitingNullByte")
    return [name_value(p) for p in without_lf(data[at + 1:]).split(BLANK) if p], at


def capabilities_of_lines(lines):
    return [name_value(without_lf(x)) for x in lines]


def capability_value(caps, name):
    return next((v for n, v in caps if n == name), None)


def has_capability(caps, name):
    return any(n == name for n, _ in caps)


def capability_words(caps, name):
    v = capability_value(caps, name)
    return [] if v is None else v.split(BLANK)


def advertisement(data, class_of=v1_class):
    """-> dict(version, caps, refs, updates, rest_items) by the first line."""
    items, error = items_of(data, 0)
    if not items:
        raise error
    if items[0][0] == "stop":
        return dict(version=0, caps=[], refs=[], updates=[])
    first = trim(items[0][1])
    if first == b"version 2":
        items2, error = items_of(data, 2)
        lines = []
        for it in items2[1:]:
            if it[0] == "stop":
                return dict(version=2, caps=capabilities_of_lines(lines), refs=None, updates=None)
            lines.append(it[1])
        raise error
    version, start = (1, 1) if first == b"version 1" else (0, 0)
    if version == 0 and items[0][1].startswith(b"version "):
        raise Err("UnsupportedProtocolVersion", first)
    if start == len(items):
        raise error
    if items[start][0] == "stop":
        return dict(version=version, caps=[], refs=[], updates=[])
    caps, place = capabilities_of_bytes(items[start][1])
    lines = [items[start][1][:place]]
    for it in items[start + 1:]:
        if it[0] == "stop":
            refs, updates = v1_ref_list(lines, caps, class_of)
            return dict(version=version, caps=caps, refs=refs, updates=updates)
        lines.append(it[1])
    v1_ref_list(lines, caps, class_of)
    raise error


# ---------------------------------------------------------------- answers to a fetch
HEADERS = {b"acknowledgments": ("acks", acknowledgement), b"shallow-info": ("shallows", shallow_update),
           b"wanted-refs": ("wanted", wanted_ref)}


def utf8(line):
    try:
        line.decode()
    except UnicodeDecodeError:
        raise Err("NotUtf8")
    return line


def v2_answer(items, error):
    """-> (answer, number of items taken); items without texts."""
    items = [i for i in items if i[0] != "text"]
    answer = dict(acks=[], shallows=[], wanted=[], pack=False)
    at = 0
    while True:
        if at == len(items):
            raise error
        if items[at][0] == "stop":
            raise Err("Io", "UnexpectedEof")
        header = trim(utf8(items[at][1]))
        if header == b"packfile":
            answer["pack"] = True
            return answer, at + 1
        if header not in HEADERS:
            raise Err("UnknownSectionHeader", items[at][1])
        key, read = HEADERS[header]
        at += 1
        while at < len(items) and items[at][0] == "line":
            answer[key].append(read(utf8(items[at][1])))
            at += 1
        if at == len(items):
            raise error
        at += 1
        if items[at - 1][1] == "Flush":
            return answer, at


def kind_of_v1_line(line):
    try:
        utf8(line)
        try:
            return ("ack", acknowledgement(line))
        except Err:
            return ("shallow", shallow_update(line))
    except Err:
        return ("other", None)


def v1_answer(items, error, expects_pack, negotiates):
    items = [i for i in items if i[0] != "text"]
    tagged = [("stop", None) if i[0] == "stop" else kind_of_v1_line(i[1]) for i in items]
    for n in range(len(items) + 1):                      # beginnings, shortest first
        begin = tagged[:n]
        ready_before = any(k == "ack" and v == ("Ready",) for k, v in begin[:-1])
        pack = None
        if begin and begin[-1] == ("ack", ("Nak",)) and negotiates and not (expects_pack and ready_before):
            pack = False
        elif n >= 2 and begin[-1][0] == begin[-2][0] == "stop":
            pack = False
        elif n < len(items) and tagged[n][0] == "other":
            pack = True
        elif n == len(items) and error.name == "Io" and error.rest[0] == "UnexpectedEof" and not (begin and begin[-1][0] == "stop"):
            pack = False
        if pack is not None:
            acks = []
            for k, v in begin:
                if k == "ack" and not (v[0] == "Common" and v in acks):
                    acks.append(v)
            return dict(acks=acks, shallows=[v for k, v in begin if k == "shallow"], wanted=[], pack=pack), n
    raise error


def response(version, data, expects_pack, negotiates, banded=False):
    items, error = items_of(data, version, banded)
    if version == 2:
        return v2_answer(items, error)
    return v1_answer(items, error, expects_pack, negotiates)


# ---------------------------------------------------------------- lines of progress
def progress_parts(text):
    action, colon, rest = text.partition(b":")
    if not colon or not action:
        return None
    runs, at = [], 0
    while at < len(rest):
        end = at
        while end < len(rest) and rest[end] in b"0123456789":
            end += 1
        if end > at:
            runs.append((int(rest[at:end]), rest[end:end + 1] == b"%"))
            at = end
        else:
            at += 1
    fit = lambda n: n if n < 2 ** 64 else None
    percent = None
    if runs and (fit(runs[0][0]) is None or runs[0][1]):
        n, sign = runs.pop(0)
        percent = n if sign and n < 2 ** 32 else None
    step = fit(runs[0][0]) if runs else None
    most = fit(runs[1][0]) if len(runs) > 1 else None
    return None if (percent, step, most) == (None, None, None) else (action, percent, step, most)


# ---------------------------------------------------------------- requests
def frame(line):
    """One line of text as one data packet that ends in LF."""
    if len(line) > 65515:
        raise Err("LineTooLong")
    return b"%04x" % (len(line) + 5) + line + LF


def feature_text(f):
    return f[0] if f[1] is None else f[0] + b"=" + f[1]


def invoke(command, features, arguments):
    out = [frame(b"command=" + command)] + [frame(feature_text(f)) for f in features]
    if arguments:
        out += [b"0001"] + [frame(a) for a in arguments]
    return out + [b"0000"]


def fetch_request(version, features, lines, haves, done):
    if version == 2:
        return invoke(b"fetch", [f for f in features if f[1] is not None], lines + haves + ([b"done"] if done else []))
    lines = list(lines)
    for at, x in enumerate(lines):
        if x.startswith(b"want "):
            lines[0], lines[at] = lines[at], lines[0]
            break
    return [frame(x) for x in lines] + ([b"0000"] if lines else []) + [frame(x) for x in haves] \
        + [frame(b"done") if done else b"0000"]


def default_features(table, command, version, caps):
    if version == 2:
        words = capability_words(caps, command)
        return [(n, None) for n in table["v2_fetch" if command == b"fetch" else "v2_ls_refs"] if n in words]
    if command != b"fetch":
        return []
    return [(n, None) for n, unless in table["v1_fetch"]
            if has_capability(caps, n) and not (unless and has_capability(caps, unless))]


class Arguments:
    """The argument lines, and the features of the first want."""

    def __init__(self, table, version, features):
        self.version, self.features = version, list(features)
        names = [n for n, _ in features]
        self.has = lambda n: n in names
        self.lines = [] if version < 2 else [x for x, only in table["fetch_arguments"] if only is None or only in names]
        self.haves, self.on, self.added, self.wanted = [], set(), [], False

    def can(self, word):
        if word == b"include-tag":
            return self.version == 2 or self.has(word)
        if word == b"deepen":
            return self.has(b"shallow")
        if word in (b"deepen-since", b"deepen-not", b"deepen-relative") and self.version == 2:
            return self.has(b"shallow")
        return self.has(word)

    def want(self, i):
        line = b"want " + id_text(i)
        if self.version < 2 and not self.wanted:
            fs = [feature_text(f) for f in self.features
                  if f[0] not in (b"include-tag", b"deepen-relative") or f[0] in self.on] + self.added
            line += BLANK + BLANK.join(fs)
        self.wanted = True
        self.lines.append(line)

    def word(self, word, value=None):
        if value is None and self.version < 2:
            if not self.wanted:
                self.on.add(word)
        else:
            self.lines.append(word if value is None else word + BLANK + value)

    def add_feature(self, text):
        if self.version == 2:
            self.lines.append(text)
        else:
            assert not self.wanted
            self.added.append(text)

    def have(self, i):
        self.haves.append(b"have " + id_text(i))

    def send(self, persists, done):
        frames = fetch_request(self.version, self.features, self.lines, self.haves, done)
        self.haves = []
        if self.version < 2 and persists:
            self.lines = []
        return frames


# ---------------------------------------------------------------- refspecs, prefixes and ref maps
def name_ok(n, stars=0):
    return bool(n) and n != b"@" and n.count(b"*") <= stars and not any(c < 32 or c == 127 or c in b" ~^:?[\\" for c in n) \
        and not n.startswith(b"/") and not n.endswith(b"/") and b"//" not in n and b".." not in n and b"@{" not in n \
        and not n.endswith(b".") and not any(c.startswith(b".") or c.endswith(b".lock") for c in n.split(b"/"))


def refspec_of(text, one_sided=False):
    """-> (sign, source, destination or None); one_sided: a pattern needs no destination."""
    if text.startswith(b"^"):
        src = text[1:]
        if b":" in src:
            raise Err("NegativeWithDestination")
        if is_id(src):
            raise Err("NegativeObjectHash")
        if src.count(b"*") >= 2:
            raise Err("PatternUnsupported")
        if not name_ok(src, 1):
            raise Err("InvalidName")
        if src != b"HEAD" and not src.startswith(b"refs/") and b"*" not in src:
            raise Err("NegativePartialName")
        return (b"^", src, None)
    sign = b"+" if text.startswith(b"+") else b""
    src, _, dst = text[len(sign):].partition(b":")
    src, dst = src or b"HEAD", dst or None
    if src.count(b"*") >= 2 or (dst or b"").count(b"*") >= 2:
        raise Err("PatternUnsupported")
    if (b"*" in src) != (b"*" in (dst or b"")) and not (one_sided and dst is None):
        raise Err("PatternUnbalanced")
    if (not is_id(src) and not name_ok(src, 1)) or (dst is not None and not name_ok(dst, 1)):
        raise Err("InvalidName")
    return (sign, src, dst)


def spec_text(s):
    return s[0] + s[1] + (b":" + s[2] if s[2] is not None else b"")


def source_kind(src):
    return "id" if is_id(src) else "pattern" if b"*" in src else \
        "exact" if src == b"HEAD" or src.startswith(b"refs/") else "short"


def candidates(n):
    return [n, b"refs/" + n, b"refs/tags/" + n, b"refs/heads/" + n, b"refs/remotes/" + n, b"refs/remotes/" + n + b"/HEAD"]


def matched(src, name):
    """None, or the part of the name that the star matched, in a tuple (b'' without a star)."""
    kind = source_kind(src)
    if kind == "exact":
        return (b"",) if name == src else None
    if kind == "short":
        return (b"",) if name in candidates(src) else None
    if kind == "pattern":
        before, _, after = src.partition(b"*")
        if len(name) >= len(before) + len(after) and name.startswith(before) and name.endswith(after):
            return (name[len(before):len(name) - len(after)],)
    return None


def local_name(dst, middle):
    if dst is None:
        return None
    if b"*" in dst:
        return dst.replace(b"*", middle)
    if dst.startswith(b"refs/"):
        return dst
    return (b"refs/" if dst.split(b"/")[0] in (b"heads", b"tags", b"remotes") and b"/" in dst else b"refs/heads/") + dst


def prefixes_of(spec):
    sign, src, _ = spec
    kind = source_kind(src)
    if sign == b"^" or kind == "id":
        return []
    return {"exact": lambda: [src], "short": lambda: candidates(src), "pattern": lambda: [src.split(b"*")[0]]}[kind]()


def all_prefixes(specs):
    return list(dict.fromkeys(p for s in specs for p in prefixes_of(s)))


def mappings_of(specs, names):
    """-> list of (item or None, source, local, index of the refspec)."""
    out = [(None, ("ObjectId", id_of(s[1])), local_name(s[2], b""), k) for k, s in enumerate(specs)
           if s[0] != b"^" and source_kind(s[1]) == "id"]
    shut = [n for n in names if any(s[0] == b"^" and matched(s[1], n) for s in specs)]
    for (k, s), (r, n) in itertools.product(enumerate(specs), enumerate(names)):
        m = matched(s[1], n)
        if s[0] != b"^" and m is not None and n not in shut:
            out.append((r, ("FullName", n), local_name(s[2], m[0]), k))
    seen, kept = set(), []
    for m in out:
        if (m[1], m[2]) not in seen:
            seen.add((m[1], m[2]))
            kept.append(m)
    return kept


def validated(mappings, specs):
    conflicts = []
    for local in sorted({m[2] for m in mappings if m[2] is not None}):
        of = [m for m in mappings if m[2] == local]
        if len({m[1] for m in of}) > 1:
            conflicts.append((local, [m[1] for m in of], [spec_text(specs[m[3]]) for m in of]))
    if conflicts:
        raise Err("MappingValidation", conflicts)
    bad = lambda m: m[2] is not None and m[2] != b"HEAD" and not m[2].startswith(b"refs/")
    return [m for m in mappings if not bad(m)], [(m[2], spec_text(specs[m[3]])) for m in mappings if bad(m)]


def ref_map(refs, caps, specs):
    f = capability_value(caps, b"object-format")
    if f is not None and f != b"sha1":
        raise Err("UnknownObjectFormat", f)
    return validated(mappings_of(specs, [r[1] for r in refs]), specs)


def unpack(ref):
    """-> (name, target, peeled)."""
    kind, name = ref[0], ref[1]
    if kind == "Direct":
        return (name, ref[2], None)
    if kind == "Peeled":
        return (name, ref[2], ref[3])
    if kind == "Symbolic":
        return (name, ref[3] if ref[3] is not None else ref[4], ref[4] if ref[3] is not None else None)
    return (name, None, None)


# ---------------------------------------------------------------- negotiations
def cutoff_of(commits, advertised):
    times = [commits[i][0] for i in advertised if i in commits]
    return max([0] + times) if times else None


def complete_set(commits, tips, cutoff):
    """The least closed set: the intersection of all closed sets, computed as the union of finite chains."""
    members = {t for t in tips if t in commits}
    while True:
        more = {p for m in members if cutoff is not None and commits[m][0] >= cutoff
                for p in commits[m][1] if p in commits} - members
        if not more:
            return members
        members |= more


def decision(mappings, ignored, local_refs, commits, existing, shallow):
    """mappings: (as_id or None, is_unborn, local or None)."""
    if not mappings or shallow == ("Deepen", 0):
        return "NoChange"
    if len(mappings) == 1 and mappings[0][1]:
        return "SkipToRefUpdate"
    changed = [not (m[0] is not None and m[2] is not None and local_refs.get(m[2]) == m[0]) for m in mappings]
    known = [m[0] is not None and (m[0] in commits or m[0] in existing) for m in mappings]
    counted = [k for k in range(len(mappings)) if not ignored[k]]
    if shallow == ("NoChange",):
        if not any(changed[k] for k in counted):
            return "NoChange"
        if all(known[k] for k in counted):
            return "SkipToRefUpdate"
    return ("MustNegotiate", known)


def add_wants(mappings, ignored, known, shallow, ref_in_want, tags, args):
    """mappings: (as_id, name or None for an id source). Adds to args. Returns true if it added a want."""
    any_want = False
    for k, (i, name) in enumerate(mappings):
        if k >= len(known) or ignored[k] or (shallow == ("NoChange",) and known[k]):
            continue
        if not ref_in_want or name is None:
            if i is not None:
                args.want(i)
                any_want = True
        else:
            args.lines.append(b"want-ref " + name)
            any_want = True
        if i is not None and i in tags:
            args.have(i)
    return any_want


MAX = 2 ** 64 - 1


def window_size(stateless, w):
    if w is None:
        return 16
    if stateless:
        return min(MAX, 2 * w if w < 16384 else w * 11 // 10)
    return min(MAX, 2 * w if w < 32 else w + 32)


class State:
    def __init__(self, stateless):
        self.window, self.seen, self.in_vain = window_size(stateless, None), False, 0
        self.stateless, self.kept = stateless, []


def one_round(state, haves_left, previous):
    """-> (haves as ids, round, done); haves_left: the haves that the negotiator offers, in order."""
    common = [v[1] for v in previous["acks"] if v[0] == "Common"] if previous else []
    if state.stateless:
        for c in common:
            if c not in state.kept:
                state.kept.append(c)
    w = state.window
    new = [haves_left.pop(0) for _ in range(min(w, len(haves_left)))]
    k = len(new)
    state.in_vain = min(MAX, k + (0 if common else state.in_vain))
    state.seen |= bool(common)
    state.window = window_size(state.stateless, w)
    done = k < w or (state.seen and state.in_vain >= 256)
    return state.kept + new if state.stateless else new, (k, state.in_vain, w, bool(common)), done


# ---------------------------------------------------------------- the shallow boundary
def boundary_after(read, updates):
    s = set(read)
    for kind, i in updates:
        (s.add if kind == "Shallow" else s.discard)(i)
    return s


def boundary_text(ids):
    return b"".join(id_text(i) + LF for i in sorted(set(ids)))


def boundary_ids(text):
    lines = text.split(LF)
    if lines[-1] == b"":
        lines.pop()
    for x in lines:
        if not is_id(x):
            raise Err("Decode", x)
    return sorted({id_of(x) for x in lines})


# ---------------------------------------------------------------- rounds, and handshakes with an account
def all_rounds(version, persists, haves, answers, args, interrupt=lambda: False, banded=False):
    """answers: a byte string for each response over Bodies, one byte string over Connection.
    -> (outcome, rounds, requests, responses); outcome is 'pack' or ('NegotiationFailed', k)."""
    stateless = not persists or version == 2
    state, previous, rounds, requests, responses = State(stateless), None, [], [], []
    left, stream = list(haves), answers
    while True:
        if interrupt():
            return ("NegotiationFailed", len(rounds)), rounds, requests, responses
        new, rnd, done = one_round(state, left, previous)
        for i in new:
            args.have(i)
        rounds.append(rnd)
        requests.append(args.send(persists, done))
        if persists:
            items, error = items_of(stream, version, banded)
            previous, taken = (v2_answer(items, error) if version == 2
                               else v1_answer(items, error, done, not done))
            assert not banded
            at = 0
            for it in items[:taken]:
                at += 4 + (len(it[1]) if it[0] == "line" else 0)
            stream = stream[at:]
        else:
            body = answers[len(requests) - 1] if len(requests) <= len(answers) else b""
            previous, _ = response(version, body, done, not done, banded)
        responses.append(previous)
        if previous["pack"]:
            return "pack", rounds, requests, responses
        if done:
            return ("NegotiationFailed", len(rounds)), rounds, requests, responses


def account_handshake(first, get=None, identity="taken", second=None, store="Ok", erase="Ok"):
    """-> (answer, actions)."""
    if first == "Ok":
        return "go on", []
    if first != "Io(PermissionDenied)":
        return "Transport", []
    if get == "Err":
        return "Credentials", ["Get"]
    if get is None:
        return "EmptyCredentials", ["Get"]
    if identity == "error":
        return "Transport", ["Get"]
    if second == "Ok":
        return ("go on" if store == "Ok" else "Credentials"), ["Get", "Store"]
    if second == "Io(PermissionDenied)":
        return ("InvalidCredentials" if erase == "Ok" else "Credentials"), ["Get", "Erase"]
    return "Transport", ["Get"]


# ================================================================ worked examples
A, B, C = b"0123456789" * 4, b"b" * 40, b"c" * 40
IA, IB, IC = map(id_of, (A, B, C))
RESULTS = []


def example(ok):
    """A worked example, by its line in this file."""
    RESULTS.append((inspect.stack()[1].lineno, bool(ok)))


def is_error(name, f, *a, rest=None):
    try:
        f(*a)
    except Err as e:
        return e.name == name and (rest is None or e.rest == rest)
    return False


def show(ref):
    x = lambda i: id_text(i)
    if ref[0] == "Direct":
        return x(ref[2]) + BLANK + ref[1]
    if ref[0] == "Peeled":
        return x(ref[2]) + BLANK + ref[1] + b" peeled:" + x(ref[3])
    if ref[0] == "Unborn":
        return b"unborn " + ref[1] + b" symref-target:" + ref[2]
    if ref[3] is None:
        return x(ref[4]) + BLANK + ref[1] + b" symref-target:" + ref[2]
    return x(ref[3]) + BLANK + ref[1] + b" symref-target:" + ref[2] + b" peeled:" + x(ref[4])


def printed(data):
    return [show(r) for r in v2_ref_list(data)]


def ids(n):
    return [i.to_bytes(20, "big") for i in range(1, n + 1)]


def lens_ok(*pairs):
    """Whether each (digits, text, whether an LF follows) has the length of its digits."""
    return all(int(d, 16) == 4 + len(t) + (1 if lf else 0) for d, t, lf in pairs)


def examples_of_parts():
    row1 = b"003d" + A + b" refs/heads/main\n0000"
    example(printed(row1) == [A + b" refs/heads/main"] and printed(b"003D" + row1[4:]) == printed(row1))
    example(printed(b"0000") == [])
    example(v2_ref(b"unborn HEAD symref-target:refs/heads/main") == ("Unborn", b"HEAD", b"refs/heads/main")
        and is_error("InvariantViolation", v2_ref, b"unborn HEAD") and is_error("MalformedV2RefLine", v2_ref, A)
        and is_error("UnknownAttribute", v2_ref, A + b" x foo:1"))
    example(v2_listed(A + b" x \t\n") == ("Direct", b"x", IA) and is_error("MalformedV2RefLine", v2_listed, A + b" x\xc2\xa0\n")
        and is_error("UnknownAttribute", v2_listed, A + b" x y:1\xc2\xa0") and v1_listed_class(A + b" x\xc2\xa0")[0] == "malformed"
        and v1_listed_class(b"x y\xc2\xa0")[0] == "bad id" and v1_listed_class(A + b" x\n") == v1_class(A + b" x"))
    example(is_error("Server", v2_ref_list, b"0011ERR no access", rest=(b"no access",))
        and lens_ok((b"0011", b"ERR no access", False)))
    example(frames_of(b"0003")[1] == ("Bad", "InvalidLineLength") and frames_of(b"0004")[1] == ("Bad", "DataIsEmpty")
        and frames_of(b"fff0" + b"x" * 65516)[0] == [("Data", b"x" * 65516)]
        and frames_of(b"fff1")[1] == ("Bad", "DataLengthLimitExceeded") and frames_of(b"00g1")[1] == ("Bad", "HexDecode"))
    example(all(is_error("Io", v2_ref_list, row1[:n]) for n in (2, 4, len(row1) - 4)))
    caps, place = capabilities_of_bytes(b"\0unrelated symref=HEAD:refs/heads/main symref=ANOTHER:refs/heads/foo "
                                b"symref=MISSING_NAMESPACE_TARGET:(null) agent=git/2.28.0")
    example(place == 0 and symref_table(caps) == [(b"HEAD", b"refs/heads/main"), (b"ANOTHER", b"refs/heads/foo"),
        (b"MISSING_NAMESPACE_TARGET", None)] and is_error("MalformedSymref", symref_table, [(b"symref", b"HEAD:")]))
    caps = [(b"symref", b"HEAD:refs/heads/main"), (b"symref", b"X:refs/heads/y")]
    lines = [A + b" HEAD", A + b" refs/heads/main", B + b" refs/tags/v1", C + b" refs/tags/v1^{}", b"shallow " + C]
    example(v1_ref_list(lines, caps) == ([("Symbolic", b"HEAD", b"refs/heads/main", None, IA),
        ("Direct", b"refs/heads/main", IA), ("Peeled", b"refs/tags/v1", IB, IC)], [("Shallow", IC)])
        and is_error("InvariantViolation", v1_ref_list, [lines[0], A + b" HEAD^{}"] + lines[1:], caps))
    example(acknowledgement(b"ACK " + A + b" ready") == ("Ready",) and acknowledgement(b"NAK whatever") == ("Nak",)
        and is_error("UnknownLineType", acknowledgement, b"ACK " + A + b" continue")
        and is_error("UnknownLineType", acknowledgement, b"ACK xyz ready"))
    nak = b"0008NAK\n"
    a, n = response(1, nak + b"0006\x01P", False, True)
    b, m = response(1, nak + b"0006\x01P", True, False)
    example((a["acks"], a["pack"], n) == ([("Nak",)], False, 1) and (b["acks"], b["pack"], m) == ([("Nak",)], True, 1))
    pack = b"0006\x01P0005\x010007\x02hi0006\x01A0000"
    whole = b"0014acknowledgments\n0031ACK " + A + b"\n000aready\n0001000dpackfile\n" + pack
    a, n = response(2, whole, True, False)
    its, _ = items_of(pack, 2, True)
    example(a["acks"] == [("Common", IA), ("Ready",)] and a["pack"]
        and b"".join(i[1] for i in its if i[0] == "line") == b"PA" and [i for i in its if i[0] == "text"] == [("text", False, b"hi")])
    example(is_error("UnknownSectionHeader", response, 2, b"0012packfile-uris\n", True, False, rest=(b"packfile-uris\n",)))
    sh = b"0035shallow " + A + b"\n"
    one = (dict(acks=[], shallows=[("Shallow", IA)], wanted=[], pack=False))
    example(response(1, sh, False, True) == (one, 1) and response(1, sh + b"00000000", False, True) == (one, 3)
        and is_error("Io", response, 1, sh + b"0000", False, True))
    fs = [(b"multi_ack_detailed", None), (b"side-band-64k", None), (b"shallow", None)]
    args = Arguments(GIT, 1, fs)
    args.word(b"shallow", A); args.word(b"deepen", b"1"); args.want(IB); args.want(IC)
    before = list(args.lines)
    sent14 = [b"want " + B + b" multi_ack_detailed side-band-64k shallow", b"deepen 1", b"shallow " + A, b"want " + C]
    first = args.send(False, True)
    example(first == [frame(x) for x in sent14] + [b"0000", frame(b"done")])
    none = Arguments(GIT, 1, []); none.want(IB)
    example(none.send(False, True)[0] == b"0033want " + B + b" \n")
    example(b"".join(first) == b"005bwant " + B + b" multi_ack_detailed side-band-64k shallow\n000ddeepen 1\n0035shallow "
        + A + b"\n0032want " + C + b"\n00000009done\n")
    args.have(IA)
    over_bodies = args.send(False, False)
    other = Arguments(GIT, 1, fs); other.lines = list(before); other.wanted = True
    other.send(True, True); other.have(IA)
    example(args.lines == before and over_bodies == [frame(x) for x in sent14] + [b"0000", b"0032have " + A + b"\n", b"0000"]
        and other.send(True, False) == [b"0032have " + A + b"\n", b"0000"])
    args = Arguments(GIT, 2, [(b"agent", b"git/oxide")]); args.want(IA)
    example(b"".join(args.send(False, True)) == b"0012command=fetch\n0014agent=git/oxide\n0001000ethin-pack\n000eofs-delta\n"
        b"0032want " + A + b"\n0009done\n0000")
    opening = b"git-upload-pack /p.git\0host=h\0\0version=2\0"
    example(4 + len(opening) == 0x2d)
    example(progress_parts(b"Receiving objects:  42% (21/50)") == (b"Receiving objects", 42, 21, 50)
        and progress_parts(b"Resolving deltas: 21/50") == (b"Resolving deltas", None, 21, 50)
        and progress_parts(b"done: nothing") is None
        and progress_parts(b"Counting: 99999999999999999999 5/6") == (b"Counting", None, 5, 6))
    specs = [refspec_of(x) for x in (b"HEAD", b"dwim", b"refs/tags/prefix*:refs/tags/prefix*", b"refs/heads/main")]
    names = [b"HEAD", b"refs/heads/HEAD", b"refs/heads/dwim", b"refs/heads/main", b"refs/notes/x", b"refs/tags/prefix1"]
    maps = lambda ns: [(m[1][1], m[2], m[3]) for m in validated(mappings_of(specs, ns), specs)[0]]
    want = [(b"HEAD", None, 0), (b"refs/heads/dwim", None, 1), (b"refs/tags/prefix1", b"refs/tags/prefix1", 2),
            (b"refs/heads/main", None, 3)]
    example(all_prefixes(specs) == [b"HEAD", b"dwim", b"refs/dwim", b"refs/tags/dwim", b"refs/heads/dwim",
        b"refs/remotes/dwim", b"refs/remotes/dwim/HEAD", b"refs/tags/prefix", b"refs/heads/main"]
        and maps(names) == want and maps([n for n in names if n not in (b"refs/heads/HEAD", b"refs/notes/x")]) == want
        and not any(n.startswith(p) for n in (b"refs/heads/HEAD", b"refs/notes/x") for p in all_prefixes(specs)))
    s19 = [refspec_of(b"main:refs/remotes/o/main")]
    c19 = ([(b"refs/remotes/o/main", [("FullName", b"refs/heads/main"), ("FullName", b"refs/tags/main")],
             [b"main:refs/remotes/o/main"] * 2)],)
    conflict = lambda ns: is_error("MappingValidation", lambda: validated(mappings_of(s19, ns), s19), rest=c19)
    example(conflict([b"refs/heads/main", b"refs/notes/x", b"refs/tags/main"]) and conflict([b"refs/heads/main", b"refs/tags/main"]))
    example(list(dict.fromkeys([b"refs/tags", b"HEAD", b"main", b"refs/heads/main", b"refs/tags", b"HEAD",
        b"refs/heads/feature", b"refs/heads/main"])) == [b"refs/tags", b"HEAD", b"main", b"refs/heads/main", b"refs/heads/feature"])
    adv, unknown = b"\xdd" * 20, b"\xee" * 20
    g = lambda t, tb=5: {IA: (10, [IB]), IB: (tb, [IC]), IC: (20, []), adv: (t, [])}
    def comp(t, tb=5):
        return complete_set(g(t, tb), [IA], cutoff_of(g(t, tb), [adv, unknown]))
    example(comp(8) == {IA, IB} and comp(5) == {IA, IB, IC} and comp(-3, -1) == {IA, IB}
        and cutoff_of(g(-3, -1), [adv]) == 0)
    one = lambda local, have: decision([(IA, False, b"refs/x")], [False], {b"refs/x": local}, {}, have, ("NoChange",))
    args = Arguments(GIT, 2, [])
    example(one(IA, set()) == "NoChange" and one(IB, {IA}) == "SkipToRefUpdate" and one(IB, set()) == ("MustNegotiate", [False])
        and add_wants([(IA, b"refs/x")], [False], [False], ("NoChange",), False, set(), args) and args.lines[-1] == b"want " + A)
    ack = b"0014acknowledgments\n0008NAK\n0000"
    args = Arguments(GIT, 2, [])
    out, rounds, reqs, _ = all_rounds(2, False, ids(50), [ack, ack, b"000dpackfile\n" + pack], args)
    args = Arguments(GIT, 2, [])
    out2 = all_rounds(2, False, ids(50), [ack, ack, ack], args)[0]
    example(out == "pack" and [r[2] for r in rounds] == [16, 32, 64] and [r[0] for r in rounds] == [16, 32, 2]
        and len(reqs) == 3 <= 50 // 16 + 1 == 4 and out2 == ("NegotiationFailed", 3))
    denied = "Io(PermissionDenied)"
    example(account_handshake(denied, "Some", "taken", "Ok") == ("go on", ["Get", "Store"])
        and account_handshake(denied, "Some", "taken", denied) == ("InvalidCredentials", ["Get", "Erase"])
        and account_handshake(denied, "Some", "taken", "Io(TimedOut)") == ("Transport", ["Get"]))
    s = boundary_after([IA, IB], [("Shallow", IC), ("Unshallow", IA), ("Shallow", IB)])
    example(boundary_text(s) == B + LF + C + LF and boundary_after(s, [("Unshallow", IB), ("Unshallow", IC)]) == set())
    example(2 ** 31 - 1 == 2147483647)


def examples_of_sessions():
    example(printed(b"006a" + B + b" refs/tags/v1 peeled:" + C + b"\n0000") == [B + b" refs/tags/v1 peeled:" + C])
    example(printed(b"002eunborn HEAD symref-target:refs/heads/main\n0000") == [b"unborn HEAD symref-target:refs/heads/main"])
    example(printed(b"003d" + A + b" refs/heads/main\n0001") == [A + b" refs/heads/main"])
    example(is_error("UnexpectedFrame", v2_ref_list, b"0002"))
    example(is_error("Decode", v2_ref_list, b"0003"))
    args = Arguments(GIT, 2, [(b"agent", b"git/oxide")])
    args.want(IC); args.have(IA); args.have(IB); before = list(args.lines)
    example(b"".join(args.send(False, False)) == b"0012command=fetch\n0014agent=git/oxide\n0001000ethin-pack\n000eofs-delta\n"
        b"0032want " + C + b"\n0032have " + A + b"\n0032have " + B + b"\n0000" and args.haves == [] and args.lines == before)
    example(frame(b"x" * 65515)[:4] == b"fff0" and is_error("LineTooLong", frame, b"x" * 65516))
    a, _ = response(2, b"0010wanted-refs\n003d" + A + b" refs/heads/main\n00010011shallow-info\n0035shallow " + B
                    + b"\n0001000dpackfile\n", True, False)
    example(a == dict(acks=[], shallows=[("Shallow", IB)], wanted=[(IA, b"refs/heads/main")], pack=True))
    a, _ = response(2, b"0014acknowledgments\n0008NAK\n00010014acknowledgments\n0008NAK\n0000", True, False)
    example(a == dict(acks=[("Nak",), ("Nak",)], shallows=[], wanted=[], pack=False))
    example(items_of(b"0006\x04x", 2, True)[1].rest == (4,))
    caps = lambda t: [name_value(x) for x in t.split()]
    f = lambda t: [n for n, _ in default_features(GIT, b"fetch", 1, caps(t))]
    example(f(b"multi_ack multi_ack_detailed side-band side-band-64k ofs-delta") ==
        [b"side-band-64k", b"ofs-delta", b"multi_ack_detailed"] and f(b"multi_ack side-band") == [b"multi_ack", b"side-band"])
    adv = b"000eversion 1\n004e" + A + b" HEAD\0symref=HEAD:refs/heads/main\n003d" + A + b" refs/heads/main\n0000"
    got = advertisement(adv)
    example(got["version"] == 1 and got["refs"] == [("Symbolic", b"HEAD", b"refs/heads/main", None, IA),
        ("Direct", b"refs/heads/main", IA)] and got["updates"] == [])
    example(is_error("UnsupportedProtocolVersion", advertisement, b"000eversion 3\n", rest=(b"version 3",)))
    example(advertisement(b"0000") == dict(version=0, caps=[], refs=[], updates=[]))
    r = lambda n, t: is_error(n, refspec_of, t)
    example(r("NegativeWithDestination", b"^refs/heads/x:y") and r("NegativeObjectHash", b"^" + A)
        and r("NegativePartialName", b"^main") and r("InvalidName", b"^"))
    example(r("PatternUnbalanced", b"refs/heads/*") and r("PatternUnsupported", b"refs/*/*:refs/*")
        and r("InvalidName", b"refs/heads/a..b") and r("InvalidName", b"@"))
    example(refspec_of(b"+")[1:] == refspec_of(b":")[1:] == (b"HEAD", None) and refspec_of(b"+") != refspec_of(b":"))

    def mapped(texts, names, one_sided=False):
        specs = [refspec_of(t, one_sided) for t in texts]
        ms, fixes = validated(mappings_of(specs, names), specs)
        return [(m[1][1], m[2], m[3]) for m in ms], fixes
    h = b"refs/heads/"
    example(mapped([b"refs/heads/*:refs/remotes/o/*", b"^refs/heads/a"], [h + b"a", h + b"ab"])
        == ([(h + b"ab", b"refs/remotes/o/ab", 0)], []))
    example(mapped([b"refs/heads/*:o/*"], [h + b"main"]) == ([], [(b"o/main", b"refs/heads/*:o/*")]))
    example(mapped([b"refs/heads/*:*"], [h + b"HEAD"]) == ([(h + b"HEAD", b"HEAD", 0)], []))
    example(is_error("UnknownObjectFormat", ref_map, [], [(b"object-format", b"sha256")], []))
    example(b"".join(invoke(b"ls-refs", [(b"agent", b"git/oxide")], [b"symrefs", b"peel", b"unborn", b"ref-prefix HEAD"]))
        == b"0014command=ls-refs\n0014agent=git/oxide\n0001000csymrefs\n0009peel\n000bunborn\n0014ref-prefix HEAD\n0000")
    c3 = (b"0038ACK " + A + b" common\n") * 3
    example(response(1, c3, False, True)[0]["acks"] == [("Common", IA)] and not response(1, c3, False, True)[0]["pack"])
    a, n = response(1, b"00000008NAK\n0006\x01P", False, True)
    example(a["acks"] == [("Nak",)] and not a["pack"] and n == 2)
    example(boundary_ids(B + LF + A + LF + B) == [IA, IB] and boundary_text([IB, IA, IB]) == A + LF + B + LF)
    w = window_size
    example([w(True, x) for x in (16383, 16384, 1700000000000000000, MAX)] == [32766, 18022, 1870000000000000000, MAX]
        and [w(False, x) for x in (16, 32, 64)] == [32, 64, 96])
    ms = [(None, b"HEAD"), (IA, b"refs/heads/main")]
    def wants(mappings, riw):
        a = Arguments(GIT, 2, [])
        a.lines = []
        return add_wants(mappings, [False] * 9, [False] * len(mappings), ("NoChange",), riw, set(), a), a.lines
    example(wants(ms, True) == (True, [b"want-ref HEAD", b"want-ref refs/heads/main"])
        and wants(ms, False) == (True, [b"want " + A]) and wants(ms[:1], False) == (False, []))
    common = b"0014acknowledgments\n0031ACK " + C + b"\n0000"
    nak = b"0014acknowledgments\n0008NAK\n0000"
    args = Arguments(GIT, 2, [])
    out, rounds, reqs, _ = all_rounds(2, False, ids(1000), [common] + [nak] * 9, args)
    example([x[1] for x in rounds] == [16, 32, 96, 224, 480] and out == ("NegotiationFailed", 5)
        and [sum(f == b"0032have " + C + b"\n" for f in q) for q in reqs] == [0, 1, 1, 1, 1])
    example(complete_set({IA: (10, [IB, IC]), IB: (10, []), IC: (10, [])}, [IA], 10) == {IA, IB, IC})
    args = Arguments(GIT, 2, [(b"shallow", None), (b"agent", b"x")])
    args.word(b"shallow", A); args.word(b"deepen", b"2"); args.word(b"deepen-relative"); args.want(IB)
    example(args.lines == [b"thin-pack", b"ofs-delta", b"shallow " + A, b"deepen 2", b"deepen-relative", b"want " + B])
    args = Arguments(GIT, 1, [(b"shallow", None)])
    example(args.can(b"deepen") and not args.can(b"deepen-since"))
    example(boundary_after([], [("Shallow", IC)]) == {IC})
    chain = ids(1000)
    cs = {c: (7, chain[k + 1:k + 2]) for k, c in enumerate(chain)}
    example(complete_set(cs, chain[:1], 7) == set(chain) and complete_set(cs, chain[:1], 8) == {chain[0]})
    big = b"fff0" + b"x" * 65516 + b"0005x0000"
    example([i[0] for i in items_of(big, 2)[0]] == ["line", "line", "stop"])
    example(b"".join(i[1] for i in items_of(b"0012\x01ERR no access", 2, True)[0]) == b"ERR no access")
    example(items_of(b"0001", 1)[1].name == items_of(b"0002", 2)[1].name == "UnexpectedFrame")
    args = Arguments(GIT, 2, [])
    out, rounds, reqs, _ = all_rounds(2, False, ids(1000), [nak] * 9, args)
    example([x[2] for x in rounds] == [16, 32, 64, 128, 256, 512] and rounds[-1][0] == 504
        and out == ("NegotiationFailed", 6) and len(reqs) == 6)
    args = Arguments(GIT, 1, []); args.want(IA)
    out, rounds, reqs, _ = all_rounds(1, True, ids(1000), b"0008NAK\n" * 9, args)
    example([x[2] for x in rounds] == [16, 32, 64, 96, 128, 160, 192, 224, 256] and rounds[-1][0] == 88
        and out == ("NegotiationFailed", 9) and 1000 // 16 + 1 == 63)
    many = b"0014acknowledgments\n" + (b"0031ACK " + A + b"\n") * 10000
    example(is_error("Io", response, 2, many, False, True))
    caps = [(b"symref", b"HEAD:refs/heads/a"), (b"symref", b"HEAD:refs/heads/b"), (b"symref", b"X:refs/heads/y")]
    example(v1_ref_list([A + b" HEAD", B + b" HEAD"], caps)[0] == [("Symbolic", b"HEAD", b"refs/heads/a", None, IA),
        ("Symbolic", b"HEAD", b"refs/heads/a", None, IB)])
    s = [refspec_of(b"main:refs/x")]
    ns = [h + b"main", b"refs/remotes/main", b"refs/tags/main"]
    example(is_error("MappingValidation", lambda: validated(mappings_of(s, ns), s),
        rest=([(b"refs/x", [("FullName", n) for n in ns], [b"main:refs/x"] * 3)],)))
    example(lens_ok((b"0007", b"\x01PA", False), (b"0006", b"\x01C", False)))
    args = Arguments(GIT, 2, [])
    out, rounds, reqs, _ = all_rounds(2, False, ids(20), [], args, interrupt=lambda: True)
    example(out == ("NegotiationFailed", 0) and reqs == [])
    args = Arguments(GIT, 1, [(b"shallow", None)]); args.word(b"deepen", b"1"); args.want(IB)
    out, rounds, reqs, resp = all_rounds(1, True, ids(20),
        b"0035shallow " + A + b"\n00000008NAK\n0008NAK\n0006\x01P0000", args)
    ups = [u for r_ in resp for u in r_["shallows"]]
    example(out == "pack" and len(reqs) == 2 and boundary_after([], ups) == {IA} and resp[-1]["shallows"] == [])
    h1 = [h + b"a", h + b"main", b"refs/tags/v1"]
    example(mapped([b"refs/heads/*"], h1, True) == ([(h + b"a", None, 0), (h + b"main", None, 0)], [])
        and all_prefixes([refspec_of(b"refs/heads/*", True)]) == [h]
        and refspec_of(b"refs/heads/*:", True) == refspec_of(b"refs/heads/*", True))
    example(mapped([b"refs/heads/*", b"^refs/heads/a"], h1, True)[0] == [(h + b"main", None, 0)])
    example(mapped([b"refs/heads/*", h + b"main"], [h + b"main"], True)[0] == [(h + b"main", None, 0)]
        and all_prefixes([refspec_of(b"refs/heads/*", True), refspec_of(h + b"main")]) == [h, h + b"main"])
    example(all(is_error("PatternUnbalanced", refspec_of, t, True) for t in
                     (b"refs/heads/*:refs/x", b"refs/x:refs/heads/*", b":refs/heads/*")))
    example(mapped([b"refs/heads/*"], [b"refs/tags/v1"], True) == ([], []))
    body0 = b"000eversion 2\n0013ls-refs=unborn\n0012fetch=shallow\n0017object-format=sha1\n0000"
    got = advertisement(body0)
    feats = default_features(GIT, b"fetch", 2, got["caps"]) + [(b"agent", b"git/gixp-plan")]
    args = Arguments(GIT, 2, feats); args.want(IA)
    show_frames = lambda fs: [b"> " + (f if f in (b"0000", b"0001") else f[4:-1]) for f in fs]
    ls = invoke(b"ls-refs", [(b"agent", b"git/gixp-plan")], [b"symrefs", b"peel", b"unborn", b"ref-prefix refs/heads/"])
    example(got["version"] == 2 and show_frames(ls) == [b"> command=ls-refs", b"> agent=git/gixp-plan", b"> 0001",
        b"> symrefs", b"> peel", b"> unborn", b"> ref-prefix refs/heads/", b"> 0000"]
        and show_frames(args.send(False, True)) == [b"> command=fetch", b"> agent=git/gixp-plan", b"> 0001", b"> thin-pack",
        b"> ofs-delta", b"> want " + A, b"> done", b"> 0000"])
    example(is_error("Io", response, 2, b"", True, False))
    example(r("InvalidName", b"a..b"))


def edges():
    """Small points that the other examples don't cover."""
    example(response(1, b"0038ACK ", False, True)[0] == dict(acks=[], shallows=[], wanted=[], pack=False))
    example(response(1, b"", True, False) == (dict(acks=[], shallows=[], wanted=[], pack=False), 0))
    example(1700000000000000000 * 11 > MAX >= window_size(True, 1700000000000000000))
    example(local_name(b"HEAD", b"") == b"refs/heads/HEAD" and local_name(b"heads", b"") == b"refs/heads/heads")
    example(v1_ref_list([B + b" t", b"shallow " + C, C + b" t^{}"], [])[0] == [("Peeled", b"t", IB, IC)])
    example(is_error("InvariantViolation", v1_ref_list, [B + b" t", C + b" t^{}", C + b" t^{}"], []))
    example(v1_ref_list([B + b" t"], [(b"symref", b"t:(null)")])[0] == [("Direct", b"t", IB)]
        and is_error("InvariantViolation", v1_ref_list, [B + b" t", C + b" t^{}"], [(b"symref", b"t:(null)")]))


if __name__ == "__main__":
    examples_of_parts()
    examples_of_sessions()
    edges()
    for line, ok in RESULTS:
        if not ok:
            print("line %d fails" % line)
    print(len(RESULTS), "worked examples,", sum(not ok for _, ok in RESULTS), "fail")
