"""Refspecs, ref maps, handshakes with an account, and progress lines: the output line of a test vector of each of these modes."""
from definitions import (BLANK, GIT, LF, Err, all_prefixes, capabilities_of_bytes, capability_words, default_features,
                         frames_of, has_capability, invoke, is_id, mappings_of, name_ok, progress_parts, ref_map, refspec_of,
                         spec_text, validated)
from errors import error_text
from values import conflicts_text, id_digits, quoted, ref_words, source_words, update_words
from streams import Reader, Source, cap_words, listed
from transports import Bodies, Connection, ProgressRecorder, bodies_of, handshake_refs, run_handshake

TAGS_SPEC = b"refs/tags/*:refs/tags/*"


def spec_of(text):
    return refspec_of(text, True)


def refspec_vector(vector):
    try:
        return quoted(spec_text(spec_of(vector.data)))
    except Err as e:
        return e.name


def ref_name_vector(vector):
    return "valid" if name_ok(vector.data) else "invalid"


def specs_of(line):
    """The valid refspecs of a line."""
    out = []
    for word in line.split(BLANK):
        try:
            out.append(spec_of(word))
        except Err:
            pass
    return out


def prefixes_vector(vector):
    return "".join(map(quoted, all_prefixes(specs_of(vector.data))))


def fix_words(fixes):
    return "".join("fix %s%s " % (quoted(name), quoted(spec)) for name, spec in fixes)


def matches_vector(vector):
    line, _, names = vector.data.partition(LF)
    specs = specs_of(line)
    try:
        maps, fixes = validated(mappings_of(specs, names.split(LF)), specs)
    except Err as e:
        return conflicts_text(e.rest[0])
    return "".join(source_words(m[1]) + (">" + quoted(m[2]) if m[2] is not None else "") + " " for m in maps) + fix_words(fixes)


# ---------------------------------------------------------------- ref maps
def context_of(explicit, extra):
    """-> the refspecs of two lines. Raises the first error."""
    return tuple([spec_of(w) for w in line.split(BLANK) if w] for line in (explicit, extra))


def prefix_lines(explicit, extra):
    return [b"ref-prefix " + p for p in all_prefixes(explicit + extra)]


def is_missing(maps, refs, explicit):
    asked = any(s[0] != b"^" and not is_id(s[1]) and not any(c in b"*?[]\\" for c in s[1]) for s in explicit)
    return (not maps and bool(refs)) or (not any(m[3] < len(explicit) for m in maps) and asked)


def ref_map_of(refs, caps, explicit, extra):
    """-> (mappings, fixes, refs); a mapping has its ref or id, its local name and the index of its refspec."""
    kept, fixes = ref_map(refs, caps, explicit + extra)
    return kept, fixes, refs


def map_words(found, explicit):
    maps, fixes, refs = found
    out = "map "
    for item, source, local, k in maps:
        out += ("e%d " % k if k < len(explicit) else "x%d " % (k - len(explicit)))
        out += "id:%s " % id_digits(source[1]) if source[0] == "ObjectId" else ref_words(refs[item])
        out += ">%s " % quoted(local) if local is not None else ""
    return out + fix_words(fixes) + ("missing " if is_missing(maps, refs, explicit) else "whole ")


def ref_map_vector(vector):
    explicit, _, rest = vector.data.partition(LF)
    extra, _, rest = rest.partition(LF)
    line, _, answer = rest.partition(LF)
    if vector["prefixes"] == "yes":
        return "prefixes " + "".join(quoted(b"ref-prefix " + w) for w in dict.fromkeys(explicit.split(BLANK))) + " "
    try:
        explicit, extra = context_of(explicit, extra)
    except Err as e:
        return e.name
    if vector["tags"] == "yes":
        extra.append(spec_of(TAGS_SPEC))
    lines = prefix_lines(explicit, extra)
    out = "prefixes " + "".join(map(quoted, lines)) + " "
    caps, _ = capabilities_of_bytes(b"\0" + line)
    try:
        refs = listed(Reader(answer))
    except Err as e:
        return out + error_text("refs", e)
    if vector["filters"] == "yes":
        refs = [r for r in refs if any(r[1].startswith(x[len(b"ref-prefix "):]) for x in lines)]
    try:
        return out + map_words(ref_map_of(refs, caps, explicit, extra), explicit)
    except Err as e:
        return out + error_text("ref_map", e) + " "


# ---------------------------------------------------------------- handshakes
ACCEPTED = {"any": (), **{v: tuple(map(int, v.split(","))) for v in ("0", "1", "0,1", "2", "0,2", "1,2", "0,1,2")}}
OPENING = b"git-upload-pack /p.git\0host=h\0"


def transport_of(vector, words, data, opening=OPENING):
    if vector["over"] == "connection":
        return Connection(data, vector["version"], Source(vector), opening)
    return Bodies(bodies_of(words, data))


def account_vector(vector):
    script, _, rest = vector.data.partition(LF)
    words, _, rest = rest.partition(LF)
    parameters, _, data = rest.partition(LF)
    transport, progress, asked = transport_of(vector, words, data), ProgressRecorder(), []
    out, version = "", None
    try:
        found = run_handshake(transport, [w for w in script.split(BLANK) if w], [w for w in parameters.split(BLANK) if w],
                            progress, asked)
        accepted = ACCEPTED[vector["accepts"]]
        version = found[0]
        if accepted and version not in accepted:
            raise Err("PolicyViolation", "V%d" % version)
        try:
            refs, updates = handshake_refs(transport, found)
        except Err:
            version = None
            raise
        out = "V%d %s; " % (version, cap_words(found[1]))
        out += "norefs noupdates " if refs is None else \
            "refs " + "".join(map(ref_words, refs)) + "updates " + "".join(map(update_words, updates))
    except Err as e:
        out = error_text("handshake", e) + " "
    out = "asked %s " % quoted("".join(asked).encode()) + progress.as_text() + out
    if version is not None:
        out += transport.r.after(version)
    if transport.persists:
        return out + quoted(transport.sent)
    return out + (quoted(b"me") + quoted(b"secret") if transport.account else "nobody")


# ---------------------------------------------------------------- a ref map by a handshake
class HandshakeResult:
    """The result of a handshake. Its refs can be taken once."""

    def __init__(self, transport, progress):
        self.found = run_handshake(transport, [], [], progress, [])
        self.version, self.caps = self.found[0], self.found[1]
        self.refs, self.updates = handshake_refs(transport, self.found)


def list_refs(transport, caps, table, agent, lines, progress):
    """Sends an ls-refs command -> refs. Raises the error."""
    features = default_features(table, b"ls-refs", 2, caps) + [agent]
    arguments = table["ls_refs_arguments"] + ([b"unborn"] if b"unborn" in capability_words(caps, b"ls-refs") else []) + lines
    for a in arguments:
        if not any(a.startswith(p) for p in table["ls_refs_prefixes"]):
            raise Err("ListRefs", Err("ArgumentValidation", "UnsupportedArgument(ls-refs%s)" % quoted(a)))
    for name, _ in features:
        if name != b"agent" and not has_capability(caps, name) and name not in capability_words(caps, b"ls-refs"):
            raise Err("ListRefs", Err("ArgumentValidation", "UnsupportedCapability(ls-refs %s)" % name.decode()))
    progress.step()
    progress.name(b"list refs")
    try:
        transport.request(invoke(b"ls-refs", features, arguments))
    except Err as e:
        raise Err("ListRefs", Err("Transport", e))
    try:
        return listed(transport.r)
    except Err as e:
        raise Err("ListRefs", Err("Parse", e))


def prepared(shaken, explicit, extra):
    """The ref map of the handshake's refs, or None if the server must list them. Raises its error."""
    if shaken.refs is None:
        return None
    refs, shaken.refs = shaken.refs, None
    return ref_map_of(refs, shaken.caps, explicit, extra)


def obtained(shaken, transport, table, agent, explicit, extra, progress, by_prefixes=True):
    """-> (word, function that returns the ref map). Raises the error."""
    found = prepared(shaken, explicit, extra)
    if found is not None:
        return "existing ", lambda: found
    lines = prefix_lines(explicit, extra) if by_prefixes else []

    def fetch():
        refs = list_refs(transport, shaken.caps, table, agent, lines, progress)
        return ref_map_of(refs, shaken.caps, explicit, extra)
    return "command ", fetch


def listing_words(vector, shaken, transport, explicit, extra):
    table = dict(GIT)
    table["ls_refs_prefixes"] = {"unborn": [b"symrefs", b"peel", b"ref-prefix "],
                                 "ref-prefix": [b"symrefs", b"peel", b"unborn"]}.get(vector["without"], GIT["ls_refs_prefixes"])
    agent = (b"no-such" if vector["without"] == "agent" else b"agent", b"git/replay" + b"x" * vector["letters"])
    progress, out = ProgressRecorder(), ""
    try:
        if vector["by"] == "prepare-twice":
            try:
                out += "command " if prepared(shaken, explicit, extra) is None else "existing "
            except Err as e:
                out += error_text("ref_map", e) + " "
        word, fetch = obtained(shaken, transport, table, agent, explicit, extra, progress, vector["by"] != "prepare-all")
        out += "" if vector["by"] == "obtain" else word
        out += map_words(fetch(), explicit)
    except Err as e:
        out += error_text("ref_map", e) + " "
    return out + progress.as_text() + ("taken " if shaken.refs is None else "kept ")


def sent_words(sent):
    out = "sent "
    for kind, payload in frames_of(sent)[0]:
        out += quoted(payload) if kind == "Data" else "| "
    return out


def listing_vector(vector):
    explicit, _, rest = vector.data.partition(LF)
    extra, _, rest = rest.partition(LF)
    words, _, data = rest.partition(LF)
    try:
        explicit, extra = context_of(explicit, extra)
    except Err as e:
        return e.name
    transport = transport_of(vector, words, data)
    try:
        shaken = HandshakeResult(transport, ProgressRecorder())
        out = listing_words(vector, shaken, transport, explicit, extra) + transport.r.after(shaken.version)
    except Err as e:
        out = error_text("handshake", e) + " "
    if transport.persists:
        return out + sent_words(transport.sent)
    return out + "".join(map(sent_words, transport.sent))


# ---------------------------------------------------------------- progress
def lossy(b):
    return b.decode("utf-8", "replace").encode()


def report(progress, is_error, text):
    def named(t):
        shown = progress.shown
        return lossy(t) if shown is None else shown.split(b":")[0] + b": " + lossy(t)
    if is_error:
        if text:
            progress.fail(lossy(text))
        return
    parts = progress_parts(text)
    if parts is None:
        return progress.name(named(text))
    action, _, step, most = parts
    progress.name(named(action))
    progress.init(most, b"objects")
    if step is not None:
        progress.set(step)


def progress_vector(vector):
    shown, _, text = vector.data.partition(LF)
    parts = progress_parts(text)
    out = "none " if parts is None else quoted(parts[0]) + " " + "".join(("-" if n is None else str(n)) + " " for n in parts[1:])
    progress = ProgressRecorder()
    if shown:
        progress.name(lossy(shown))
    report(progress, vector["error"] == "yes", text)
    return out + progress.as_text()
