"""Whole fetches and plans: the output line of a test vector of each of these modes."""
from definitions import (Arguments, BLANK, GIT, LF, MAX, Err, State, add_wants, boundary_after, decision, default_features,
                         frames_of, id_of, id_text, is_id, name_ok, one_round, unpack, without_lf)
from vectors import Unreadable
from errors import error_text
from values import answer_words, escaped, id_digits, quoted, runs
from streams import Banded, Source, number, read_answer, required
from transports import Bodies, Connection, ProgressRecorder, bodies_of
from listings import HandshakeResult, obtained, spec_of

SCRIPT_WORDS = (b"bodies", b"refspec", b"have", b"more-haves", b"boundary", b"depth", b"deepen", b"since", b"exclude", b"tags",
                b"reject-shallow", b"without", b"no-pack", b"interrupt-at", b"store-fails")
DESCRIPTIONS = {
    b"include-tag": "To make this work we would have to implement another pass to fetch attached tags separately",
    b"shallow": "shallow clones need server support to remain shallow, otherwise bigger than expected packs are sent "
                "effectively unshallowing the repository",
    b"deepen-since": "the server doesn't support it",
    b"deepen-not": "the server doesn't support it",
    b"deepen-relative": "the server doesn't support it"}


# ---------------------------------------------------------------- the script of a fetch
class Script:
    def __init__(self, data):
        self.bodies, self.specs, self.haves, self.boundary, self.excluded = b"", [], [], [], []
        self.shallow, self.cutoff, self.tags, self.table = ("NoChange",), None, "none", dict(GIT)
        self.rejects, self.copies, self.interrupt, self.call, self.fault = False, True, MAX, MAX, b"device"
        while data:
            line, _, data = data.partition(LF)
            if not line:
                break
            word, _, text = line.partition(BLANK)
            if word not in SCRIPT_WORDS:
                raise Unreadable("its mode doesn't know a word of its bytes")
            self.read(word, text)
        self.data = data
        if self.excluded:
            self.shallow = ("Exclude", self.excluded, self.cutoff)
        elif self.cutoff is not None:
            self.shallow = ("Since", self.cutoff)

    def read(self, word, text):
        small = min(number(text), 2 ** 32 - 1)
        if word == b"bodies":
            self.bodies = text
        elif word == b"refspec":
            try:
                self.specs.append(spec_of(text))
            except Err:
                pass
        elif word == b"have" and is_id(text):
            self.haves.append(id_of(text))
        elif word == b"more-haves":
            self.haves += [n.to_bytes(4, "big") + b"\7" * 16 for n in range(small)]
        elif word == b"boundary" and is_id(text):
            self.boundary.append(id_of(text))
        elif word == b"depth":
            self.shallow = ("DepthAtRemote", small) if small else ("NoChange",)
        elif word == b"deepen":
            self.shallow = ("Deepen", small)
        elif word == b"since":
            self.cutoff = number(text, True)
        elif word == b"exclude" and name_ok(text):
            self.excluded.append(text)
        elif word == b"tags":
            self.tags = text.decode()
        elif word == b"reject-shallow":
            self.rejects = True
        elif word == b"without":
            if text == b"recorded":
                self.table["v1_fetch"] = [(n, None) for n in (b"multi_ack_detailed", b"thin-pack", b"side-band-64k", b"ofs-delta")]
            else:
                gone = {b"sideband-all": [text], b"ref-in-want": [text], b"both": [b"sideband-all", b"ref-in-want"]}[text]
                self.table["v2_fetch"] = [n for n in GIT["v2_fetch"] if n not in gone]
        elif word == b"no-pack":
            self.copies = False
        elif word == b"interrupt-at":
            self.interrupt = number(text)
        elif word == b"store-fails":
            call, _, self.fault = text.partition(BLANK)
            self.call = number(call)


class Store:
    """A shallow boundary that counts calls and fails one of them."""

    def __init__(self, script):
        self.ids, self.call, self.fault, self.locks, self.releases = script.boundary, script.call, script.fault, 0, 0

    def fail_call(self, error):
        if self.call == 0:
            self.call = MAX
            if self.fault == b"memory":
                raise Err("Memory")
            raise Err("%s(%s)" % (error, {b"device": "Io(TimedOut)", b"locked": "Locked", b"line": 'Decode { line: "" }'}[self.fault]))
        self.call -= 1

    def lock(self):
        self.fail_call("LockShallowFile")
        self.locks += 1

    def read(self):
        self.fail_call("ReadShallowFile")
        return self.ids

    def write(self, ids):
        self.fail_call("WriteShallowFile")
        self.ids = ids


class Interrupt:
    """Answers true once."""

    def __init__(self, questions):
        self.questions = questions

    def ask(self, count=1):
        """Whether it answers true to one of so many questions."""
        if count > self.questions:
            self.questions = MAX
            return True
        self.questions -= count
        return False


# ---------------------------------------------------------------- a fetch
def missing(feature):
    return Err('MissingServerFeature { feature: "%s", description: "%s" }' % (feature.decode(), DESCRIPTIONS[feature]))


def need(args, word, value=None):
    if not args.can(word):
        raise missing(word)
    args.word(word, value)


def ask_for_depth(args, shallow, boundary):
    """Adds the lines of the boundary and the depth."""
    if (boundary or shallow != ("NoChange",)) and not args.can(b"shallow"):
        raise missing(b"shallow")
    for i in boundary:
        args.word(b"shallow", id_text(i))
    if shallow[0] in ("DepthAtRemote", "Deepen"):
        args.word(b"deepen", b"%d" % shallow[1])
    if shallow[0] == "Deepen":
        need(args, b"deepen-relative")
    if shallow[0] == "Since":
        need(args, b"deepen-since", b"%d" % shallow[1])
    if shallow[0] == "Exclude":
        if shallow[2] is not None:
            need(args, b"deepen-since", b"%d" % shallow[2])
        for name in shallow[1]:
            need(args, b"deepen-not", name)


def fetch_rounds(transport, version, args, haves, banded, interrupt):
    """-> (rounds, updates, the last response)."""
    state, left, rounds, updates, previous = State(version == 2 or not transport.persists), list(haves), [], [], None
    while True:
        if interrupt.ask():
            raise Err("Negotiate(NegotiationFailed { rounds: %d })" % len(rounds))
        new, rnd, done = one_round(state, left, previous)
        for i in new:
            args.have(i)
        rounds.append(rnd)
        try:
            transport.request(args.send(transport.persists, done))
        except Err as e:
            raise Err("Client(%s)" % error_text("client", e, debug=True))
        try:
            previous = read_answer(transport.r, version, done, not done, banded, [], interrupt.questions)
        except Err as e:
            interrupt.ask(transport.r.asked)
            raise Err("FetchResponse(%s)" % error_text("response", e, debug=True))
        interrupt.ask(transport.r.asked)
        updates += previous["shallows"]
        if previous["pack"]:
            return rounds, updates, previous
        if done:
            raise Err("Negotiate(NegotiationFailed { rounds: %d })" % len(rounds))


def read_pack(r, interrupt, pack):
    """Appends the content up to the stop to `pack`."""
    banded = Banded(r, interrupt.questions, MAX)
    while True:
        word = []
        try:
            given = banded.fill()
        except Err as e:
            raise Err("ConsumePack(Read(%s))" % error_text("read", e, debug=True))
        if not given:
            return
        pack.append(given)
        banded.consume(len(given))


def fetch(script, transport, shaken, maps, refs, store, pack, agent=b"git/oxide"):
    """-> the result of a fetch as text. Raises its error."""
    version, shallow = shaken.version, script.shallow
    early, shaken.updates = shaken.updates or [], None
    features = default_features(script.table, b"fetch", version, shaken.caps) + [(b"agent", agent)]
    try:
        required(version, features)
    except Err as e:
        raise Err("FetchResponse(%s)" % error_text("response", e, debug=True))
    args = Arguments(script.table, version, features)
    if script.tags == "included":
        need(args, b"include-tag")
    interrupt, held = Interrupt(script.interrupt), False
    try:
        if shallow != ("NoChange",):
            store.lock()
            held = True
        boundary = store.read()
        ask_for_depth(args, shallow, boundary)
        targets = [unpack(refs[m[0]])[1] if m[0] is not None else m[1][1] for m in maps]
        action = decision([(i, m[0] is not None and refs[m[0]][0] == "Unborn", m[2]) for i, m in zip(targets, maps)],
                          [False] * len(maps), {}, {}, set(), shallow)
        if not isinstance(action, tuple):
            return "nothing "
        names = [(i, refs[m[0]][1] if m[0] is not None else None) for i, m in zip(targets, maps)]
        if not add_wants(names, [False] * len(maps), action[1], shallow, args.can(b"ref-in-want"), set(), args):
            return "nothing "
        rounds, updates, last = fetch_rounds(transport, version, args, script.haves, any(n == b"sideband-all" for n, _ in features),
                                             interrupt)
        updates, last = updates + early, dict(last, shallows=last["shallows"] + early)
        if updates and not held:
            if script.rejects:
                raise Err("RejectShallowRemote")
            store.lock()
            held = True
        read_pack(transport.r, interrupt, pack)
        if updates:
            store.write(sorted(boundary_after(boundary, updates)))
        return "".join("%d/%d/%d%s" % (k, w, v, "c " if c else " ") for k, v, w, c in rounds) + answer_words(last)
    finally:
        store.releases += held


def fetch_words(vector, data):
    script = Script(vector.data)
    data = script.data if data is None else data
    if vector["over"] == "connection":
        transport = Connection(data, vector["version"], Source(vector))
    else:
        transport = Bodies(bodies_of(script.bodies, data))
    out = ""
    try:
        shaken = HandshakeResult(transport, ProgressRecorder())
    except Err as e:
        sent = quoted(transport.sent) if transport.persists else "".join(quoted(x) + " " for x in transport.sent)
        return "handshake %s %s" % (error_text("handshake", e, debug=True), sent)
    store = Store(script)
    try:
        _, obtain = obtained(shaken, transport, script.table, (b"agent", b"git/oxide"), script.specs, [], ProgressRecorder())
        maps, _, refs = obtain()
        pack = []
        try:
            out += fetch(script, transport, shaken, maps, refs, store, pack)
        except Err as e:
            out += "fetch %s " % e.name
        out += quoted(b"".join(pack)) + " " if script.copies else ""
    except Err as e:
        out += "refs %s " % error_text("ref_map", e, debug=True)
    out += "locks %d/%d" % (store.locks, store.releases) + "".join(" " + id_digits(i) for i in store.ids) + " "
    out += transport.r.after(shaken.version)
    return out + (quoted(transport.sent) if transport.persists else "".join(quoted(x) + " " for x in transport.sent))


def fetch_vector(vector):
    if vector["cut"] == "nowhere":
        return fetch_words(vector, None)
    data = Script(vector.data).data
    return runs([fetch_words(vector, data[:k]) for k in range(len(data))], 0)


# ---------------------------------------------------------------- a plan
def plan_parts(vector):
    """-> haves, refspecs and bodies."""
    line, _, data = vector.data.partition(LF)
    parts = []
    for word in line.split(BLANK):
        n = number(word)
        parts.append(data[:n])
        data = data[n:]
    bodies = parts[1 + vector["refspecs"]:]
    if 0 < vector["denied"] <= len(bodies):
        bodies[vector["denied"] - 1] = "PermissionDenied"
    return parts[0], parts[1:1 + vector["refspecs"]], bodies


def have_ids(text):
    """The ids of the lines, in their order and with repeats."""
    if not text:
        return []
    lines = without_lf(text).split(LF)
    if not all(map(is_id, lines)):
        raise Err("have Decode")
    return [id_of(x) for x in lines]


def planned(transport, specs, haves):
    """-> (mappings and fixes as text, `pack` or `nothing`, the text of the error or None)."""
    try:
        shaken = HandshakeResult(transport, ProgressRecorder())
    except Err as e:
        denied = e.name == "Transport" and e.rest[0].name == "Denied"      # and the client has no account
        return b"", b"", "handshake " + ("EmptyCredentials" if denied else e.name)
    try:
        _, obtain = obtained(shaken, transport, GIT, (b"agent", b"git/gixp-plan"), specs, [], ProgressRecorder())
        maps, fixes, refs = obtain()
    except Err as e:
        return b"", b"", "refs " + e.name
    text = b""
    for item, source, local, _ in maps:
        target = unpack(refs[item])[1] if item is not None else source[1]
        text += b"map %s %s %s\n" % (b"unborn" if target is None else id_text(target), b"-" if item is None else refs[item][1],
                                     b"-" if local is None else local)
    text += b"".join(b"fix %s %s\n" % fix for fix in fixes)
    script = Script(b"")
    script.haves = haves
    try:
        words = fetch(script, transport, shaken, maps, refs, Store(script), [], b"git/gixp-plan")
        return text, b"nothing\n" if words == "nothing " else b"pack\n", None
    except Err as e:
        return text, b"", "fetch " + e.name.split("(")[0].split(" ")[0]


class BodiesWithoutAccount(Bodies):
    """Bodies of a client without an account: a denied handshake stays denied."""

    def handshake(self, parameters):
        try:
            return super().handshake(parameters)
        except Err as e:
            if e.name == "Io" and e.rest[0] == "PermissionDenied":
                raise Err("Denied")
            raise


def plan_vector(vector):
    haves, specs, bodies = plan_parts(vector)
    try:
        haves = have_ids(haves)
        try:
            specs = [spec_of(s) for s in specs]
        except Err as e:
            raise Err("spec " + e.name)
    except Err as e:
        return " " + e.name
    transport = BodiesWithoutAccount(bodies)
    mapped, end, error = planned(transport, specs, haves)
    text = b""
    for k, request in enumerate(transport.sent, 1):
        text += b"request %d\n" % k
        for kind, payload in frames_of(request)[0]:
            text += b"> " + (without_lf(payload) if kind == "Data" else {"Flush": b"0000", "Delimiter": b"0001"}[kind]) + LF
    text += mapped + end
    if 0 < vector["room"] < len(text):
        return escaped(text[:vector["room"]]) + " file Io"
    return escaped(text) + (" Ok" if error is None else " " + error)
