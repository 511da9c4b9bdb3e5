"""Negotiations: the output line of a test vector."""
from definitions import (Arguments, BLANK, GIT, LF, MAX, Err, State, add_wants, complete_set, cutoff_of, decision,
                         frames_of, is_id, window_size, without_lf)
from vectors import Unreadable
from streams import number
from listings import TAGS_SPEC, spec_of

WORDS = (b"commit", b"packed", b"object", b"apart", b"broken", b"ref", b"leads", b"refs-fail", b"alternate", b"alternate-fails",
         b"no-alternates", b"extra", b"mapping", b"haves", b"answer", b"answer-many")
ERRORS = {b"open": "OpenPackedRefsBuffer", b"iter": "InitRefIter", b"peel": "PeelToId", b"io": "IO(TimedOut)"}


class History:
    """A repository, the refs of the server, and the answers of both. Ids are numbers."""

    def __init__(self, text):
        self.ids, self.objects, self.existing = [], {}, {}       # id -> (kind, commit or None, whether a lookup fails)
        self.refs, self.targets, self.error = {}, [], None
        self.alternates, self.has_alternates = [], True          # (targets, error) each
        self.extra, self.mappings, self.haves, self.answers = [], [], [], []
        for line in text.split(LF):
            if line:
                word, _, rest = line.partition(BLANK)
                if word not in WORDS:
                    raise Unreadable("its mode doesn't know a word of its bytes")
                self.add(word.decode(), rest)

    def add_object(self, word, rest):
        name, _, rest = rest.partition(BLANK)
        i = number(name)
        if word in ("commit", "packed"):
            time, _, parents = rest.partition(BLANK)
            thing = ("commit", (number(time, True), [number(p) for p in parents.split(BLANK) if p]), False)
        elif word == "broken":
            thing = ("commit", None, True)
        else:
            thing = (rest.decode() if rest in (b"commit", b"blob", b"tree", b"tag") else None, None, False)
        if word != "packed":
            self.existing[i] = thing
        if word != "apart":
            self.objects[i] = thing
            self.ids.append(i)

    def add(self, word, rest):
        numbers = lambda t: [number(w) for w in t.split(BLANK) if w]
        if word in ("commit", "packed", "object", "apart", "broken"):
            self.add_object(word, rest)
        elif word == "ref":
            name, _, i = rest.partition(BLANK)
            self.refs[name] = number(i)
        elif word == "leads":
            self.targets += numbers(rest)
        elif word == "refs-fail":
            self.error = ERRORS[rest]
        elif word == "alternate":
            self.alternates.append((numbers(rest), None))
        elif word == "alternate-fails":
            self.alternates.append(([], ERRORS[rest]))
        elif word == "no-alternates":
            self.has_alternates = False
        elif word == "extra":
            self.extra.append(spec_of(rest))
        elif word == "mapping":
            self.mappings.append(self.mapping(rest))
        elif word == "haves":
            first, count = numbers(rest)
            self.haves += range(first, first + count)
        elif word == "answer-many":
            first, count = numbers(rest)
            self.answers.append([("Common", i) for i in range(first, first + count)])
        else:
            kinds = {b"ready": ("Ready",), b"NAK": ("Nak",)}
            self.answers.append([kinds.get(w) or ("Common", number(w)) for w in rest.split(BLANK)])

    def mapping(self, text):
        """-> (as_id or None, name or None, local or None, whether it is unborn, index of an extra refspec or None)."""
        local, place, form, rest = text.split(BLANK, 3)
        words = rest.split(BLANK)
        ids = [None if w == b"-" else number(w) for w in words[1:]]
        as_id = {b"id": lambda: number(words[0]), b"direct": lambda: ids[0], b"peeled": lambda: ids[0],
                 b"symbolic": lambda: ids[0] if ids[0] is not None else ids[1], b"unborn": lambda: None}[form]()
        where, _, k = place.partition(b"-")
        return (as_id, None if form == b"id" else words[0], None if local == b"-" else local, form == b"unborn",
                int(k) if where == b"extra" else None)

    def ignored(self, tags):
        spec = spec_of(TAGS_SPEC)
        return [tags == "included" and m[4] is not None and m[4] < len(self.extra) and self.extra[m[4]] == spec
                for m in self.mappings]


class Graph:
    """The commits that were looked up, and those that are marked complete."""

    def __init__(self, objects, fail_at):
        self.objects, self.calls = objects, fail_at
        self.held, self.marked, self.looked = {}, set(), []

    def look(self, i):
        if i in self.held:
            return True
        self.looked.append(i)
        self.calls -= 1
        if self.calls == 0:
            raise Err("LookupCommitInGraph(Io(Interrupted))")
        kind, commit, is_broken = self.objects.get(i, (None, None, False))
        if is_broken:
            raise Err("LookupCommitInGraph(Corrupt)")
        if commit:
            self.held[i] = commit
        return commit is not None


class Negotiator:
    """Offers haves, whatever calls it gets. One of its calls may fail."""

    def __init__(self, haves, fail_at):
        self.haves, self.calls = list(haves), fail_at
        self.known, self.tips, self.common = [], [], []

    def step(self):
        self.calls -= 1
        if self.calls == 0:
            raise Err("LookupCommitInGraph(Corrupt)")

    def report(self, what, i):
        self.step()
        what.append(i)

    def next_have(self):
        self.step()
        return self.haves.pop(0) if self.haves else None


def mark_complete(history, graph, tips, cutoff):
    """Marks the tips, then the parents of marked commits down to the cutoff, newest first."""
    waiting = []
    for t in tips:
        if t not in graph.marked:
            graph.marked.add(t)
            waiting.append(t)
    while cutoff is not None and waiting:
        newest = max(waiting, key=lambda i: graph.held[i][0])
        waiting.remove(newest)
        if graph.held[newest][0] < cutoff:
            continue
        for p in graph.held[newest][1]:
            if graph.look(p) and p not in graph.marked:
                graph.marked.add(p)
                waiting.append(p)


def found_tips(history, graph):
    """The commits of the refs, then of each alternate, without repeats. All are listed before one is looked up: no definition says
    what a failed listing looked up before."""
    if history.error:
        raise Err(history.error)
    if not history.has_alternates:
        raise Err("AlternateRefsAndObjects")
    targets = list(history.targets)
    for more, error in history.alternates:
        if error:
            raise Err(error)
        targets += more
    return list(dict.fromkeys(t for t in targets if graph.look(t)))


def first_step(history, graph, negotiator, shallow, ignored):
    """The decision. If it is a negotiation, marks the tips and reports them to the negotiator."""
    maps = history.mappings
    if not maps or shallow == ("Deepen", 0) or (len(maps) == 1 and maps[0][3]):
        return decision([(m[0], m[3], m[2]) for m in maps], ignored, {}, {}, set(), shallow)
    for m in maps:
        if m[0] is not None:
            graph.look(m[0])
    advertised = [m[0] for m in maps if m[0] is not None]
    action = decision([(m[0], m[3], m[2]) for m in maps], ignored, history.refs, graph.held, set(history.existing), shallow)
    if not isinstance(action, tuple):
        return action
    cutoff = cutoff_of(graph.held, advertised)
    tips = found_tips(history, graph)
    mark_complete(history, graph, tips, cutoff)
    all_commits = {i: c for i, (_, c, _) in history.objects.items() if c}
    assert graph.marked == complete_set(all_commits, tips, cutoff)
    for m in maps:
        if m[0] in graph.marked:
            negotiator.report(negotiator.known, m[0])
    for t in tips:
        negotiator.report(negotiator.tips, t)
    return action


def round_of(state, negotiator, args, previous):
    """-> (new haves, in_vain, window, whether a commit was common, whether this round is the last)."""
    common = [a[1] for a in previous if a[0] == "Common"] if previous else []
    for c in common:
        negotiator.report(negotiator.common, c)
        if state.stateless and c not in state.kept:
            state.kept.append(c)
    if state.stateless:
        for c in state.kept:
            args.have(c.to_bytes(20, "big"))
    new = 0
    while new < state.window:
        have = negotiator.next_have()
        if have is None:
            break
        args.have(have.to_bytes(20, "big"))
        new += 1
    w = state.window
    state.in_vain = min(MAX, new + (0 if common else state.in_vain))
    state.seen |= bool(common)
    state.window = window_size(state.stateless, w)
    return new, state.in_vain, w, bool(common), new < w or (state.seen and state.in_vain >= 256)


def run_rounds(history, negotiator, args, persists, sent):
    """-> text. Appends the requests to `sent`."""
    state = State(not persists or args.version == 2)
    out = ""
    for previous in [None] + history.answers:
        for _ in range(2):                       # a failed round is tried once more
            try:
                new, in_vain, w, common, done = round_of(state, negotiator, args, previous)
            except Err as e:
                out += e.name + " "
                continue
            out += "round %d %d %d%s%s" % (w, new, in_vain, " common" if common else "", " last " if done else " ")
            if done or args.haves:
                sent.append(b"".join(args.send(persists, done)))
            break
        else:
            return out
        if done:
            return out
    return out


def request_words(data):
    out = "> "
    for kind, payload in frames_of(data)[0]:
        if kind != "Data":
            out += "/ "
            continue
        line = without_lf(payload)
        out += (line[:-40].decode() + str(int(line[-40:], 16)) if is_id(line[-40:]) else line.decode()) + " "
    return out


def shallow_of(vector):
    by = min(vector["by"], 2 ** 32 - 1)
    return {"no": ("NoChange",), "depth": ("DepthAtRemote", by or 2 ** 31 - 1), "deepen": ("Deepen", by),
            "since": ("Since", by), "exclude": ("Exclude",)}[vector["shallow"]]


def wants_of(history, args, ignored, known, shallow, by_name):
    """Adds the wants, and a have for each tag."""
    tags = {i.to_bytes(20, "big") for i, (kind, _, _) in history.existing.items() if kind == "tag"}
    maps = [(None if m[0] is None else m[0].to_bytes(20, "big"), m[1]) for m in history.mappings]
    return add_wants(maps, ignored, known, shallow, by_name, tags, args)


def negotiation_vector(vector):
    history = History(vector.data)
    graph, negotiator = Graph(history.objects, vector["fail-at"]), Negotiator(history.haves, vector["offer-fails"])
    shallow, ignored = shallow_of(vector), history.ignored(vector["tags"])
    persists, version = vector["over"] == "connection", 2 if vector["over"] == "bodies" else 1
    sent, action = [], None
    try:
        action = first_step(history, graph, negotiator, shallow, ignored)
        out = action + " " if isinstance(action, str) else \
            "MustNegotiate %s " % "".join("1" if k else "0" for k in action[1])
    except Err as e:
        out = e.name + " "
    if isinstance(action, tuple):
        by_name = vector["ref-in-want"] == "yes"
        args = Arguments(GIT, version, [(b"ref-in-want", None)] if by_name else [])
        if wants_of(history, args, ignored, action[1], shallow, by_name):
            out += "wants " + run_rounds(history, negotiator, args, persists, sent)
        else:
            out += "nothing "
        out += request_words(b"".join(sent)) if persists else "".join(map(request_words, sent))
    out += "held " + "".join("%d%s" % (i, "+ " if i in graph.marked else " ") for i in history.ids if i in graph.held)
    looked = sorted(graph.looked)
    out += "looked "
    for k, i in enumerate(looked):
        if k and looked[k - 1] == i:
            out += "twice " if history.objects.get(i, (None, None))[1] else ""
        else:
            out += "%d " % i
    for name, ids in (("known", negotiator.known), ("tips", negotiator.tips), ("common", negotiator.common)):
        out += name + " " + "".join("%d " % i for i in ids)
    return out
