"""Streams of packet lines, responses and requests: the output line of a test vector of each of these modes."""
from definitions import (Arguments, BLANK, GIT, LF, MAX, Err, acknowledgement, advertisement, boundary_ids, boundary_text,
                         capabilities_of_bytes, capabilities_of_lines, capability_value, capability_words, default_features,
                         frames_of, has_capability, id_of, id_text, invoke, is_id, shallow_update, symref_table, trim,
                         v1_answer, v1_class, v1_ref_list, v2_answer, v2_ref, v2_ref_list, wanted_ref, without_lf)
from request_table import CALLS, FEATURES, WORDS
from vectors import Unreadable
from errors import error_text
from values import ack_words, answer_words, id_digits, messages_text, quoted, ref_words, runs, update_words


# ---------------------------------------------------------------- a place in a stream
class Source:
    """How the bytes of a stream arrive, and which read fails."""

    def __init__(self, vector):
        self.step = vector["pieces"]
        self.fails_at, self.kind = vector["fail-at"], {"interrupted": "Interrupted", "timed-out": "TimedOut",
                                                    "denied": "PermissionDenied"}[vector["fail-as"]]

    def limit(self, length):
        """How many bytes arrived before the read that fails, or None. A reader reads only when it needs bytes."""
        if not self.fails_at:
            return None
        step = self.step or max(length, 1)
        return min((self.fails_at - 1) * step, length)


class Reader:
    """The packet lines of a stream and a position in them. `items` yields the items from there on, each with the position after it."""

    def __init__(self, data, version=2, source=None):
        self.frames, self.end = frames_of(data)
        self.i, self.version, self.stopped, self.sticky, self.cut = 0, version, None, None, None
        self.needs, at = [], 0                      # how many bytes each packet line needs, and the end after them
        for kind, payload in self.frames:
            at += 4 + len(payload)
            self.needs.append(at)
        self.needs.append(len(data) + 1 if self.end == ("Ended",) else at + 4)
        self.limit = source.limit(len(data)) if source else None
        self.kind = source.kind if source else None
        if source and source.fails_at and (source.fails_at - 1) * (source.step or max(len(data), 1)) > len(data) \
                + (source.step or max(len(data), 1)) - 1:
            self.limit = None                       # a later read than the one that finds the end

    def fails(self, k):
        return self.limit is not None and self.needs[k] > self.limit

    def items(self, banded=False):
        """Yields (item, position after it), and last ("error", error)."""
        if self.sticky:
            yield ("error", self.sticky), self.i
            return
        for k in range(self.i, len(self.frames)):
            kind, payload = self.frames[k]
            if self.fails(k):
                yield ("error", Err("Io", self.kind)), k
                return
            if k == self.i and self.cut is not None:
                yield ("line", self.cut), k + 1
                continue
            if kind == "Data":
                if payload.startswith(b"ERR "):
                    yield ("error", Err("Server", without_lf(payload[4:]))), k
                    return
                if not banded:
                    yield ("line", payload), k + 1
                elif payload[0] == 1:
                    if payload[1:]:
                        yield ("line", payload[1:]), k + 1
                elif payload[0] in (2, 3):
                    yield ("text", payload[0] == 3, without_lf(payload[1:])), k + 1
                else:
                    yield ("error", Err("BadBand", payload[0])), k
                    return
            elif kind == "Flush" or (kind == "Delimiter" and self.version == 2):
                yield ("stop", kind), k + 1
            else:
                yield ("error", Err("UnexpectedFrame")), k
                return
        if self.fails(len(self.frames)):
            yield ("error", Err("Io", self.kind)), len(self.frames)
            return
        yield ("error", Err("Io", "UnexpectedEof") if self.end == ("Ended",) else Err("Decode", self.end[1])), len(self.frames)

    def move_to(self, place, stop=None):
        if place != self.i:
            self.cut = None
        self.i, self.stopped = place, stop

    def fail(self, error):
        """An error of a packet line or of the stream's end is sticky. An I/O error is not."""
        if error.name == "UnexpectedFrame":
            self.sticky = error
        if error.name == "Io" and error.rest[0] != "UnexpectedEof":
            self.limit = None
        return error

    def reset(self, version):
        self.version, self.stopped = version, None

    def next(self, banded=False, peek=False, messages=None):
        """-> ('line', b) or ('stop',). Raises the error."""
        if self.stopped:
            return ("stop",)
        for item, place in self.items(banded):
            if item[0] == "text":
                if item[2] and messages is not None:
                    messages.append((item[1], item[2]))
                self.move_to(place)
            elif item[0] == "error":
                self.cut = None if place != self.i else self.cut
                self.i = place
                raise self.fail(item[1])
            elif item[0] == "stop":
                self.move_to(place, item[1])
                return ("stop",)
            else:
                if not peek:
                    self.move_to(place)
                return item

    def token(self, banded=False, peek=False, messages=None):
        try:
            it = self.next(banded, peek, messages)
        except Err as r:
            return error_text("read", r) + " "
        return "| " if it[0] == "stop" else quoted(it[1]) + " "

    def lines(self):
        """The lines up to the first stop, each with the position after it; then the stop or error with its position."""
        out = []
        if self.stopped:
            return out, ("stop", self.stopped), self.i
        for item, place in self.items():
            if item[0] != "line":
                return out, item, place
            out.append((item[1], place))

    def stop_word(self):
        return "@%s " % (self.stopped or "open")

    def after(self, version):
        t = self.stop_word() + self.token() + self.token()
        self.reset(version)
        return t + "/ " + self.token() + self.token() + self.token()


# ---------------------------------------------------------------- calls of a line reader
LINE_CALLS = ("readline", "peek_data_line", "next_line", "peek_line", "readline_str", "stopped_at", "reset-0", "reset-1", "reset-2")
BAND_CALLS = tuple("read-%d" % n for n in range(1, 10)) + ("fill_buf", "buffer", "consume-0", "consume-1", "consume-9", "fault")


def calls_of(line, known):
    out = []
    for word in line.decode().split(" "):
        name, _, times = word.partition("*")
        if name not in known:
            raise Unreadable("its mode doesn't know a word of its bytes")
        out += [name] * int(times or 1)
    return out


def text_call(take):
    """readline_str: `take(peek)` returns an item or raises."""
    item = take(True)
    if item[0] == "stop":
        return "0:'x' "
    take(False)
    try:
        item[1].decode()
    except UnicodeDecodeError:
        return "NotUtf8 "
    return "%d:%s " % (len(item[1]), quoted(b"x" + item[1]))


def line_call(r, call):
    if call in ("readline", "next_line"):
        return r.token()
    if call in ("peek_data_line", "peek_line"):
        return r.token(peek=True)
    if call == "readline_str":
        try:
            return text_call(lambda peek: r.next(peek=peek))
        except Err as e:
            return error_text("read", e) + " "
    if call == "stopped_at":
        return r.stop_word()
    r.reset(int(call[-1]))
    return ""


def lines_vector(vector):
    line, _, stream = vector.data.partition(LF)
    r = Reader(stream)
    r.reset(vector["version"])
    return "".join(line_call(r, call) for call in calls_of(line, LINE_CALLS))

# ---------------------------------------------------------------- calls of a reader of bands
class Banded:
    """A reader of bands over a line reader. It takes a packet of band 1 once it returned a byte of it."""

    def __init__(self, r, interrupt_at, memory_at):
        self.r, self.questions, self.texts = r, interrupt_at, memory_at
        self.messages, self.fault = [], None
        self.packet = None                  # the current packet: its bytes, and the position after it unless it was taken

    def receive(self, is_error, text, place):
        """Reports a message, takes its packet, and then asks the interrupt."""
        if text:
            if self.texts == 0:
                self.texts = MAX
                raise Err("Memory")
            self.texts -= 1
            self.messages.append((is_error, text))
        self.r.move_to(place)
        self.questions, asked = (MAX, 0) if self.questions == 0 else (self.questions - 1, 1)
        if not asked:
            raise Err("Interrupted")

    def step(self):
        """The next line with the position after it, or None at a stop."""
        if self.r.stopped:
            return None
        for item, place in self.r.items(True):
            if item[0] == "text":
                self.receive(item[1], item[2], place)
            elif item[0] == "stop":
                self.r.move_to(place, item[1])
                return None
            elif item[0] == "line":
                return item[1], place
            else:
                self.r.move_to(place)
                raise self.r.fail(item[1])

    def fill(self):
        if self.packet is None:
            self.packet = self.step()
        return self.packet[0] if self.packet else b""

    def consume(self, count):
        if self.packet is None or count == 0:
            return
        text, place = self.packet
        if place is not None:
            self.r.move_to(place)
        self.packet = (text[count:], None) if text[count:] else None

    def bytes_word(self, take):
        try:
            given, self.fault = take(), None
            return quoted(given) + " "
        except Err as e:
            self.fault = e
            return (e.rest[0] if e.name == "Io" else "OutOfMemory" if e.name == "Memory" else "Other"
                    if e.name == "Interrupted" else "InvalidData") + " "

    def read(self, size):
        given = self.fill()[:size]
        self.consume(len(given))
        return given

    def next(self, peek):
        item = self.step()
        if item is None:
            return ("stop",)
        if not peek:
            self.r.move_to(item[1])
        return ("line", item[0])

    def line_word(self, call):
        self.packet = None                  # skips the rest of a packet
        try:
            if call == "readline_str":
                return text_call(self.next)
            item = self.next(call.startswith("peek"))
        except Err as e:
            return error_text("read", e) + " "
        return "| " if item[0] == "stop" else quoted(item[1]) + " "

    def call(self, call):
        if call.startswith("read-"):
            return self.bytes_word(lambda: self.read(int(call[5:])))
        if call == "fill_buf":
            return self.bytes_word(self.fill)
        if call == "buffer":
            return quoted(self.packet[0] if self.packet else b"") + " "
        if call.startswith("consume-"):
            self.consume(int(call[8:]))
            return ""
        if call == "fault":
            return (error_text("read", self.fault) if self.fault else "nofault") + " "
        if call in ("stopped_at", "reset-0", "reset-1", "reset-2"):
            return line_call(self.r, call)
        return self.line_word(call)


def bands_vector(vector):
    line, _, stream = vector.data.partition(LF)
    r = Reader(stream, source=Source(vector))
    r.reset(vector["version"])
    banded = Banded(r, vector["interrupt-at"], vector["memory-at"])
    out = "".join(banded.call(call) for call in calls_of(line, LINE_CALLS + BAND_CALLS))
    return out + "told " + messages_text(banded.messages) + " " + r.after(vector["version"])


def v2_refs(r):
    """Reads the refs of version 2 -> (refs or None, text)."""
    try:
        refs = listed(r)
    except Err as e:
        return None, error_text("refs", e) + " "
    return refs, "refs " + "".join(map(ref_words, refs))


def refs_vector(vector):
    version, payload, fail = vector["version"], vector.data, vector["fail-at"]
    r = Reader(payload)                     # refs one by one: a failed read is tried again
    if vector["refs"] == "all":
        r = Reader(payload, source=Source(vector))
    r.reset(version)
    if vector["refs"] == "all":
        refs, out = v2_refs(r)
        if version == 2 and not fail:            # compare with the definition over the whole stream
            try:
                assert refs == v2_ref_list(payload)
            except Err as e:
                assert refs is None and out == error_text("refs", e) + " ", (out, e)
    else:
        lines, last, place = r.lines()
        out = ""
        for line, at in lines:
            try:
                out += ref_words(v2_ref(line))
            except Err as e:
                out += error_text("refs", e) + " "
        r.move_to(place, last[1] if last[0] == "stop" else None)
        if last[0] == "stop":
            out += "| "
        else:
            r.fail(last[1])
            out += 2 * (error_text("refs", last[1]) + " ")
    return out + (r.after(version) if not fail else "")


def cap_words(caps):
    return "".join(quoted(n) + ("=%s%d" % (quoted(v), len(v.split(BLANK))) if v is not None else "") + " " for n, v in caps)


def greeting(r):
    """Reads the part of an advertisement that the handshake reads -> (version, caps, has_refs). Raises the client's error."""
    r.reset(0)
    it = r.next(peek=True)
    if it[0] == "stop":
        return 0, [], True
    first, version = trim(it[1]), 0
    if first == b"version 2":
        r.next()
        r.reset(2)
        lines = []
        while True:
            it = r.next()
            if it[0] == "stop":
                return 2, capabilities_of_lines(lines), False
            lines.append(it[1])
    if first == b"version 1":
        r.next()
        r.reset(1)
        version = 1
        it = r.next(peek=True)
        if it[0] == "stop":
            return 1, [], True
    elif it[1].startswith(b"version "):
        raise Err("UnsupportedProtocolVersion", first)
    caps, place = capabilities_of_bytes(it[1])
    r.cut = it[1][:place]
    return version, caps, True


def sequential_v1(lines, caps):
    """The refs of versions 0 and 1 line by line, for long lists. `fuzz.py` compares this reading with the definition."""
    table = symref_table(caps)
    first, names = {}, set()
    for n, t in table:
        first.setdefault(n, t)
    refs, ups = [], []
    for line in lines:
        c, left, path = v1_class(line)
        if c == "malformed":
            raise Err("MalformedV1RefLine", left)
        if c == "capabilities":
            continue
        if c == "shallow":
            ups.append(("Shallow", id_of(path)))
        elif c == "bad id":
            id_of(left)
        elif c == "ref":
            t = first.get(path)
            refs.append([("Symbolic", path, t, None, id_of(left)) if t is not None else ("Direct", path, id_of(left)),
                         path not in first])
        else:
            if not refs or not refs[-1][1]:
                raise Err("InvariantViolation", "Expecting peeled refs to be preceded by direct refs")
            if refs[-1][0][1] != path:
                raise Err("InvariantViolation", "Expecting peeled refs to have the same base path as the previous, unpeeled one")
            refs[-1] = [("Peeled", path, refs[-1][0][2], id_of(left)), False]
    return [x for x, _ in refs], ups


def v1_refs_of(lines, caps):
    return (v1_ref_list if len(lines) <= 25 else sequential_v1)(lines, caps)


def early_refs(r, caps):
    """Reads the refs of versions 0 and 1 -> (refs, updates). Raises the error."""
    symref_table(caps)
    lines, last, place = r.lines()
    texts = [x for x, _ in lines]
    try:
        refs, ups = v1_refs_of(texts, caps)
    except Err:
        low, high = 1, len(texts)        # the earliest line with which the list is an error
        while low < high:
            mid = (low + high) // 2
            try:
                v1_refs_of(texts[:mid], caps)
                low = mid + 1
            except Err:
                high = mid
        r.move_to(lines[low - 1][1])
        raise
    if last[0] != "stop":
        r.move_to(place)
        raise r.fail(last[1])
    r.move_to(place, last[1])
    return refs, ups


def v1_refs(r, caps):
    """Reads the same refs -> (refs or None, text)."""
    try:
        refs, ups = early_refs(r, caps)
    except Err as e:
        return None, error_text("refs", e) + " "
    return refs, "refs " + "".join(map(ref_words, refs)) + "updates " + "".join(map(update_words, ups))


def listed(r):
    """Reads the refs of version 2. Raises the error."""
    lines, last, place = r.lines()
    refs = []
    for line, at in lines:
        try:
            refs.append(v2_ref(line))
        except Err:
            r.move_to(at)
            raise
    if last[0] != "stop":
        r.move_to(place)
        raise r.fail(last[1])
    r.move_to(place, last[1])
    return refs


def greeted(r):
    """-> (the advertisement or None, text)."""
    try:
        version, caps, has_refs = greeting(r)
    except Err as e:
        return None, error_text("client", e) + " "
    return (version, caps, has_refs), "V%d %s%s; " % (version, "refs " if has_refs else "norefs ", cap_words(caps))


def handshake_vector(vector, payload=None):
    payload = vector.data if payload is None else payload
    connection = vector.values.get("over") == "connection" or vector.values.get("each") == "size"
    r = Reader(payload, source=Source(vector) if connection else None)
    found, out = greeted(r)
    got = None
    if found:
        if found[2]:
            got, words = v1_refs(r, found[1])
            out += words
        out += r.after(found[0])
    if vector["fail-at"] and connection:
        return out + "''"
    try:                                  # compare with the definition over the whole stream
        adv = advertisement(payload)
        assert found and adv["version"] == found[0] and adv["caps"] == found[1], (adv, found)
        assert adv["refs"] == (got if found[2] else None), (adv, got)
    except Err as e:
        assert not found or (found[2] and got is None and (error_text("refs", e) in out)) or e.name == "Unset", (e, out)
    except RecursionError:
        pass
    return out + ("''" if connection else "")


def places_vector(vector):
    n = len(vector.data)
    if vector["each"] == "beginning":
        return runs([handshake_vector(vector, vector.data[:k]) for k in range(n)], 0)
    return runs([handshake_vector(vector)] * n, 1)   # the size of a read changes nothing


def opening_vector(vector):
    path, _, rest = vector.data.partition(b"\0")
    host, _, rest = rest.partition(b"\0")
    version = vector["version"]
    extra = [b"version=%d" % version] if version in (1, 2) else []
    extra += [x for x in rest.split(b"\0") if x]
    text = vector["service"].encode() + BLANK + path + b"x" * vector["letters"] + b"\0"
    if vector["host"] == "yes":
        text += b"host=" + host + b"\0"
    if extra:
        text += b"\0" + b"".join(x + b"\0" for x in extra)
    if len(text) > 65516:
        return "LineTooLong ''"
    return "V0 refs ;  " + quoted(b"%04x" % (len(text) + 4) + text)


def answered(r, version, expects, negotiates, banded, messages, questions=None):
    """Reads a response -> (response or None, text)."""
    try:
        answer = read_answer(r, version, expects, negotiates, banded, messages, questions)
    except Err as e:
        return None, error_text("response", e) + " "
    return answer, answer_words(answer)


def read_answer(r, version, expects, negotiates, banded, messages, questions=None):
    """Reads a response. Raises its error. The position of the reader is then after the taken packets. `asked` counts the messages
    after which the interrupt was asked. It answers true after so many `questions`."""
    r.reset(version)
    seen, error, end, r.asked = [], None, r.i, 0        # (item, place) without texts
    texts = []                                            # (number of items before, is_error, text)
    for item, place in r.items(banded):
        if item[0] == "error":
            error, end = item[1], place
        elif item[0] == "text":
            texts.append((len(seen), item[1], item[2]))
            if questions is not None and len(texts) > questions:
                error, end = Err("Interrupted"), place
                break
        else:
            seen.append((item, place))
    items = [x for x, _ in seen]

    def report(count):
        messages.extend((e, t) for n, e, t in texts if n <= count and t)
        r.asked = sum(n <= count for n, e, t in texts)

    def stop_at(n, peeked):
        """Sets the position after n items. If the next item was peeked at, also after the messages before it."""
        place = seen[n - 1][1] if n else r.i
        if peeked and n < len(seen):        # an empty packet of band 1 before a line that was peeked at is no item:
            place = seen[n][1] - 1          # it is skipped as the messages are
        stop = items[n - 1][1] if n and items[n - 1][0] == "stop" and (not peeked) else None
        r.move_to(place, stop)
        report(n if peeked else n - 1)
    class Sentinel(Err):
        pass
    try:
        if version == 2:
            answer, n = v2_answer(items, error)
            stop_at(n, False)
        else:
            answer, n = v1_answer(items, error, expects, negotiates)
            if answer["pack"]:
                stop_at(n, True)
                r.stopped = None
            elif n == len(items) and not (ends_by_last(items, expects, negotiates)):
                stop_at(n, True)                       # the reader asked for the stream's end
                r.stopped = None
                r.move_to(end)
            else:
                stop_at(n, False)
        return answer
    except Err:
        if version == 2:
            mark = Sentinel("Sentinel")
            low, high = 0, len(items) + 1            # the shortest beginning that is an error by itself
            while low < high:
                mid = (low + high) // 2
                try:
                    v2_answer(items[:mid], mark)
                    high = mid
                except Sentinel:
                    low = mid + 1
                except Err:
                    high = mid
            if low <= len(items):
                stop_at(low, False)
                raise
        report(len(items))
        r.move_to(end)
        r.fail(error)
        raise


def ends_by_last(items, expects, negotiates):
    """Whether the whole list ends the response, so that nothing after it was read."""
    a, n = v1_answer(items, Err("Server", b""), expects, negotiates) if safe(items, expects, negotiates) else (None, -1)
    return n == len(items)


def safe(items, expects, negotiates):
    try:
        v1_answer(items, Err("Server", b""), expects, negotiates)
        return True
    except Err:
        return False


def answer_vector(vector):
    version, banded = vector["version"], vector["bands"] == "yes"
    r, messages = Reader(vector.data, source=Source(vector) if vector["over"] == "reader" else None), []
    _, out = answered(r, version, vector["pack"] == "yes", vector["negotiates"] == "yes", banded, messages)
    if not banded:
        return out + r.after(version)
    out += r.stop_word()
    for _ in range(vector["lines"]):
        out += r.token(True, False, messages)
    return out + "told " + messages_text(messages) + " " + r.after(version)


def pack_words(r, limit, interrupt, memory):
    """Reads the pack: the joined payloads of band 1 up to the stop, at most `limit` bytes."""
    content, messages, asked = b"", [], 0
    if limit == 0:
        out = "limit " + r.stop_word()
    elif r.stopped:
        out = "end nofault " + r.stop_word()
    else:
        out = None
        for item, place in r.items(True):
            if item[0] == "text":
                asked += 1
                if item[2]:
                    messages.append((item[1], item[2]))
                r.move_to(place)
            elif item[0] == "line":
                content += item[1][:limit - len(content)]
                r.move_to(place)
                if len(content) >= limit:
                    out = "limit " + r.stop_word()
                    break
            elif item[0] == "stop":
                r.move_to(place, item[1])
                out = "end nofault " + r.stop_word()
                break
            else:
                r.i = place
                r.fail(item[1])
                e = item[1]
                out = error_text("read", e) + " " + (e.rest[0] if e.name == "Io" else "InvalidData") + " " + r.stop_word()
    return out + "%s told %s %d %d " % (quoted(content), messages_text(messages), interrupt < asked, memory < len(messages))


def pack_vector(vector):
    version = vector["version"]
    r = Reader(vector.data)
    r.reset(version)
    out = pack_words(r, vector["limit"], vector["interrupt-at"], vector["memory-at"])
    return out + (r.after(version) if not vector["fail-at"] else "")


def feature_of(word):
    name, eq, value = word.partition(b"=")
    return (name, value if eq else None)


def required(version, features):
    names = [n for n, _ in features]
    if version < 2:
        if b"multi_ack_detailed" not in names:
            raise Err("MissingServerCapability", b"multi_ack_detailed")
        if b"side-band" not in names and b"side-band-64k" not in names:
            raise Err("MissingServerCapability", b"side-band OR side-band-64k")


def validation(command, version, caps, arguments, features):
    """The first error of arguments and features, or `valid`."""
    prefixes = GIT["fetch_prefixes" if command == b"fetch" else "ls_refs_prefixes"]
    for a in arguments:
        if not any(a.startswith(x) for x in prefixes):
            return "UnsupportedArgument(%s%s) " % (command.decode(), quoted(a))
    for n, _ in features:
        if n != b"agent" and not has_capability(caps, n) and not (version == 2 and n in capability_words(caps, command)):
            return "UnsupportedCapability(%s %s) " % (command.decode(), n.decode())
    return "valid "


def capabilities_vector(vector):
    names, _, rest = vector.data.partition(LF)
    words, _, data = rest.partition(LF)
    queries = names.split(b",")
    given = [feature_of(w) for w in words.split(BLANK) if feature_of(w)[0] in FEATURES]
    out = ""
    if vector["form"] == "line":
        try:
            caps, place = capabilities_of_bytes(data)
        except Err as e:
            return error_text("client", e)
        out = "%d " % place
    else:
        caps = capabilities_of_lines(data.split(b"\x01"))
    out += cap_words(caps)
    for name in queries:
        out += "y" if has_capability(caps, name) else "n"
        if not has_capability(caps, name):
            out += "-"
        else:
            v = capability_value(caps, name)
            out += "none-" if v is None else quoted(v) + "".join(map(quoted, v.split(BLANK)))
            for w in queries:
                out += "-" if v is None else "1" if w in v.split(BLANK) else "0"
        out += " "
    try:
        out += "".join(quoted(n) + ":" + (quoted(t) if t is not None else "-") + " " for n, t in symref_table(caps))
    except Err as e:
        out += error_text("refs", e) + " "

    def check(version, features, ok):
        try:
            required(version, features)
            return ok
        except Err as e:
            return "lacks " if ok == "has  " else error_text("response", e)
    for command in (b"fetch", b"ls-refs"):
        for version in (0, 1, 2):
            fs = default_features(GIT, command, version, caps)
            out += "".join(n.decode() + ("=" if v is not None else "") + "," for n, v in fs) + " "
            out += check(version, fs, "has  ").replace("has  ", "has ")
            out += validation(command, version, caps, queries, given) + validation(command, version, caps, [], given)
        if command == b"fetch":
            names = [n for n, _ in given]
            lines = [x for x, only in GIT["fetch_arguments"] if only is None or only in names]
        else:
            lines = GIT["ls_refs_arguments"]
        out += "".join(map(quoted, lines)) + " "
    for version in (0, 1, 2):
        out += check(version, given, "has ")
    return out


def answer_line_vector(vector):
    payload = vector.data
    try:
        i = id_of(payload)
        out = id_digits(i) + (" null " if i == bytes(20) else " ")
    except Err as e:
        out = error_text("id", e.rest[0]) + " "
    if payload == b"sha1":
        out += "sha1 "
    try:
        payload.decode()
    except UnicodeDecodeError:
        return out + "notext"
    for f, words in ((acknowledgement, ack_words), (shallow_update, update_words), (wanted_ref, lambda w: id_digits(w[0]) + quoted(w[1]))):
        try:
            out += words(f(payload))
        except Err as e:
            out += error_text("response", e)
    return out


def number(b, signed=False):
    """Rust's parse of a u64 (or i64), or 0."""
    s = b
    if s[:1] == b"+" or (signed and s[:1] == b"-"):
        s = s[1:]
    if not s or any(c not in b"0123456789" for c in s):
        return 0
    n = int(b)
    return n if (-2 ** 63 <= n < 2 ** 63 if signed else n < 2 ** 64) else 0


def text_of(b):
    """The text, or a question mark if the bytes are not UTF-8."""
    try:
        b.decode()
    except UnicodeDecodeError:
        return b"?"
    return b


def value_of(kind, rest):
    """The value of a call, as the argument line has it."""
    if kind == "id":
        return id_text(id_or_null(rest))
    if kind in ("number", "date"):
        return b"%d" % number(rest, kind == "date")
    return {"nothing": None, "bytes": rest, "text": text_of(rest)}[kind]


def id_or_null(text):
    return id_of(text) if is_id(text) else bytes(20)


def make_call(a, word, rest):
    """Makes a call of the arguments other than `send`. Returns false where the call may not be made."""
    if word == b"want":
        a.want(id_or_null(rest))
    elif word == b"have":
        a.have(id_or_null(rest))
    elif word == b"want_ref":
        a.lines.append(b"want-ref " + rest)
    elif word == b"add_feature":
        if a.version < 2 and a.wanted:
            return False
        a.add_feature(text_of(rest))
    else:
        feature, _, kind = next(call for call in CALLS if call[1] == word)
        if not a.can(feature):
            return False
        a.word(feature, value_of(kind, rest))
    return True


def state_of(a):
    bits = [*(a.can(feature) for feature, _, _ in CALLS), a.version == 2 or not a.wanted,
            a.version == 2, True, not a.haves and not any(x.startswith(b"want ") for x in a.lines), bool(a.haves)]
    return "".join("1" if x else "0" for x in bits) + " "


def requests_vector(vector):
    lines = [x.partition(BLANK)[::2] for x in vector.data.split(LF) if x]
    if any(word not in WORDS for word, _ in lines):
        raise Unreadable("its mode doesn't know a word of its bytes")
    features = [feature_of(rest) for word, rest in lines if word == b"feature"]
    a = Arguments(GIT, vector["version"], [(n, text_of(v) if v is not None else None) for n, v in features if n in FEATURES])
    persists = vector["over"] == "connection"
    sent, out = [], state_of(a)
    for word, rest in lines:
        ok = True
        if word == b"feature":
            continue
        if word == b"send" and not a.haves:
            ok = False
        elif word in (b"send", b"send-done"):
            try:
                sent.append(b"".join(a.send(persists, word == b"send-done")))
                out += "sent "
            except Err as e:
                out += error_text("client", e) + " "
        else:
            ok = make_call(a, word, rest)
        out += ("" if ok else "x") + state_of(a)
    return out + (quoted(b"".join(sent)) if persists else "".join(quoted(s) + " " for s in sent))


def session_vector(vector):
    line, _, rest = vector.data.partition(LF)
    persists = vector["over"] == "connection"
    if persists:
        bodies, readers = None, [Reader(rest)]
    else:
        bodies, at = [], 0
        for w in line.split(BLANK):
            bodies.append(rest[at:at + number(w)])
            at += number(w)
    sent = []

    class State:
        r = Reader(rest) if persists else None
    s = State()

    def take_answer():
        if persists:
            s.r.reset(s.r.version)
        else:
            version = s.r.version if s.r else 2
            s.r = Reader(bodies.pop(0) if bodies else b"", version)
    if not persists:
        take_answer()
    found, out = greeted(s.r)

    def finish(out):
        if persists:
            return out + " " + quoted(b"".join(sent))
        return out + "".join(" " + quoted(x) for x in sent)
    if not found:
        return finish(out)
    version, caps, has_refs = found
    if has_refs:
        got, words = v1_refs(s.r, caps)
    else:
        sent.append(b"".join(invoke(b"ls-refs", [(b"agent", b"git/probe")], [b"symrefs", b"peel", b"ref-prefix refs/"])))
        take_answer()
        got, words = v2_refs(s.r)
    out += words
    if got is None:
        return finish(out + s.r.after(version))
    features = default_features(GIT, b"fetch", version, caps) + [(b"agent", b"git/probe")]
    banded = any(n == b"sideband-all" for n, _ in features)
    a = Arguments(GIT, version, features)
    a.want(bytes(20))
    for k in range(1, 6):
        done = k >= vector["done-at"]
        a.have(bytes([k % 256]) * 20)
        sent.append(b"".join(a.send(persists, done)))
        take_answer()
        out += "sent "
        answer, words = answered(s.r, version, done, not done, banded, [])
        out += words
        if answer is None:
            break
        if answer["pack"]:
            out += pack_words(s.r, MAX, MAX, MAX)
            break
        if done:
            break
    return finish(out + s.r.after(version))


def boundary_vector(vector):
    if vector["call"] == "write":
        return quoted(boundary_text([id_of(x) for x in vector.data.split(LF) if x]))
    try:
        return "ids " + "".join(id_digits(i) + " " for i in boundary_ids(vector.data))
    except Err as e:
        return "Decode(%s) " % quoted(e.rest[0])


def agent_vector(vector):
    name = text_of(vector.data)
    return quoted(name if name.startswith(b"git/") else b"git/" + name)
