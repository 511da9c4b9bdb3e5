"""A client's transport over bodies in memory or a connection, as far as a test vector shows it."""
from definitions import BLANK, Err
from values import quoted
from streams import Reader, early_refs, greeting, number

KINDS = {b"denied": "PermissionDenied", b"timed-out": "TimedOut", b"broken-pipe": "BrokenPipe"}


class Bodies:
    """Each handshake and each request takes the next body."""
    persists = False

    def __init__(self, bodies):
        self.bodies, self.sent, self.account, self.r = list(bodies), [], None, Reader(b"")

    def take(self):
        body = self.bodies.pop(0) if self.bodies else b""
        self.r = Reader(b"" if isinstance(body, str) else body, self.r.version)
        if isinstance(body, str):
            raise Err("Io", body)

    def identify(self):
        self.account = True

    def handshake(self, parameters):
        self.take()
        return greeting(self.r)

    def request(self, frames):
        self.sent.append(b"".join(frames))
        self.take()


class Connection:
    """One stream of responses. All requests go into one text."""
    persists = True

    def __init__(self, data, version, source=None, opening=None):
        self.sent, self.version, self.opening = b"", version, opening
        self.r = Reader(data, version, source)

    def identify(self):
        raise Err("AuthenticationUnsupported")

    def handshake(self, parameters):
        if self.opening:
            extra = ([b"version=%d" % self.version] if self.version else []) + parameters
            text = self.opening + (b"\0" + b"".join(x + b"\0" for x in extra) if extra else b"")
            self.sent += b"%04x" % (len(text) + 4) + text
        return greeting(self.r)

    def request(self, frames):
        self.sent += b"".join(frames)
        self.r.reset(self.r.version)


def bodies_of(words, data):
    """The bodies of some words: each word is a length, or the error of the read."""
    out = []
    for word in words.split(BLANK):
        if word in KINDS:
            out.append(KINDS[word])
        else:
            n = number(word)
            out.append(data[:n])
            data = data[n:]
    return out


class ProgressRecorder:
    """Records the calls of a progress reporter as text."""

    def __init__(self):
        self.words, self.shown = b"", None

    def init(self, most, unit):
        self.words += b"init " + (b"%d " % most if most is not None else b"") + unit + b"; "

    def step(self):
        self.words += b"step; "

    def set(self, step):
        self.words += b"set %d; " % step

    def name(self, name):
        self.words += b"name " + name + b"; "
        self.shown = name

    def fail(self, text):
        self.words += b"fail " + text + b"; "

    def as_text(self):
        return "told " + quoted(self.words) + " "


def run_handshake(transport, helper, parameters, progress, asked):
    """-> the result of the handshake. Raises the client's error. `helper` has the result of each action."""
    progress.init(None, b"steps")
    progress.name(b"handshake")
    progress.step()

    def act(word, text):
        asked.append("%s%s " % (word, quoted(text)))
        answer = helper.pop(0) if helper else b"account"
        if answer == b"fails":
            raise Err("Credentials", b"no helper")
        return answer != b"none"
    try:
        return transport.handshake(parameters)
    except Err as e:
        if e.name != "Io" or e.rest[0] != "PermissionDenied":
            raise Err("Transport", e)
    progress.name(b"authentication")
    if not act("Get", b"git://h/p.git"):
        raise Err("EmptyCredentials")
    try:
        transport.identify()
    except Err as e:
        raise Err("Transport", e)
    progress.step()
    progress.name(b"handshake (authenticated)")
    try:
        found = transport.handshake(parameters)
    except Err as e:
        if e.name != "Io" or e.rest[0] != "PermissionDenied":
            raise Err("Transport", e)
        act("Erase", b"output")
        raise Err("InvalidCredentials", b"git://h/p.git")
    act("Store", b"output")
    return found


def handshake_refs(transport, found):
    """The refs and shallow updates of a handshake. Raises an error of the list."""
    if not found[2]:
        return None, None
    try:
        return early_refs(transport.r, found[1])
    except Err as e:
        raise Err("ParseRefs", e)
