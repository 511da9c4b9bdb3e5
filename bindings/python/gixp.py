"""The client side of git's fetch protocol: bytes in, values out. Each function of the library below is proved.

No state is kept between calls, and nothing is sent or received: the caller does this, by sockets, pipes or HTTP. The library is
`libgixp.so`, in the folder that GIXP_LIB names or where `scripts/bindings.sh` puts it.

    for ref in gixp.refs(answer): print(ref.id.hex(), ref.name)
"""
from __future__ import annotations

import ctypes
import enum
import os
from ctypes import POINTER, Structure, byref, c_char_p, c_int64, c_size_t, c_uint8, c_uint32
from dataclasses import dataclass
from typing import Callable, Iterable, Iterator, List, Optional, Tuple, Union

_BESIDE = os.path.join(os.path.dirname(os.path.abspath(__file__)), "..", "build")
_lib = ctypes.CDLL(os.path.join(os.environ.get("GIXP_LIB", _BESIDE), "libgixp.so"))

_OK, _MORE, _NO_ROOM = 0, 1, 2


class _Span(Structure):
    _fields_ = [("at", c_size_t), ("len", c_size_t)]


class _Ref(Structure):
    _fields_ = [("kind", c_uint32), ("object", c_uint8 * 20), ("tag", c_uint8 * 20), ("name", _Span), ("target", _Span)]


class _Found(Structure):
    _fields_ = [("count", c_size_t), ("next", c_size_t), ("words", _Span)]


class _Piece(Structure):
    _fields_ = [("band", c_uint32), ("text", _Span), ("next", c_size_t)]


class _SessionInput(Structure):
    _fields_ = [("specs", c_char_p), ("specs_len", c_size_t), ("haves", c_char_p), ("haves_len", c_size_t), ("boundary", c_char_p),
                ("boundary_len", c_size_t), ("filter", c_char_p), ("filter_len", c_size_t), ("excluded", c_char_p),
                ("excluded_len", c_size_t), ("since", c_int64), ("depth", c_uint32), ("limit", c_uint32)]


class _Step(Structure):
    _fields_ = [("kind", c_uint32), ("length", c_size_t), ("place", c_size_t)]


class _Mapping(Structure):
    _fields_ = [("item", c_size_t), ("spec", c_size_t), ("has_local", c_uint32), ("local", _Span)]


class _Mapped(Structure):
    _fields_ = [("mappings", c_size_t), ("fixes", c_size_t), ("names", c_size_t)]


_bytes = (c_char_p, c_size_t)
_lib.gixp_map.argtypes = [*_bytes, POINTER(_Ref), c_size_t, *_bytes, POINTER(_Mapping), c_size_t, *_bytes, POINTER(_Mapped)]
_lib.gixp_prefixes.argtypes = [*_bytes, *_bytes, POINTER(c_size_t)]
_lib.gixp_refs.argtypes = [*_bytes, c_size_t, POINTER(_Ref), c_size_t, POINTER(_Found)]
_lib.gixp_piece.argtypes = [*_bytes, c_size_t, POINTER(_Piece)]
_lib.gixp_error_text.argtypes = [c_uint32, c_char_p, c_size_t, POINTER(c_size_t)]
_lib.gixp_advertised.argtypes = _lib.gixp_refs.argtypes
_lib.gixp_next.argtypes = [*_bytes, POINTER(c_size_t), c_size_t, POINTER(_SessionInput), c_char_p, c_size_t, POINTER(_Step)]
for _f in (_lib.gixp_refs, _lib.gixp_advertised, _lib.gixp_piece, _lib.gixp_error_text, _lib.gixp_next, _lib.gixp_map,
           _lib.gixp_prefixes):
    _f.restype = c_uint32


class Kind(enum.Enum):
    """The kinds of errors."""
    BAD_PLACE, NO_MEMORY, INCOMPLETE, MALFORMED, SERVER, UNEXPECTED, UNKNOWN_BAND, BAD_REF, ANSWERS, BAD_SPEC, HANDSHAKE, REFS, \
        FETCH, NO_FILTERS, BAD_LIMIT, OTHER = range(16)


_KINDS = [(range(3, 4), Kind.BAD_PLACE), (range(4, 5), Kind.NO_MEMORY), (range(10, 11), Kind.INCOMPLETE),
          (range(11, 15), Kind.MALFORMED), (range(15, 16), Kind.SERVER), (range(16, 17), Kind.UNEXPECTED),
          (range(17, 18), Kind.UNKNOWN_BAND), (range(20, 30), Kind.BAD_REF), (range(30, 32), Kind.ANSWERS),
          (range(32, 40), Kind.BAD_SPEC), (range(40, 50), Kind.HANDSHAKE), (range(50, 60), Kind.REFS),
          (range(60, 70), Kind.FETCH), (range(70, 71), Kind.NO_FILTERS), (range(80, 90), Kind.BAD_LIMIT)]


def _text(code: int) -> str:
    buffer, length = ctypes.create_string_buffer(128), c_size_t()
    found = _lib.gixp_error_text(code, buffer, len(buffer), byref(length))
    return buffer.raw[:length.value].decode("ascii") if found == _OK else ""


class GixpError(Exception):
    """The error of all calls: its number, its kind, and the server's message, if it sent one."""

    def __init__(self, code: int, words: bytes = b""):
        self.code, self.words = code, words
        self.kind = next((kind for codes, kind in _KINDS if code in codes), Kind.OTHER)
        super().__init__(_text(code) + (": " + words.decode("utf-8", "replace") if words else ""))


def _of(data: bytes, span: _Span) -> bytes:
    return data[span.at:span.at + span.len]


@dataclass(frozen=True)
class Ref:
    """A ref of a server: its name; its object, for a tag the tag itself, and none if its target is unborn; the peeled object of a
    tag; and the target of a symbolic ref."""
    name: bytes
    id: Optional[bytes]
    peeled: Optional[bytes] = None
    target: Optional[bytes] = None


def _ref(answer: bytes, r: _Ref) -> Ref:
    tagged = r.kind in (2, 4)
    first = bytes(r.tag) if tagged else bytes(r.object) if r.kind != 5 else None
    return Ref(_of(answer, r.name), first, bytes(r.object) if tagged else None, _of(answer, r.target) if r.kind >= 3 else None)


def _read(reader, answer: bytes) -> Iterator[Ref]:
    answer = bytes(answer)
    records, found = (_Ref * 256)(), _Found()
    code, place = _MORE, 0
    while code == _MORE:
        code = reader(answer, len(answer), place, records, len(records), byref(found))
        place = found.next
        for r in records[:found.count]:
            yield _ref(answer, r)
    if code != _OK:
        raise GixpError(code, _of(answer, found.words))


def refs(answer: bytes) -> Iterator[Ref]:
    """The refs of a version 2 `ls-refs` response, in order (gitprotocol-v2, "ls-refs"). Raises GixpError after the last one if the
    response is incomplete or malformed."""
    return _read(_lib.gixp_refs, answer)


def advertised(answer: bytes) -> Iterator[Ref]:
    """The refs of a version 0 or 1 reference advertisement (gitprotocol-pack, "Reference Discovery"): one per ref line, a tag with the
    id of its peeled line. Raises GixpError after the last one if the advertisement is incomplete or malformed."""
    return _read(_lib.gixp_advertised, answer)


@dataclass(frozen=True)
class Mapping:
    """A mapping: the index of the name in the argument, or none if the refspec names an object; the index of the refspec; and the
    local name, if there is one. The local name isn't checked: the server chose the part that replaces the asterisk of a pattern."""
    item: Optional[int]
    spec: int
    local: Optional[bytes]


@dataclass(frozen=True)
class Mappings:
    """The mappings of refs by refspecs, and the local names of removed mappings, which aren't names of refs. Local names with two
    different sources are the conflicts. If there are any, nothing is mapped."""
    mappings: List[Mapping]
    removed: List[bytes]
    conflicts: List[bytes]


def map_refs(names: Iterable[bytes], specs: Iterable[bytes]) -> Mappings:
    """Maps refs with these full names by refspecs (git-fetch, "<refspec>"). Raises GixpError."""
    names, text = list(names), b"\n".join(specs)
    whole, at, records = b"".join(names), 0, (_Ref * max(len(names), 1))()
    for record, name in zip(records, names):
        record.name.at, record.name.len = at, len(name)
        at += len(name)
    room, size, counts = len(names) + 8, len(whole) + 64, _Mapped()
    while True:
        found, locals_ = (_Mapping * room)(), ctypes.create_string_buffer(size)
        code = _lib.gixp_map(whole, len(whole), records, len(names), text, len(text), found, room, locals_, size, byref(counts))
        if code != _NO_ROOM:
            break
        room, size = max(counts.mappings + counts.fixes, 1), max(counts.names, 1)
    if code not in (_OK, 51):
        raise GixpError(code)
    local = [_of(locals_.raw, r.local) for r in found[:counts.mappings + counts.fixes]]
    first, removed = local[:counts.mappings], local[counts.mappings:]
    if code == 51:
        return Mappings([], removed, first)
    return Mappings([Mapping(r.item if r.item < len(names) else None, r.spec, name if r.has_local else None)
                     for r, name in zip(found, first)], removed, [])


def prefixes(specs: Iterable[bytes]) -> List[bytes]:
    """The ref prefixes of these refspecs (gitprotocol-v2, `ref-prefix`). Raises GixpError."""
    text, size, length = b"\n".join(specs), 256, c_size_t()
    while True:
        buffer = ctypes.create_string_buffer(size)
        code = _lib.gixp_prefixes(text, len(text), buffer, size, byref(length))
        if code != _NO_ROOM:
            break
        size = length.value
    if code != _OK:
        raise GixpError(code)
    return buffer.raw[:length.value].split(b"\n")[:-1]


class Band(enum.Enum):
    """The band of a packet line of a pack."""
    STOP, CONTENT, PROGRESS, ERROR = range(4)


@dataclass(frozen=True)
class Piece:
    """A packet line of a pack: bytes of the pack or a message of the server, and the offset after it."""
    band: Band
    text: bytes
    next: int


def piece(answer: bytes, place: int) -> Piece:
    """The packet line at an offset of a response (gitprotocol-pack, "Packfile Data"). Raises GixpError, of the kind INCOMPLETE if the
    response is incomplete."""
    answer, found = bytes(answer), _Piece()
    if not 0 <= place <= len(answer):
        raise GixpError(3)
    code = _lib.gixp_piece(answer, len(answer), place, byref(found))
    if code != _OK:
        raise GixpError(code, _of(answer, found.text) if code == 15 else b"")
    return Piece(Band(found.band), _of(answer, found.text), found.next)


def pieces(answer: bytes, place: int = 0) -> Iterator[Piece]:
    """The packet lines of a pack from an offset of a complete response on, up to the end of the pack."""
    while True:
        found = piece(answer, place)
        if found.band is Band.STOP:
            return
        yield found
        place = found.next


def read_pieces(data: bytes, place: int, read: Callable[[int], bytes]) -> Iterator[Piece]:
    """The packet lines of a pack whose start is in `data`. `read` returns the rest: at most the requested number of bytes, and none at
    the end. Only one packet line is kept in memory."""
    while True:
        try:
            found = piece(data, place)
        except GixpError as e:
            more = read(1 << 20) if e.kind is Kind.INCOMPLETE else b""
            if not more:
                raise
            data, place = data[place:] + more, 0
            continue
        if found.band is Band.STOP:
            return
        yield found
        place = found.next


@dataclass(frozen=True)
class Request:
    """Send these bytes. The server's reply is the next response."""
    data: bytes


@dataclass(frozen=True)
class Pack:
    """Take the pack from the last response, where it begins at this offset. `boundary` has the ids of the shallow boundary after the
    server's shallow updates: store it in place of the session's, unless `is_unasked`. Then the server changed it though the session has
    no limit of the history, as a server does whose own repository is shallow. In a repository that has objects such a boundary hides
    history: git rejects these refs, unless `--update-shallow` is set."""
    place: int
    boundary: Tuple[bytes, ...] = ()
    is_unasked: bool = False


@dataclass(frozen=True)
class Nothing:
    """There is nothing to request."""


class Session:
    """A fetch, as the responses so far. The first one is the server's advertisement for `git-upload-pack`. Each step is computed from
    all responses, so a session may be stored, copied or dropped at any time."""

    def __init__(self, specs: Iterable[bytes], haves: Iterable[bytes] = (), shallow: Iterable[bytes] = (), depth: int = 0, *,
                 deepen: Optional[int] = None, since: Optional[int] = None, exclude: Iterable[bytes] = (), filter: bytes = b""):
        """`haves` are ids of objects that exist locally, and `shallow` is the local repository's shallow boundary. A session has at most
        one limit of the history, as an option of `git fetch`: `depth`, `deepen`, or `since` (`--shallow-since`, in seconds since
        1970-01-01 00:00:00 UTC) with `exclude` (`--shallow-exclude`). `filter` says which objects the server leaves out, for example
        `blob:none` (git-rev-list, `--filter`)."""
        excluded = b"\n".join(exclude)
        if sum([depth != 0, deepen is not None, since is not None or bool(excluded)]) > 1:
            raise GixpError(82)
        self.limit = 1 if deepen is not None else (2 if since is not None else 0) if not excluded else 3 if since is None else 4
        self.depth, self.since = depth if deepen is None else deepen, since or 0
        if not 0 <= self.depth < 2 ** 32 or not -2 ** 63 <= self.since < 2 ** 63:
            raise GixpError(3)
        self.specs, self.haves, self.shallow = b"\n".join(specs), b"".join(haves), b"".join(shallow)
        self.excluded, self.filter = excluded, filter
        self.answers: List[bytes] = []

    def answer(self, data: bytes) -> None:
        """Adds the server's advertisement, or the response to the last request."""
        self.answers.append(bytes(data))

    def more(self, data: bytes) -> None:
        """Adds more bytes of the last response, if it arrives in parts."""
        self.answers[-1] += data

    def read_step(self, read: Callable[[int], bytes]) -> Union[Request, Pack, Nothing]:
        """Reads as much of the next response as the next step needs. `read` returns at most the requested number of bytes, and none at
        the end. Raises GixpError."""
        self.answer(read(1 << 16))
        while True:
            try:
                return self.step()
            except GixpError as e:
                more = read(max(1 << 16, len(self.answers[-1]))) if e.kind is Kind.INCOMPLETE else b""
                if not more:
                    raise
                self.more(more)

    def step(self) -> Union[Request, Pack, Nothing]:
        """The caller's next action. The last response may be incomplete if it reaches to the pack. Raises GixpError, of the kind
        INCOMPLETE if more of the last response is needed."""
        data, end, ends = b"".join(self.answers), 0, []
        for answer in self.answers:
            end += len(answer)
            ends.append(end)
        # There is room for a want of each ref in the responses and for a have of each id, so one call is mostly enough.
        places, room, step = (c_size_t * max(len(ends), 1))(*ends), 4096 + len(data) + 3 * len(self.haves), _Step()
        texts = (self.specs, self.haves, self.shallow, self.filter, self.excluded)
        record = _SessionInput(*(word for text in texts for word in (text, len(text))), self.since, self.depth, self.limit)
        while True:
            request = ctypes.create_string_buffer(room)
            code = _lib.gixp_next(data, len(data), places, len(ends), byref(record), request, room, byref(step))
            if code != _NO_ROOM:
                break
            room = step.length
        text = request[:step.length]
        if code != _OK:
            raise GixpError(code, text if step.length <= room else b"")
        if step.kind == 1:
            return Request(text)
        return self._pack(step.place - (end - len(self.answers[-1])), text) if step.kind == 2 else Nothing()

    def _pack(self, place: int, ids: bytes) -> Pack:
        def split(ids):
            return tuple(ids[at:at + 20] for at in range(0, len(ids), 20))

        is_limited = self.limit or self.depth
        return Pack(place, split(ids), not is_limited and set(split(ids)) != set(split(self.shallow)))


def without_service(answer: bytes) -> bytes:
    """The first response without the lines that a server over HTTP sends before it: `# service=git-upload-pack` and a flush packet
    (gitprotocol-http, "Smart Server Response")."""
    if answer[4:14] != b"# service=":
        return answer
    end = int(answer[:4], 16)
    return answer[end + 4:] if answer[end:end + 4] == b"0000" else answer
