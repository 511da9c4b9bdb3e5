"""Errors as text: short, as the output line of a test vector has them, and as Rust's Debug shows them."""
from values import conflicts_text, quoted

# Of each enum the errors that are its variants, with their fields. A field is the type of its value
# and, for a field that has one, its name. A type that is a key of this table is an error of that enum.
ENUMS = {
    "id": {"InvalidLength": ["word"], "InvalidDigit": []},
    "read": {
        "Io": ["word"], "Decode": ["word"], "Server": ["bytes message"], "BadBand": ["word"],
        "UnexpectedFrame": [], "NotUtf8": [], "Interrupted": [], "Memory": [],
    },
    "client": {
        "Io": ["word"], "UnsupportedProtocolVersion": ["bytes"], "MissingDelimitingNullByte": [],
        "LineTooLong": [], "AuthenticationUnsupported": [],
    },
    "refs": {
        "Io": ["word"], "Decode": ["word"], "Server": ["bytes message"], "Id": ["id"],
        "MalformedSymref": ["bytes symref"], "MalformedV1RefLine": ["bytes"],
        "MalformedV2RefLine": ["bytes"], "UnknownAttribute": ["bytes attribute", "bytes line"],
        "InvariantViolation": ["text message"],
    },
    "response": {
        "Io": ["word"], "Server": ["bytes message"], "UnknownLineType": ["text line"],
        "UnknownSectionHeader": ["text header"], "MissingServerCapability": ["text feature"],
    },
    "handshake": {
        "Transport": ["client"], "ParseRefs": ["refs"], "EmptyCredentials": [],
        "Credentials": ["bytes"], "InvalidCredentials": ["bytes"], "PolicyViolation": ["word"],
    },
    "list_refs": {"Transport": ["client"], "Parse": ["refs"], "ArgumentValidation": ["word"]},
    "ref_map": {
        "UnknownObjectFormat": ["bytes format"], "ListRefs": ["list_refs"],
        "MappingValidation": ["conflicts"],
    },
}
# Variants with another name than the error.
NAMES = {
    ("refs", "Decode"): "DecodePacketline",
    ("refs", "Server"): "UploadPack",
    ("response", "Server"): "UploadPack",
    ("handshake", "PolicyViolation"): "TransportProtocolPolicyViolation",
}
# The variant of an enum that has all other errors of a reader.
READER = {"client": "Read", "refs": "Reader", "response": "Reader"}


def char_text(c):
    return {"\n": "\\n", "\r": "\\r", "\t": "\\t", '"': '\\"', "\\": "\\\\", "\0": "\\0"}.get(c)


def debug_text(b):
    """A UTF-8 text in quotes, as Debug shows it."""
    out = ""
    for c in b.decode():
        out += char_text(c) or ("\\u{%x}" % ord(c) if ord(c) < 32 or ord(c) == 127 else c)
    return '"%s"' % out


def debug_bytes(b):
    """Bytes in quotes, with two digits for each byte that is not UTF-8 and for control characters."""
    out, at = "", 0
    while at < len(b):
        for size in (1, 2, 3, 4):
            try:
                c = b[at:at + size].decode()
                break
            except UnicodeDecodeError:
                c = None
        if not c:
            out += "\\x%02X" % b[at]
            at += 1
            continue
        at += size
        out += char_text(c) or ("\\x%02x" % ord(c) if ord(c) < 32 or ord(c) == 127 else c)
    return '"%s"' % out


def value_text(kind, value, debug):
    if kind in ENUMS:
        return error_text(kind, value, debug)
    if kind == "conflicts":
        return conflicts_text(value)
    if kind == "word":
        return str(value)
    value = value.encode() if isinstance(value, str) else value
    if not debug:
        return quoted(value)
    return debug_text(value) if kind == "text" else debug_bytes(value)


def error_text(enum, error, debug=False):
    """The variant of an enum for an error, with its fields."""
    if error.name not in ENUMS[enum]:
        return "%s(%s)" % (READER[enum], error_text("read", error, debug))
    fields = [f.split() for f in ENUMS[enum][error.name]]
    texts = [value_text(f[0], v, debug) for f, v in zip(fields, error.rest)]
    name = NAMES.get((enum, error.name), error.name)
    if not fields:
        return name
    if debug and len(fields[0]) == 2:
        return "%s { %s }" % (name, ", ".join("%s: %s" % (f[1], t) for f, t in zip(fields, texts)))
    return "%s(%s)%s" % (name, texts[0], "".join(texts[1:]))
