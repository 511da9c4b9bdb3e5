"""The words of requests: git's command table, and the calls of `Arguments` that a test vector may make.

A new argument line of a request has its words in this file and in no other file of models/."""

# `git_table` of crates/gixp_requests/specs/Command.antt
GIT = dict(
    v1_fetch=[(b"multi_ack", b"multi_ack_detailed"), (b"thin-pack", None), (b"side-band", b"side-band-64k"),
              (b"side-band-64k", None), (b"ofs-delta", None), (b"shallow", None), (b"deepen-since", None),
              (b"deepen-not", None), (b"deepen-relative", None), (b"include-tag", None),
              (b"multi_ack_detailed", None), (b"filter", None)],
    v2_fetch=[b"shallow", b"filter", b"ref-in-want", b"sideband-all"], v2_ls_refs=[],
    fetch_arguments=[(b"thin-pack", None), (b"ofs-delta", None), (b"sideband-all", b"sideband-all")],
    fetch_prefixes=[b"want ", b"have ", b"done", b"thin-pack", b"no-progress", b"include-tag", b"ofs-delta", b"shallow ",
                    b"deepen ", b"deepen-relative", b"deepen-since ", b"deepen-not ", b"filter ", b"want-ref ", b"sideband-all"],
    ls_refs_arguments=[b"symrefs", b"peel"],
    ls_refs_prefixes=[b"symrefs", b"peel", b"ref-prefix ", b"unborn"])

# The names of features that a test vector may give: the table's, the client's name, and a name that no table has.
FEATURES = {b"agent", b"no-such", *(name for name, _ in GIT["v1_fetch"]), *GIT["v2_fetch"]}

# Calls that need a feature of the server. An entry has the feature, the word of the call in a test vector (None: it has none), and
# what follows that word. A line of mode `requests` shows for each entry, in this order, whether the server has the feature.
CALLS = [
    (b"filter", b"filter", "text"),
    (b"shallow", b"shallow", "id"),
    (b"deepen", b"deepen", "number"),
    (b"deepen-since", b"deepen_since", "date"),
    (b"deepen-not", b"deepen_not", "bytes"),
    (b"deepen-relative", b"deepen_relative", "nothing"),
    (b"ref-in-want", None, "nothing"),
    (b"include-tag", b"use_include_tag", "nothing"),
]
# Calls that need none, and the two lines of a script that are no calls of this kind.
WORDS = {b"feature", b"want", b"have", b"want_ref", b"add_feature", b"send", b"send-done", *(word for _, word, _ in CALLS if word)}
