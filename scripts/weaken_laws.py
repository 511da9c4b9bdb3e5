#!/usr/bin/env python3
"""Weakens the promises of `fetch`, `handshake` and `obtain`, and reports whether the laws of gixp_fetch are still proved.

Usage: weaken_laws.py [WORD]
       weaken_laws.py --fields [RECORD..]

Each change weakens one clause of a definition that these promise, or of a premise of a law. The changes are listed by the part of the
law's sentence that rests on them. Each is applied alone to a copy of gixp_fetch and of the crates below it with their out/ folders. Then
`rt check` of the laws must fail. WORD picks the changes with that word in their part or name. RT names another command than `rt`.

--fields changes the definitions: in each record that `Fetches` reaches (or each RECORD), each field that states a fact is replaced by a
fact that always holds. The replacements are tried together, each with a type of its own, so an error that names one type blames its
field. The fields that no error names are tried again without the blamed ones, until the laws are proved without them. If no error names
a single field, the rest is tried by halves. A field whose replacement leaves the laws proved bears nothing. BEARS_NOTHING lists the known
ones with their reasons.

A change of a definition that a law itself cites changes both sides, so it shows nothing unless the law says more of it.

The first word of a line is the verdict:

    killed        a proof fails; its first error follows
    survived      the laws are still proved
    known         a field that BEARS_NOTHING lists
    unreadable    the text doesn't occur, or the definition can't be read: a field may be data that others use

The last line counts the verdicts. The status is 1 if a change survived, or, without --fields, if one is unreadable.
"""
import re
import sys
import tempfile
import time
from collections import Counter
from pathlib import Path

from mutants import TOP, check, copy_with_those_below

LAWS = [f"laws::{name}" for name in ("headline", "errors_have_causes", "stores_are_called", "interrupts_are_asked", "requests_go_out",
                                    "requests_name_all_again", "rounds_are_bounded", "sessions_are_bounded",
                                    "all_but_the_last_are_counted")]

# fields of records that bear nothing, with reasons
BEARS_NOTHING = {}

IN_PROOFS = re.compile(r"(\./)?proofs/")

# a field is data, not a fact, if its type begins with one of these or is a single word
DATA = {"List", "Option", "Turn", "At", "World", "PackFailure", "negotiate_error"}

CHANGES = {
    "every server stream, however cut": [
        ("a connection's bytes aren't known", "Headline", "IsNewConnection (Some bytes)", "IsNewConnection None"),
        ("other bodies", "Headline", "IsNewBodies given at", "IsNewBodies [] at"),
        ("a reader's packet lines aren't those of the grammar", "Headline", "→ AreFrames bytes frames end → (r : Reading)", "→ AreFrames [] frames end → (r : Reading)"),
    ],
    "every lawful repository, negotiator and refspec list": [
        ("the negotiation is over another map", "Headline", "map_of old.negotiate ≡ made", "map_of old.negotiate ≡ map_of old.negotiate"),
        ("it asks for the lines of another map", "Mapped", "AddsWants (lines_of (knows n) (map_of n) a known)", "AddsWants (lines_of (knows n) (map_of l) a known)"),
        ("it decides anything", "Mapped", "action ≡ decided (knows n) (map_of n)", "action ≡ action"),
    ],
    "the refs": [
        ("the handshake began at another state", "Headline", "parties.plain start shaken credentials", "parties.plain shaken shaken credentials"),
        ("the fetch has another version", "Headline", "version : call.version ≡ handshake.server_protocol_version", "version : call.version ≡ call.version"),
        ("the fetch has other capabilities", "Headline", "capabilities : call.capabilities ≡ handshake.capabilities", "capabilities : call.capabilities ≡ call.capabilities"),
        ("the fetch has other shallow updates", "Headline", "reported : call.fetch_options.reported ≡ update_items handshake.v1_shallow_updates", "reported : call.fetch_options.reported ≡ call.fetch_options.reported"),
        ("the map ends at another state", "Headline", "shaken old.reading (Ok made)", "shaken shaken (Ok made)"),
        ("the first lines were read from another state", "Headline", "Handshakes service parameters old new r → AdvertisesBy", "Handshakes service parameters new new r → AdvertisesBy"),
    ],
    "responses": [
        ("a response comes from no reading", "FetchRounds", "(view m.banded t.after.reading) t.reply", "(view m.banded t.sent) t.reply"),
        ("the interrupt isn't asked", "FetchRounds", "pub asks : (reported : I) × m.polls old.interrupt false reported\n        × AsksThrough", "pub asks : (reported : I) × (reported ≡ old.interrupt)\n        × AsksThrough"),
        ("the interrupt is asked at any packet line", "FetchRounds", "× AsksThrough m.polls m.banded m.plain false t.sent t.after.reading reported t.after.interrupt", "× (reported ≡ reported)"),
        ("a round before the last is done", "FetchRounds", "Turns old t × (t.done ≡ false)", "Turns old t × (t.done ≡ t.done)"),
        ("a round before the last has a pack", "FetchRounds", "× (t.reply.pack ≡ false) × Rounds", "× (t.reply.pack ≡ t.reply.pack) × Rounds"),
    ],
    "refusals": [
        ("a response fails at another state", "Headline", "AnswerFails found plain old new e", "AnswerFails found plain new new e"),
        ("refs fail at another state", "Headline", "RefsFail plain old new e", "RefsFail plain new new e"),
        ("an advertisement fails at another state", "Headline", "V1Fails t plain old new e", "V1Fails t plain new new e"),
        ("a handshake fails at another state", "Headline", "→ CompletesHandshake service parameters plain start", "→ CompletesHandshake service parameters plain reached"),
        ("rounds without a pack fail with `Memory`", "FetchRounds", "gives : e ≡ Negotiate (NegotiationFailed count)", "gives : e ≡ Memory"),
        ("with any number of rounds", "FetchRounds", "counted : count ≡ length rounds", "counted : count ≡ count"),
        ("a round fails, and others are reported", "FetchRounds", "++ reported_of refused", "++ rounds"),
        ("something was read before the rounds", "Fetch", "reading : new.reading ≡ old.reading", "reading : new.reading ≡ new.reading"),
        ("any error after the rounds", "Fetch", "rounds updates reply end → e ≡ Memory", "rounds updates reply end → e ≡ e"),
        ("any error if the lock isn't held", "Session", "at_lock : HoldFails store_calls updates reject store locked e store' locked' →", "at_lock : e ≡ e →"),
        ("any error of the pack", "Received", "gives : e ≡ of_pack error", "gives : e ≡ e"),
        ("any error of the boundary", "Session", "→ BoundaryWriteFails store_calls updates held e store'", "→ e ≡ e"),
        ("a round's error is any", "FetchRounds", "pub refused : m.fails old.negotiate old.window old.asked old.previous error negotiate window asked", "pub refused : error ≡ error"),
        ("a response's error is any", "FetchRounds", "          → AnswerFails (answer_of m.version (flags done (not done))) (view_plain m.banded m.plain) (view m.banded sent)\n          (view m.banded reading) error\n", "          → error ≡ error\n"),
        ("the boundary's read error is any", "Session", "pub refused : store_calls.failures to_read store error store'", "pub refused : error ≡ error"),
        ("the depth's error is any", "Session", "pub why : ((name : List ℕ) × (shallow_asks shallow ids given ≡ Err name) × IsMissing name e) ⊎ (e ≡ Memory)", "pub why : ((name : List ℕ) × (name ≡ name) × IsMissing name e) ⊎ (e ≡ Memory)"),
        ("the depth fails with any error", "Session", "pub why : ((name : List ℕ) × (shallow_asks shallow ids given ≡ Err name) × IsMissing name e) ⊎ (e ≡ Memory)", "pub why : e ≡ e"),
        ("the first step's error is any", "Session", "pub refused : negotiation_calls.marking_fails first error last", "pub refused : error ≡ error"),
        ("unasked shallow updates with any error", "Session", "UnheldBy true true store locked e store' locked' = (e ≡ RejectShallowRemote) ×", "UnheldBy true true store locked e store' locked' = (e ≡ e) ×"),
        ("the lock fails with any error", "Session", "× (e ≡ of_lock error) × (locked' ≡ locked)", "× (e ≡ e) × (locked' ≡ locked)"),
        ("the lock fails though it is held", "Session", "UnheldBy false reject store locked e store' locked' = ⊥", "UnheldBy false reject store locked e store' locked' = e ≡ e"),
        ("a feature that responses need is missing, with any error", "Prepare", "→ Misses (missing_feature version raw) (Err error) → e ≡ of_response error", "→ Misses (missing_feature version raw) (Err error) → e ≡ e"),
        ("no feature is missing", "Prepare", "→ Misses (missing_feature version raw) (Err error) → e ≡ of_response error", "→ error ≡ error → e ≡ of_response error"),
        ("the first lock fails with any error", "Prepare", "gives : e ≡ of_lock error", "gives : e ≡ e"),
        ("any lines were passed", "Receive", "rest : IfSome old.to_come (λ p. (q : Pieces) × (now.to_come ≡ Some q) × ((lines_ahead old p).ending ≡ (lines_ahead now q).ending))", "rest : old ≡ old"),
    ],
    "each request": [
        ("the first request has no wants", "Fetch", "    asked = wanted;", "    asked = given;"),
        ("the first window is another transport's", "Fetch", "first_window (not old.reading.held.persists || is_v2 wanted.version);", "first_window (not (is_v2 wanted.version));"),
        ("features and tags aren't asked for", "Prepare", "asks : asks_tags tags (asks_nothing table version features) ≡ Ok asked", "asks : asked ≡ asked"),
        ("the boundary and the depth aren't asked for", "Session", "asks : shallow_asks shallow ids given ≡ Ok asked", "asks : asked ≡ asked"),
        ("responses are banded or not", "Prepare", 'bands : banded ≡ has_feature (codes "sideband-all") features', "bands : banded ≡ banded"),
        ("the lines after a request are any", "FetchRounds", "rest : t.after.asked ≡ sent_off old.reading.held.persists t.asked", "rest : t.after.asked ≡ t.after.asked"),
        ("rounds begin without a want", "Session", "adds : negotiation_calls.adds marked known given true wanted ready", "adds : negotiation_calls.adds marked known given false wanted ready"),
        ("nothing to ask for though rounds ran", "Fetch", "idle : Idle parties.negotiation_calls old.negotiate asked new.negotiate", "idle : new ≡ new"),
        ("the lock is kept", "Fetched", "releases : ReleasesIf parties.store_calls.releases last.locked last.store new.store", "releases : new ≡ new"),
    ],
    "the pack bytes": [
        ("the bytes read are any", "Receive", "content : Passes old new read", "content : read ≡ read"),
        ("the rest isn't read", "Received", "finishes : Finishes finished mid end", "finishes : finished ≡ finished"),
        ("the rest isn't read up to a stop", "Receive", "rest : IfSome old.to_come (λ p. (q : Pieces) × (new.to_come ≡ Some q) × ((lines_ahead old p).ending ≡ stop kind q))", "rest : kind ≡ kind"),
        ("the reader isn't at the stop", "Receive", "stopped : new.stopped ≡ Some kind", "stopped : kind ≡ kind"),
        ("the lock isn't taken", "Session", "HoldsBy true false store locked store' locked' = store_calls.locks store store' ×", "HoldsBy true false store locked store' locked' = (store' ≡ store') ×"),
        ("unasked shallow updates though they were refused", "Session", "HoldsBy true true store locked store' locked' = ⊥", "HoldsBy true true store locked store' locked' = store' ≡ store'"),
        ("any boundary is written", "Session", "WritesBoundaryIf true ids updates store store' = store_calls.writes store (boundary ids updates) store'", "WritesBoundaryIf true ids updates store store' = store' ≡ store'"),
        ("the boundary isn't written", "Session", "settles : WritesBoundary store_calls ids updates held store'", "settles : store' ≡ held"),
    ],
    "at most n / 16 + 1 requests": [
        ("as many requests as haves", "Bound", "length rounds ≤ count first / 16 + 1", "length rounds ≤ count first + 1"),
        ("more haves than the negotiator had", "Bound", "haves_of rounds ≤ count first", "haves_of rounds ≤ count first + 1"),
        ("no round but the first is left out", "Bound", "but_last (r ∷ s ∷ rs) = r ∷ but_last (s ∷ rs)", "but_last (r ∷ s ∷ rs) = but_last (s ∷ rs)"),
        ("wider windows than the negotiator had", "Bound", "windows_of (but_last rounds) ≤ count first", "windows_of (but_last rounds) ≤ count first + 1"),
    ],
    "a prefix-filtered answer": [
        ("a map, or its error, is another state's", "Headline", "handshake plain shaken reached r → FindsRefMap", "handshake plain shaken shaken r → FindsRefMap"),
    ],
}


def items_of(text):
    """The items of a file of definitions: their names and their lines, with the lines indented below them."""
    found, name, depth = {}, "", 0
    for line in text.splitlines():
        head = re.match(r"( *)(?:abbrev pub|pub abbrev|unfoldable pub|pub (?:record|data)|abbrev|record|data) (\w\S*)", line)
        if head:
            name, depth = head[2], len(head[1])
        elif line.strip() and len(line) - len(line.lstrip()) <= depth and line.split()[0] != name:
            name = ""
        if name:
            found.setdefault(name, []).append(line)
    return found


def fields_of(lines):
    """The fields of a record that state facts: their names and their lines."""
    found = []
    for line in lines[1:]:
        head = re.match(r"( *)pub (\S+) : (.*)", line)
        if head:
            found.append((head[2], [line]))
        elif found and line.strip() and not line.lstrip().startswith("--"):
            found[-1][1].append(line)
    for name, its in found:
        first, *more = re.sub(r"^ *pub \S+ : ", "", its[0]).split()
        if (more or len(its) > 1) and first not in DATA:
            yield name, its


def records_of(words):
    """The records that `Fetches` reaches: their names, files and lines."""
    files = {it.stem: it.read_text() for it in sorted((TOP / "crates/gixp_fetch/specs").glob("*.antt"))}
    places = {name: (stem, lines) for stem, text in files.items() for name, lines in items_of(text).items()}
    reached, new = set(), {"Fetches"}
    while new:
        reached |= new
        new = {it for name in new for it in re.findall(r"[\w']+", "\n".join(places[name][1])) if it in places} - reached
    for name in sorted(reached):
        stem, lines = places[name]
        if (not words or name in words) and re.match(r" *(pub )?record ", lines[0]) and " : Type 1 where" not in lines[0]:
            yield name, stem, lines


def without(crate, records, left):
    """Writes the records with a fact that always holds in place of each field of `left`, each with a type of its own."""
    for stem in {it for _, it, _ in records}:
        text = (TOP / f"crates/gixp_fetch/specs/{stem}.antt").read_text()
        types = []
        for name, _, lines in (it for it in records if it[1] == stem):
            new = "\n".join(lines)
            for field, its in fields_of(lines):
                if (name, field) in left:
                    types.append(left[name, field])
                    new = new.replace("\n".join(its), re.match(r" *pub \S+ : ", its[0])[0] + types[-1])
            text = text.replace("\n".join(lines), new)
        front, use, rest = re.match(r"(?s)(.*\n)((?:pub )?use [^\n]*\n)(.*)", text).groups()
        text = front + use + "".join(f"\npub data {it} : Type 0 where\n  is_{it} : {it}\n" for it in types) + rest
        (crate / f"specs/{stem}.antt").write_text(text)


def blamed(lines, left):
    """The fields whose type alone an error names, each with the first such error."""
    whose, found = {name: it for it, name in left.items()}, {}
    for line in (it for it in lines if ": error" in it):
        named = set(re.findall(r"\bAlways\d+\b", line)) & set(whose)
        if len(named) == 1:
            found.setdefault(whose[named.pop()], line)
    return found


def sorted_out(left, check_without):
    """Yields each field of `left` with its verdict and the error for it."""
    while left:
        is_proved, lines = check_without(left)
        errors = [it for it in lines if ": error" in it]
        found = {it: "" for it in left} if is_proved else blamed(lines, left)
        if not found and len(left) == 1:
            found = {it: (errors or lines[-1:] or [""])[0] for it in left}
        for it, error in found.items():
            yield it, "survived" if is_proved else "killed" if IN_PROOFS.match(error) else "unreadable", error
        left = {it: name for it, name in left.items() if it not in found}
        if not found:
            break
    half = dict(list(left.items())[:len(left) // 2])
    for part in (half, {it: name for it, name in left.items() if it not in half}) if left else ():
        yield from sorted_out(part, check_without)


def try_fields(crate, words):
    """Tries the fields of records together. Fields that no error names are tried again without the others, and by halves if an error
    names none of them."""
    counts, records = Counter(), list(records_of(words))
    fields = [(name, field) for name, _, lines in records for field, _ in fields_of(lines)]

    def check_without(some):
        without(crate, records, some)
        return check(crate, LAWS)

    for it, verdict, error in sorted_out({it: f"Always{at}" for at, it in enumerate(fields)}, check_without):
        if verdict == "survived" and it in BEARS_NOTHING:
            verdict, error = "known", BEARS_NOTHING[it]
        counts[verdict] += 1
        print(f"{verdict:13}{it[0]}: {it[1]} {error[:120]}".rstrip(), flush=True)
    without(crate, records, {})
    return counts


def try_change(crate, file, old, new):
    """The verdict on a changed definition, and the first error of the check."""
    path = crate / "specs" / f"{file}.antt"
    kept = path.read_text()
    if kept.count(old) != 1:
        return "unreadable", f"its text occurs {kept.count(old)} times in {file}"
    path.write_text(kept.replace(old, new))
    is_proved, lines = check(crate, LAWS)
    path.write_text(kept)
    error = next((it for it in lines if ": error" in it), "")
    if is_proved:
        return "survived", ""
    return ("killed" if IN_PROOFS.match(error) else "unreadable"), error


def try_parts(crate, word):
    """Tries the changes with this word."""
    counts = Counter()
    for part, changes in CHANGES.items():
        for name, *change in changes:
            if word in part or word in name:
                began = time.monotonic()
                verdict, error = try_change(crate, *change)
                counts[verdict] += 1
                print(f"{verdict:13}{part}: {name} ({time.monotonic() - began:.0f} s) {error[:120]}".rstrip(), flush=True)
    return counts


def main(words):
    of_fields = words[:1] == ["--fields"]
    lines = [it.partition(":") for it in (TOP / "crates.txt").read_text().splitlines() if not it.startswith("#")]
    crates = {name.split()[0]: below.split() for name, colon, below in lines if colon}
    with tempfile.TemporaryDirectory(prefix="weaken-laws-") as room:
        crate = copy_with_those_below("gixp_fetch", crates, Path(room))
        is_proved, said = check(crate, LAWS)
        if not is_proved:
            sys.exit("\n".join(["the laws are not proved without a change"] + [it for it in said if ": error" in it]))
        counts = try_fields(crate, words[1:]) if of_fields else try_parts(crate, words[0] if words else "")
    known = f", {counts['known']} known" if counts["known"] else ""
    bad = f", {counts['unreadable']} unreadable" if counts["unreadable"] else ""
    print(f"{counts['killed']} killed, {counts['survived']} survived{known}{bad}")
    return 1 if counts["survived"] or (counts["unreadable"] and not of_fields) else 0


if __name__ == "__main__":
    sys.exit(main(sys.argv[1:]))
