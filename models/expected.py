"""Makes the expected lines of gixp_replay's test vectors, from the definitions alone.

python3 models/expected.py [--check]   prints the names of the lines of crates/gixp_replay/stdout that differ
python3 models/expected.py --write     writes the file anew, and prints the names of the lines that changed
python3 models/expected.py FILE..      prints the lines of these files"""
import sys
from pathlib import Path

sys.path.insert(0, str(Path(__file__).parent))
import fetches
import listings
import negotiations
import streams
import url_answers
from vectors import Unreadable, read

LINES = {"lines": streams.lines_vector, "bands": streams.bands_vector, "refs": streams.refs_vector, "handshake": streams.handshake_vector,
         "places": streams.places_vector, "opening": streams.opening_vector, "answer": streams.answer_vector, "pack": streams.pack_vector,
         "capabilities": streams.capabilities_vector, "answer-line": streams.answer_line_vector, "boundary": streams.boundary_vector,
         "agent": streams.agent_vector,
         "requests": streams.requests_vector, "session": streams.session_vector,
         "refspec": listings.refspec_vector, "ref-name": listings.ref_name_vector, "prefixes": listings.prefixes_vector,
         "matches": listings.matches_vector, "ref-map": listings.ref_map_vector, "account": listings.account_vector,
         "listing": listings.listing_vector, "progress": listings.progress_vector, "negotiation": negotiations.negotiation_vector,
         "fetch": fetches.fetch_vector, "plan": fetches.plan_vector, "url": url_answers.url_vector}
CRATE = Path(__file__).resolve().parent.parent / "crates" / "gixp_replay"


def line_of(vector):
    line = LINES[vector.mode](vector)
    if vector["halves"] == "each":
        line = halves_of(line, len(vector.data))
    return "%s %s" % (vector.name, line)


def halves_of(line, length):
    """The line for bytes that arrive in two pieces, for each offset of the cut. No definition depends on how bytes arrive."""
    places = "1-%d" % (length - 1) if length > 2 else "1"
    return "%s: %s " % (places, line) if length > 1 else ""


def lines_of_files(paths):
    """The lines of some files, up to an unreadable test vector -> (lines, its error or None)."""
    lines = []
    for path in paths:
        vectors, error = read(path)
        for number, vector in enumerate(vectors, 1):
            try:
                lines.append(line_of(vector))
            except Unreadable as e:
                return lines, "test vector %d (%s): %s" % (number, vector.name, e)
        if error:
            return lines, error
    return lines, None


def differences(stored, made):
    """The names of the lines that differ or are missing on one side."""
    stored, made = ({x.split(" ", 1)[0]: x for x in lines} for lines in (stored, made))
    return [n for n in {**stored, **made} if stored.get(n) != made.get(n)]


def main(words):
    if words and words[0] not in ("--check", "--write"):
        lines, error = lines_of_files(words)
        print("\n".join(lines))
        return error
    files = [CRATE / "data" / name for name in (CRATE / "args").read_text().split()]
    lines, error = lines_of_files(files)
    names = [x.split(" ", 1)[0] for x in lines]
    if len(set(names)) != len(names):
        return "names that occur twice: " + " ".join(sorted({n for n in names if names.count(n) > 1}))
    stored = (CRATE / "stdout").read_text().splitlines()
    if words == ["--write"]:
        (CRATE / "stdout").write_text("".join(x + "\n" for x in lines))
    if stored == lines:
        print("%d lines, none differs" % len(lines))
        return None
    print("\n".join(differences(stored, lines)))
    return None if words == ["--write"] else "%d lines differ" % len(differences(stored, lines))


if __name__ == "__main__":
    sys.setrecursionlimit(100000)
    sys.exit(main(sys.argv[1:]))
