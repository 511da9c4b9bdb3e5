#!/usr/bin/env python3
"""Tests the JavaScript module under Node, and the page in a headless Chromium.

Usage: page.py [--only CASE] [--pictures FOLDER] [--serve PORT]

Each test compares with the reference implementations in models/ or with git. The module is
bindings/build/gixp.wasm, which scripts/build_web_module.py makes. --only runs one case of the page.
--pictures writes what the page shows, at two widths, light and dark. --serve only serves bindings/
and a repository, /served.git. Without Node, tsc or Chromium the script says so and leaves out their
tests. The last line is `N passed, M failed`. The status is 1 if a test failed.
"""
import argparse
import base64
import http.server
import json
import os
import pathlib
import re
import shutil
import subprocess
import sys
import tempfile
import threading
import time

TOP = pathlib.Path(__file__).resolve().parent.parent
BINDINGS = TOP / "bindings"
sys.path[:0] = [str(TOP / "models"), str(TOP / "scripts"), str(TOP / "bindings")]
sys.setrecursionlimit(100_000)  # definitions.py groups the lines of an advertisement by recursion

import chromium  # noqa: E402
import definitions  # noqa: E402
from git_server import Backend, git  # noqa: E402
import vectors  # noqa: E402

# The number of each error in definitions.py, in an `ls-refs` response and in an advertisement.
CODES = {"Io": 10, "HexDecode": 11, "DataLengthLimitExceeded": 12, "DataIsEmpty": 13, "InvalidLineLength": 14, "Server": 15,
         "UnexpectedFrame": 16, "Id": 20, "MalformedV2RefLine": 21, "UnknownAttribute": 22, "InvariantViolation": 23}
FIRST_CODES = {**CODES, "MalformedV1RefLine": 21, "InvariantViolation": 24, "MalformedSymref": 25, "MissingDelimitingNullByte": 46,
               "UnsupportedProtocolVersion": 48}
VERSION_TWO = 47
TYPES = {".html": "text/html", ".css": "text/css", ".js": "text/javascript", ".wasm": "application/wasm", ".json": "application/json"}
MILLION = 1_000_000


def packet(text):
    return b"%04x%s" % (len(text) + 4, text)


def text_of(data):
    return data.decode("utf-8", "replace")


def in_js(ref):
    """A ref of definitions.py as the module has it."""
    name, first, peeled = definitions.unpack(ref)
    target = ref[2] if ref[0] in ("Symbolic", "Unborn") else None
    return [text_of(name), first and first.hex(), peeled and peeled.hex(), None if target is None else text_of(target)]


def error_of(e, codes):
    return [codes[e.rest[0] if e.name == "Decode" else e.name], text_of(e.rest[0]) if e.name == "Server" else "", []]


def expected_refs(data):
    try:
        return [0, "", [in_js(ref) for ref in definitions.v2_ref_list(data, definitions.v2_listed)]]
    except definitions.Err as e:
        return error_of(e, CODES)


def expected_advertised(data):
    try:
        items = definitions.items_of(data, 0)[0]
        if items and items[0][0] != "stop" and definitions.trim(items[0][1]) == b"version 2":
            return [VERSION_TWO, "", []]
        return [0, "", [in_js(ref) for ref in definitions.advertisement(data, definitions.v1_listed_class)["refs"]]]
    except definitions.Err as e:
        return error_of(e, FIRST_CODES)


def is_refspec(word):
    try:
        definitions.refspec_of(word, True)
        return bool(word)
    except definitions.Err:
        return False


def expected_map(row):
    """What the module maps for a test vector of mappings, or None if a text isn't UTF-8."""
    line, _, names = row.data.partition(b"\n")
    words, names = [word for word in line.split(b" ") if is_refspec(word)], names.split(b"\n")
    specs = [definitions.refspec_of(word, True) for word in words]
    try:
        said = {"name": row.name, "names": [n.decode() for n in names], "specs": [w.decode() for w in words]}
    except UnicodeDecodeError:
        return None
    prefixes = [text_of(prefix) for prefix in definitions.all_prefixes(specs)]
    try:
        maps, fixes = definitions.validated(definitions.mappings_of(specs, names), specs)
        items = [[names.index(m[1][1]) if m[1][0] == "FullName" else None, None if m[2] is None else text_of(m[2])] for m in maps]
        return {**said, "expected": [items, [text_of(f[0]) for f in fixes], [], prefixes]}
    except definitions.Err as e:
        return {**said, "expected": [[], [], [text_of(issue[0]) for issue in e.rest[0]], prefixes]}


def all_vectors():
    responses, maps = [], []
    for file in sorted((TOP / "crates/gixp_replay/data").iterdir()):
        for row in vectors.read(file)[0]:
            data = base64.b64encode(row.data).decode()
            responses.append({"name": row.name, "data": data, "refs": expected_refs(row.data), "advertised": expected_advertised(row.data)})
            if row.mode == "matches":
                maps.append(expected_map(row))
    return {"responses": responses, "maps": [one for one in maps if one]}


def make_served(folder):
    """A repository of 20 commits with 1,000 further branches."""
    work = folder / "work"
    git("init", "-q", work)
    for n in range(20):
        (work / "file").write_bytes(os.urandom(20000))
        git("add", ".", folder=work)
        git("commit", "-qm", str(n), folder=work)
    git("tag", "-am", "one", "v1", folder=work)
    git("update-ref", "--stdin", folder=work, input=b"".join(b"create refs/heads/%s/%d HEAD\n" % (b"a" * 60, n) for n in range(1000)))
    git("clone", "-q", "--bare", work, folder / "served.git")


class Handler(Backend):
    """The files of bindings/ and of the tests, git's own server for *.git, and a server that refuses for refusing.git."""

    def file(self, path):
        root = self.server.root if path.startswith("/tests/") else BINDINGS
        found = (root / path.removeprefix("/tests").lstrip("/")).resolve()
        if root not in found.parents or not found.is_file():
            return self.send_error(404)
        self.send_response(200)
        self.send_header("Content-Type", TYPES.get(found.suffix, "application/octet-stream"))
        self.send_header("Content-Length", str(found.stat().st_size))
        self.end_headers()
        with open(found, "rb") as data:
            shutil.copyfileobj(data, self.wfile)

    def serve(self, body=b""):
        path, _, query = self.path.partition("?")
        if path.startswith("/refusing.git/"):
            self.send_response(200)
            self.end_headers()
            return self.wfile.write(packet(b"# service=git-upload-pack\n") + b"0000" + packet(b"ERR this server is closed\n"))
        return self.backend(path, query, body) if ".git" in path else self.file(path)

    def handle(self):
        try:
            super().handle()
        except ConnectionError:
            pass  # the page was left meanwhile


def served(folder, port=0):
    server = http.server.ThreadingHTTPServer(("127.0.0.1", port), Handler)
    server.root = folder
    threading.Thread(target=server.serve_forever, daemon=True).start()
    return server, "http://127.0.0.1:%d" % server.server_port


def node_words():
    """The flags under which Node has 64-bit memories."""
    flag = "--experimental-wasm-memory64"
    known = subprocess.run(["node", "--v8-options"], stdout=subprocess.PIPE).stdout
    return ["node", *([flag] if flag.encode() in known else []), "--no-warnings"]


def node_tests(folder, url):
    words = [*node_words(), BINDINGS / "js/test.js", folder / "vectors.json", url + "/served.git"]
    ran = subprocess.run(words, stdout=subprocess.PIPE, stderr=subprocess.PIPE, timeout=600)
    found = re.search(rb"(\d+) passed, (\d+) failed", ran.stdout)
    if not found or ran.returncode:
        print(text_of(ran.stdout + ran.stderr))
    return (int(found[1]), int(found[2])) if found else (0, 1)


def clone_test(folder, url):
    """The clone of bindings/js/clone.js has the refs and objects of the repository, and one with a depth the boundary of git's.
    -> what is wrong, or nothing."""
    to = folder / "cloned"
    clone = [*node_words(), BINDINGS / "js/clone.js"]
    ran = subprocess.run([*clone, url + "/served.git", to], capture_output=True)
    if ran.returncode or b"KiB" not in ran.stderr:
        return text_of(ran.stderr)
    git("fsck", "--strict", folder=to, stderr=subprocess.DEVNULL)
    served, cloned = (git("for-each-ref", "--format=%(objectname) %(refname)", folder=place)
                      for place in (folder / "served.git", to))
    cloned = cloned.replace(b"refs/remotes/origin/", b"refs/heads/")
    if sorted(served.split(b"\n")) != sorted(cloned.split(b"\n")):
        return "the refs of the clone differ"
    shallow, by_git = folder / "shallow", folder / "by-git.git"
    ran = subprocess.run([*clone, url + "/served.git", shallow, "3"], capture_output=True)
    if ran.returncode:
        return text_of(ran.stderr)
    git("clone", "-q", "--bare", "--depth=3", "--no-single-branch", "file://%s" % (folder / "served.git"), by_git)
    boundaries = [sorted((place / "shallow").read_text().split()) for place in (by_git, shallow / ".git")]
    if boundaries[0] != boundaries[1]:
        return "the boundary of a shallow clone differs"
    missing = subprocess.run([*clone, url + "/none.git", folder / "none"], capture_output=True)
    is_error = missing.returncode and b"404" in missing.stderr
    return "" if is_error else "a missing repository isn't an error"


def types_tests(folder):
    """A program that uses each type compiles, and one with a wrong argument doesn't."""
    shutil.copytree(BINDINGS / "js", folder / "types", ignore=shutil.ignore_patterns("node_modules"))
    right = (folder / "types/example.ts").read_text()
    wrong = right.replace("depth: 1n", 'depth: "1"')
    compiles = [compiles_as_types(folder / "types", program) for program in (right, wrong)]
    if compiles != [True, False]:
        print("types of bindings/js: (right, wrong) compile: %s" % compiles)
    return (1, 0) if compiles == [True, False] else (0, 1)


def compiles_as_types(folder, program):
    (folder / "example.ts").write_text(program)
    words = ["--strict", "--noEmit", "--target", "es2022", "--module", "nodenext", "--lib", "es2022,dom"]
    return subprocess.run(["tsc", *words, "example.ts"], cwd=folder, stdout=subprocess.DEVNULL).returncode == 0


def text(page, element):
    return page.run("return document.getElementById(%s).innerText" % json.dumps(element))


def opened(page, action, seconds=120):
    """Waits until the page has read what an action opens."""
    before = page.run("return document.body.dataset.turn ?? ''")
    action()
    page.wait("document.body.dataset.turn !== %s && document.body.dataset.turn" % json.dumps(before), seconds)


def tab(page, name):
    page.run("document.getElementById('tab-%s').click()" % name)


def type_in(page, element, value):
    page.run("""const element = document.getElementById(%s);
        element.value = %s;
        element.dispatchEvent(new Event('input'))""" % (json.dumps(element), json.dumps(value)))


def page_vectors(page, _):
    found = page.run("""const said = fetch('/tests/vectors.json').then((response) => response.json());
        const [gixp, { checkVectors }] = [await import('/js/gixp.js'), await import('/js/vectors.js')];
        return checkVectors(gixp, await said)""", 600)
    assert not found["wrong"], found["wrong"]
    assert found["count"] > 10000, found["count"]


def page_session(page, _):
    """The folder of a recorded session: packet lines, refs, mappings and the negotiation."""
    data = TOP / "crates/gixp_plan/data"
    opened(page, lambda: page.choose_files("#files", sorted(data.iterdir())))
    tab(page, "refs")
    refs = definitions.v2_ref_list((data / "1").read_bytes())
    assert text(page, "refs-count") == "%d refs" % len(refs), text(page, "refs-count")
    assert text_of(definitions.unpack(refs[0])[0]) in text(page, "refs-list")
    tab(page, "mappings")
    page.wait("document.getElementById('mappings-count').innerText.includes('mappings')")
    type_in(page, "specs", "+refs/heads/*:refs/x/same\n+refs/tags/*:refs/x/*")
    page.wait("document.getElementById('mappings-count').innerText.includes('only one side')")
    tab(page, "negotiation")
    type_in(page, "specs", "+refs/heads/*:refs/remotes/origin/*")
    said = text(page, "negotiation-steps")
    assert "ls-refs" in said and "have" in said and "the pack begins" in said, said
    assert page.run("return document.querySelectorAll('#negotiation-picture circle').length") > 0
    assert page.run("return document.getElementById('refusal').hidden")


def page_refusals(page, folder):
    """A malformed response: the place, the bytes and the name of the refusal."""
    good = packet(b"%040x HEAD\n" % 1)
    place = len(good)
    for bad, name in ((packet(b"x y\n"), "BAD_REF (20)"), (b"zzzz", "MALFORMED (11)"),
                      (packet(b"ERR no\n"), "SERVER (15)"), (b"", "INCOMPLETE (10)"),
                      (packet(b"%040x a b:c\n" % 1), "BAD_REF (22)")):
        file = folder / "refused"
        file.write_bytes(good + bad)
        opened(page, lambda: page.choose_files("#files", [file]))
        assert text(page, "refusal-name") == name, (bad, text(page, "refusal-name"))
        assert "offset %d" % place in text(page, "refusal-text"), text(page, "refusal-text")
        marked = page.run("return document.querySelector('#refusal mark')?.innerText ?? ''")
        assert marked == (bad[:1].hex() if bad else ""), (bad, marked)


def page_conflicts(page, folder):
    file = folder / "two"
    file.write_bytes(packet(b"%040x refs/heads/a\n" % 1) + packet(b"%040x refs/heads/b\n" % 2) + b"0000")
    opened(page, lambda: page.choose_files("#files", [file]))
    tab(page, "mappings")
    type_in(page, "specs", "refs/heads/a:refs/x\nrefs/heads/b:refs/x")
    page.wait("document.getElementById('mappings-count').innerText.includes('two different sources')")
    assert "refs/x" in text(page, "mappings-list")
    type_in(page, "specs", "refs/heads/*:refs/remotes/o/*")
    page.wait("document.getElementById('mappings-count').innerText === '2 mappings'")
    assert "refs/remotes/o/b" in text(page, "mappings-list")


def page_server(page, folder):
    """A server by git http-backend next to the page."""
    type_in(page, "url", "/served.git")
    opened(page, lambda: page.run("document.getElementById('ask').requestSubmit()"))
    wanted = git("ls-remote", folder / "served.git").decode().splitlines()
    count = sum("^{}" not in line for line in wanted)
    tab(page, "refs")
    assert text(page, "refs-count") == "%d refs" % count, text(page, "refs-count")
    page.run("document.getElementById('fetch').click()")
    page.wait("document.getElementById('received').innerText.includes('complete')")
    assert re.search(r"[1-9]\d\d KiB", text(page, "received")), text(page, "received")
    for url, words in (("/refusing.git", "this server is closed"), ("/none.git", "404")):
        type_in(page, "url", url)
        page.run("document.getElementById('ask').requestSubmit()")
        page.wait("document.getElementById('refusal-text').innerText.includes(%s)" % json.dumps(words))


def page_million(page, folder):
    """A million refs: read, filtered and mapped without a long task."""
    file = folder / "million"
    with open(file, "wb") as out:
        for n in range(MILLION):
            out.write(packet(b"%040x refs/heads/topic/%d\n" % (n, n)))
        out.write(packet(b"%040x refs/heads/main\n" % 7) + b"0000")
    page.run("""window.longest = 0;
        let last = performance.now();
        const tick = () => {
          const now = performance.now();
          window.longest = Math.max(window.longest, now - last);
          last = now;
          setTimeout(tick, 0);
        };
        tick()""")
    opened(page, lambda: page.choose_files("#files", [file]), 600)
    tab(page, "refs")
    assert text(page, "refs-count") == "%d refs" % (MILLION + 1), text(page, "refs-count")
    reading = page.run("const was = window.longest; window.longest = 0; return was")
    type_in(page, "filter", "topic/99999")
    page.wait("document.getElementById('refs-count').innerText.startsWith('11 of')", 300)
    filtering = page.run("const was = window.longest; window.longest = 0; return was")
    type_in(page, "filter", "")
    tab(page, "mappings")
    page.wait("document.getElementById('mappings-count').innerText === '%d mappings'" % (MILLION + 1), 300)
    page.run("""const list = document.getElementById('mappings-list');
        list.scrollTop = list.scrollHeight;
        await new Promise((resolve) => setTimeout(resolve, 200))""")
    assert "refs/remotes/origin/main" in text(page, "mappings-list"), text(page, "mappings-list")[-300:]
    print("a million refs: the longest pause is %.0f ms while they are read, %.0f ms while they are "
          "filtered" % (reading, filtering))
    assert reading < 1000 and filtering < 400, (reading, filtering)


def page_keyboard(page, _):
    """The page by keys alone."""
    page.open(page.url)
    for _ in range(20):
        page.press("Tab")
        if page.run("return document.activeElement.id") == "example":
            break
    opened(page, lambda: page.press("Enter"))
    for _ in range(20):
        page.press("Tab")
        if page.run("return document.activeElement.getAttribute('role')") == "tab":
            break
    for name in ("refs", "mappings", "negotiation"):
        page.press("ArrowRight")
        assert page.run("return document.activeElement.id") == "tab-" + name
        assert not page.run("return document.getElementById('%s').hidden" % name)
    page.press("ArrowRight")
    page.press("Tab")
    assert page.run("return document.activeElement.id") == "packets-list"


def page_narrow(page, _):
    """Nothing is wider than a narrow window."""
    page.open(page.url, width=360, height=740, dark=True)
    opened(page, lambda: page.run("document.getElementById('example').click()"))
    for name in ("packets", "refs", "mappings", "negotiation"):
        tab(page, name)
        wide = page.run("return document.documentElement.scrollWidth")
        assert wide <= 360, (name, wide)


CASES = [page_session, page_refusals, page_conflicts, page_server, page_vectors, page_million, page_keyboard, page_narrow]


def chromium_tests(folder, url, only):
    """Each case in a page of its own. -> how many passed and failed."""
    passed = failed = 0
    for case in (case for case in CASES if only in (None, case.__name__)):
        with chromium.Browser() as page:
            page.url = url + "/page/index.html"
            try:
                page.open(page.url)
                case(page, folder)
                assert not page.faults(), page.faults()
                passed += 1
            except (AssertionError, chromium.Failed) as e:
                failed += 1
                print("%s: %s" % (case.__name__, e))
    return passed, failed


def pictures(folder, url):
    with chromium.Browser() as page:
        for width, height, dark in ((1280, 900, False), (1280, 900, True), (360, 740, False), (360, 740, True)):
            page.open(url + "/page/index.html", width, height, dark)
            opened(page, lambda: page.run("document.getElementById('example').click()"))
            for name in ("packets", "refs", "mappings", "negotiation"):
                tab(page, name)
                time.sleep(0.3)
                page.picture(folder / ("%s-%d%s.png" % (name, width, "-dark" if dark else "")))


def without(program):
    print("%s is missing: its tests are left out" % program)
    return 0, 0


def run(words, folder):
    if shutil.which("git"):
        make_served(folder)
    server, url = served(folder, words.serve or 0)
    if words.serve:
        print(url + "/page/index.html")
        server.serve_forever()
    if words.pictures:
        words.pictures.mkdir(parents=True, exist_ok=True)
        return pictures(words.pictures, url) or (0, 0)
    if words.only in (None, "page_vectors"):
        (folder / "vectors.json").write_text(json.dumps(all_vectors()))
    results = []
    if words.only:
        pass
    elif shutil.which("node"):
        results.append(node_tests(folder, url))
        wrong = clone_test(folder, url)
        results.append((not wrong, bool(wrong)))
        print(wrong, end="\n" if wrong else "")
    else:
        results.append(without("node"))
    if not words.only:
        results.append(types_tests(folder) if shutil.which("tsc") else without("tsc"))
    results.append(chromium_tests(folder, url, words.only) if chromium.program() else without("chromium"))
    return sum(r[0] for r in results), sum(r[1] for r in results)


def main():
    words = argparse.ArgumentParser(description=__doc__, formatter_class=argparse.RawDescriptionHelpFormatter)
    words.add_argument("--only", choices=[case.__name__ for case in CASES])
    words.add_argument("--pictures", type=pathlib.Path)
    words.add_argument("--serve", type=int)
    words = words.parse_args()
    if not (BINDINGS / "build/gixp.wasm").is_file():
        sys.exit("page.py: bindings/build/gixp.wasm is missing: run scripts/build_web_module.py")
    with tempfile.TemporaryDirectory(prefix="gixp-page-") as place:
        passed, failed = run(words, pathlib.Path(place))
    print("%d passed, %d failed" % (passed, failed))
    return failed != 0


if __name__ == "__main__":
    sys.exit(main())
