#!/bin/sh
# Builds the archive libgixp.a and the shared library libgixp.so in bindings/build, and runs the tests in C, Rust and Python.
# The last line is `N passed, M failed`. The status is 1 if a test failed. RT names another command than `rt`. With `--built` it uses
# the existing crates/gixp_c/out/libgixp_c.a.
set -u
cd "$(dirname "$0")/.." || exit 1
rt=${RT:-rt}
kit=$(dirname "$(dirname "$(readlink -f "$(command -v rt)")")")
build=bindings/build
passed=0
failed=0

# Adds up `N passed` and `M failed` of a run. A run that fails without such a line counts as one failure.
count() {
    status=$1
    ok=$(grep -oE '[0-9]+ passed' "$2" | awk '{n += $1} END {print n + 0}')
    bad=$(grep -oE '[0-9]+ failed' "$2" | awk '{n += $1} END {print n + 0}')
    [ "$status" -ne 0 ] && [ "$bad" -eq 0 ] && bad=1
    passed=$((passed + ok))
    failed=$((failed + bad))
    [ "$bad" -eq 0 ] || cat "$2"
}

[ "${1:-}" = --built ] || (cd crates/gixp_c && $rt lib) || exit 1
mkdir -p "$build" || exit 1
python3 scripts/exports.py || failed=$((failed + 1))
passed=$((passed + (failed == 0)))
# one archive of the exports and the heap that they call
printf 'create %s/libgixp.a\naddlib crates/gixp_c/out/libgixp_c.a\naddlib %s/c/liblibc_c.a\nsave\nend\n' "$build" "$kit" | ar -M || exit 1
cc -shared -o "$build/libgixp.so" -Wl,--whole-archive "$build/libgixp.a" -Wl,--no-whole-archive || exit 1

log=$build/log
cc -std=c11 -Wall -Wextra -Werror -g -Iinclude -o "$build/test" bindings/c/test.c -Wl,--wrap=malloc -Wl,--wrap=realloc "$build/libgixp.a" || exit 1
checked=
command -v valgrind > /dev/null && checked="valgrind -q --error-exitcode=9 --leak-check=full"
$checked "$build/test" > "$log" 2>&1
count $? "$log"

GIXP_LIB=$PWD/$build cargo test -q --offline --manifest-path bindings/rust/Cargo.toml > "$log" 2>&1
count $? "$log"
GIXP_LIB=$PWD/$build cargo build -q --offline --examples --manifest-path bindings/rust/Cargo.toml || failed=$((failed + 1))

GIXP_LIB=$PWD/$build python3 bindings/python/test_gixp.py > "$log" 2>&1
status=$?
sed -nE 's/^Ran ([0-9]+) tests?.*/\1 passed/p' "$log" > "$log.count"
[ "$status" -eq 0 ] || { cat "$log"; failed=$((failed + 1)); }
[ "$status" -ne 0 ] || count 0 "$log.count"

if command -v git > /dev/null; then
    python3 scripts/bindings_examples.py "$build" > "$log" 2>&1
    count $? "$log"
fi
echo "$passed passed, $failed failed"
[ "$failed" -eq 0 ]
