#!/bin/sh
# Runs target/bin/volmap on each tests/volmap/NAME.in and compares what it writes with NAME.out.
# Run `tools/build.sh volmap` first, which proves and builds it. Exits 1 where a case differs.
set -u
cd "$(dirname "$0")/.." || exit 2
program=target/bin/volmap
[ -x "$program" ] || { echo "$program is not there: run tools/build.sh volmap" >&2; exit 2; }
wrote=$(mktemp) || exit 2
trap 'rm -f "$wrote"' EXIT
cases=0 failed=0
for input in tests/volmap/*.in; do
    name=$(basename "$input" .in)
    cases=$((cases + 1))
    if ! "$program" <"$input" >"$wrote"; then
        echo "$name: the program failed"
        failed=$((failed + 1))
    elif ! cmp -s "$wrote" "tests/volmap/$name.out"; then
        echo "$name: expected (<) and written (>) differ"
        diff "tests/volmap/$name.out" "$wrote"
        failed=$((failed + 1))
    fi
done
echo "volmap: $cases cases, $failed failed"
[ "$cases" -gt 0 ] && [ "$failed" -eq 0 ]
