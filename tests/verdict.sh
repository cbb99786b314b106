#!/usr/bin/env bash
# Tries tools/verdict.sh on made-up words of `rt ci`, in a repository with two must-fail edits. Ends with 1 at the first
# check that fails.
set -euo pipefail

root=$(cd "$(dirname "$0")/.." && pwd)
work=$(mktemp -d)
trap 'rm -rf "$work"' EXIT
copy="$work/a copy"
mkdir -p "$copy"/{tools,crates/{one,two}/must-fail}
cp "$root/tools/verdict.sh" "$copy/tools"
touch "$copy"/crates/{one,two}/must-fail/wrong.edit

done_here='every proof and must-fail edit was done in this run'
ok="rt: ok; handles allowed: none; must-fail edits: 2 refused; $done_here"
last='4 passed, 0 failed'
checks=0
# says STATUS SAID LINE..: of a log with these lines it says this, and ends with the status.
says() {
    local ended=0 said
    printf '%s\n' 'rt: one proved' "${@:3}" >"$work/log"
    said=$("$copy/tools/verdict.sh" "$work/log" 2>&1) || ended=$?
    if [ "$ended" -ne "$1" ] || [ "$said" != "$2" ]; then
        printf 'verdict: of these lines it says "%s" and ends with %s:\n' "$said" "$ended" >&2
        cat "$work/log" >&2
        exit 1
    fi
    checks=$((checks + 1))
}
refuses() { says 1 "the gate: $1" "${@:2}"; }

says 0 "$last" "$ok" "$last"
says 0 "$last" "$ok" "$last (2 kept)"
says 0 "$last" "${ok/refused/refused, 1 of them only by a limit}" "$last"
says 0 "$last" "${ok/refused/refused, 0 bad}" "$last"
says 0 "$last" "${ok/$done_here/done in this run: 0 of the 2 proofs; the others are kept}" "$last"
refuses "rt passed, with bad must-fail edits: 1" "${ok/refused/refused, 1 bad}" "$last"
refuses "rt passed, with bad must-fail edits: 10" \
    "${ok/2 refused/2 refused, 1 of them only by a limit, 10 bad}" "$last"
refuses 'of 2 must-fail edits 1 were refused' "${ok/2 refused/1 refused}" "$last"
refuses 'rt does not say how many must-fail edits were refused' "${ok/; must-fail edits: 2 refused/}" "$last"
refuses "rt has no line 'rt: ok'" "$last"
refuses "rt has no line 'rt: ok'" "rt: okay, ${ok#rt: }" "$last"
for other in '4 passed, 1 failed' '4 passed, 10 failed' 'passed' "$last (one and the crates below alone: not the gate)" \
    "$last and more"; do
    refuses "rt's last line is not 'N passed, 0 failed'" "$ok" "$other"
done
refuses "rt's last line is not 'N passed, 0 failed'" "$ok" "$last" 'rt: and more'
echo "verdict: $checks checks passed"
