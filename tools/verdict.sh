#!/usr/bin/env bash
# verdict.sh LOG: of what `rt ci` said, the line 'N passed, 0 failed' alone. Fails where that is not its last line, and
# where its line 'rt: ok' does not say that every must-fail edit of crates/ was refused and none is bad. A bad edit is
# one that cannot be applied, compiled or read: it tries nothing, and `rt ci` passes all the same.
set -euo pipefail
log=$(realpath -- "$1")
cd "$(dirname "$0")/.."

stop() {
    echo "the gate: $1" >&2
    exit 1
}

last=$(tail -n 1 "$log")
[[ $last =~ ^([0-9]+\ passed,\ 0\ failed)(\ \(.*\))?$ && $last != *'not the gate'* ]] ||
    stop "rt's last line is not 'N passed, 0 failed'"
verdict=${BASH_REMATCH[1]}

ok=$(grep '^rt: ok\b' "$log" | tail -n 1) || stop "rt has no line 'rt: ok'"
while read -r bad _; do
    [[ $bad =~ ^0+$ ]] || stop "rt passed, with bad must-fail edits: $bad"
done < <(grep -oE '[^ ,;]* bad\b' <<<"$ok" || true)
[[ $ok =~ must-fail\ edits:\ ([0-9]+)\ refused ]] || stop 'rt does not say how many must-fail edits were refused'
edits=$(find crates -path '*/must-fail/*.edit' | wc -l)
((10#${BASH_REMATCH[1]} == edits)) || stop "of $edits must-fail edits ${BASH_REMATCH[1]} were refused"
echo "$verdict"
