#!/usr/bin/env bash
# Whether everything works in a folder with spaces in its path: the make targets and the C tests in a copy of the
# repository. What is proved is copied too. Ends with 1 at the first command that fails.
set -euo pipefail

root=$(cd "$(dirname "$0")/.." && pwd)
work=$(mktemp -d)
trap 'rm -rf "$work"' EXIT
copy="$work/a copy of it"
mkdir -p "$copy/target" "$work/bin"
unset CARGO_TARGET_DIR ONDRISTELA_LIB_DIR

"$root/tools/build.sh" library volmap
tar -C "$root" --exclude=./.git --exclude=./target --exclude=./rust/target --exclude='./crates/*/out' \
    -cf - . | tar -C "$copy" -xf -
cp -r "$root"/target/{bin,built,staticlib} "$copy/target"
cd "$copy"

# try NAME COMMAND..: the command succeeds.
try() {
    if ! "${@:2}" >"$work/said" 2>&1; then
        echo "spaces: $1 fails:" >&2
        cat "$work/said" >&2
        exit 1
    fi
}

try 'make map' make map
try 'the map program' tests/volmap.sh
try 'make all' make all
try 'make example' make example
try 'the C tests' tests/boundary.sh
try 'make install' make install "DESTDIR=$work/a stage"
try 'make uninstall' make uninstall "DESTDIR=$work/a stage"

# The measurements take minutes: here cargo only tells what it is called with.
printf '#!/bin/sh\nprintf "%%s\\n" "$@"\n' >"$work/bin/cargo"
chmod +x "$work/bin/cargo"
try 'make bench' env "PATH=$work/bin:$PATH" make bench
cp "$work/said" "$work/arguments"
try 'the path that make bench passes' grep -xF "$copy/target/performance.csv" "$work/arguments"
echo 'spaces: all make targets work in a folder with spaces in its path'
