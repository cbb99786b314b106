#!/usr/bin/env bash
# Whether a missing tool is named by one line before any work starts: each make target and .ci/run, in a copy of
# the repository with nothing built, with each tool that it needs left out in turn. Tools of the build are
# replaced by ones that only note that they were called. Ends with 1 at the first check that fails.
set -euo pipefail

root=$(cd "$(dirname "$0")/.." && pwd)
work=$(mktemp -d)
trap 'rm -rf "$work"' EXIT
# Under `make test` make would say more, and with a library from elsewhere rt would not be needed.
unset MAKEFLAGS MAKELEVEL ONDRISTELA_LIB_DIR
copy="$work/a copy"
mkdir "$copy" "$work/bin"
cp -r "$root"/{.ci,Makefile,tools,crates.txt} "$copy"
mkdir -p "$copy"/crates/one/{src,specs,proofs} "$copy"/rust/{src,volumes}
cp "$root"/rust/{Cargo.toml,Cargo.lock,build.rs} "$copy/rust"

for tool in bash cat dirname env find install make mkdir mktemp realpath rm sed sh sha256sum sort tail tee xargs; do
    ln -s "$(command -v "$tool")" "$work/bin/$tool"
done

for tool in rt cargo python3 cc gcc g++; do
    printf '#!/bin/sh\necho %s >>"%s"\n' "$tool" "$work/called" >"$work/bin/$tool"
    chmod +x "$work/bin/$tool"
done

checks=0
# try TOOL COMMAND..: without the tool the command says one line, which names it, and calls none of the others.
try() {
    local ended=0
    : >"$work/called"
    mv "$work/bin/$1" "$work/missing"
    (cd "$copy" && PATH=$work/bin "${@:2}") >"$work/said" 2>&1 || ended=$?
    mv "$work/missing" "$work/bin/$1"
    if [ "$ended" -eq 0 ] || [ -s "$work/called" ] || [ -e "$copy/target" ] ||
        [ "$(grep -vc '^make: ' "$work/said")" -ne 1 ] || ! grep -q "^needs $1, which is not installed (" "$work/said"
    then
        echo "needs: ${*:2} without $1 ended with $ended, and said and called:" >&2
        cat "$work/said" "$work/called" >&2
        exit 1
    fi
    checks=$((checks + 1))
}
# stops COMMAND TOOL..: the command stops without each of these tools.
stops() {
    local words tool
    read -ra words <<<"$1"
    for tool in "${@:2}"; do
        try "$tool" "${words[@]}"
    done
}

stops 'make map' rt
stops 'make library' rt
stops 'make all' rt cargo cc
stops 'make install' rt cargo cc
stops 'make example' rt cargo cc
stops 'make bench' rt cargo cc
stops 'make test' rt cargo python3 gcc g++
stops .ci/run rt cargo python3 gcc g++ make
echo "needs: $checks checks passed"
