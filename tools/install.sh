#!/usr/bin/env bash
# Copies the header, the library, the programs, pkg-config's file and the manual pages to $DESTDIR$PREFIX.
#
#     tools/install.sh             what tools/build.sh has built is copied as it is
#     tools/install.sh --remove    the files are taken away again
#
# In pkg-config's file @PREFIX@ and @VERSION@ become the prefix and the version of rust/Cargo.toml.
set -euo pipefail
cd "$(dirname "$0")/.."

prefix=${PREFIX:-/usr/local}
place=${DESTDIR:-}$prefix
# Each file's mode, source and place.
files=(
    644 include/ondristela.h include/ondristela.h
    644 "${ONDRISTELA_LIB_DIR:-target/staticlib}/libondristela.a" lib/libondristela.a
    644 install/ondristela.pc.in lib/pkgconfig/ondristela.pc
    755 "${CARGO_TARGET_DIR:-rust/target}/release/volumes" bin/volumes
    755 target/bin/volmap bin/volmap
    644 man/volumes.1 share/man/man1/volumes.1
    644 man/volmap.1 share/man/man1/volmap.1
)

stop() {
    echo "$1" >&2
    exit 1
}

# filled FILE: its text with the marks filled in.
filled() {
    local version escaped
    version=$(sed -n 's/^version = "\(.*\)"$/\1/p' rust/Cargo.toml)
    escaped=$(printf '%s' "$prefix" | sed 's/[&|\\]/\\&/g')
    sed "s|@PREFIX@|$escaped|; s|@VERSION@|$version|" "$1"
}

# copy MODE SOURCE PLACE
copy() {
    if [[ $2 = *.in ]]; then
        filled "$2" >"$work/filled"
        set -- "$1" "$work/filled" "$3"
    fi
    install -d -m 755 "$(dirname "$place/$3")"
    install -m "$1" "$2" "$place/$3"
    echo "$place/$3"
}

[[ $prefix = /* ]] || stop "PREFIX is $prefix, which does not begin at the root"
work=$(mktemp -d)
trap 'rm -rf "$work"' EXIT

case ${1:-} in
'')
    for ((i = 0; i < ${#files[@]}; i += 3)); do
        [ -f "${files[i + 1]}" ] || stop "nothing was installed: ${files[i + 1]} is missing"
    done
    for ((i = 0; i < ${#files[@]}; i += 3)); do
        copy "${files[@]:i:3}"
    done
    ;;
--remove)
    for ((i = 0; i < ${#files[@]}; i += 3)); do
        rm -f "$place/${files[i + 2]}"
    done
    ;;
*) stop "usage: tools/install.sh [--remove]" ;;
esac
