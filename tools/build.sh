#!/usr/bin/env bash
# Builds each of these that is missing, or was not built from the sources as they are now:
#
#     tools/build.sh NAME..    library    target/staticlib/libondristela.a, proved: crates/ondristela_c, as `rt lib` makes it
#                              volmap     target/bin/volmap, proved, as `rt run` makes it
#                              volumes    release/volumes in cargo's folder, rust/target or CARGO_TARGET_DIR
#
# target/built/NAME has the digests of the sources and of the file. Tools are asked for only where something is
# to be built. With ONDRISTELA_LIB_DIR set, libondristela.a in that folder is the library, as it is.
set -euo pipefail

# The folder of a library from elsewhere; its path may start where this is called from.
elsewhere=${ONDRISTELA_LIB_DIR:+$(realpath -m -- "$ONDRISTELA_LIB_DIR")}
if [ -n "$elsewhere" ]; then
    export ONDRISTELA_LIB_DIR=$elsewhere
fi
cd "$(dirname "$0")/.."
cargo_folder=${CARGO_TARGET_DIR:-rust/target}

# made CRATE VERB INPUT OUTPUT: has rt make OUTPUT in the crate's folder out/, for every x86-64 processor and not for
# those alone that rt takes by itself, and takes it for $file.
made() {
    (cd "crates/$1" && rt "$2" --cpu x86-64) <"$3" && mkdir -p "$(dirname "$file")" && cp -- "crates/$1/out/$4" "$file"
}

# describe NAME: its file, what it is built from and by, and what is said meanwhile.
describe() {
    sources=(crates.txt crates/*/src crates/*/specs crates/*/proofs)
    case $1 in
    library)
        file=target/staticlib/libondristela.a
        work="proving and building $file, which takes minutes the first time"
        tools=(rt)
        command=(made ondristela_c lib /dev/null libondristela_c.a)
        named='rt lib in crates/ondristela_c'
        ;;
    volmap)
        file=target/bin/volmap
        work="proving and building $file, which takes minutes the first time"
        tools=(rt)
        # There is no command that builds a program and does not run it: this runs it on its own sample.
        command=(made volmap run crates/volmap/stdin volmap)
        named='rt run in crates/volmap'
        ;;
    volumes)
        file=$cargo_folder/release/volumes
        work="building $file"
        sources+=(${elsewhere:+"$elsewhere/libondristela.a"} rust/Cargo.* rust/build.rs rust/src rust/volumes)
        tools=(cargo cc)
        command=(cargo build --quiet --release --offline --manifest-path rust/Cargo.toml
            --target-dir "$cargo_folder" -p volumes)
        named=${command[*]}
        ;;
    *)
        echo "tools/build.sh: $1 is none of library, volmap, volumes" >&2
        exit 2
        ;;
    esac
}

source_digest() { find "${sources[@]}" -type f -print0 | LC_ALL=C sort -z | xargs -0 sha256sum | sha256sum; }
record() { printf 'sources %s\nfile %s\n' "$1" "$(sha256sum <"$file")"; }
is_current() {
    [ -f "$file" ] && [ -f "target/built/$1" ] && [ "$(record "$(source_digest)")" = "$(<"target/built/$1")" ]
}

# The sources are recorded as they were before: an edit that is made meanwhile is built the next time. Where that
# fails nothing is left to be taken for what was asked for.
build() {
    local before
    before=$(source_digest)
    mkdir -p target/built
    rm -f "target/built/$1"
    echo "$work" >&2
    if ! "${command[@]}" >"target/$1.log" 2>&1; then
        cat "target/$1.log" >&2
        rm -f "$file"
        echo "$file was not built: $named failed" >&2
        return 1
    fi
    record "$before" >"target/built/$1"
}

if [ -n "$elsewhere" ] && ! [ -f "$elsewhere/libondristela.a" ]; then
    echo "ONDRISTELA_LIB_DIR is $elsewhere, but $elsewhere/libondristela.a is not there" >&2
    exit 1
fi
stale=() needed=()
for name; do
    describe "$name"
    if [ "$name" = library ] && [ -n "$elsewhere" ] || is_current "$name"; then
        continue
    fi
    stale+=("$name")
    needed+=("${tools[@]}")
done
if [ "${#stale[@]}" -gt 0 ]; then
    mapfile -t needed < <(printf '%s\n' "${needed[@]}" | sort -u)
    tools/needs.sh "${needed[@]}"
    for name in "${stale[@]}"; do
        describe "$name"
        build "$name"
    done
fi
