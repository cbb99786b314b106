#!/usr/bin/env bash
# Whether a library that was not built from the sources as they are is ever taken: tools/build.sh, rust/build.rs
# and cargo in a small repository, whose rt only notes where it was called and writes an archive with nothing in it.
# Ends with 1 at the first check that fails.
set -euo pipefail

root=$(cd "$(dirname "$0")/.." && pwd)
work=$(mktemp -d)
trap 'rm -rf "$work"' EXIT
copy="$work/a copy"
mkdir -p "$work/bin" "$copy"/crates/{one,ondristela_c}/{src,specs,proofs} "$copy"/rust/src "$copy"/{tools,empty}
cp "$root"/tools/{build,needs}.sh "$copy/tools"
cp "$root/rust/build.rs" "$copy/rust"
cat >"$copy/rust/Cargo.toml" <<'END'
[package]
name = "one"
version = "0.0.0"
edition = "2021"
build = "build.rs"
END
cd "$copy"
touch crates.txt crates/one/{src/lib.rt,specs/One.antt,proofs/Two.antt} rust/src/lib.rs
unset ONDRISTELA_LIB_DIR
export CARGO_TARGET_DIR=$work/cargo PATH=$work/bin:$PATH
library=target/staticlib/libondristela.a

cat >"$work/bin/rt" <<'END'
#!/bin/sh
echo "$* in ${PWD##*/}" >>../../called
[ ! -e ../../refused ] || { echo 'not proved'; exit 1; }
[ ! -e ../../lost ] || { rm -f out/libondristela_c.a; exit 0; }
mkdir -p out
printf '!<arch>\n' >out/libondristela_c.a
END
chmod +x "$work/bin/rt"

checks=0
failed() {
    echo "build: $1; what was said:" >&2
    cat "$work/said" >&2
    exit 1
}
# calls NAME TIMES STATUS COMMAND..: the command ends with the status and calls rt so many times.
calls() {
    local ended=0 times=0
    rm -f called
    "${@:4}" >"$work/said" 2>&1 || ended=$?
    [ "$ended" -eq "$3" ] || failed "$1 ended with $ended and not with $3"
    [ ! -e called ] || times=$(grep -c '^lib --cpu x86-64 in ondristela_c$' called)
    [ "$times" -eq "$2" ] || failed "$1 called rt $times times and not $2"
    checks=$((checks + 1))
}
says() { grep -qF -- "$1" "$work/said" || failed "it does not say '$1'"; }

build() { tools/build.sh library; }
crate() { cargo build --offline --manifest-path rust/Cargo.toml; }

for way in build crate; do
    rm -rf target
    calls "$way, nothing built" 1 0 "$way"
    [ -f "$library" ] || failed 'there is no library'
    calls "$way, nothing changed" 0 0 "$way"
    echo 'fn one() {}' >>crates/one/src/lib.rt
    calls "$way, code changed" 1 0 "$way"
    echo 'one' >>crates/one/specs/One.antt
    calls "$way, a definition changed" 1 0 "$way"
    mv crates/one/proofs/Two.antt crates/one/proofs/Three.antt
    calls "$way, a proof renamed" 1 0 "$way"
    mv crates/one/proofs/Three.antt crates/one/proofs/Two.antt
    calls "$way, a proof renamed back" 1 0 "$way"
    echo 'one:' >>crates.txt
    calls "$way, crates.txt changed" 1 0 "$way"
    rm "$library"
    calls "$way, the library removed" 1 0 "$way"
    echo another >>"$library"
    calls "$way, another library in its place" 1 0 "$way"
    touch crates/one/src/lib.rt
    calls "$way, the same sources, newer" 0 0 "$way"
done

# What is not proved is not linked, and is tried again.
echo 'fn two() {}' >>crates/one/src/lib.rt
touch refused
calls 'a build that is refused' 1 1 build
says 'not proved'
says "$library was not built: rt lib in crates/ondristela_c failed"
[ ! -e "$library" ] || failed 'a library is left that does not fit the sources'
calls 'a crate whose library is refused' 1 101 crate
says "$library was not built: rt lib in crates/ondristela_c failed"
rm refused
calls 'the crate again' 1 0 crate

# Where rt leaves no archive, no older one is taken.
echo 'fn two_more() {}' >>crates/one/src/lib.rt
touch lost
calls 'a build that leaves nothing' 1 1 build
[ ! -e "$library" ] || failed 'a library is left that does not fit the sources'
rm lost
calls 'a build that leaves something again' 1 0 build

# A library that was built elsewhere is taken as it is, and named where it is missing.
cp -r target/staticlib elsewhere
echo 'fn three() {}' >>crates/one/src/lib.rt
calls 'a build with a library from elsewhere' 0 0 env "ONDRISTELA_LIB_DIR=$copy/elsewhere" tools/build.sh library
calls 'a build with a library from elsewhere, by a path from here' 0 0 env ONDRISTELA_LIB_DIR=elsewhere \
    tools/build.sh library
calls 'a build with no library elsewhere' 0 1 env "ONDRISTELA_LIB_DIR=$copy/empty" tools/build.sh library
says "ONDRISTELA_LIB_DIR is $copy/empty, but $copy/empty/libondristela.a is not there"
export ONDRISTELA_LIB_DIR=$copy/elsewhere
calls 'a crate with a library from elsewhere' 0 0 crate
export ONDRISTELA_LIB_DIR=$copy/empty
calls 'a crate with no library elsewhere' 0 101 crate
says "ONDRISTELA_LIB_DIR names $copy/empty, but no libondristela.a is there"

echo "build: $checks checks passed"
