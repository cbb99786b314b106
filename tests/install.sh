#!/usr/bin/env bash
# Installs into folders of its own, with spaces in their names: the files and their modes, the version that they
# tell, a C program that is built with them, by explicit paths and by pkg-config, and that nothing is left once
# they are taken away. Without pkg-config its part is left out. Ends with 1 at the first check that fails.
set -euo pipefail

cd "$(dirname "$0")/.."
tools/needs.sh make gcc
make all
work=$(mktemp -d)
trap 'rm -rf "$work"' EXIT
# Of what is installed others than its owner may read all, whatever the mask.
umask 077

checks=0
failed() {
    echo "install: $1" >&2
    exit 1
}
# same NAME GOT EXPECTED
same() {
    [ "$2" = "$3" ] || failed "$1 is '$2' and not '$3'"
    checks=$((checks + 1))
}

cat >"$work/recorder.c" <<'END'
#include <ondristela.h>
#include <stdio.h>

int main(void)
{
    uint64_t offset = 0;
    uint64_t answer = ondristela_location(ONDRISTELA_LOCATION_HIDDEN, 1048576, &offset);

    printf("%s: %d, %s\n", ONDRISTELA_VERSION, (int)offset, ondristela_refusal_text(answer));
    return 0;
}
END

# A stage, as a package is made of one.
stage="$work/a stage"
prefix='/opt/a & b'
place=$stage$prefix
make install "DESTDIR=$stage" "PREFIX=$prefix" >"$work/said" || failed 'make install fails'
same 'the list of files with their modes' "$(cd "$place" && find . -type f -printf '%m %P\n' | LC_ALL=C sort -k 2)" \
    "755 bin/volmap
755 bin/volumes
644 include/ondristela.h
644 lib/libondristela.a
644 lib/pkgconfig/ondristela.pc
644 share/man/man1/volmap.1
644 share/man/man1/volumes.1"
same 'the list of modes of folders' "$(find "$place" -type d -printf '%m\n' | sort -u)" 755
version=$(sed -n 's/^#define ONDRISTELA_VERSION "\(.*\)"$/\1/p' "$place/include/ondristela.h")
[ -n "$version" ] || failed 'the header has no version'
same "pkg-config's version" "$(sed -n 's/^Version: //p' "$place/lib/pkgconfig/ondristela.pc")" "$version"
same "pkg-config's prefix" "$(sed -n 's/^prefix=//p' "$place/lib/pkgconfig/ondristela.pc")" "$prefix"
for name in volmap volumes; do
    same "the version in $name's manual page" "$(grep -o "\"$name [0-9.]*\"" "$place/share/man/man1/$name.1")" \
        "\"$name $version\""
done
same 'the list of files with a mark that was not filled' "$(grep -rlI '@[A-Z]*@' "$place" || true)" ''
gcc "$work/recorder.c" -I"$place/include" -L"$place/lib" -londristela -o "$work/recorder"
same 'the answer of a C program' "$("$work/recorder")" "$version: 65536, accepted"
{ printf '\0\0\0\0\0\020\0\0\0' && cat samples/tcplay-1048576-code0.header; } >"$work/input"
same "the map program's first line" "$("$place/bin/volmap" <"$work/input" | head -n 1)" 'mark TRUE'
"$place/bin/volumes" help >"$work/said" || failed 'the installed program volumes does not run'
make uninstall "DESTDIR=$stage" "PREFIX=$prefix"
same 'the list of files that are left' "$(find "$stage" -type f)" ''

# A prefix of one's own, found by pkg-config.
if command -v pkg-config >/dev/null; then
    prefix="$work/a prefix"
    make install DESTDIR= "PREFIX=$prefix" >"$work/said"
    export PKG_CONFIG_PATH=$prefix/lib/pkgconfig
    same "the version that pkg-config tells" "$(pkg-config --modversion ondristela)" "$version"
    # xargs reads the flags as a shell would, which has to see the blanks in them.
    pkg-config --cflags --libs ondristela | xargs gcc -o "$work/recorder" "$work/recorder.c"
    same 'the answer of a C program that pkg-config gave the flags' "$("$work/recorder")" "$version: 65536, accepted"
else
    echo 'install: pkg-config is not installed, and its flags were not tried'
fi

# What cannot be installed as a whole is not begun.
stage="$work/another stage"
if PREFIX=opt DESTDIR=$stage tools/install.sh 2>"$work/said"; then
    failed 'a PREFIX that is no path from the root is taken'
fi
same 'what is said of such a PREFIX' "$(<"$work/said")" 'PREFIX is opt, which does not begin at the root'
if CARGO_TARGET_DIR=$work/none DESTDIR=$stage tools/install.sh 2>"$work/said"; then
    failed 'a missing program is not told of'
fi
same 'what is said of a missing file' "$(<"$work/said")" \
    "nothing was installed: $work/none/release/volumes is missing"
[ ! -e "$stage" ] || failed 'something was installed all the same'

echo "install: $checks checks passed"
