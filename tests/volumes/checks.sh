# What the checks of the program are made of. Sourced by tests/volumes.sh.
# shellcheck shell=bash disable=SC2154

checks=0
passed() { checks=$((checks + 1)); }
failed() {
    echo "volumes: $1; the program said:" >&2
    cat -v "$work/said" >&2
    exit 1
}
skipped() { echo "volumes: skipped: $1"; }

# expect NAME STATUS WORDS COMMAND..: the command ends with the status and says the words.
expect() {
    local ended=0
    "${@:4}" >"$work/said" 2>&1 || ended=$?
    [ "$ended" -eq "$2" ] || failed "$1 ended with $ended and not with $2"
    says "$1" "$3"
}
# says NAME WORDS: the last command said the words too.
says() {
    grep -qF -- "$2" "$work/said" || failed "$1 does not say '$2'"
    passed
}
# says_not NAME WORDS
says_not() {
    ! grep -qF -- "$2" "$work/said" || failed "$1 says '$2'"
    passed
}
# same NAME FILE FILE
same() {
    cmp -s "$2" "$3" || failed "$1: $2 and $3 differ"
    passed
}
# nothing_left NAME: no part of a copy is left in this folder.
nothing_left() {
    [ -z "$(find . -name '.volumes-*')" ] || failed "$1 left a part of a copy"
    passed
}

volumes() { "$program" "$@"; }
headers=(--outer outer.header --hidden hidden.header)
prepare() { volumes prepare disk.img "$@"; }
on_disk() { volumes "$1" disk.img "${headers[@]}" "${@:2}"; }
random() { head -c "$1" /dev/urandom; }

# begin TOPIC: goes to a new folder with a sample, and keeps the image that it has to be.
begin() {
    cd "$work" || exit
    volumes sample "$1" >/dev/null
    cd "$1" || exit
    cp disk.img expected.img
}

# header EXPRESSION: a deciphered header made by the tests' second implementation. salt_at(OFFSET) is a salt that
# disk.img has.
header() {
    PYTHONPATH=$root/tests python3 -B -c "
import sys
from vectors.headers import *
def salt_at(offset):
    with open('disk.img', 'rb') as image:
        image.seek(offset)
        return image.read(64)
sys.stdout.buffer.write($1)"
}

# stored KEYS HOST_SECTOR: standard input as it has to stand on an image from a host sector on, by the tests' second
# implementation. The key is the first 64 bytes of a file of keys.
stored() {
    PYTHONPATH=$root/tests python3 -B -c "
import sys
from vectors.xts import encipher
key, units = open('$1', 'rb').read()[:64], sys.stdin.buffer.read()
sys.stdout.buffer.write(encipher(key, range($2, $2 + len(units) // 512), units))"
}
