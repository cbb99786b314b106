# Pipes, things that are no image, names with control characters, and a standard output that nobody reads.
# shellcheck shell=bash disable=SC2154

begin streams
random 153600 >results
dd if=results of=expected.img bs=512 seek=256 conv=notrunc status=none
from_pipe() { on_disk write "${@:2}" - < <(cat "$1"); }
to_pipe() { on_disk read "$@" - | cat >piped; }
expect 'a write from a pipe' 0 'wrote outer sector 0, count 300, from standard input' from_pipe results outer 0
same 'a write from a pipe' disk.img expected.img
expect 'a read to a pipe' 0 'read outer sector 0, count 300, to standard output' to_pipe outer 0 300
same 'a read to a pipe' results piped
[ ! -e ./- ] || failed 'a file is called -'

# All of a pipe is judged before a byte of it is written; an endless one is read no further than the volume's end.
random 1000 >odd
expect 'a pipe of half a sector' 2 'standard input: 1000 bytes are no whole number' from_pipe odd outer 0
expect 'an empty pipe' 2 'standard input: empty' from_pipe /dev/null outer 0
expect 'a pipe into the protected range' 1 '(refusal 18)' from_pipe results outer 725
expect 'a pipe past the end' 1 '(refusal 16)' from_pipe results hidden 213
expect 'an endless pipe' 1 '(refusal 16)' timeout 60 bash -c \
    "yes | '$program' write disk.img --outer outer.header outer 0 -"
TMPDIR=$PWD/no_folder expect 'no folder for a pipe' 2 'no_folder' from_pipe results outer 0
same 'the refused pipes' disk.img expected.img

mkfifo pipe
show() { timeout 10 "$program" show "$1" "${headers[@]}"; }
expect 'a pipe as image' 2 'pipe: a pipe: an image is a file or a block device' show pipe
expect 'a folder as image' 2 '.: a folder' show .
expect 'a character device as image' 2 '/dev/zero: neither a file nor a block device' show /dev/zero
expect 'a write to a pipe as image' 2 'pipe: a pipe' \
    timeout 10 "$program" write pipe "${headers[@]}" outer 0 results

# No name does anything to a terminal.
escape=$'red\e[31m\n.img'
cp disk.img "$escape"
head -c 512 disk.img >"$escape.header"
plain() {
    expect "$1" "$2" "$3" "${@:4}"
    ! grep -q $'\e' "$work/said" || failed "$1 prints an escape byte"
    passed
}
plain 'a name that is shown' 0 'red\u{1b}[31m\n.img, 1.0 MiB' volumes show "$escape" "${headers[@]}"
plain 'a header that is refused' 1 'header: red\u{1b}[31m\n.img.header' volumes show disk.img --outer "$escape.header"
plain 'a file that is missing' 2 'file: \u{1b}c: No such file' volumes show $'\ec' "${headers[@]}"
plain 'a target' 0 'into \u{1b}.copy' on_disk read outer 0 1 $'\e.copy'
plain 'a source' 0 'from \u{1b}.copy' on_disk write outer 0 $'\e.copy'
plain 'a header' 0 'into \u{1b}.header' prepare outer $'\e.header' --magic TRUE
plain 'keys' 1 'keys: \u{1b}.header, 512 bytes' prepare outer none --magic TRUE --keys $'\e.header'
plain 'an unknown command' 2 '\u{1b}' volumes $'\ec'
plain 'an unknown option' 2 '\u{1b}' volumes show $'--\ec'
plain 'a number' 2 '\u{1b}' on_disk read outer $'\ec' 1 copy

# unread COMMAND..: standard output is a pipe whose reader is gone.
unread() {
    python3 -c 'import os, subprocess, sys
reader, writer = os.pipe()
os.close(reader)
sys.exit(subprocess.call(sys.argv[1:], stdout=writer))' "$@"
}
expect 'show that nobody reads' 2 'standard output: Broken pipe' unread "$program" show disk.img "${headers[@]}"
expect 'a read that nobody reads' 2 'standard output: Broken pipe' \
    unread "$program" read disk.img "${headers[@]}" outer 0 300 -
expect 'a write whose report nobody reads' 2 'the command was done' \
    unread "$program" write disk.img "${headers[@]}" outer 0 results
same 'a write whose report nobody reads' disk.img expected.img
expect 'a full standard output' 2 'standard output: No space' \
    bash -c "'$program' read disk.img --outer outer.header outer 0 1 - >/dev/full"
