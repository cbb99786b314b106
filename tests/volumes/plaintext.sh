# Plaintext into both volumes and out of them. What the image has to be is enciphered by the tests' second
# implementation and put there by dd.
# shellcheck shell=bash disable=SC2154

begin plaintext
random 256 >outer.keys
random 256 >hidden.keys
# stands KEYS HOST_SECTOR FILE: from now on the image has to have this plaintext there.
stands() { stored "$1" "$2" <"$3" | dd of=expected.img bs=512 seek="$2" conv=notrunc status=none; }
keyed() { echo "keys=open('$1.keys', 'rb').read()"; }
header "header(salt=salt_at(0), $(keyed outer))" >outer.header
header "hidden(salt=salt_at(65_536), $(keyed hidden))" >hidden.header

# Copies of 300 sectors take three calls. Raw reads give what stands there.
random 153600 >results
random 153600 >secrets
stands outer.keys $((256 + 724)) results
stands hidden.keys $((1280 + 212)) secrets
expect 'a write up to the hidden volume' 0 'wrote outer sector 724, count 300, enciphered, from results' \
    on_disk write outer 724 results --plaintext
expect 'a write up to the hidden end' 0 'wrote hidden sector 212, count 300, enciphered, from secrets' \
    on_disk write --plaintext hidden 212 secrets
same 'the writes' disk.img expected.img
expect 'an outer read' 0 'read outer sector 724, count 300, deciphered, into results.copy' \
    on_disk read outer 724 300 results.copy --plaintext
same 'an outer read' results results.copy
expect 'a hidden read' 0 'read hidden sector 212, count 300, deciphered, into secrets.copy' \
    on_disk read hidden 212 300 secrets.copy --plaintext
same 'a hidden read' secrets secrets.copy
expect 'a raw read' 0 'read outer sector 724, count 300, into results.raw' on_disk read outer 724 300 results.raw
same 'a raw read' results.raw <(stored outer.keys 980 <results)
! cmp -s results.raw results || failed 'a raw read gives the plaintext'
expect 'a raw write' 0 'wrote outer sector 0, count 300, from results' on_disk write outer 0 results
expect 'what it is as plaintext' 0 'deciphered' on_disk read outer 0 300 results.other --plaintext
same 'what it is as plaintext' results <(stored outer.keys 256 <results.other)
cp disk.img expected.img

# Each volume has its own key, which its backup has too. One header is enough.
expect 'the hidden volume with the outer key' 0 'deciphered' on_disk read outer 1236 300 other.copy --plaintext
! cmp -s other.copy secrets || failed 'the outer key deciphers the hidden volume'
header "header(salt=salt_at(917_504), $(keyed outer))" >backup.header
expect 'a backup' 0 'deciphered' volumes read disk.img --outer backup.header outer 724 300 backup.copy --plaintext
same 'a backup' results backup.copy
expect 'a volume alone' 0 'deciphered' \
    volumes read disk.img --hidden hidden.header hidden 511 1 last.copy --plaintext
same 'a volume alone' last.copy <(tail -c 512 secrets)
random 512 >sector
stands outer.keys $((256 + 1024)) sector
expect 'a write with nothing protected' 0 'so nothing is protected' \
    volumes write disk.img --outer outer.header outer 1024 sector --plaintext
same 'a write with nothing protected' disk.img expected.img

# Keys with two equal halves, as the sample has them; and sectors of the disk of 4,096 bytes.
volumes sample equal >/dev/null
head -c 64 /dev/zero | tr '\0' '\241' >equal.keys
stored equal.keys 256 <results >equal.stored
in_sample() { volumes "$1" equal/disk.img --outer equal/outer.header "${@:2}"; }
expect 'a write with equal halves' 0 'enciphered' in_sample write outer 0 results --plaintext
expect 'a raw read with equal halves' 0 'read outer' in_sample read outer 0 300 equal.raw
same 'a raw read with equal halves' equal.raw equal.stored
expect 'a read with equal halves' 0 'deciphered' in_sample read outer 0 300 equal.copy --plaintext
same 'a read with equal halves' equal.copy results
header "header(salt=salt_at(0), sector_size=4_096, $(keyed outer))" >outer.4096
wide() { volumes "$1" disk.img --outer outer.4096 "${@:2}"; }
random 4096 >eight
stands outer.keys $((256 + 16)) eight
expect 'a write of a larger sector' 0 'enciphered' wide write outer 16 eight --plaintext
expect 'a read of a larger sector' 0 'deciphered' wide read outer 16 8 eight.copy --plaintext
same 'a read of a larger sector' eight eight.copy
same 'a write of a larger sector' disk.img expected.img

# Pipes.
from_pipe() { on_disk write "${@:2}" - --plaintext < <(cat "$1"); }
to_pipe() { on_disk read "$@" - --plaintext | cat >piped; }
stands outer.keys $((256 + 400)) results
expect 'a write from a pipe' 0 'wrote outer sector 400, count 300, enciphered, from standard input' \
    from_pipe results outer 400
same 'a write from a pipe' disk.img expected.img
expect 'a read to a pipe' 0 'read outer sector 400, count 300, deciphered, to standard output' to_pipe outer 400 300
same 'a read to a pipe' results piped

# alike COMMAND..: refused as without --plaintext, word by word, and nothing is changed.
alike() {
    local ended=0
    "$@" >raw.said 2>&1 || ended=$?
    [ "$ended" -ne 0 ] || failed "$* is not refused"
    expect "$* --plaintext" "$ended" '' "$@" --plaintext
    same "$* --plaintext" raw.said "$work/said"
    [ ! -e none ] || failed "$* --plaintext made a file"
    same "$* --plaintext" disk.img expected.img
}
random 1000 >odd
: >empty
alike on_disk write outer 725 results
says 'its number' '(refusal 18)'
alike on_disk write outer 1237 results
says 'its number' '(refusal 16)'
alike on_disk write hidden 213 secrets
alike on_disk write outer 0 odd
alike on_disk write outer 0 empty
alike on_disk read outer 1535 2 none
alike on_disk read hidden 513 0 none
alike on_disk read outer 0 1 disk.img
alike wide write outer 4 eight
says 'its number' '(refusal 20)'
alike wide read outer 0 7 none
alike volumes write results --outer outer.header outer 0 sector
alike volumes read disk.img --outer hidden.header outer 0 1 none
header 'header()' >strange.header
alike volumes write disk.img --outer strange.header outer 0 sector
expect 'a pipe into the protected range' 1 '(refusal 18)' from_pipe results outer 725
expect 'an endless pipe' 1 '(refusal 16)' timeout 60 bash -c \
    "yes | '$program' write disk.img --outer outer.header outer 0 - --plaintext"
same 'the refused pipes' disk.img expected.img

# Of a disk that is full behind 72 KiB of the data area, the first call is written, enciphered.
full() { (trap '' XFSZ && ulimit -f 200 && "$@"); }
expect 'a write beyond a limit' 3 'written: outer sectors 0 to 127, of outer sectors 0 to 299' \
    full on_disk write outer 0 secrets --plaintext
stored outer.keys 256 <secrets >secrets.stored
cmp -s -n 65536 secrets.stored disk.img 0 131072 || failed 'what it says to have written is not there'
passed

# Commands that copy no sectors.
expect 'show' 2 'show takes no --plaintext' on_disk show --plaintext
expect 'prepare' 2 'prepare takes no --plaintext' prepare outer none --magic TRUE --plaintext
expect 'sample' 2 'sample takes no --plaintext' volumes sample none --plaintext
expect 'a value' 2 'is no option' on_disk read outer 0 1 none --plaintext=yes
[ ! -e none ] || failed 'a wrong command made a file'

# For which volumes it is right is said.
expect 'the help' 0 'right only for volumes that are enciphered with AES alone' volumes help
tr '\n' ' ' <"$root/man/volumes.1" | grep -qF 'right only for volumes that are enciphered with AES alone' ||
    failed 'the manual page does not say for which volumes --plaintext is right'
passed
