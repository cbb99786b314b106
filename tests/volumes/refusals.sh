# Reads and writes that are refused, and what they leave. Which sector is in the way is in_the_way.sh's matter.
# shellcheck shell=bash disable=SC2154

begin refusals
random 153600 >results

# A write that is refused leaves the image as it was, also where its first calls would be accepted.
expect 'a write into the protected range' 1 '(refusal 18)' on_disk write outer 725 results
says 'its sentence' 'refused: a sector of the write lies in the protected range'
says 'its extent' 'asked for: outer sector 725, count 300'
says 'its advice' 'next: write outside the protected sectors'
expect 'a write past the outer end' 1 '(refusal 16)' on_disk write outer 1237 results
says 'its sentence' 'refused: first and count add up to more sectors than the volume has'
says 'its extent' 'asked for: outer sector 1,237, count 300'
says 'its advice' 'next: ask for sectors that the volume has'
random 1000 >odd
: >empty
expect 'a write of half a sector' 2 'odd: 1000 bytes are no whole number' on_disk write outer 0 odd
expect 'a write of nothing' 2 'empty: empty, so there is nothing to write' on_disk write outer 0 empty
expect 'a write from a named pipe' 2 'not a regular file' on_disk write outer 0 <(cat results)
expect 'a write from a folder' 2 'not a regular file' on_disk write outer 0 .
expect 'a write beside another recorder' 2 'another recorder' \
    flock disk.img "$program" write disk.img "${headers[@]}" outer 0 results
expect 'a read beside another recorder' 2 'another recorder' \
    flock disk.img "$program" show disk.img "${headers[@]}"
expect 'a read beside a reader' 0 'disk.img' flock --shared disk.img "$program" show disk.img "${headers[@]}"
expect 'a write beside a reader' 2 'another recorder' \
    flock --shared disk.img "$program" write disk.img "${headers[@]}" outer 0 results
same 'the refused writes' disk.img expected.img

# A read is refused before its file is made, no half of a copy is left, and no file is overwritten.
full() { (trap '' XFSZ && ulimit -f 100 && "$@"); }
expect 'a read past the end' 1 '(refusal 16)' on_disk read outer 1237 300 no_folder/copy
expect 'a read past 2^64' 1 '(refusal 16)' on_disk read outer 1 18446744073709551615 no_folder/copy
expect 'a read into no folder' 2 'no_folder/copy' on_disk read outer 0 1 no_folder/copy
expect 'a read without room' 2 'half.copy' full on_disk read outer 0 300 half.copy
[ ! -e half.copy ] || failed 'a read without room left half a copy'
expect 'a read into the image' 2 'disk.img: it is there already' on_disk read outer 0 1 disk.img
ln -s nowhere link
expect 'a read through a link' 2 'link: it is there already' on_disk read outer 0 1 link
nothing_left 'a read that failed'
same 'a read into the image' disk.img expected.img
