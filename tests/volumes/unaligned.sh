# Reads and writes that are not of whole sectors of the disk: refused 20, with what is at fault and the whole ones
# around it.
# shellcheck shell=bash disable=SC2154

begin unaligned
for size in 1024 2048 4096; do
    header "header(salt=salt_at(0), sector_size=$size)" >"outer.$size"
    header "hidden(salt=salt_at(65_536), sector_size=$size)" >"hidden.$size"
done
of_size() { volumes "$2" disk.img --outer "outer.$1" --hidden "hidden.$1" "${@:3}"; }
# unaligned NAME FIRST COUNT WIDENED COMMAND..: refused 20. FIRST and COUNT are what is said to be at fault, if they
# are not empty.
unaligned() {
    expect "$1" 1 '(refusal 20)' "${@:5}"
    at_fault "$1" 'the first sector' "$2"
    at_fault "$1" 'the count' "$3"
    says "$1" "widened: $4"
    says "$1" 'next: ask for whole sectors of the disk'
}
# at_fault NAME WHAT NUMBER: so the last command said of what is wrong with a number, and nothing where there is none.
at_fault() {
    if [ -n "$3" ]; then
        says "$1" "at fault: $2, $3, which is no multiple of "
    else
        says_not "$1" "at fault: $2"
    fi
}
past() { echo "past the end of the $1 volume, which has $2 sectors, 0 to $3"; }

# Reads: which number is at fault, and the whole sectors around.
unaligned 'a read from within a sector' 3 '' 'outer sector 0, count 16 (8,192 bytes)' of_size 4096 read outer 3 8 none
unaligned 'a read of a part' '' '1 (512 bytes)' 'outer sector 8, count 8 (4,096 bytes)' of_size 4096 read outer 8 1 none
unaligned 'a read of two parts' 3 '10 (5,120 bytes)' 'outer sector 0, count 16 (8,192 bytes)' \
    of_size 4096 read outer 3 10 none
says 'its extent' 'asked for: outer sector 3, count 10'
says 'its sectors' "disk's sectors: 4,096 bytes each, which are 8 sectors here"
# The manual page shows this message.
sed -n '/^asked for: outer sector 3,/,/^widened: /p' "$root/man/volumes.1" >shown
same 'the manual page' shown <(sed -n '/^asked for: /,/^widened: /p' "$work/said")
[ -s shown ] || failed 'the manual page shows no such message'
unaligned 'a long read' '' '1,001 (512,512 bytes)' 'outer sector 512, count 1,008 (516,096 bytes)' \
    of_size 4096 read outer 512 1001 none
unaligned 'a read of nothing' 1,535 '' 'outer sector 1,528, count 8 (4,096 bytes)' of_size 4096 read outer 1535 0 none
unaligned 'a hidden read' 511 '1 (512 bytes)' 'hidden sector 504, count 8 (4,096 bytes)' \
    of_size 4096 read hidden 511 1 none
for size in 1024 2048; do
    multiple=$((size / 512))
    unaligned "a read, $size" 7 '' "outer sector $((8 - multiple)), count $((2 * multiple)) (" \
        of_size $size read outer 7 $multiple none
    says "a read, $size" "which is no multiple of $multiple"
    expect "a read of whole ones, $size" 0 'read outer sector 4, count' \
        of_size $size read outer 4 $multiple "copy.$size"
done

# It comes before the end and the protected range, and leaves the image and the lock as they were.
last=18,446,744,073,709,551,615
ends='where the volume ends'
unaligned 'a read past the end' 1,530 '' "outer sector 1,528, count 8 (4,096 bytes), $ends" \
    of_size 4096 read outer 1530 8 none
unaligned 'a read behind the end' 1,537 '' "$(past outer 1,536 1,535)" of_size 4096 read outer 1537 0 none
unaligned 'a read from the last number on' $last '' "$(past hidden 512 511)" \
    of_size 4096 read hidden ${last//,/} 8 none
unaligned 'a read of the last number' '' "$last (9,444,732,965,739,290,426,880 bytes)" \
    "outer sector 0, count 1,536 (786,432 bytes), $ends" \
    timeout 10 "$program" read disk.img --outer outer.4096 outer 0 ${last//,/} none
[ ! -e none ] || failed 'a refused read made a file'
random 512 >one
random 4096 >eight
random 153600 >three_hundred
unaligned 'a write of a part' '' '1 (512 bytes)' 'outer sector 0, count 8 (4,096 bytes)' of_size 4096 write outer 0 one
says 'its advice' 'to write a part of one, read all of it first, put the part in its place, and write it back'
unaligned 'a write from within a sector' 4 '' 'hidden sector 0, count 16 (8,192 bytes)' \
    of_size 4096 write hidden 4 eight
unaligned 'a write of three calls' '' '300 (153,600 bytes)' 'outer sector 720, count 304 (155,648 bytes)' \
    of_size 4096 write outer 720 three_hundred
unaligned 'a write into the protected range' 1,020 '' 'outer sector 1,016, count 16 (8,192 bytes)' \
    of_size 4096 write outer 1020 eight
unaligned 'a write over the protected range' '' '300 (153,600 bytes)' 'outer sector 1,000, count 304' \
    of_size 4096 write outer 1000 three_hundred
unaligned 'a write past the end' '' '300 (153,600 bytes)' "hidden sector 216, count 296 (151,552 bytes), $ends" \
    of_size 4096 write hidden 216 three_hundred
same 'the refused writes' disk.img expected.img

# Files and pipes of no whole sectors.
random 5000 >odd
from_pipe() { of_size 4096 write "${@:2}" - < <(cat "$1"); }
expect 'an odd file' 2 'odd: 4.9 KiB (5,000 bytes) are no whole number of 4,096-byte sectors' \
    of_size 4096 write outer 0 odd
expect 'an odd pipe' 2 'standard input: 4.9 KiB (5,000 bytes) are no whole number of 4,096-byte sectors' \
    from_pipe odd outer 0
unaligned 'a pipe of a part' '' '1 (512 bytes)' 'outer sector 0, count 8 (4,096 bytes)' from_pipe one outer 0
unaligned 'a pipe of three calls' '' '300 (153,600 bytes)' 'outer sector 0, count 304' from_pipe three_hundred outer 0
unaligned 'a pipe from within a sector' 5 '' 'outer sector 0, count 16 (8,192 bytes)' from_pipe eight outer 5
expect 'an endless pipe' 1 '(refusal 20)' timeout 60 bash -c \
    "yes | '$program' write disk.img --outer outer.4096 outer 1 -"
says 'an endless pipe' 'standard input was read no further'
expect 'an endless pipe past the end' 1 '(refusal 16)' timeout 60 bash -c \
    "yes | '$program' write disk.img --outer outer.4096 outer 8 -"
same 'the refused pipes' disk.img expected.img

# Where the disk's sectors have 512 bytes nothing is refused 20.
expect 'an odd read, 512' 0 'read outer sector 3, count 7' on_disk read outer 3 7 copy
expect 'an odd write, 512' 0 'wrote outer sector 3, count 7' on_disk write outer 3 copy
expect 'an odd read past the end, 512' 1 '(refusal 16)' on_disk read outer 1533 7 none
expect 'an odd write into the protected range, 512' 1 '(refusal 18)' on_disk write outer 1021 copy
expect 'an odd file, 512' 2 'odd: 4.9 KiB (5,000 bytes) are no whole number of 512-byte sectors' \
    on_disk write outer 0 odd
same 'the odd writes' disk.img expected.img
