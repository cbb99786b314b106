# The sector in the way of a read or write that is refused 16 or 18: which it is, where it lies in the host, and how
# much lies before it.
# shellcheck shell=bash disable=SC2154

begin in_the_way
random 512 >one
random 1024 >two
random 153600 >three_hundred
random 307200 >six_hundred
nothing='none of what was asked for'

# first_number TEXT: the first number of a text, without its commas.
first_number() { grep -oE '[0-9,]*[0-9]' <<<"$1" | head -n 1 | tr -d ,; }
# in_the_way NAME REFUSAL SECTOR BEFORE COMMAND..: refused, with this sector and what lies before it.
in_the_way() {
    expect "$1" 1 "; the sector in the way is user sector $(first_number "$3") (refusal $2)" "${@:5}"
    says "$1" "in the way: $3"
    says "$1" "before it: $4"
}
# missing VOLUME SECTOR HOST BYTE, hidden_volumes SECTOR HOST BYTE: how the sector is told.
missing() { echo "$1 sector $2, which the volume does not have; it would be host sector $3, from byte $4 on"; }
hidden_volumes() { echo "outer sector $1, which is the hidden volume's: host sector $2, from byte $3 on"; }

# Writes into the hidden volume: from before it, from its first sector on, and from inside it. The first of them takes
# three calls, and the third is in the way.
first=$(hidden_volumes 1,024 1,280 655,360)
in_the_way 'a write of three calls' 18 "$first" '299 sectors (153,088 bytes) of the 300 would have fit' \
    on_disk write outer 725 three_hundred
says 'its extent' 'asked for: outer sector 725, count 300'
says 'its range' 'protected: outer sectors 1,024 to 1,535'
# The manual page shows this message, with a line folded.
shown=$(sed -n '/^asked for: /,/^before it: /p; /^before it: /q' "$root/man/volumes.1" | tr -s ' \n' ' ')
tr -s ' \n' ' ' <"$work/said" >unfolded
{ [ -n "$shown" ] && grep -qF -- "$shown" unfolded; } || failed 'the manual page shows another message'
passed
in_the_way 'a write of two sectors' 18 "$first" '1 sector (512 bytes) of the 2 would have fit' \
    on_disk write outer 1023 two
in_the_way 'a write of many sectors' 18 "$first" '524 sectors (268,288 bytes) of the 600 would have fit' \
    on_disk write outer 500 six_hundred
in_the_way 'a write from its first sector on' 18 "$first" "$nothing" on_disk write outer 1024 one
in_the_way 'a write inside it' 18 "$(hidden_volumes 1,100 1,356 694,272)" "$nothing" \
    on_disk write outer 1100 three_hundred
in_the_way 'a write up to the end' 18 "$(hidden_volumes 1,236 1,492 763,904)" "$nothing" \
    on_disk write outer 1236 three_hundred
in_the_way 'a write of its last sector' 18 "$(hidden_volumes 1,535 1,791 916,992)" "$nothing" \
    on_disk write outer 1535 one

# Other hidden volumes: of five sectors, of one, and at the start of the outer one.
protecting() { volumes write disk.img --outer outer.header --hidden "$1" outer "${@:2}"; }
header 'hidden(data_start=524_288, data_size=2_560, salt=salt_at(65_536))' >five.header
header 'hidden(data_start=524_288, data_size=512, salt=salt_at(65_536))' >one.header
header 'hidden(data_start=131_072, data_size=1_024, salt=salt_at(65_536))' >start.header
middle=$(hidden_volumes 768 1,024 524,288)
in_the_way 'a write over five sectors' 18 "$middle" '168 sectors (86,016 bytes) of the 300 would have fit' \
    protecting five.header 600 three_hundred
says 'its range' 'protected: outer sectors 768 to 772'
in_the_way 'a write that ends in them' 18 "$middle" '1 sector (512 bytes) of the 2 would have fit' \
    protecting five.header 767 two
in_the_way 'a write over one sector' 18 "$middle" '299 sectors (153,088 bytes) of the 300 would have fit' \
    protecting one.header 469 three_hundred
in_the_way 'a write at the start' 18 "$(hidden_volumes 0 256 131,072)" "$nothing" protecting start.header 0 one
in_the_way 'a write behind it' 18 "$(hidden_volumes 1 257 131,584)" "$nothing" protecting start.header 1 two

# Writes past a volume's end: from inside it, from its end on, and from behind it. What is protected does not matter:
# the volume has sectors that would not be written either.
end=$(missing outer 1,536 1,792 917,504)
in_the_way 'a write past the outer end' 16 "$end" 'the volume has 299 sectors (153,088 bytes) of the 300' \
    on_disk write outer 1237 three_hundred
says 'its volume' 'outer volume: 1,536 sectors, 0 to 1,535'
in_the_way 'a write over the hidden volume and past the end' 16 "$end" \
    'the volume has 536 sectors (274,432 bytes) of the 600' on_disk write outer 1000 six_hundred
says_not 'a write over the hidden volume and past the end' 'would have fit'
in_the_way 'a write from the outer end on' 16 "$end" "$nothing" on_disk write outer 1536 one
in_the_way 'a write from behind the outer end' 16 "$(missing outer 1,600 1,856 950,272)" "$nothing" \
    on_disk write outer 1600 three_hundred
last=18,446,744,073,709,551,615
far=$(missing outer $last 18,446,744,073,709,551,871 9,444,732,965,739,290,557,952)
in_the_way 'a write from the last number on' 16 "$far" "$nothing" on_disk write outer ${last//,/} three_hundred
in_the_way 'a write past the hidden end' 16 "$(missing hidden 512 1,792 917,504)" \
    'the volume has 299 sectors (153,088 bytes) of the 300' on_disk write hidden 213 three_hundred
says 'its volume' 'hidden volume: 512 sectors, 0 to 511'
far=$(missing hidden $last 18,446,744,073,709,552,895 9,444,732,965,739,291,082,240)
in_the_way 'a hidden write from the last number on' 16 "$far" "$nothing" on_disk write hidden ${last//,/} one
same 'the refused writes' disk.img expected.img

# Reads past a volume's end. One of no sectors is refused only behind it.
in_the_way 'a read past the outer end' 16 "$end" 'the volume has 1 sector (512 bytes) of the 2' \
    on_disk read outer 1535 2 none
in_the_way 'a read of many sectors' 16 "$end" "the volume has 1,535 sectors (785,920 bytes) of the $last" \
    timeout 10 "$program" read disk.img "${headers[@]}" outer 1 ${last//,/} none
in_the_way 'a read from behind the hidden end' 16 "$(missing hidden 513 1,793 918,016)" "$nothing" \
    on_disk read hidden 513 1 none
in_the_way 'a read of nothing' 16 "$(missing outer 1,537 1,793 918,016)" "$nothing" on_disk read outer 1537 0 none
in_the_way 'a read of nothing at the last number' 16 "$far" "$nothing" on_disk read hidden ${last//,/} 0 none
[ ! -e none ] || failed 'a refused read made a file'
expect 'a read of nothing at the end' 0 'read outer sector 1,536, count 0' on_disk read outer 1536 0 empty
same 'a read of nothing at the end' empty /dev/null

# Standard input, of which all is judged where it ends, and no more than has come where it does not.
from_pipe() { on_disk write "${@:2}" - < <(cat "$1"); }
in_the_way 'a pipe into the hidden volume' 18 "$first" '299 sectors (153,088 bytes) of the 300 would have fit' \
    from_pipe three_hundred outer 725
says_not 'a pipe into the hidden volume' 'read no further'
in_the_way 'a pipe past the hidden end' 16 "$(missing hidden 512 1,792 917,504)" 'the volume has 2 sectors' \
    from_pipe three_hundred hidden 510
says 'a pipe past the hidden end' 'standard input was read no further'
in_the_way 'an endless pipe' 16 "$end" 'the volume has 1,536 sectors (786,432 bytes) of the ' \
    timeout 60 bash -c "yes | '$program' write disk.img --outer outer.header outer 0 -"
same 'the refused pipes' disk.img expected.img
