# Disks with sectors of 512, 1,024, 2,048 and 4,096 bytes: their headers, what is shown of them, and copies. What is
# refused 20 on them is unaligned.sh's matter.
# shellcheck shell=bash disable=SC2154

begin sector_sizes
random 256 >keys
head -c 64 disk.img >outer.salt
dd if=disk.img of=hidden.salt bs=64 skip=1024 count=1 status=none
area=(--data-start 655360 --data-size 262144)
# with SALT: the salt and the keys, for an expression.
with() { printf 'salt=open("%s", "rb").read(), keys=open("keys", "rb").read()' "$1"; }

# Headers for each size, the sample's disk being one of it. Where it is not told, it is 512.
for size in 512 1024 2048 4096; do
    expect "an outer header, $size" 0 'prepared the outer' \
        prepare outer "outer.$size" --magic TRUE --sector-size $size --salt outer.salt --keys keys
    same "an outer header, $size" "outer.$size" <(header "header($(with outer.salt), sector_size=$size)")
    expect "a hidden header, $size" 0 'prepared the hidden' \
        prepare hidden "hidden.$size" --magic TRUE "${area[@]}" --sector-size $size --salt hidden.salt --keys keys
    same "a hidden header, $size" "hidden.$size" <(header "hidden($(with hidden.salt), sector_size=$size)")
done
says 'a header for 4,096' "disk's sectors: 4,096 bytes each"
expect 'a header for no size' 0 'prepared' prepare outer outer.none --magic TRUE --salt outer.salt --keys keys
says_not 'a header for no size' "disk's sectors"
same 'a header for no size' outer.none outer.512
expect 'a VERA backup for 4,096' 0 "disk's sectors: 4,096 bytes each" prepare outer backup.4096 --magic VERA --backup \
    --sector-size=4096 --salt outer.salt --keys keys
same 'a VERA backup for 4,096' backup.4096 <(header "vera($(with outer.salt), needs=b'\x01\x0B', sector_size=4096)")
# least SIZE LAST: the smallest host has one sector of data, which ends with this byte.
least() {
    expect "the least host, $1" 0 "data area: bytes 131,072 to $2, " volumes prepare --host-size $((262144 + $1)) \
        outer "least.$1" --magic TRUE --sector-size "$1"
}
least 512 131,583
least 1024 132,095
least 2048 133,119
least 4096 135,167

# What is shown of a disk is the same but for one line, which is there where its sectors are larger.
of_size() { volumes "$2" disk.img --outer "outer.$1" --hidden "hidden.$1" "${@:3}"; }
on_disk show >shown.512
expect 'a disk with 512-byte sectors' 0 'disk.img' of_size 512 show
same 'a disk with 512-byte sectors' "$work/said" shown.512
for size in 1,024 2,048 4,096; do
    multiple=$((${size/,/} / 512))
    line="disk's sectors: $size bytes, $multiple of those below; FIRST and COUNT are multiples of $multiple"
    expect "a disk with $size-byte sectors" 0 "$line" of_size ${size/,/} show
    same "a disk with $size-byte sectors" shown.512 <(grep -vxF -- "$line" "$work/said")
done
expect 'a hidden volume alone' 0 "disk's sectors: 4,096 bytes" volumes show disk.img --hidden hidden.4096

# Copies of 304 sectors take three calls, of 128, 128 and 48 sectors.
random 155648 >results
random 155648 >secrets
dd if=results of=expected.img bs=512 seek=$((256 + 720)) conv=notrunc status=none
dd if=secrets of=expected.img bs=512 seek=$((1280 + 208)) conv=notrunc status=none
for size in 1024 2048 4096; do
    cp disk.img before.img
    expect "a write up to the hidden volume, $size" 0 'wrote outer sector 720, count 304' \
        of_size $size write outer 720 results
    expect "a write up to the hidden end, $size" 0 'wrote hidden sector 208, count 304' \
        of_size $size write hidden 208 secrets
    same "the writes, $size" disk.img expected.img
    expect "an outer read, $size" 0 'read outer sector 720, count 304' of_size $size read outer 720 304 "copy.$size"
    same "an outer read, $size" results "copy.$size"
    expect "a hidden read, $size" 0 'read hidden sector 208' of_size $size read hidden 208 304 "secrets.$size"
    same "a hidden read, $size" secrets "secrets.$size"
    expect "a read of nothing at the end, $size" 0 'count 0' of_size $size read outer 1536 0 "nothing.$size"
    cp before.img disk.img
done

# A write by a pipe that brings no whole sectors at a time.
cp expected.img disk.img
random 69632 >piped
dd if=piped of=expected.img bs=512 seek=256 conv=notrunc status=none
slowly() { { head -c 1000; sleep 0.1; head -c 65536; sleep 0.1; cat; } <piped | of_size 4096 write "$@" -; }
expect 'a slow pipe' 0 'wrote outer sector 0, count 136, from standard input' slowly outer 0
same 'a slow pipe' disk.img expected.img

# What is in the way is told as ever.
expect 'a write into the protected range' 1 'the sector in the way is user sector 1024 (refusal 18)' \
    of_size 4096 write outer 728 results
says 'what lies before it' 'before it: 296 sectors (151,552 bytes) of the 304 would have fit'
expect 'a write past the end' 1 'the sector in the way is user sector 512 (refusal 16)' \
    of_size 4096 write hidden 216 results
expect 'a read past 2^64' 1 'the sector in the way is user sector 18446744073709551608 (refusal 16)' \
    of_size 4096 read outer 18446744073709551608 8 none
same 'the refused writes' disk.img expected.img

# Two headers that tell of different sectors are of no one disk.
mixed() { volumes "$3" disk.img --outer "outer.$1" --hidden "hidden.$2" "${@:4}"; }
expect 'a larger outer sector' 1 '(refusal 12)' mixed 4096 512 show
says 'its sectors' "disk's sectors: 4,096 bytes by the outer header, 512 by the hidden one"
says 'its advice' 'next: check that both headers are of this image; on one disk both tell the same sector size'
expect 'a larger hidden sector' 1 '(refusal 12)' mixed 2048 4096 write hidden 0 results
says 'its sectors' "disk's sectors: 2,048 bytes by the outer header, 4,096 by the hidden one"
header "header($(with outer.salt), data_size=524_288, sector_size=4096)" >outer.small
expect 'volumes that do not nest' 1 '(refusal 12)' volumes show disk.img --outer outer.small --hidden hidden.4096
says_not 'volumes that do not nest' "disk's sectors"
says_not 'volumes that do not nest' 'on one disk'

# Headers of other sectors, and an image that ends within a sector.
for size in 0 256 513 1536 8192; do
    header "header($(with outer.salt), sector_size=$size)" >outer.other
    expect "a header with $size-byte sectors" 1 '(refusal 8)' volumes show disk.img --outer outer.other
done
{ cat disk.img; random 512; } >longer.img
expect 'an image of odd sectors' 1 '(refusal 10)' volumes show longer.img --outer outer.4096
says 'its size' 'image: longer.img, 1.0 MiB (1,049,088 bytes)'

# Headers that are not made.
refuses() {
    expect "prepare ${*:3}" 1 "(refusal $1)" volumes prepare "${@:3}" --magic TRUE
    says "prepare ${*:3}" "$2"
    says "prepare ${*:3}" 'next: give'
    [ ! -e none ] || failed "prepare ${*:3} made a file"
}
for size in 0 1 513 1,536 8,192 4,294,967,808 18,446,744,073,709,551,104; do
    refuses 8 "asked for: sectors of $size bytes" disk.img outer none --sector-size ${size//,/}
done
says 'its advice' 'next: give --sector-size as the disk has it, 512, 1024, 2048 or 4096'
refuses 10 "at fault: the host's size, which is no multiple of 4,096" longer.img outer none --sector-size 4096
says 'its image' 'image: longer.img, 1.0 MiB (1,049,088 bytes)'
says 'its advice' 'next: give a host of whole sectors'
refuses 10 "at fault: the host's size, which is no multiple of 1,024" \
    --host-size 262656 outer none --sector-size 1024
refuses 10 'at fault: --data-size, which is no multiple of 4,096' \
    disk.img outer none --sector-size 4096 --data-size 4608
refuses 10 'at fault: --data-start, which is no multiple of 2,048' \
    disk.img hidden none --sector-size 2048 --data-start 132096 --data-size 2048
refuses 10 'at fault: --data-size, as there is room for 4,096 bytes from there on' \
    disk.img hidden none --sector-size 4096 --data-start 913408 --data-size 8192
expect 'a size that is no number' 2 '--sector-size is a whole number' prepare outer none --magic TRUE --sector-size 4K
expect 'a size for show' 2 'show takes no --sector-size' of_size 4096 show --sector-size 4096
