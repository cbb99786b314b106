# Headers that are made out of numbers. What each has to be is made by the tests' second implementation.
# shellcheck shell=bash disable=SC2154

begin prepare
random 64 >salt
random 256 >keys
given=(--salt salt --keys keys)
# parts SALT KEYS: the salt that one file begins with and the keys that the other ends with, for an expression.
parts() { printf 'salt=open("%s", "rb").read()[:64], keys=open("%s", "rb").read()[-256:]' "$1" "$2"; }
with=$(parts salt keys)

# prepares VOLUME WHICH PLACE EXPRESSION OPTIONS..: the header, main or backup, is that of the expression, and it is the
# image's own once its salt lies at its place.
prepares() {
    local name="the header $4"
    rm -f new.header
    expect "$name" 0 "prepared the $1 volume's $2 header, into new.header" \
        prepare "$1" new.header "${given[@]}" "${@:5}"
    says "$name" "place: bytes $3 to"
    same "$name" new.header <(header "$4")
    cp expected.img own.img
    dd if=salt of=own.img bs=64 seek=$((${3//,/} / 64)) conv=notrunc status=none
    expect "$name, opened" 0 'own.img' volumes show own.img "--$1" new.header
    grep -qE "^header +$2\$" "$work/said" || failed "$name is not the image's $2 header"
}
area=(--data-start 655360 --data-size 262144)
vera="$with, needs=b'\x01\x0B'"
prepares outer main 0 "header($with)" --magic TRUE
says 'its data area' '917,503'
prepares hidden main 65,536 "hidden($with)" --magic TRUE "${area[@]}"
says 'its data area' '655,360'
prepares outer backup 917,504 "header($with)" --magic TRUE --backup
prepares hidden backup 983,040 "hidden($with)" --magic TRUE "${area[@]}" --backup
prepares outer main 0 "vera($vera)" --magic VERA
prepares hidden main 65,536 "vera_hidden($vera)" --magic VERA "${area[@]}"
prepares outer backup 917,504 "vera($vera)" --magic VERA --backup
prepares hidden backup 983,040 "vera_hidden($vera)" --magic VERA "${area[@]}" --backup
prepares outer main 0 "header($with, data_size=1_024)" --magic TRUE --data-size 1024 --data-start 131072
prepares outer main 0 "vera($with, version=2, needs=b'\x01\x26')" --magic VERA --header-version 2 \
    --min-program-version 294

# What is said, and what is made where nothing is given: another salt and other keys each time.
expect 'a new header' 0 'image: disk.img, 1.0 MiB (1,048,576 bytes)' prepare outer one.header --magic VERA
for words in 'header: VERA, version 5, min program version 267' 'place: bytes 0 to 511' 'salt: 64 new random bytes' \
    'keys: 256 new random bytes' 'data area: bytes 131,072 to 917,503, 768.0 KiB (786,432 bytes)' \
    'next: encipher the header'; do
    says 'a new header' "$words"
done
same 'a new header' one.header <(header "vera($(parts one.header one.header), needs=b'\x01\x0B')")
expect 'another header' 0 'prepared' prepare outer other.header --magic TRUE
same 'another header' other.header <(header "header($(parts other.header other.header))")
# differ NAME OFFSET: sixteen bytes of the two headers.
differ() {
    ! cmp -s -n 16 -i "$2" one.header other.header || failed "$1 are alike"
    passed
}
for offset in 0 16 32 48; do
    differ 'two new salts' "$offset"
done
for offset in $(seq 256 16 496); do
    differ 'two new keys' "$offset"
done
expect 'a backup' 0 'keys: /dev/fd/' prepare outer backup.header --magic VERA --backup --keys <(tail -c 256 one.header)
says 'a backup' 'salt: 64 new random bytes'
same 'a backup' backup.header <(header "vera($(parts backup.header one.header), needs=b'\x01\x0B')")
! cmp -s -n 64 one.header backup.header || failed "a backup has the main header's salt"
passed

# A size in the place of the image.
sized() { volumes prepare --host-size "$@"; }
expect 'a size' 0 'host: 1.0 PiB (1,125,899,906,842,624 bytes)' \
    sized $((2**50)) outer large.header --magic TRUE "${given[@]}"
says 'its data area' 'data area: bytes 131,072 to 1,125,899,906,711,551, 1024.0 TiB (1,125,899,906,580,480 bytes)'
same 'a size' large.header <(header "header($with, data_size=2**50 - 262_144)")
expect 'the least size' 0 'data area: bytes 131,072 to 131,583, 512 bytes' \
    sized 262656 outer small.header --magic TRUE "${given[@]}"
same 'the least size' small.header <(header "header($with, data_size=512)")
same 'the image of which headers were made' disk.img expected.img

# A disk that is prepared from nothing: once it has the salts, its volumes open, nest and are written.
truncate -s 1M blank.img
random 512 >sector
on_blank() { volumes "$1" blank.img --outer blank.outer --hidden blank.hidden "${@:2}"; }
expect 'an outer volume' 0 'prepared the outer' volumes prepare blank.img outer blank.outer --magic VERA
expect 'a hidden volume' 0 'prepared the hidden' volumes prepare blank.img hidden blank.hidden --magic VERA "${area[@]}"
expect 'a disk without its headers' 1 "does not have this header's salt" on_blank show
dd if=blank.outer of=blank.img bs=64 count=1 conv=notrunc status=none
dd if=blank.hidden of=blank.img bs=64 count=1 seek=1024 conv=notrunc status=none
expect 'a prepared disk' 0 'header                      main       main' on_blank show
expect 'a write to it' 0 'wrote hidden sector 511' on_blank write hidden 511 sector
same 'a write to it' sector <(dd if=blank.img bs=512 skip=1791 count=1 status=none)
expect 'a write into its protected range' 1 '(refusal 18)' on_blank write outer 1024 sector
