# Headers that are refused: the number or the file at fault is told, and no file is made.
# shellcheck shell=bash disable=SC2154

begin prepare_refusals
# refuses NUMBER FACT OPTIONS..
refuses() {
    expect "prepare ${*:3}" 1 "(refusal $1)" volumes prepare "${@:3}" --magic TRUE
    says "prepare ${*:3}" "$2"
    says "prepare ${*:3}" 'next: give'
    [ ! -e none ] || failed "prepare ${*:3} made a file"
}
random 63 >short.salt
random 257 >long.keys
head -c 1000000 disk.img >odd.img
refuses 1 'salt: short.salt, 63 bytes, not 64' disk.img outer none --salt short.salt
says_not 'a short salt' 'keys:'
refuses 1 'keys: long.keys, 257 bytes, not 256' disk.img outer none --keys long.keys
says_not 'long keys' 'salt:'
refuses 1 'keys: /dev/zero, more than 32.0 KiB (32,768 bytes), not 256' disk.img outer none --keys /dev/zero
refuses 3 'image: odd.img, 976.6 KiB (1,000,000 bytes)' odd.img outer none
refuses 3 'host: 256.0 KiB (262,144 bytes)' --host-size 262144 outer none
refuses 3 'host: 1.0 PiB (1,125,899,906,843,136 bytes)' --host-size $((2**50 + 512)) outer none
refuses 10 'at fault: --data-start, which is 131,072 for an outer volume' disk.img outer none --data-start 131584
says 'its data area' 'asked for: outer data area from byte 131,584 on, 785,920 bytes'
says 'its image' 'image: disk.img, 1.0 MiB (1,048,576 bytes)'
refuses 10 'at fault: --data-size, as there is room for 786,432 bytes from there on' \
    disk.img outer none --data-size 786944
refuses 10 'at fault: --data-size, as a volume has at least one sector' disk.img outer none --data-size 0
refuses 10 'at fault: --data-size, which is no multiple of 512' disk.img outer none --data-size 1000
refuses 10 'at fault: --data-start, as there is room from byte 131,072 to byte 917,503' \
    disk.img hidden none --data-start 130560 --data-size 512
says 'its data area' 'asked for: hidden data area from byte 130,560 on, 512 bytes'
refuses 10 'at fault: --data-start, as there is room' disk.img hidden none --data-start 917504 --data-size 512
refuses 10 'at fault: --data-start, which is no multiple of 512' \
    disk.img hidden none --data-start 131073 --data-size 512
refuses 10 'at fault: --data-size, as there is room for 512 bytes from there on' \
    disk.img hidden none --data-start 916992 --data-size 18446744073709551104
refused() { volumes prepare disk.img outer none "$@"; }
expect 'a version that TRUE has not' 1 '(refusal 5)' refused --magic TRUE --header-version 3
says 'its version' 'asked for: TRUE, version 3'
says 'its advice' 'next: give a version that the magic has'
expect 'a version that VERA has not' 1 'asked for: VERA, version 6' refused --magic VERA --header-version 6
head -c 64 /dev/zero >blank.salt
head -c 256 /dev/zero >blank.keys
expect 'a blank salt' 1 'refused: the file that --salt names has nothing but zeros' \
    refused --magic TRUE --salt blank.salt
expect 'blank keys' 1 'keys: blank.keys, 256 bytes' refused --magic TRUE --keys blank.keys
expect 'a missing salt' 2 'file: missing.salt: ' refused --magic TRUE --salt missing.salt
expect 'a missing image' 2 'file: missing.img: ' volumes prepare missing.img outer none --magic TRUE
expect 'no magic' 2 'a header needs --magic' refused
expect 'a hidden volume anywhere' 2 'a hidden volume needs --data-start' prepare hidden none --magic TRUE
expect 'a backup with other keys' 2 'a backup needs --keys' refused --magic TRUE --backup
expect 'a wrong option' 2 'prepare takes no --outer' refused --magic TRUE --outer outer.header
expect 'an option of prepare' 2 'show takes no --keys' on_disk show --keys long.keys
[ ! -e none ] || failed 'what is refused made a file'
