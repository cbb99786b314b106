# Copies into both volumes and out of them. What the image has to be is made by dd.
# shellcheck shell=bash disable=SC2154

begin copies
expect 'show' 0 '| 1 | 2 |' on_disk show
says 'show' 'disk.img, 1.0 MiB (1,048,576 bytes)'
same 'show' disk.img expected.img

# Copies of 300 sectors take three calls.
random 153600 >results
random 153600 >secrets
dd if=results of=expected.img bs=512 seek=$((256 + 724)) conv=notrunc status=none
dd if=secrets of=expected.img bs=512 seek=$((1280 + 212)) conv=notrunc status=none
expect 'a write up to the hidden volume' 0 'wrote outer sector 724, count 300' on_disk write outer 724 results
says_not 'a write with the hidden volume protected' 'nothing is protected'
expect 'a write up to the hidden end' 0 'wrote hidden sector 212, count 300' on_disk write hidden 212 secrets
same 'the writes' disk.img expected.img
expect 'an outer read' 0 'read outer sector 724, count 300' on_disk read outer 724 300 results.copy
same 'an outer read' results results.copy
expect 'a hidden read' 0 'read hidden sector 212, count 300' on_disk read hidden 212 300 secrets.copy
same 'a hidden read' secrets secrets.copy
expect 'a read of the protected range' 0 'read outer' on_disk read outer 1236 300 protected.copy
same 'a read of the protected range' secrets protected.copy
nothing_left 'a read'
expect 'a read with a mask' 0 'read outer' eval '(umask 022 && on_disk read outer 0 1 masked.copy)'
[ "$(stat -c %a masked.copy)" = 644 ] || failed 'a copy does not have the mode that the mask leaves'
passed
