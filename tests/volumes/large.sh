# A disk of 8 TiB, with little memory. What lies where is looked up by dd.
# shellcheck shell=bash disable=SC2154

begin large
# at SECTOR: a sector of the large image.
at() { dd if=large.img bs=512 skip="$1" count=1 status=none; }
if truncate -s 8T large.img 2>/dev/null; then
    dd if=disk.img of=large.img bs=64K count=2 conv=notrunc status=none
    header 'header(data_size=2**43 - 262_144, salt=salt_at(0))' >outer.header
    header 'hidden(data_start=2**42, data_size=2**42 - 131_072, salt=salt_at(65_536))' >hidden.header
    little() { (ulimit -v 500000 && volumes "$1" large.img "${headers[@]}" "${@:2}"); }
    random 512 >sector
    expect 'a large disk' 0 'large.img, 8.0 TiB (8,796,093,022,208 bytes)' little show
    expect 'a write before the hidden volume' 0 'wrote outer sector 8,589,934,335' \
        little write outer $((2**33 - 257)) sector
    same 'a write before the hidden volume' sector <(at $((2**33 - 1)))
    expect 'a write into the hidden volume' 1 '(refusal 18)' little write outer $((2**33 - 256)) sector
    says 'a write into the hidden volume' \
        "outer sector 8,589,934,336, which is the hidden volume's: host sector 8,589,934,592, from byte 4,398,046,511,104 on"
    expect 'a write to its first sector' 0 'wrote hidden' little write hidden 0 sector
    same 'a write to its first sector' sector <(at $((2**33)))
    # Of plaintext the tweak numbers are above 2^32.
    tail -c 256 hidden.header >hidden.keys
    expect 'plaintext to its first sector' 0 'enciphered' little write hidden 0 sector --plaintext
    same 'plaintext to its first sector' <(stored hidden.keys $((2**33)) <sector) <(at $((2**33)))
    expect 'plaintext of its first sector' 0 'deciphered' little read hidden 0 1 plain --plaintext
    same 'plaintext of its first sector' sector plain
    expect 'a write to its last sector' 0 'wrote hidden' little write hidden $((2**33 - 257)) sector
    same 'a write to its last sector' sector <(at $((2**34 - 257)))
    expect 'a write past it' 1 '(refusal 16)' little write hidden $((2**33 - 256)) sector
    says 'a write past it' 'it would be host sector 17,179,868,928, from byte 8,796,092,891,136 on'
    expect 'a read of all and one more' 1 'the volume has 17,179,868,672 sectors' \
        timeout 10 "$program" read large.img "${headers[@]}" outer 0 $((2**34 - 511)) none
    expect 'a read across' 0 'count 300' little read outer $((2**33 - 257)) 300 copy
    same 'a read across' copy <(dd if=large.img bs=512 skip=$((2**33 - 1)) count=300 status=none)
    rm large.img
else
    skipped 'a disk of 8 TiB (this file system cannot hold such a file)'
fi
