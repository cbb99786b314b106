# Headers and images that are refused, and headers that are not the image's.
# shellcheck shell=bash disable=SC2154

begin headers
head -c 511 outer.header >short.header
head -c 512 disk.img >enciphered.header
header 'header(data_size=524_288, salt=salt_at(0))' >small_outer.header
head -c 524288 disk.img >half.img
head -c 1000000 disk.img >odd.img
: >empty.img
show() { volumes show "$1" --outer "$2" --hidden "$3"; }
expect 'a header of 511 bytes' 1 '(refusal 1)' show disk.img short.header hidden.header
says 'its size' 'header: short.header, 511 bytes'
expect 'the refused header' 1 'header: short.header' show disk.img outer.header short.header
expect 'an endless header' 1 'header: /dev/zero, more than 32.0 KiB' show disk.img /dev/zero hidden.header
expect 'an enciphered header' 1 '(refusal 4)' show disk.img enciphered.header hidden.header
says 'its advice' 'next: decipher the header again'
expect 'swapped headers' 1 '(refusal 9)' show disk.img hidden.header outer.header
says 'its advice' 'are the two headers exchanged?'
expect 'volumes that do not nest' 1 '(refusal 12)' show disk.img small_outer.header hidden.header
says 'its areas' 'hidden data area: bytes 655,360 to 917,503'
expect 'half an image' 1 '(refusal 10)' show half.img outer.header hidden.header
says 'its size' 'image: half.img, 512.0 KiB (524,288 bytes)'
says 'its advice' 'give the partition, such as /dev/sdb1'
expect 'an image of odd size' 1 '(refusal 3)' show odd.img outer.header hidden.header
says 'its size' 'image: odd.img, 976.6 KiB (1,000,000 bytes)'
expect 'an empty image' 2 'empty.img: empty' show empty.img outer.header hidden.header
expect 'headers from pipes' 0 'outer     hidden' show disk.img <(cat outer.header) <(cat hidden.header)
expect 'a missing header' 2 'missing.header' show disk.img missing.header hidden.header
expect 'a missing image' 2 'missing.img' show missing.img outer.header hidden.header

# A header belongs to an image that has its salt, where the header lies or where its backup does.
header 'header(salt=salt_at(917_504))' >backup.header
header 'hidden(salt=salt_at(983_040))' >hidden_backup.header
expect 'main headers' 0 'header                      main       main' show disk.img outer.header hidden.header
expect 'backups' 0 'header                    backup     backup' show disk.img backup.header hidden_backup.header
header 'header(salt=salt_at(65_536))' >hidden_salt.header
expect 'the hidden salt in an outer header' 1 "does not have this header's salt" \
    show disk.img hidden_salt.header hidden.header
says 'its header' 'header: hidden_salt.header'
header 'hidden()' >strange.header
expect 'a strange hidden header' 1 'header: strange.header' show disk.img outer.header strange.header
truncate -s 1M blank.img
header 'header(salt=bytes(64))' >blank.header
expect 'a blank salt on a blank disk' 1 "does not have this header's salt" volumes show blank.img --outer blank.header

# Another disk of the same size; the disk in the place of its partition, and a piece of the partition.
random 1048576 >other.img
cat other.img disk.img >whole.img
head -c 1048576 <(tail -c +4097 disk.img; random 4096) >shifted.img
random 512 >sector
for image in other.img whole.img shifted.img; do
    cp "$image" kept
    expect "show of $image" 1 'wrong disk or the wrong header' show "$image" outer.header hidden.header
    says "$image" 'the whole disk is given instead of the partition'
    says "$image" "image: $image"
    expect "a read of $image" 1 'wrong disk' volumes read "$image" "${headers[@]}" outer 0 1 copy
    expect "a write to $image" 1 'wrong disk' volumes write "$image" "${headers[@]}" hidden 0 sector
    same "$image" "$image" kept
done
expect 'the risk taken' 0 'warning: the image does not have the salt of outer.header' \
    volumes write other.img "${headers[@]}" --risk-wrong-disk outer 0 sector
cp other.img kept
expect 'what the risk leads to' 0 'not on it' volumes show other.img "${headers[@]}" --risk-wrong-disk
