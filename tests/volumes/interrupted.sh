# Work that is stopped part-way: by a signal, by a full disk, or because the image is cut short.
# shellcheck shell=bash disable=SC2154

begin interrupted
random 153600 >results

# Of a disk that is full behind 72 KiB of the data area. The second call is written in part.
full() { (trap '' XFSZ && ulimit -f 200 && "$@"); }
expect 'a write beyond a limit' 3 'file: disk.img: ' full on_disk write outer 0 results
says 'what was written' 'written: outer sectors 0 to 127, of outer sectors 0 to 299'
says 'what is uncertain' 'uncertain: outer sectors 128 to 255, which may be written in part'
cmp -s -n 65536 results disk.img 0 131072 || failed 'what it says to have written is not there'
tail -c +204801 expected.img >behind
same 'what lies behind' behind <(tail -c +204801 disk.img)

# The same below a sparse image, in a file system of 400 KiB that is there for this command alone.
cat >in_small_system <<'END'
mount -t tmpfs -o size=400k tmpfs small || exit 77
cp --sparse=always expected.img small/disk.img
"$1" write small/disk.img --outer outer.header --hidden hidden.header outer 0 results
END
mkdir small
ended=0
unshare --mount --map-root-user bash in_small_system "$program" >"$work/said" 2>&1 || ended=$?
if [ "$ended" -eq 3 ]; then
    says 'a full disk' 'small/disk.img: No space left on device'
    says 'a full disk' 'written: outer sectors 0 to 255, of outer sectors 0 to 299'
elif [ "$ended" -eq 77 ] || grep -q 'unshare:' "$work/said"; then
    skipped 'a full disk below a sparse image (no file system can be mounted)'
else
    failed "a full disk ended with $ended and not with 3"
fi

# While it is under way.
for disturbance in INT TERM HUP cut; do
    expect "a write disturbed by $disturbance" 0 'as it should be' \
        python3 -B "$root/tests/volumes/disturbed.py" "$program" write "$disturbance"
done
for disturbance in INT cut; do
    expect "a read disturbed by $disturbance" 0 'as it should be' \
        python3 -B "$root/tests/volumes/disturbed.py" "$program" read "$disturbance"
done
nothing_left 'a disturbed read'
