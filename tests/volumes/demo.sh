# The demo and the sample.
# shellcheck shell=bash disable=SC2154

cd "$work" || exit
for time in first second; do
    expect "the $time demo" 0 'made disk.img' volumes demo demo
    same "the $time demo" said "$root/rust/volumes/src/demo.txt"
done

# The sample overwrites no image but its own.
mkdir other
random 512 >other/disk.img
cp other/disk.img kept
expect 'a sample over another image' 2 'other/disk.img' volumes sample other
same 'a sample over another image' other/disk.img kept
expect 'a sample' 0 'made disk.img' volumes sample sample

# Its headers are what the tests' second implementation makes.
cd sample || exit
same 'the outer header' outer.header <(header 'header(salt=salt_at(0), keys=b"\xA1" * 256)')
same 'the hidden header' hidden.header <(header 'hidden(salt=salt_at(65_536), keys=b"\xB2" * 256)')
