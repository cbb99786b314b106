# The command line, the help and the manual page.
# shellcheck shell=bash disable=SC2154

begin usage
expect 'help' 0 'volumes show IMAGE' volumes help
expect '--help' 0 'volumes show IMAGE' volumes show --help
expect '--version' 0 "volumes $(sed -n 's/^version = "\(.*\)"/\1/p' "$root/rust/Cargo.toml")" volumes --version
expect 'no command' 2 'usage: no command' volumes
expect 'an unknown command' 2 'is no command' volumes list
expect 'a missing argument' 2 'read takes IMAGE VOLUME FIRST COUNT FILE' volumes read disk.img --outer outer.header
expect 'no header' 2 'no header' volumes show disk.img
expect 'an unknown option' 2 'is no option' on_disk show --force
expect 'an unknown volume' 2 'VOLUME is outer or hidden' on_disk read inner 0 1 copy
expect 'a number that is none' 2 'COUNT is a whole number' on_disk read outer 0 -1 copy
expect 'options before the command' 0 'disk.img, 1.0 MiB' volumes "${headers[@]}" show disk.img
expect 'options with an equals sign' 0 'disk.img, 1.0 MiB' volumes show disk.img --outer=outer.header

# The manual page has the help's options, commands and exit statuses, and nothing in it is wrongly set.
manual=$root/man/volumes.1
sed 's/\\-/-/g; s/\\f[BIR]//g' "$manual" >manual.text
volumes help >help.text
for word in $(grep -oE -- '--[a-z-]+' help.text | sort -u) show read write prepare sample demo help; do
    grep -qwE -- "$word" manual.text || failed "the manual page does not have $word"
    passed
done
for word in $(grep -oE -- '--[a-z-]+' manual.text | sort -u); do
    grep -qF -- "$word" help.text || failed "the help does not have $word, which the manual page has"
    passed
done
grep -qF "volumes $(volumes --version | cut -d' ' -f2)" manual.text || failed 'the manual page is of another version'
if command -v groff >/dev/null; then
    groff -man -Tutf8 -ww -z "$manual" >"$work/said" 2>&1 || failed 'the manual page'
    [ ! -s "$work/said" ] || failed 'the manual page'
    passed
else
    skipped 'whether the manual page is set rightly (no groff)'
fi

# The package can be installed.
expect 'an installation' 0 'Installed package' \
    cargo install --offline --path "$root/rust/volumes" --root "$work/installed"
expect 'the installed program' 0 "$(volumes --version)" "$work/installed/bin/volumes" --version
