# The files that prepared headers come in.
# shellcheck shell=bash disable=SC2154

begin prepare_files
# No file is overwritten, half a header is never left, and only its owner can read it, whatever the mask.
cp outer.header kept
ln -s nowhere link
expect 'a header over a header' 2 'outer.header: it is there already' prepare outer outer.header --magic TRUE
same 'a header over a header' outer.header kept
expect 'a header over the image' 2 'disk.img: it is there already' prepare outer disk.img --magic TRUE
expect 'a header through a link' 2 'link: it is there already' prepare outer link --magic TRUE
expect 'a header into no folder' 2 'no_folder/new' prepare outer no_folder/new --magic TRUE
# No file can have a byte here, so what is said goes through a pipe.
full() { (trap '' XFSZ && ulimit -f 0 && "$@" 2>&1) | cat; }
expect 'a header without room' 2 'full.header: ' full prepare outer full.header --magic TRUE
[ ! -e full.header ] || failed 'a header without room left a file'
nothing_left 'a header that was not made'
for mask in 000 022 077; do
    expect "a header with mask $mask" 0 'prepared' eval "(umask $mask && prepare outer masked.$mask --magic TRUE)"
    [ "$(stat -c %a "masked.$mask")" = 600 ] || failed "with mask $mask others can read the header"
    passed
done

# Keys are not printed, neither when they are taken nor when they are refused.
printf 'SECRET%.0s' {1..43} | head -c 256 >secret
printf 'SECRET%.0s' {1..44} | head -c 257 >long.secret
for file in secret long.secret; do
    volumes prepare disk.img outer "of_$file" --magic TRUE --keys "$file" >"$work/said" 2>&1 || true
    says_not 'prepare' 'SECRET'
done
same 'secret keys' secret <(tail -c 256 of_secret)

# Standard output, which is no terminal, has the header alone.
to_pipe() { prepare outer - --magic TRUE | cat >piped; }
expect 'a header to a pipe' 0 "prepared the outer volume's main header, to standard output" to_pipe
expect 'what came by the pipe' 0 'magic                       TRUE' \
    volumes show disk.img --outer piped --risk-wrong-disk
[ ! -e ./- ] || failed 'a file is called -'
to_terminal() {
    python3 -c 'import pty, subprocess, sys
_, terminal = pty.openpty()
sys.exit(subprocess.call(sys.argv[1:], stdout=terminal))' "$@"
}
expect 'a header to a terminal' 2 'standard output is a terminal' \
    to_terminal "$program" prepare disk.img outer - --magic TRUE
expect 'a full standard output' 2 'standard output: No space' \
    bash -c "'$program' prepare disk.img outer - --magic TRUE >/dev/full"
same 'a header over the image' disk.img expected.img
