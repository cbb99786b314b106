# What a person at a terminal sees.
# shellcheck shell=bash disable=SC2154

begin terminal
expect 'a terminal' 0 'as it should be' \
    python3 -B "$root/tests/volumes/terminal.py" "$program" disk.img --outer outer.header outer 0 1536
