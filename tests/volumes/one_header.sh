# A volume alone, by its own header.
# shellcheck shell=bash disable=SC2154

begin one_header
random 512 >sector
expect 'an outer volume alone' 0 'outer data' volumes show disk.img --outer outer.header
says_not 'an outer volume alone' 'hidden data'
expect 'a hidden volume alone' 0 'hidden data' volumes show disk.img --hidden hidden.header
says 'a hidden volume alone' 'not known'
says_not 'a hidden volume alone' 'outer volume'
expect 'a write to the outer one' 0 'so nothing is protected' \
    volumes write disk.img --outer outer.header outer 1024 sector
[ "$(grep -c 'nothing is protected' "$work/said")" -eq 1 ] || failed 'it is not said once that nothing is protected'
expect 'a read of the hidden one' 0 'read hidden' volumes read disk.img --hidden hidden.header hidden 0 1 copy
same 'a read of the hidden one' sector copy
expect 'a write to the hidden one' 0 'wrote hidden' volumes write disk.img --hidden hidden.header hidden 1 sector
says_not 'a write to the hidden one' 'nothing is protected'
expect 'a read of the outer one' 0 'read outer' volumes read disk.img --outer outer.header outer 1025 1 outer.copy
same 'a read of the outer one' sector outer.copy
expect 'the header of the other volume' 2 'the outer volume needs its header: --outer FILE' \
    volumes read disk.img --hidden hidden.header outer 0 1 none
