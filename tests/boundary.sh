#!/usr/bin/env bash
# Compiles tests/boundary as C11 and as C++ with all warnings, links it with the static library and runs it, and
# the header alone as each C and C++ that it is for. The library is tools/build.sh's, or the one in the folder
# ONDRISTELA_LIB_DIR. Fails on a warning, on a failed check, and where the example in include/ondristela.h is not
# the one that is compiled.
set -euo pipefail

root=$(cd "$(dirname "$0")/.." && pwd)
"$root/tools/needs.sh" gcc g++
"$root/tools/build.sh" library
folder=${ONDRISTELA_LIB_DIR:-$root/target/staticlib}
work=$(mktemp -d)
trap 'rm -rf "$work"' EXIT

warnings=(-Wall -Wextra -Wpedantic -Wconversion -Wshadow -Werror)
c=(-std=c11 "${warnings[@]}" -Wstrict-prototypes -Wmissing-prototypes)
cpp=(-x c++ "${warnings[@]}" -Wold-style-cast)
sanitizers=(-g "-fsanitize=address,undefined" -fno-sanitize-recover=all)

# run NAME COMPILER FLAG..: begins to compile and run; what it says waits for `finish`.
runs=()
run() {
    local program=$work/${#runs[@]}
    {
        "${@:2}" -I"$root/include" "$root"/tests/boundary/*.c -x none -L"$folder" -londristela -o "$program"
        printf '%s: ' "$1"
        "$program"
    } >"$program.said" 2>&1 &
    runs+=($!)
}

# finish: what each run says, in order; fails where one failed.
finish() {
    local failed=0
    for number in "${!runs[@]}"; do
        wait "${runs[number]}" || failed=1
        cat "$work/$number.said"
    done
    return "$failed"
}

links_sanitizers() {
    echo 'int main(void) { return 0; }' | gcc -x c - "${sanitizers[@]}" -o "$work/empty" 2>/dev/null
}

# header_alone COMPILER FLAG..: a file that includes the header and uses nothing of it.
header_alone() {
    echo '#include "ondristela.h"' | "$@" -I"$root/include" -fsyntax-only -
}

example=$(sed -n '/^ \*     static .*write_outer_sectors/,/^ \*     }$/s/^ \* \{0,5\}//p' \
    "$root/include/ondristela.h")
if [ -z "$example" ] || [[ $(<"$root/tests/boundary/example.c") != *"$example"* ]]; then
    echo 'the example in include/ondristela.h is not the function in tests/boundary/example.c' >&2
    exit 1
fi

for standard in c99 c11 c17; do
    header_alone gcc "-std=$standard" -x c "${warnings[@]}"
done
for standard in c++11 c++17 c++20; do
    header_alone g++ "-std=$standard" "${cpp[@]}"
done

run 'gcc, C11' gcc "${c[@]}" -O2
run 'g++, C++11' g++ "${cpp[@]}" -std=c++11
run 'g++, C++17' g++ "${cpp[@]}" -std=c++17 -O2
if command -v clang >/dev/null && command -v clang++ >/dev/null; then
    run 'clang, C11' clang "${c[@]}"
    run 'clang++, C++11' clang++ "${cpp[@]}" -std=c++11 -O2
    run 'clang++, C++17' clang++ "${cpp[@]}" -std=c++17
fi
if links_sanitizers; then
    run 'gcc, C11, sanitizers' gcc "${c[@]}" "${sanitizers[@]}"
fi
finish
