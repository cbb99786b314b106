#!/usr/bin/env bash
# Builds the program rust/volumes and runs it on samples that it makes: what it says, copies, refuses and leaves
# behind, and how it ends. The checks stand in tests/volumes/, by topic; topics can be named as arguments.
# ONDRISTELA_LIB_DIR names the folder of a built libondristela.a, as for every cargo command in rust/.
# Needs python3, and flock of util-linux. What needs a loop device, a mount or a manual reader is skipped where
# there is none, with a line that says so. Ends with 1 at the first check that fails.
set -euo pipefail

root=$(cd "$(dirname "$0")/.." && pwd)
cd "$root"
cargo build --quiet --release --offline --manifest-path rust/Cargo.toml --package volumes
program=$(realpath "${CARGO_TARGET_DIR:-rust/target}")/release/volumes
work=$(mktemp -d)
# Commands that undo, at the end, what would stay behind: mounts and loop devices.
undo=()
finish() {
    local index
    for ((index = ${#undo[@]} - 1; index >= 0; index--)); do
        eval "${undo[index]}" || true
    done
    rm -rf "$work"
}
trap finish EXIT

topics=(demo readme usage copies plaintext refusals in_the_way headers one_header prepare prepare_refusals prepare_files
    sector_sizes unaligned streams large interrupted devices terminal)
source "$root/tests/volumes/checks.sh"
for topic in "${@:-${topics[@]}}"; do
    # shellcheck disable=SC1090
    source "$root/tests/volumes/$topic.sh"
done

echo "volumes: $checks checks passed"
