#!/bin/bash
# Whether `rt fmt` would leave each file of the crates as it is, in a copy of them. `rt ci` checks the same, but after an hour.
#
# Shows: each file of the crates is as `rt fmt` has it, which `rt ci` finds only after the proofs
set -euo pipefail
root=$(cd "$(dirname "$0")/../.." && pwd)
room=$(mktemp -d)
trap 'rm -rf "$room"' EXIT
# out/ has what was proved, and would be gigabytes to copy
(cd "$root" && find crates.txt crates -name out -prune -o -type f -print0 | xargs -0 cp --parents -t "$room")
for crate in "$room"/crates/*; do
    (cd "$crate" && rt fmt) > "$room/told"
    if ! diff -r -q -x out "$root/crates/${crate##*/}" "$crate"; then
        echo "${crate##*/}: rt fmt changes it"
        exit 1
    fi
done
echo "the format of $(ls "$root/crates" | wc -l) crates: as rt fmt has it"
