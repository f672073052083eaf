#!/bin/bash
# Builds the program of library_store.rattle, which uses only the toolchain's library, as the checked station is built, or as the proved one.
#
#     checks/speed/library_store.sh [--proved] OUT       OUT is the program that is made
#
# Its source isn't a crate of the repository: a temporary folder with a crate is made for it, and removed at the end.
set -euo pipefail
root=$(cd "$(dirname "$(readlink -f "${BASH_SOURCE[0]}")")/../.." && pwd)
me=library_store.sh
source "$root/checks/lib/build.sh"

# Proves it, and lets rt build it. It is run over a database that isn't there, which it refuses, because rt only runs what it has just built.
prove_it() {
    start "$crate" rt run -- open /nowhere/database
    wait_for say_far || true
    mv "$crate/out/library_store" "$room/program" 2> /dev/null || {
        why='rt leaves no program'
        return 1
    }
}

build_it() {
    if $is_proved; then
        stage='proving it'
        prove_it
    else
        find_kit && try_clang && lower && compile && link
    fi
}

is_proved=false
if [ "$1" = --proved ]; then
    is_proved=true
    shift
fi
made=$(realpath -m "$1")
open_room
crate=$room/repository/crates/library_store
mkdir -p "$crate/src"
echo 'library_store: anyhow sqlite' > "$room/repository/crates.txt"
cp "$root/checks/speed/library_store.rattle" "$crate/src/main.rt"

build_it || {
    cat "$room/said" >&2
    echo "$me: it can't be built${why:+: $why}" >&2
    exit 1
}
cp "$room/program" "$made.part"
mv "$made.part" "$made"
close_room
