#!/bin/bash
# Tries the edit of checks/wrong_bodies/oftp_codec/frame_held_over_feed.md on a copy of what it needs: the borrow checker must refuse it. As a control, the same edit with the frame used before `feed` must pass the borrow checker.
#
# Shows: a program that feeds the deframer while a frame is borrowed doesn't compile
set -euo pipefail
root=$(cd "$(dirname "$0")/../.." && pwd)
room=$(mktemp -d)
trap 'rm -rf "$room"' EXIT
echo 'oftp_codec:' > "$room/crates.txt"
(
    cd "$root/crates/oftp_codec"
    mkdir -p "$room/crates/oftp_codec"
    # the stream's modules stand on no other crate
    cp --parents src/{cutting,deframer,frame_fault,headers,limits}.rt specs/{Header,Stream,FrameFaults}.antt "$room/crates/oftp_codec"
)
cd "$room/crates/oftp_codec"
printf '%s\n' '#![tactic(auto)]' 'mod '{cutting,deframer,frame_fault,headers,limits}';' 'pub use cutting::cut;' > src/lib.rt
printf 'pub mod %s\n' Header Stream FrameFaults > specs/Lib.antt
edit=$root/checks/wrong_bodies/oftp_codec/frame_held_over_feed.md
file=$(sed -n 's/^file: //p' "$edit")
old=$(sed -n 's/^old: //p' "$edit")
new=$(sed -n 's/^new: //p' "$edit")
text=$(cat "$file")
if [ "$(grep -cF -- "$old" "$file")" != 1 ]; then
    echo "BAD EDIT: its old text is not once in $file"
    exit 1
fi
printf '%s\n' "${text/"$old"/"$new"}" > "$file"
if rt check --only= > "$room/told" 2>&1 || ! grep -q 'error\[borrow-e0499\]' "$room/told"; then
    echo "NOT REFUSED: a frame may be held over feed"
    exit 1
fi
control=${new/deframer.feed(piece).is_err() || held.is_err()/held.is_err() || deframer.feed(piece).is_err()}
printf '%s\n' "${text/"$old"/"$control"}" > "$file"
rt check --only= > "$room/told" 2>&1 || true
if grep -q 'error\[' "$room/told"; then
    echo "BAD EDIT: the control does not compile either"
    exit 1
fi
echo "a frame held over feed: refused, as it must be"
