#!/bin/bash
# Gives `feed` 64 MiB of frames: the opening of a session and then one End-to-End Response again and again. It prints the time and the memory that
# the program took. It fails if the memory exceeds the bound: a session's memory doesn't grow with the session. The program is that of OFTP_STATION,
# or else the one that was last proved.
#
# Shows: 64 MiB of frames within 8 MiB of memory
set -euo pipefail
bound=8192
root=$(cd "$(dirname "$0")/../.." && pwd)
book=$root/examples/supplier/book.toml
program=${OFTP_STATION:-$root/crates/oftp_station/out/oftp_station}
room=$(mktemp -d)
trap 'rm -rf "$room"' EXIT
cd "$room"

# Moves the frame at the beginning of `rest` to the file of this name. The three octets after the first are its length.
take_frame() {
    local length=$((16#$(od -An -tx1 -j 1 -N 3 rest | tr -d ' \n')))
    head -c "$length" rest > "$1"
    tail -c +$((length + 1)) rest > more
    mv more rest
}

cp "$root/examples/one_end_response.octets" rest
take_frame opening
take_frame response
take_frame end
cp response many
while [ "$(stat -c %s many)" -lt $((64 * 1024 * 1024)) ]; do
    cat many many > more
    mv more many
done
size=$(stat -c %s response)
{
    cat opening
    head -c $((64 * 1024 * 1024 / size * size)) many
    cat end
} > input

# The peak memory is read every 10 ms, in KiB. A memory that grows with the session exceeds the bound long before the end.
begin=${EPOCHREALTIME/./}
"$program" feed --book "$book" input output > /dev/null &
job=$!
most=0
while read -r now < <(sed -n 's/^VmHWM:\s*\([0-9]*\) kB$/\1/p' "/proc/$job/status" 2> /dev/null); do
    most=$now
    sleep 0.01
done
wait "$job"
echo "64 MiB of frames: $(((${EPOCHREALTIME/./} - begin) / 1000)) ms, at most $most KiB of memory"
if [ "$most" = 0 ]; then
    echo 'the memory of the program was never read'
    exit 1
fi
if [ "$most" -gt "$bound" ]; then
    echo "it took more than $bound KiB of memory"
    exit 1
fi
