#!/bin/bash
# A day at the supplier: a dispatch note is sent to the car maker, and a schedule is received. It comes in two sessions, because the line breaks in
# the first. It prints each command and its output; examples/a_day.stdout has the same. The octets of the car maker's side are files of examples/day;
# rows/day/a_day.row has these sessions in words.
set -euo pipefail
root=$(cd "$(dirname "$0")/.." && pwd)
if [ -z "${OFTP_STATION-}" ]; then
    me=a_day
    source "$root/checks/lib/build.sh"
    choose_program
fi
program=${OFTP_STATION:-$program}
room=$(mktemp -d)
trap 'rm -rf "$room"' EXIT
cd "$room"
cp "$root"/examples/day/* "$root/examples/supplier/book.toml" .

say() {
    printf '\n# %s\n' "$*"
}

# Prints a command and runs it. A refused command doesn't end the day.
give() {
    local status=0
    echo "\$ oftp_station $*"
    "$program" "$@" || status=$?
    if [ "$status" -gt 1 ]; then exit "$status"; fi
}

say 'In the morning the register is made, and a dispatch note is handed in, twice by mistake.'
give init --db register
give submit --db register --book book.toml --dataset DISPATCH.1 --date 20240201 --time 0700000001 --to O0177CARMAKER --format U dispatch_note
give submit --db register --book book.toml --dataset DISPATCH.1 --date 20240201 --time 0700000001 --to O0177CARMAKER --format U dispatch_note

say 'The car maker calls, and the line breaks in its schedule: two rows of 1,024 octets are kept. No operator can release it yet.'
give feed --db register --book book.toml schedule_breaks.octets answer
give report --db register in
give release --db register --book book.toml 1

say 'The car maker calls again. The rest of the schedule comes, and then the dispatch note goes out.'
give feed --db register --book book.toml schedule_goes_on.octets answer
give report --db register in
give report --db register out

say 'The operator fetches the schedule, all 2,500 octets of it, and releases it: an End-to-End Response is due.'
give fetch --db register 1 fetched
cmp fetched schedule
give release --db register --book book.toml 1
give report --db register issued

say 'The station calls the car maker. Its End-to-End Response goes out, and the one for the dispatch note comes.'
give feed --db register --book book.toml --role initiator --partner O0177CARMAKER car_maker_is_called.octets answer

say 'In the evening all is delivered, on both sides.'
give report --db register in
give report --db register out
give report --db register issued
give report --db register received
