#!/bin/bash
# A supplier and a car maker as two stations on this machine. Each is a `run` that keeps its own database open, and commands ask it. A dispatch note
# goes to the car maker, and a schedule to the supplier. During the schedule the supplier's station is killed, and the next call continues where it
# stopped. End-to-End Responses go back both ways, and the register is shown over HTTP. It prints each command and its output.
#
# Shows: two stations that keep their databases open, one of which is killed within a file, and what their operators do
set -euo pipefail
root=$(cd "$(dirname "$0")/.." && pwd)
if [ -z "${OFTP_STATION-}" ]; then
    me=two_stations
    source "$root/checks/lib/build.sh"
    choose_program
fi
program=${OFTP_STATION:-$program}
room=$(mktemp -d)
stations=()
trap 'kill -9 "${stations[@]}" 2> /dev/null || true; rm -rf "$room"' EXIT
cd "$room"

say() {
    printf '\n# %s\n' "$*"
}

# Prints a command and runs it. A command that is refused, or fails in a session, doesn't end the example; one that takes longer than two
# minutes does.
give() {
    local status=0
    echo "\$ oftp_station $*"
    timeout 120 "$program" "$@" || status=$?
    if [ "$status" -gt 1 ]; then exit "$status"; fi
}

# Fails if a report of a register doesn't have this text.
has() {
    timeout 120 "$program" report --db "$1" "$2" | grep -qF -- "$3" || { echo "the report $2 of $1 doesn't say $3"; exit 1; }
}

# This many ports on which nothing listens, below the ephemeral ones, so that no connection takes one before a station listens on it.
free_ports() {
    python3 -c 'import os, socket, sys
probes, port = [], 10000 + os.getpid() * 101 % 10000
while len(probes) < int(sys.argv[1]):
    port += 1
    try:
        probes.append(socket.create_server(("127.0.0.1", port)))
    except OSError:
        pass
print(*(it.getsockname()[1] for it in probes))' "$1"
}

# Waits until a command succeeds, and fails if that takes longer than a minute.
until_holds() {
    local end=$((SECONDS + 60))
    until "$@"; do
        if [ "$SECONDS" -ge "$end" ]; then
            echo "not within a minute: $*"
            exit 1
        fi
        sleep 0.02
    done
}

# How often a station has reported that it is ready.
times_ready() {
    grep -cx ready "$1.lines" || true
}

# Whether a station has reported so more often than this.
is_ready() {
    [ "$(times_ready "$1")" -gt "$2" ]
}

# Starts a station with these further options, whose output and errors go to a file.
serve() {
    local name=$1 before
    shift
    echo "\$ oftp_station run --db $name.db --book $name.toml $* &"
    touch "$name.lines"
    before=$(times_ready "$name")
    "$program" run --db "$name.db" --book "$name.toml" "$@" >> "$name.lines" 2>&1 &
    station=$!
    stations+=("$station")
    disown
    until_holds is_ready "$name" "$before"
}

# Whether the files of the supplier's database have half a megabyte of the schedule.
is_within() {
    local sizes
    mapfile -t sizes < <(stat -c %s supplier.db supplier.db-wal)
    [ $((${sizes[0]:-0} + ${sizes[1]:-0})) -gt 700000 ]
}

# Kills the station that was started last during the schedule.
kill_within() {
    until_holds is_within
    kill -9 "$station"
}

read -r supplier_port carmaker_port http_port < <(free_ports 3)
for name in supplier carmaker; do
    sed -e "s/127.0.0.1:3305/127.0.0.1:$carmaker_port/; s/127.0.0.1:3306/127.0.0.1:$supplier_port/" \
        -e 's/^buffer = 128/buffer = 1024/; s/^credit = 2/credit = 8/' "$root/examples/$name/book.toml" > "$name.toml"
done
printf 'DESADV %05d\r\n' {1..400} > dispatch_note
seq -f 'DELFOR %09.0f' 1 900000 > schedule

say 'Both stations run. Their operators hand files in meanwhile, a dispatch note and a schedule of 15 MB.'
serve carmaker --port "$carmaker_port"
serve supplier --port "$supplier_port"
give submit --db supplier.db --book supplier.toml --dataset DISPATCH.1 --date 20240201 --time 0700000001 --to O0177CARMAKER --format U dispatch_note
give submit --db carmaker.db --book carmaker.toml --dataset SCHEDULE.1 --date 20240201 --time 0600000001 --to O0013SUPPLIER --format U schedule

say "The car maker's station calls. While the schedule comes, the supplier's station is killed by SIGKILL."
kill_within &
killer=$!
give call --db carmaker.db --book carmaker.toml --partner O0013SUPPLIER
wait "$killer"
has supplier.db in ',open,'
give report --db supplier.db in
give release --db supplier.db --book supplier.toml 1

say 'It starts again, and the car maker calls again: the schedule goes on behind the rows that were kept, and then the note comes.'
serve supplier --port "$supplier_port" --http-port "$http_port"
give call --db carmaker.db --book carmaker.toml --partner O0013SUPPLIER
give report --db supplier.db in
give fetch --db supplier.db 1 fetched
cmp fetched schedule

say 'Each operator looks at the file that came, and releases it: two End-to-End Responses are due.'
give fetch --db carmaker.db 1 note
cmp note dispatch_note
give release --db supplier.db --book supplier.toml 1
give release --db carmaker.db --book carmaker.toml 1

say 'The supplier calls. Both End-to-End Responses go, and all is delivered.'
give call --db supplier.db --book supplier.toml --partner O0177CARMAKER
give report --db supplier.db out
give report --db carmaker.db out
has supplier.db out ',delivered,'
has carmaker.db out ',delivered,'

say 'What a browser on this machine would show.'
echo "\$ GET http://127.0.0.1:$http_port/in"
python3 -c 'import sys, urllib.request
print(urllib.request.urlopen(sys.argv[1], timeout=60).read().decode())' "http://127.0.0.1:$http_port/in"

say "What the stations said of their sessions: the supplier's, and the car maker's."
cat supplier.lines
echo --
cat carmaker.lines
