#!/bin/bash
# Checks the units of examples/service by systemd-analyze, if that is installed. systemd reads them, each service's exposure is below 3, and the name
# of a unit for a partner gives back the partner's code. The options that are shown for the station's unit are options of `run`, and the unit of a
# call has `--fail`. The last line is `N passed, M failed`. They are started by booted.py.
#
# Shows: the units of examples/service as systemd reads them, where it is installed, and the exposure of each service, which is below 3. The options
# that are shown for the station's unit, and `--fail` in that of a call. The names of units for codes that have to be escaped
set -euo pipefail
root=$(cd "$(dirname "$0")/../.." && pwd)
service=$root/examples/service
room=$(mktemp -d)
trap 'rm -rf "$room"' EXIT
passed=0
failed=0

count() {
    if "$@" > "$room/said" 2>&1; then
        passed=$((passed + 1))
    else
        failed=$((failed + 1))
        cat "$room/said"
    fi
}

# Where a unit is verified: under a name that systemd starts.
place_of() {
    echo "$room/${1/@./@O0177CARMAKER.}"
}

# The unit is verified with a program and a user that exist here. Errors and unknown settings both fail; systemd-analyze reports them by its status
# or only by a message.
verify() {
    local unit status=0
    unit=$(place_of "$1")
    sed -e 's|/usr/local/bin/oftp[a-z_-]*|/bin/true|; s/^User=oftp/User=root/' "$service/$1" > "$unit" || return
    systemd-analyze verify --man=no "$unit" > "$room/verified" 2>&1 || status=$?
    cat "$room/verified"
    [ "$status" = 0 ] && ! grep -q 'Unknown\|Failed to parse\|not executable\|Invalid' "$room/verified"
}

# The exposure of a service, as systemd-analyze counts it from 0 to 10, is below 3.
is_confined() {
    local unit exposure
    unit=$(place_of "$1")
    sed -e 's|/usr/local/bin/oftp[a-z_-]*|/bin/true|' "$service/$1" > "$unit" || return
    exposure=$(systemd-analyze security --no-pager --offline=true "$unit" | sed -n 's/.*Overall exposure level for .*: \([0-9.]*\) .*/\1/p')
    echo "the exposure of $1 is ${exposure:-unknown}"
    awk -v exposure="${exposure:-10}" 'BEGIN {exit !(exposure < 3)}'
}

# The station's unit passes on what /etc/default/oftp-station has, and the lines OPTIONS=".." that are shown for that file name options of `run`.
passes_options() {
    local told options option count=0
    grep -qxF 'EnvironmentFile=-/etc/default/oftp-station' "$service/oftp-run.service" || return
    grep -q '^ExecStart=.* \$OPTIONS$' "$service/oftp-run.service" || return
    told=$(grep '^| `./oftp_station run ' "$root/docs/COMMANDS.md") || return
    options=$(sed -n 's/^ *#\{0,1\}OPTIONS="\(.*\)"$/\1/p' "$service/default" "$root"/docs/howto/*.md) || return
    for option in $(grep -o -- '--[a-z-]*' <<< "$options"); do
        echo "the option $option"
        [[ $told == *"[$option "* ]] || return
        count=$((count + 1))
    done
    [ "$count" -ge 3 ]
}

# The unit of a call fails where its session ends otherwise than by 00.
fails_with_its_session() {
    grep -q '^ExecStart=.* call .* --fail\( \|$\)' "$service/oftp-call@.service"
}

# The command that the comment of a unit for partners gives for a code names an instance of it. The %I of that is the code, and the service passes %I
# on.
leads_to_partner() {
    local name=$1 kind=$2 code=$3 command unit
    command=$(grep -o "\"$name@[^\"]*\.$kind\"" "$service/$name@.$kind" | head -n 1) || return
    unit=$(code=$code bash -c "printf %s ${command/O0177CARMAKER/\"\$code\"}") || return
    echo "the $kind for $code is $unit"
    [ "${unit%%@*}" = "$name" ] && [ "$(systemd-escape --unescape --instance "$unit")" = "$code" ] &&
        grep -q -- '^ExecStart=.* --partner %I\( \|$\)' "$service/$name@.service"
}

if command -v systemd-analyze > /dev/null; then
    for unit in "$service"/oftp-*.*; do
        count verify "${unit##*/}"
        if [ "${unit##*.}" = service ]; then count is_confined "${unit##*/}"; fi
    done
    count passes_options
    count fails_with_its_session
    for code in O0177CARMAKER O0177-CAR 'O0013/VAN' 'O.13-(A&B)/C'; do
        count leads_to_partner oftp-call timer "$code"
        count leads_to_partner oftp-process path "$code"
    done
else
    echo 'NOT TRIED without systemd: the units of examples/service'
fi
echo "$passed passed, $failed failed"
[ "$failed" = 0 ]
