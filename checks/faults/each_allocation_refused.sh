#!/bin/bash
# Runs the program, and the tests of failed allocations, with each of their allocations refused in turn. Runs the test of the deframer's room too,
# with every allocation after the reservation refused. No result may differ, except that an error may take its place. What the program wrote by then
# is a beginning of the whole output; if the register was refused memory, ESID 08 follows it. A trace may lack lines, and has no others. It needs a C
# compiler. The program is that of OFTP_STATION, or else the one that was last proved.
#
#     checks/faults/each_allocation_refused.sh [built|program] [--allocations N|all]
#
# The tests are proved and built if need be. With the word `built` they are those that the last `rt ci` left, and with the word `program` they are left
# out. With `--allocations` the rows below are played over a database too, and requests and reports, with N allocations of each refused, or all.
#
# Shows: where there is a C compiler: each allocation is refused in turn of a book that is read and of two sessions. So it is of one with a trace and,
# in the gate, of tests. With `--allocations all` those of four rows over a database too, with its opening, and of requests and reports
set -euo pipefail
how=
allocations=
while [ $# -gt 0 ]; do
    case "$1" in
        built | program) how=$1 ;;
        --allocations)
            allocations=${2:?a number, or all}
            shift
            ;;
        *)
            echo "no such word: $1"
            exit 2
            ;;
    esac
    shift
done
root=$(cd "$(dirname "$0")/../.." && pwd)
room=$(mktemp -d)
trap 'rm -rf "$room"' EXIT
cc -shared -fPIC -O1 -o "$room/refuse.so" "$root/checks/faults/refuse_allocation.c"
cd "$room"

fail() {
    echo "$name, allocation $number: $*"
    exit 1
}

# Runs the command with the allocation of this number refused. It returns whether there was such an allocation.
is_refused() {
    rm -f reached answer trace
    status=0
    FAIL_ALLOC=$number FAIL_ALLOC_REACHED=$room/reached LD_PRELOAD=$room/refuse.so "$@" > out 2> err || status=$?
    [ -e reached ]
}

check_whole() {
    cmp out whole_out || fail 'another line'
    if [ -e whole ]; then cmp answer whole || fail 'another answer'; fi
}

# The line of a session that gave up for want of memory.
gave_up='> ESID 08 resources not available: ESIDCMD="F" ESIDREAS=08 ESIDREASL=000 ESIDREAST="" ESIDCR="\u{d}"'

# Checks that the trace has no other lines than the whole one, beside those of the error.
check_trace() {
    if [ ! -e trace ]; then return; fi
    if cut -d ' ' -f 2- trace | grep -vxF -f whole_trace -f err -e "$gave_up" > other_lines; then
        fail "another line in the trace: $(head -n 1 other_lines)"
    fi
}

# Checks what the program left: the same as with ample memory, or an error and a beginning of the same.
check_left() {
    check_trace
    case "$status $(cat err)" in
        '0 ')
            check_whole
            return
            ;;
        '1 fault: 4 memory') ;;
        '1 fault: 3 office')
            if [ "$(tail -c 11 answer | od -An -tx1 | tr -d ' \n')" != 1000000b4630383030300d ]; then
                fail "the answer doesn't end by ESID 08"
            fi
            truncate -s -11 answer
            ;;
        *) fail "status $status, $(cat out err)" ;;
    esac
    told=$((told + 1))
    if [ -s out ]; then fail 'a line beside the fault'; fi
    if [ -e answer ] && ! cmp -s -n "$(stat -c %s answer)" answer whole; then
        fail 'the answer is no beginning of the whole one'
    fi
}

# Checks how a test ended: it passed, or its own allocation was refused. `AllocError` is the test's, and no error of the crate under test.
check_passed() {
    case "$status $(head -n 1 err)" in
        '0 '*) ;;
        '101 error: AllocError') told=$((told + 1)) ;;
        *) fail "status $status, $(cat out err)" ;;
    esac
}

# Refuses one allocation after another, up to the run without such an allocation.
each() {
    local check=$1
    shift
    number=1
    told=0
    while is_refused "$@"; do
        "$check"
        number=$((number + 1))
    done
    if [ "$status" != 0 ]; then fail "status $status, and none was refused"; fi
    if [ "$number" = 1 ]; then fail 'there is none'; fi
    echo "$name: $((number - 1)) allocations refused in turn, $told told"
}

each_of_program() {
    name=$1
    if [[ " $* " = *' --trace '* ]]; then name+=' with a trace'; fi
    rm -f whole answer trace
    "$program" "$@" > whole_out
    if [ -e answer ]; then mv answer whole; fi
    if [ -e trace ]; then cut -d ' ' -f 2- trace > whole_trace; fi
    each check_left "$program" "$@"
    check_whole
    if [ "$told" = 0 ]; then fail 'no refusal was told'; fi
}

# Finds a test of a crate, and proves and builds the crate's tests if need be.
take_test() {
    name="$1 $2"
    tests=$root/crates/$1/out/$1_tests
    if [ "$how" != built ]; then
        (cd "$root/crates/$1" && rt test) > told_of_tests 2>&1 || { cat told_of_tests; exit 1; }
    fi
    if ! "$tests" --list | grep -qxF "$2: test"; then
        echo "$name: no such test"
        exit 1
    fi
}

each_of_test() {
    take_test "$1" "$2"
    each check_passed "$tests" "$2"
}

# Refuses every allocation from some number on, up to the number from which the test passes. What was refused before is just the reservation, so that
# no allocation after it is needed.
none_behind_reservation() {
    take_test "$1" "$2"
    export FAIL_ALLOC_ON=1
    number=1
    while is_refused "$tests" "$2" && [ "$status" != 0 ]; do
        case "$status $(head -n 1 err)" in
            '101 error: "no memory was reserved"') ;;
            *) fail "status $status, $(cat out err)" ;;
        esac
        number=$((number + 1))
    done
    unset FAIL_ALLOC_ON
    if [ "$status" != 0 ]; then fail "status $status, $(cat out err)"; fi
    if [ "$number" = 1 ]; then fail 'nothing was reserved'; fi
    echo "$name: passes with every allocation behind the reservation refused"
}

book=$root/examples/supplier/book.toml
program=${OFTP_STATION:-$root/crates/oftp_station/out/oftp_station}
each_of_program check --book "$book"
each_of_program help
each_of_program feed --book "$book" "$root/examples/repeated_end_response.octets" answer
each_of_program feed --book "$book" "$root/examples/one_file.octets" answer
each_of_program feed --book "$book" --trace trace "$root/examples/repeated_end_response.octets" answer
if [ "$how" = program ]; then
    echo 'LEFT OUT, since only the gate builds them: the tests of refused growths and of the room that the deframer reserves'
else
    none_behind_reservation oftp_test_register tests::streams::no_memory_within_room
    each_of_test oftp_test_register tests::files::refused_and_taken_again
    each_of_test oftp_test_register tests::registers::memory::each_allocation_refused
    each_of_test oftp_test_record tests::three_entries_written
    each_of_test oftp_test_sessions tests::refused::three_octets_out
    each_of_test oftp_test_sessions tests::refused::broken_and_taken_up
fi
if [ -n "$allocations" ]; then
    rows=(receiving/empty_file taken_up/broken_and_taken_up listening/repeated_end_response sending/three_octets_out)
    python3 "$root/checks/faults/stop_at_each_call.py" --refuse --allocations "$allocations" "${rows[@]}"
    python3 "$root/checks/faults/listing_allocations.py" --allocations "$allocations"
fi
