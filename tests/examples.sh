#!/usr/bin/env bash
# Plays each script in `examples`, draws those that have a ladder, and lists each stream in detail, and compares the report,
# the ladder or the listing, to the last byte, and the status with what is expected.
#
#     tests/examples.sh [PROGRAM]
#
# PROGRAM is run as `PROGRAM play`, `PROGRAM play --ladder` and `PROGRAM scan -v`; without it `uucpair` is, which is proved and built first where that
# is needed. Says how many examples passed, and ends with status 1 where one did not, or where a script has no report, a
# report no script, a stream no listing or a listing no stream.
. "$(dirname "$(readlink -f "$0")")/common.sh"
find_program "${1:-}"
new_passing_work

# expected_status REPORT: 5 where the line fooled an end; else 1 unless both ends were done in the last session.
expected_status() {
    if grep -q '^verdict fooled ' "$1"; then
        echo 5
    elif [ "$(grep ' sent ' "$1" | tail -n 2 | grep -c ' done$')" -eq 2 ]; then
        echo 0
    else
        echo 1
    fi
}

# check NAME: plays the example of this name, and says what is wrong with it.
check() {
    local script=$root/examples/$1.script report=$root/examples/$1.report status=0 expected
    [ -f "$script" ] && [ -f "$report" ] || { echo "a script or a report is missing"; return; }
    "$program" play <"$script" >"$work/printed" 2>"$work/said" || status=$?
    cmp -s "$report" "$work/printed" || diff "$report" "$work/printed" || true
    expected=$(expected_status "$report")
    [ "$status" -eq "$expected" ] || echo "status $status, not $expected: $(cat "$work/said")"
}

# check_ladder NAME: draws the example of this name, and says what is wrong with it: the report comes first, then the ladder.
check_ladder() {
    local script=$root/examples/$1.script report=$root/examples/$1.report ladder=$root/examples/$1.ladder status=0 expected
    [ -f "$script" ] && [ -f "$report" ] || { echo "a script or a report is missing"; return; }
    "$program" play --ladder <"$script" >"$work/printed" 2>"$work/said" || status=$?
    cat "$report" "$ladder" | diff - "$work/printed" || true
    expected=$(expected_status "$report")
    [ "$status" -eq "$expected" ] || echo "status $status, not $expected: $(cat "$work/said")"
    check_picture "$work/printed" "$ladder"
}

# check_picture PRINTED LADDER: draws what was printed as a picture, and says what it lacks of the ladder.
check_picture() {
    local arrows=' -+> [0-9]+$|  [0-9]+ [<x]-|-x [0-9]+$|  \.\.\.-|-\.\.\.$' rows='^session |^ *(start|[0-9]+)  '
    "$root/tools/ladder_svg.py" <"$1" >"$work/svg" || { echo "no picture"; return; }
    [ "$(grep -cE -e "$arrows" "$2")" -eq "$(grep -c 'stroke="black"' "$work/svg")" ] || echo "the picture lacks an arrow"
    [ "$(grep -cE -e "$rows" "$2")" -eq "$(grep -cE 'x="4"|font-weight' "$work/svg")" ] || echo "the picture lacks a row"
}

# check_stream NAME: lists the stream of this name, and says what is wrong with its listing, or with the plain one.
check_stream() {
    local stream=$root/examples/$1.bytes listing=$root/examples/$1.listing status=0
    [ -f "$stream" ] && [ -f "$listing" ] || { echo "a stream or a listing is missing"; return; }
    "$program" scan -v <"$stream" >"$work/printed" 2>"$work/said" || status=$?
    cmp -s "$listing" "$work/printed" || diff "$listing" "$work/printed" || true
    [ "$status" -eq 0 ] || echo "status $status, not 0: $(cat "$work/said")"
    "$program" scan <"$stream" >"$work/plain"
    sed -E '/^(TEXT|NOISE|CONTROL) /d; s/ AT [0-9]+ LENGTH [0-9]+$//; s/^BAD .*/BAD/' "$listing" |
        diff - "$work/plain" || true
}

# named ENDING..: the names of the examples with one of these endings.
named() {
    local ending path
    for ending in "$@"; do
        for path in "$root/examples"/*."$ending"; do
            basename "$path" ".$ending"
        done
    done | sort -u
}

for name in $(named script report); do
    report "$name" "$(check "$name")"
done
for name in $(named ladder); do
    report "$name.ladder" "$(check_ladder "$name")"
done
for name in $(named bytes listing); do
    report "$name" "$(check_stream "$name")"
done

echo "$passed passed, $failed failed"
[ "$failed" -eq 0 ] && [ "$passed" -gt 0 ]
