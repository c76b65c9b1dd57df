#!/usr/bin/env bash
# Measures `uucpair scan` beside a C program that does the same, on three streams, each in full length and in
# half: mixed packets with some damage; control packets alone, which have the most lines; and headers of the
# largest data packet with a wrong checksum, which are the most work for each byte. Both programs must print the
# same listing, else this ends with status 1. The row `empty` has what it costs to start the programs.
#
# A time is the processor's, in seconds: the program's own (user) and the system's on its behalf (sys). It is that
# of the best of three runs, in which the two programs take turns, so that other work on the machine does little
# to it. The last column is the sum of the two for uucpair, divided by that for C.
#
#   bench/scan.sh [PROGRAM]
#
# PROGRAM is that of the sources where none is named; it is proved and built first where that is needed.
set -eu
export LC_ALL=C
rounds=3
mb=${MIB:-$((1 << 20))}
bench=$(dirname "$(readlink -f "$0")")
uucpair=${1:-$bench/../uucpair}
work=$(mktemp -d)
trap 'rm -rf "$work"' EXIT

fail() {
    echo "scan.sh: $*" >&2
    exit 1
}

# measure NAME PROGRAM..: runs the program on the stream, and adds a line with its times to those of the name.
measure() {
    local name=$1 TIMEFORMAT='%U %S'
    shift
    { time "$@" <"$work/bytes" >"$work/$name.listing" 2>"$work/errors"; } 2>>"$work/$name.times" ||
        fail "$name failed: $(cat "$work/errors")"
}

# best NAME: the two times of the best run, and their sum.
best() {
    awk '{ print $1, $2, $1 + $2 }' "$work/$1.times" | sort -k3,3n | head -n 1
}

# quotient A B, with two places; none where B is too short a time to divide by.
quotient() {
    awk -v a="$1" -v b="$2" 'BEGIN { if (b >= 0.02) printf "%.2f", a / b; else printf "-" }'
}

# row KIND BYTES: measures both programs on a stream, prints a line, and sets the sums `ours` and `theirs`.
row() {
    local lines our_user our_sys their_user their_sys
    "$work/stream" "$2" "$1" >"$work/bytes"
    rm -f "$work"/*.times
    for ((i = 0; i < rounds; i++)); do
        measure uucpair "$uucpair" scan
        measure c "$work/scan"
        cmp "$work/uucpair.listing" "$work/c.listing" || fail "the listings of $2 bytes of $1 differ"
    done
    lines=$(wc -l <"$work/c.listing")
    read -r our_user our_sys ours < <(best uucpair)
    read -r their_user their_sys theirs < <(best c)
    printf '%-8s %9d %9d  %8.2f %6.2f  %8.2f %6.2f  %8s\n' "${3:-$1}" "$2" "$lines" \
        "$our_user" "$our_sys" "$their_user" "$their_sys" "$(quotient "$ours" "$theirs")"
}

# rows KIND BYTES: measures the two lengths, and prints how the times grow.
rows() {
    local our_whole their_whole
    row "$1" "$2"
    our_whole=$ours
    their_whole=$theirs
    row "$1" $(($2 / 2))
    printf '%-8s full length to half: uucpair %s, C %s\n' "$1" \
        "$(quotient "$our_whole" "$ours")" "$(quotient "$their_whole" "$theirs")"
}

gcc -O2 -Wall -Wextra -o "$work/scan" "$bench/scan.c"
gcc -O2 -Wall -Wextra -o "$work/stream" "$bench/stream.c"
"$uucpair" scan </dev/null >"$work/uucpair.listing"

echo "                              uucpair            C           uucpair"
echo "stream       bytes     lines      user    sys      user    sys  to C"
row mixed 0 empty
rows mixed $((64 * mb))
rows control $((32 * mb))
rows worst $((1 * mb))
echo "all listings are the same"
