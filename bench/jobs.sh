#!/usr/bin/env bash
# Measures what a long queue costs: `uucpair play` on a session of 1,024 files of one byte, and on 16 sessions of 64 such
# files, in turns. Of the processor's seconds of each, the program's own and the system's on its behalf, the median is
# printed, and the quotient of the two. In a third row the called end puts the first half of the jobs off, so that each
# job that is done is taken out from behind those.
#
#   bench/jobs.sh [PROGRAM]
#
# ROUNDS says how many times each is played (11).
set -eu
export LC_ALL=C
rounds=${ROUNDS:-11}
bench=$(dirname "$(readlink -f "$0")")
program=${1:-$bench/../crates/uucpair/out/uucpair}
work=$(mktemp -d)
trap 'rm -rf "$work"' EXIT

fail() {
    echo "jobs.sh: $*" >&2
    exit 1
}

# script FILES PUT_OFF: the caller sends so many files, the first of which the called end puts off.
script() {
    local i
    echo 'caller a 7 64'
    echo 'called b 7 64'
    for ((i = 0; i < $1; i++)); do
        echo "file caller x$i 0644 2e"
        echo "send caller x$i y$i u"
        [ "$i" -ge "$2" ] || echo "later called y$i"
    done
    echo "flow $((8 * $1 + 20))"
}

# play TIMES SCRIPT REPORT: plays the script so many times; its report has this line.
play() {
    local TIMEFORMAT='%U %S' i
    {
        time for ((i = 0; i < $1; i++)); do
            "$program" play <"$work/$2" >"$work/report" || fail "status $?"
        done
    } 2>"$work/time"
    grep -qx "$3" "$work/report" || fail "no line '$3' in the report"
    awk '{ print $1 + $2 }' "$work/time" >>"$work/times.$2"
}

median() {
    sort -g "$work/times.$1" | awk '{ n[NR] = $1 } END { print (n[int((NR + 1) / 2)] + n[int(NR / 2) + 1]) / 2 }'
}

script 64 0 >"$work/short"
script 1024 0 >"$work/long"
script 1024 512 >"$work/put_off"
for ((i = 0; i < rounds; i++)); do
    play 16 short 'caller pending 0 struck 64 failed 0'
    play 1 long 'caller pending 0 struck 1024 failed 0'
    play 1 put_off 'caller pending 512 struck 512 failed 0'
done
for name in short long put_off; do
    awk -v name="$name" -v a="$(median "$name")" -v b="$(median short)" \
        'BEGIN { printf "%-8s %7.3f %6.2f\n", name, a, a / b }'
done
