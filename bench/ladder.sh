#!/usr/bin/env bash
# Measures `uucpair play --ladder` beside `play` alone, on a script of 100,000 events in which something
# happens at nearly each: the caller sends files of 16 KiB, with a window of one packet of 32 bytes.
#
#   bench/ladder.sh [PROGRAM ..]
#
# PROGRAM is that of the sources where none is named, which is proved and built first where that is needed; several are measured
# in turns. A time is the processor's, in seconds, the program's own
# and the system's on its behalf: the median of ROUNDS rounds (5) in turns. `to play` is the quotient of the medians.
set -eu
export LC_ALL=C
rounds=${ROUNDS:-5}
bench=$(dirname "$(readlink -f "$0")")
programs=("$@")
if [ $# -eq 0 ]; then
    "$bench/../uucpair" --version >/dev/null
    programs=("$bench/../crates/uucpair/out/uucpair")
fi
work=$(mktemp -d)
trap 'rm -rf "$work"' EXIT

# The script: so many files (FILES, 90), and so many turns that all messages go.
make_script() {
    local i
    printf 'caller a 1 32\ncalled b 1 32\n'
    for ((i = 0; i < $1; i++)); do
        printf 'file caller f%d 0644 %s\n' "$i" "$(head -c 16384 /dev/urandom | od -An -v -tx1 | tr -d ' \n')"
        printf 'send caller f%d f%d u\n' "$i" "$i"
    done
    printf 'flow 50000\n'
}

# time_of PROGRAM [OPTION]: plays the script, and prints how many seconds that took.
time_of() {
    local TIMEFORMAT='%U %S' status=0
    { time "$1" play "${@:2}" <"$work/script" >"$work/printed" 2>"$work/errors" || status=$?; } 2>"$work/time"
    [ "$status" -le 1 ] || { echo "ladder.sh: status $status: $(cat "$work/errors")" >&2; exit 1; }
    awk '{ print $1 + $2 }' "$work/time"
}

# The median of the numbers on standard input.
median() {
    sort -g | awk '{ n[NR] = $1 } END { print (n[int((NR + 1) / 2)] + n[int(NR / 2) + 1]) / 2 }'
}

make_script "${FILES:-90}" >"$work/script"
for ((i = 0; i < rounds; i++)); do
    for number in "${!programs[@]}"; do
        for option in alone --ladder; do
            chosen=()
            [ "$option" = alone ] || chosen=("$option")
            time_of "${programs[$number]}" ${chosen[@]+"${chosen[@]}"} >>"$work/$number$option"
        done
    done
done
echo "program  option      seconds  to play"
for number in "${!programs[@]}"; do
    alone=$(median <"$work/${number}alone")
    for option in alone --ladder; do
        seconds=$(median <"$work/$number$option")
        printf '%7d  %-10s  %7.3f  %7.2f\n' "$number" "$option" "$seconds" \
            "$(awk -v a="$seconds" -v b="$alone" 'BEGIN { print (b > 0) ? a / b : 0 }')"
    done
done
