#!/usr/bin/env bash
# Measures `uucpair call` and `answer` together: one end sends the other eight files of 1 MiB over a Unix socket, in packets
# of 64 and of 1,024 bytes under a window of seven; and beside them, in turns, two `uucico` of Taylor UUCP (Debian's package
# `uucp`, which is to be installed), joined by two pipes, and by a Unix socket, with the same packets and window. Each file must
# come as it is.
#
#   bench/call.sh [ROUNDS [PROGRAM..]]
#
# PROGRAM is crates/uucpair/out/uucpair where none is named; it has a row with `--no-digest`, since uucico makes no digests,
# and one without; others take turns with it. `cpu` is the processor's time in
# seconds, that of both ends and of the system on their behalf: the median of the rounds (9), and in brackets the least and the
# greatest. `to it` is the quotient of the medians. `call` and `answer` are how many million instructions each takes, as
# valgrind's cachegrind counts them, where the machine has it (`apt-get install valgrind`): a build that checks memory as it
# runs has none. `bytes` is how many go over the line, both ways. Ends with status 1 where the first program takes more than
# 0.85 (64) or 0.75 (1,024) of what uucico takes over pipes, which are the cheapest that the system has.
set -eu
export LC_ALL=C
rounds=${1:-9}
bench=$(dirname "$(readlink -f "$0")")
files=8
work=$(mktemp -d)
trap 'rm -rf "$work"' EXIT
# shellcheck source=uucico.bash
source "$bench/uucico.bash"

fail() {
    echo "call.sh: $*" >&2
    exit 1
}

# new_folders: what the two ends have before a run.
new_folders() {
    local i
    rm -rf "$work"/{a,b,socket}
    mkdir -p "$work"/{a,b}/{send,got}
    for ((i = 0; i < files; i++)); do
        ln "$work/file$i" "$work/a/send/file$i"
        echo "send file$i file$i u"
    done >"$work/a/jobs"
}

# both NUMBER SIZE OPTION WORD..: the two ends of a call, each run by the words with `call` or `answer` in place of END.
both() {
    local program=${programs[$1]} ends=(--size "$2" ${digests[$1]:+"${digests[$1]}"} ${3:+"$3"}) tries
    shift 3
    "${@//END/answer}" "$program" answer "unix:$work/socket" "$work/b" --me b --peer a "${ends[@]}" >"$work/b.out" 2>"$work/b.err" &
    for ((tries = 0; tries < 1000; tries++)); do
        [ ! -S "$work/socket" ] || break
        sleep 0.02
    done
    "${@//END/call}" "$program" call "unix:$work/socket" "$work/a" --me a --peer b "${ends[@]}" >"$work/a.out" 2>"$work/a.err" || true
    wait
}

# run_call NUMBER SIZE: one run, timed.
run_call() {
    local TIMEFORMAT='%R %U %S'
    new_folders
    { time both "$1" "$2" ""; } 2>>"$work/call$1.times"
    check_files $files "$work/b/got"
    [ ! -s "$work/a/jobs" ] || fail "jobs are left: $(cat "$work"/[ab].err)"
}

# instructions NUMBER SIZE: those of the two ends, in millions.
instructions() {
    local end
    if ! command -v valgrind >/dev/null; then
        echo "- -"
        return
    fi
    new_folders
    both "$1" "$2" "" valgrind --tool=cachegrind --cache-sim=no --cachegrind-out-file=/dev/null --log-file="$work/END.instr"
    for end in call answer; do
        awk '/I *refs:/ { gsub(",", "", $NF); printf "%.0f ", $NF / 1000000; seen = 1 } END { if (!seen) printf "- " }' "$work/$end.instr"
    done
}

# bytes_of NUMBER SIZE: those that the caller writes and reads.
bytes_of() {
    new_folders
    both "$1" "$2" -v
    awk '$2 ~ /^(wrote|read)$/ { sum += $3 } END { print sum }' "$work/a.err"
}

# quotient MEDIAN OTHER: of two medians.
quotient() {
    awk -v one="${1%% *}" -v other="${2%% *}" 'BEGIN { printf "%.2f", one / other }'
}

# row NUMBER SIZE: prints a line, and leaves in `to_uucico` the quotient with uucico over pipes.
row() {
    local ours theirs at_socket counts
    ours=$(median_of cpu "$work/call$1.times")
    theirs=$(median_of cpu "$work/uucico.times")
    at_socket=$(median_of cpu "$work/uucico_at_socket.times")
    to_uucico=$(quotient "$ours" "$theirs")
    read -ra counts <<<"$(instructions "$1" "$2")"
    printf '%6s  %-22s %-22s %5s  %-22s %5s %6s %6s %9s  %s %s\n' "$2" "$ours" "$theirs" "$to_uucico" "$at_socket" \
        "$(quotient "$ours" "$at_socket")" "${counts[@]}" "$(bytes_of "$1" "$2")" "${programs[$1]}" "${digests[$1]:-}"
}

shift "$(($# > 0 ? 1 : 0))"
programs=("$@")
[ $# -gt 0 ] || programs=("$bench/../crates/uucpair/out/uucpair")
# The first has a row for each of both.
programs=("${programs[0]}" "${programs[@]}")
digests=(--no-digest)
[ -n "$uucico" ] || fail "uucico is missing"
chmod a+rx "$work"
for ((i = 0; i < files; i++)); do
    head -c "${MIB:-$((1 << 20))}" /dev/urandom >"$work/file$i"
done

missed=0
printf '%6s  %-22s %-22s %5s  %-22s %5s %6s %6s %9s  %s\n' size "uucpair, cpu" "uucico, pipes" "to it" "uucico, socket" "to it" call \
    answer bytes program
for entry in 64:0.85 1024:0.75; do
    size=${entry%:*}
    rm -f "$work"/*.times
    for ((round = 0; round < rounds; round++)); do
        for i in "${!programs[@]}"; do
            run_call "$i" "$size"
        done
        run_uucico "$size" $files
        run_uucico_at_socket "$size" $files
    done
    for i in "${!programs[@]}"; do
        row "$i" "$size"
        [ "$i" -ne 0 ] || missed=$(awk -v q="$to_uucico" -v most="${entry#*:}" -v missed="$missed" 'BEGIN { print (missed || q > most) }')
    done
done
echo "all files came as they were"
exit "$missed"
