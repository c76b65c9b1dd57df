#!/usr/bin/env bash
# Many jobs: 300 files of an end with one job each, which one session moves, and 5 files of 400,000 bytes under `--most 1048576`.
# Session after session has to move these, in the order of `jobs`, until none waits; none may fail, or be lost, or come twice.
#
#   tests/shares.sh [PROGRAM]
#
# PROGRAM is the one that is built of the sources here where none is named. Prints a line for each; the status is 1 where one
# went wrong.
. "$(dirname "$(readlink -f "$0")")/common.sh"
find_program "${1:-}"
new_passing_work
bad=0

# session OPTIONS: `a` calls `b` once; what it says is in `said`
session() {
    local answerer
    "$program" answer "unix:$work/line" "$work/b" --me b --peer a >"$work/answered" 2>&1 &
    answerer=$!
    wait_for_socket "$work/line" || echo "  nobody answers"
    status=0
    "$program" call "unix:$work/line" "$work/a" --me a --peer b --size 1024 "$@" >"$work/out" 2>"$work/said" || status=$?
    wait "$answerer" || status=1
}

# fresh COUNT SIZE: the folders, with so many files and jobs
fresh() {
    local number
    rm -rf "$work"/{a,b}
    mkdir -p "$work"/{a,b}/{send,got}
    for number in $(seq "$1"); do
        head -c "$2" /dev/urandom >"$work/a/send/f$number"
        echo "send f$number t$number u"
    done >"$work/a/jobs"
}

# try NAME COUNT SIZE SHARES OPTIONS: the numbers of jobs that each session leaves are SHARES
try() {
    local name=$1 count=$2 size=$3 shares=$4 left seen="" number sessions=0
    shift 4
    fresh "$count" "$size"
    while [ -s "$work/a/jobs" ] && [ "$sessions" -lt 20 ]; do
        session "$@"
        sessions=$((sessions + 1))
        left=$(wc -l <"$work/a/jobs")
        seen="$seen$left "
        [ "$status" = 0 ] || { echo "  $name: status $status: $(cat "$work/said")"; bad=1; }
        [ "$left" = 0 ] || grep -qE "^uucpair: (1 job waits|$left jobs wait) for the next session\$" "$work/said" ||
            { echo "  $name: it is not said that $left wait: $(cat "$work/said")"; bad=1; }
    done
    for number in $(seq "$count"); do
        cmp -s "$work/a/send/f$number" "$work/b/got/t$number" || { echo "  $name: t$number is not whole"; bad=1; }
    done
    [ ! -s "$work/a/failed" ] || { echo "  $name: jobs failed: $(head -3 "$work/a/failed")"; bad=1; }
    [ "$seen" = "$shares" ] || { echo "  $name: $seen were left, not $shares"; bad=1; }
    echo "$name: $sessions sessions, left behind each: $seen"
}

try "300 files" 300 100 "0 "
try "5 files of 400,000 bytes" 5 400000 "3 1 0 " --most 1048576
exit "$bad"
