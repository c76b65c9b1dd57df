#!/usr/bin/env bash
# Jobs that are queued while sessions run: 20 files, each put into `send` and its job appended to `jobs` at a moment of its
# own, while `call`, `answer` and `pair` run again and again. Each of them must come, whole and once.
#
#   tests/queued_meanwhile.sh [PROGRAM]
#
# It prints a line for each of the three, and ends with status 1 where a file is lost. The folders stay then.
. "$(dirname "$(readlink -f "$0")")/common.sh"
count=20
find_program "${1:-}"
new_work
lost=0

# new_folders NAME: sets `a` and `b` to folders of two ends, of which `a` has a long file and its job.
new_folders() {
    a=$work/$1/a
    b=$work/$1/b
    mkdir -p "$a"/{send,got} "$b"/{send,got}
    head -c 300000 /dev/urandom >"$a/send/long"
    echo "send long long u" >"$a/jobs"
    : >"$b/jobs"
}

# feed DIR: puts the files and their jobs into a folder, one after another.
feed() {
    local i
    for ((i = 0; i < count; i++)); do
        head -c $((i * 397 + 1)) /dev/urandom >"$1/send/new$i"
        echo "send new$i new$i u" >>"$1/jobs"
        pause "0.$((RANDOM % 3))$((RANDOM % 9 + 1))"
    done
}

# meet NAME DIR OTHER DIR: the end of this name answers over its folder, and the other one calls.
meet() {
    local status=0
    "$program" answer "unix:$work/line" "$2" --me "$1" --peer "$3" >"$work/answer.out" 2>"$work/answer.err" &
    wait_for_line
    "$program" call "unix:$work/line" "$4" --me "$3" --peer "$1" >"$work/call.out" 2>"$work/call.err" || status=$?
    wait $! || status=$?
    return $status
}

# One session of each kind over `a` and `b`, in which `a` is the end that has the jobs.
session_call() {
    meet b "$b" a "$a"
}

session_answer() {
    meet a "$a" b "$b"
}

session_pair() {
    "$program" pair "$work/line" "$a" "$b" >"$work/pair.out" 2>"$work/pair.err"
}

wait_for_line() {
    wait_for_socket "$work/line" || {
        echo "queued_meanwhile.sh: nobody listens; see $work" >&2
        exit 1
    }
}

# try KIND: sessions until no more jobs come and none is left, and then what has come of them.
try() {
    local feeder sessions=0 behind=0 i missing=0
    new_folders "$1"
    feed "$a" &
    feeder=$!
    while [ "$behind" -eq 0 ] || { [ -s "$a/jobs" ] && [ "$behind" -lt 50 ]; }; do
        kill -0 "$feeder" 2>/dev/null || behind=$((behind + 1))
        session_"$1" || {
            echo "queued_meanwhile.sh: a session failed; see $work" >&2
            exit 1
        }
        sessions=$((sessions + 1))
    done
    wait "$feeder" || true
    for ((i = 0; i < count; i++)); do
        cmp -s "$a/send/new$i" "$b/got/new$i" || missing=$((missing + 1))
    done
    cmp -s "$a/send/long" "$b/got/long" || missing=$((missing + 1))
    echo "$1: $missing of $((count + 1)) files are lost in $sessions sessions; jobs left: $(wc -l <"$a/jobs")"
    lost=$((lost + missing))
}

try call
try answer
try pair
[ "$lost" -eq 0 ] || {
    echo "queued_meanwhile.sh: $lost files are lost; see $work" >&2
    exit 1
}
rm -rf "$work"
