#!/usr/bin/env bash
# More jobs than `pair` has files for, and jobs that are given up: `queue` takes 300 jobs for a peer that is down, and they all go
# once it is up; and of jobs whose targets the other end refuses each copy leaves `send`, and is kept below the folder of the end,
# so that `queue` takes the next one.
#
#   tests/queue_limit.sh [PROGRAM]
#
# It prints a line for each part, where the end with the jobs calls and where it answers, and ends with status 1 where one fails.
# The folders stay then.
. "$(dirname "$(readlink -f "$0")")/common.sh"
find_program "${1:-}"
new_work

# holds NAME FOUND EXPECTED
holds() {
    local fault=
    [ "$2" = "$3" ] || printf -v fault 'found %.120q, expected %.120q' "$2" "$3"
    report "$1" "$fault"
}

new_folders() {
    rm -rf "$work"/{a,b,files,line}
    mkdir -p "$work"/{a,b}/{send,got} "$work/files"
}

# queued_before COUNT FRONT TARGET: so many jobs wait, as `queue` leaves them, each with a file of a line of its own that begins so,
# and with a number behind its target.
queued_before() {
    local i
    for ((i = 0; i < $1; i++)); do
        echo "$2 $i" >"$work/a/send/f$i"
        ln "$work/a/send/f$i" "$work/a/send/.copy.f$i"
        echo "send f$i $3$i me"
    done >>"$work/a/jobs"
}

# queue_jobs COUNT FRONT TARGET: queues so many such files, until one is not taken. Sets `queued`.
queue_jobs() {
    local count=$1
    shift
    queued=0
    while [ "$queued" -lt "$count" ]; do
        echo "$1 $queued" >"$work/files/f$queued"
        "$program" queue "$work/a" send "$work/files/f$queued" "$2$queued" --user me >/dev/null 2>"$work/queue.err" || return 0
        queued=$((queued + 1))
    done
}

# meet CALLER CALLED: one session of these two folders.
meet() {
    local caller_status=0 caller=$1 called=$2
    rm -f "$work/line"
    "$program" answer "unix:$work/line" "$work/$called" --me "$called" --peer "$caller" --timeout 5 >"$work/answer.out" 2>&1 &
    local answering=$!
    wait_for_socket "$work/line"
    timeout 300 "$program" call "unix:$work/line" "$work/$caller" --me "$caller" --peer "$called" --timeout 5 \
        >"$work/call.out" 2>"$work/call.err" || caller_status=$?
    end_of "$answering" 30
    statuses="$caller_status $status"
}

# sessions ROLE: until nothing waits, at most five, in which the end with the jobs calls or answers.
sessions() {
    local i
    for ((i = 0; i < 5; i++)); do
        [ -s "$work/a/jobs" ] || return 0
        if [ "$1" = call ]; then meet a b; else meet b a; fi
    done
}

# names_in FOLDER: on one line.
names_in() {
    find "$1" -mindepth 1 -printf '%f\n' | sort | tr '\n' ' '
}

# different FRONT FOLDER: how many different lines that begin so are in the files below it.
different() {
    find "$2" -type f -exec cat {} + | { grep -ax "$1 [0-9]*" || true; } | sort -u | wc -l
}

# down ROLE BEFORE COUNT: the peer does not answer while so many jobs are queued, and so many more.
down() {
    local count=$(($2 + $3))
    new_folders
    queued_before "$2" before b
    queue_jobs "$3" file t
    holds "jobs that are queued ($(tail -n 1 "$work/queue.err"))" "$queued" "$3"
    sessions "$1"
    holds "statuses" "$statuses" "0 0"
    holds "jobs that wait" "$(wc -l <"$work/a/jobs")" 0
    holds "files that came" "$(($(different before "$work/b/got") + $(different file "$work/b/got")))" "$count"
    holds "send" "$(names_in "$work/a/send")" ""
    holds "failed" "$(cat "$work/a/failed" 2>/dev/null)" ""
}

# given_up ROLE COUNT: the other end refuses the targets of so many jobs; then ten are queued whose files have names that were
# used, and a good one.
given_up() {
    new_folders
    queued_before "$2" refused .no
    echo mine >"$work/a/send/mine"
    echo "send mine .mine me" >>"$work/a/jobs"
    sessions "$1"
    holds "jobs that wait" "$(wc -l <"$work/a/jobs")" 0
    holds "send" "$(names_in "$work/a/send")" "mine "
    holds "what was given up is kept" "$(different refused "$work/a")" "$2"
    queue_jobs 10 again .no
    holds "jobs that are queued then ($(tail -n 1 "$work/queue.err"))" "$queued" 10
    echo good >"$work/files/good"
    "$program" queue "$work/a" send "$work/files/good" --user me >/dev/null 2>&1 || true
    sessions "$1"
    holds "a good one behind them" "$(cat "$work/b/got/good" 2>/dev/null)" good
    holds "send then" "$(names_in "$work/a/send")" "mine "
    holds "the first ones are kept" "$(different refused "$work/a")" "$2"
    holds "those of the same names, too" "$(different again "$work/a")" 10
    holds "nothing came that was refused" "$(names_in "$work/b/got")" "good "
}

for part in "down call 240 60" "down answer 250 10" "given_up call 250" "given_up answer 250"; do
    before=$failed
    $part
    echo "$part: $([ "$failed" -eq "$before" ] && echo well || echo failed)"
done
echo "$passed passed, $failed failed"
if [ "$failed" -ne 0 ]; then
    echo "queue_limit.sh: see $work" >&2
    exit 1
fi
rm -rf "$work"
