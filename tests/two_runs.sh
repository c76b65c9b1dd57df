#!/usr/bin/env bash
# Two runs at once over one folder: `answer` listens at two sockets for the folder `hub`, and two systems call it at the same
# moment, each with eight files. A run that finds the folder in use is turned away, with status 3 and a line that says so,
# and its caller calls again. No file may come with other bytes than it was sent with, and no job may be lost.
#
#   tests/two_runs.sh [ROUNDS [PROGRAM]]
#
# It prints how many rounds were well, and ends with status 1 where one was not. The folders stay then.
. "$(dirname "$(readlink -f "$0")")/common.sh"
rounds=${1:-12}
files=8
find_program "${2:-}"
new_work

# make_folders: `hub`, and two systems that have files for it of the same lengths and other bytes.
make_folders() {
    local system i
    rm -rf "$work"/{hub,left,right}
    mkdir -p "$work/hub"/{send,got}
    : >"$work/hub/jobs"
    for system in left right; do
        mkdir -p "$work/$system"/{send,got}
        for ((i = 0; i < files; i++)); do
            head -c 20000 /dev/urandom >"$work/$system/send/f$i"
            echo "send f$i $system$i u" >>"$work/$system/jobs"
        done
    done
}

# answer_at SYSTEM: the hub answers this system once. Its status goes to a file.
answer_at() {
    local status=0
    rm -f "$work/$1.line"
    "$program" answer "unix:$work/$1.line" "$work/hub" --me hub --peer "$1" \
        >"$work/$1.answer" 2>"$work/$1.answer.err" || status=$?
    echo "$status" >"$work/$1.answer.status"
}

# call_from SYSTEM: calls the hub, as soon as it listens.
call_from() {
    wait_for_socket "$work/$1.line" || true
    "$program" call "unix:$work/$1.line" "$work/$1" --me "$1" --peer hub \
        >"$work/$1.call" 2>"$work/$1.call.err" || true
}

# Both systems call at once. Counts the runs that were turned away, which must say why.
both_call() {
    local system
    for system in left right; do
        answer_at "$system" &
    done
    for system in left right; do
        call_from "$system" &
    done
    wait
    for system in left right; do
        grep -q "is in use" "$work/$system.answer.err" || continue
        turned_away=$((turned_away + 1))
        [ "$(cat "$work/$system.answer.status")" -eq 3 ] || return 1
        [ "$(cat "$work/$system.answer.err")" = "$(printf 'uucpair: device fault\nuucpair: %s is in use' "$work/hub")" ] || return 1
    done
}

# Whether each file that is gone from the jobs has come whole, and none came with other bytes.
is_well() {
    local system i
    for system in left right; do
        for ((i = 0; i < files; i++)); do
            if [ -e "$work/hub/got/$system$i" ]; then
                cmp -s "$work/$system/send/f$i" "$work/hub/got/$system$i" || return 1
            else
                grep -qx "send f$i $system$i u" "$work/$system/jobs" || return 1
            fi
        done
    done
}

# Whether all files have come, and nothing else is left.
is_all() {
    [ "$(find "$work/hub/got" -type f | wc -l)" -eq $((files * 2)) ] || return 1
    [ "$(find "$work/hub/got" "$work/hub" -maxdepth 1 -name '.*' -type f | wc -l)" -eq 0 ] || return 1
    [ "$(cat "$work/left/jobs" "$work/right/jobs" | wc -c)" -eq 0 ]
}

well=0 turned_away=0 with_turned_away=0
for ((round = 1; round <= rounds; round++)); do
    make_folders
    before=$turned_away
    is_good=1
    both_call || is_good=0
    is_well || is_good=0
    for _ in 1 2 3; do
        for system in left right; do
            [ -s "$work/$system/jobs" ] || continue
            answer_at "$system" &
            call_from "$system"
            wait $! || true
        done
    done
    is_well && is_all || is_good=0
    well=$((well + is_good))
    [ "$turned_away" -eq "$before" ] || with_turned_away=$((with_turned_away + 1))
done
echo "$well of $rounds rounds were well; in $with_turned_away of them a run was turned away"
[ "$well" -eq "$rounds" ] || {
    echo "two_runs.sh: files or jobs are wrong; see $work" >&2
    exit 1
}
rm -rf "$work"
