#!/usr/bin/env bash
# A job that is appended to `jobs` just before the file is renamed: the renaming is held for half a second, by strace, and the
# job is appended meanwhile. It has to be there afterwards, and to come in the next session. It is tried with a file of
# jobs, and where there is none yet.
#
#   tests/appended_late.sh [PROGRAM]
#
# It prints a line for each, and ends with status 1 where the job is lost. It needs strace.
. "$(dirname "$(readlink -f "$0")")/common.sh"
find_program "${1:-}"
command -v strace >/dev/null || {
    echo "appended_late.sh: there is no strace" >&2
    exit 1
}
lost=0

# try NAME: with the folders as they are in `work`.
try() {
    local session i status=0
    strace -f -o /dev/null -e trace=rename -e inject=rename:delay_enter=500000 \
        "$program" pair "$work/line" "$work/a" "$work/b" >"$work/out" 2>&1 &
    session=$!
    for ((i = 0; i < 2000; i++)); do
        ! compgen -G "$work/a/.part*" >/dev/null || break
        sleep 0.005
    done
    sleep 0.25
    echo "send y y u" >>"$work/a/jobs"
    wait "$session" || status=$?
    "$program" pair "$work/line" "$work/a" "$work/b" >"$work/out" 2>&1 || true
    if [ "$status" -eq 0 ] && cmp -s "$work/a/send/y" "$work/b/got/y"; then
        echo "$1: it came"
    else
        echo "$1: it is lost (status $status)"
        lost=$((lost + 1))
    fi
    rm -rf "$work"
}

new_folders() {
    work=$(mktemp -d)
    mkdir -p "$work"/{a,b}/{send,got}
    echo x >"$work/a/send/x"
    echo y >"$work/a/send/y"
}

new_folders
echo "send x x u" >"$work/a/jobs"
try "behind another job"
new_folders
try "where no job was queued yet"
[ "$lost" -eq 0 ]
