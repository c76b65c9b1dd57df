#!/usr/bin/env bash
# Jobs that fail, and what stays of them: `call` and `answer` over a socket, with a job whose file is missing, one that the
# other end refuses, and one that asks for a file which it has not. Each must stand in `failed`, with why, before it is gone
# from `jobs`: also where the end is killed as soon as it is gone, where standard output is closed, and where `failed` can't be
# written, and then the job stays. A line that is taken from `failed` is tried again. And what `jobs` keeps: its mode, and the
# link that it is; the copies of `queue`, which go where their jobs go; and more files in `send` than `pair` takes.
#
#   tests/failed.sh [PROGRAM]
#
# It prints a line for each part, and ends with status 1 where one fails. The folders stay then.
# shellcheck disable=SC2119  # no word of the script is one of `talk`
. "$(dirname "$(readlink -f "$0")")/common.sh"
find_program "${1:-}"
new_work

# holds NAME FOUND EXPECTED
holds() {
    local fault=
    [ "$2" = "$3" ] || printf -v fault 'found %q, expected %q' "$2" "$3"
    report "$1" "$fault"
}

new_folders() {
    rm -rf "$work"/{a,b,line}
    mkdir -p "$work"/{a,b}/{send,got}
    echo one >"$work/a/send/x"
    echo two >"$work/a/send/y"
}

# names_in FOLDER: on one line.
names_in() {
    find "$1" -mindepth 1 -printf '%f\n' | sort | tr '\n' ' '
}

# talk [OPTION..]: one session. The status of the caller is in `ended`; what it prints is in out.
# shellcheck disable=SC2120  # most sessions have no option
talk() {
    "$program" answer "unix:$work/line" "$work/b" --me b --peer a >"$work/answer.out" 2>&1 &
    local answering=$!
    wait_for_socket "$work/line"
    ended=0
    "$program" call "unix:$work/line" "$work/a" --me a --peer b "$@" >"$work/out" 2>"$work/err" || ended=$?
    wait "$answering" || true
}

jobs_text='# mine
send gone g me
send x .hidden me
request none n me
send y y me'
told="# no such file to send, or it is too large
send gone g me
# refused by the other end
send x .hidden me
# not given by the other end, or can't be put in its place here
request none n me"

tells() {
    new_folders
    echo "$jobs_text" >"$work/a/jobs"
    talk
    holds "status" "$ended" 0
    holds "jobs" "$(cat "$work/a/jobs")" "# mine"
    holds "failed" "$(cat "$work/a/failed")" "$told"
    holds "the file behind them" "$(cat "$work/b/got/y")" two
    echo three >"$work/a/send/gone"
    tail -n +2 "$work/a/failed" | head -n 1 >>"$work/a/jobs"
    talk
    holds "a job that is tried again" "$(cat "$work/b/got/g")" three
    holds "what was told stays" "$(cat "$work/a/failed")" "$told"
}

# The end is stopped by strace when the new file of jobs is in its place, and by then the word of the job is on the disk.
is_killed() {
    command -v strace >/dev/null || return 0
    new_folders
    echo "send gone g me" >"$work/a/jobs"
    "$program" answer "unix:$work/line" "$work/b" --me b --peer a >/dev/null 2>&1 &
    local answering=$!
    wait_for_socket "$work/line"
    strace -f -qq -o /dev/null -e trace=rename,renameat,renameat2 \
        -e inject=rename,renameat,renameat2:signal=SIGKILL:when=1 \
        "$program" call "unix:$work/line" "$work/a" --me a --peer b >"$work/out" 2>/dev/null || true
    wait "$answering" || true
    holds "killed: failed" "$(cat "$work/a/failed")" $'# no such file to send, or it is too large\nsend gone g me'
    holds "killed: no report" "$(cat "$work/out")" ""
}

closed_output() {
    new_folders
    echo "send gone g me" >"$work/a/jobs"
    "$program" answer "unix:$work/line" "$work/b" --me b --peer a >/dev/null 2>&1 &
    local answering=$! ended=0
    wait_for_socket "$work/line"
    "$program" call "unix:$work/line" "$work/a" --me a --peer b >/dev/full 2>/dev/null || ended=$?
    wait "$answering" || true
    holds "full output: status" "$ended" 3
    holds "full output: failed" "$(tail -n 1 "$work/a/failed")" "send gone g me"
}

# `failed` is a folder, so it can't be appended to: the line is not opened.
can_not_tell() {
    new_folders
    mkdir "$work/a/failed"
    echo "$jobs_text" >"$work/a/jobs"
    ended=0
    "$program" call "unix:$work/line" "$work/a" --me a --peer b >/dev/null 2>"$work/err" || ended=$?
    holds "no failed: status" "$ended" 3
    holds "no failed: why" "$(tail -n 1 "$work/err")" "uucpair: $work/a/failed: is a directory"
    holds "no failed: jobs" "$(cat "$work/a/jobs")" "$jobs_text"
    rmdir "$work/a/failed"
    talk
    holds "no failed, then one: jobs" "$(cat "$work/a/jobs")" "# mine"
    holds "no failed, then one: failed" "$(cat "$work/a/failed")" "$told"
}

keeps_jobs() {
    new_folders
    mkdir "$work/elsewhere"
    echo "$jobs_text" >"$work/elsewhere/list"
    chmod 640 "$work/elsewhere/list"
    [ "$(id -u)" -ne 0 ] || chown 1:1 "$work/elsewhere/list"
    ln -s ../elsewhere/list "$work/a/jobs"
    local owner
    owner=$(stat -c %u:%g "$work/elsewhere/list")
    talk
    holds "the link" "$(readlink "$work/a/jobs")" ../elsewhere/list
    holds "what it leads to" "$(cat "$work/elsewhere/list")" "# mine"
    holds "the mode" "$(stat -c %a "$work/elsewhere/list")" 640
    holds "the owner" "$(stat -c %u:%g "$work/elsewhere/list")" "$owner"
    holds "nothing beside it" "$(ls -A "$work/elsewhere")" list
}

clears_copies() {
    new_folders
    local i
    mkdir -p "$work/files"
    echo mine >"$work/a/send/mine"
    for ((i = 0; i < 3; i++)); do
        echo "$i" >"$work/files/f$i"
        "$program" queue "$work/a" send "$work/files/f$i" --user me >/dev/null
    done
    "$program" queue "$work/a" send "$work/files/f0" .no --user me >/dev/null
    holds "copies" "$(names_in "$work/a/send")" ".copy.f0 .copy.f0.1 .copy.f1 .copy.f2 f0 f0.1 f1 f2 mine x y "
    talk
    holds "queued files" "$(cat "$work/b/got"/f?)" $'0\n1\n2'
    holds "copies behind the session" "$(names_in "$work/a/send")" "mine x y "
    holds "the copy of a failed job" "$(cat "$work/a/failed.files/f0.1")" 0
    # its line is tried again with its copy, and no other copy gets its name
    "$program" queue "$work/a" send "$work/files/f1" f0 --user me >/dev/null
    sed -n 's/\.no/again/; $p' "$work/a/failed" >>"$work/a/jobs"
    : >"$work/files/f0.1"
    "$program" queue "$work/a" send "$work/files/f0.1" --user me >/dev/null
    talk
    holds "a copy that is tried again" "$(cat "$work/b/got/again")" 0
    holds "what was told stays" "$(names_in "$work/a/failed.files")" "f0.1 "
    : >"$work/a/send/.part.1.0"
    "$program" queue "$work/a" send "$work/files/f1" --user me >/dev/null
    holds "copies that are needed" "$(names_in "$work/a/send")" ".copy.f1 f1 mine x y "
    # somebody has put another file in the place of a copy
    echo other >"$work/other"
    mv "$work/other" "$work/a/send/f1"
    : >"$work/a/jobs"
    "$program" queue "$work/a" send "$work/files/f2" --user me >/dev/null
    holds "a file of somebody else" "$(cat "$work/a/send/f1")" other
    # nothing goes while somebody replaces the file of the jobs
    mv "$work/a/jobs" "$work/a/jobs.mine"
    talk
    holds "copies without jobs" "$(names_in "$work/a/send")" ".copy.f2 f1 f2 mine x y "
    mv "$work/a/jobs.mine" "$work/a/jobs"
    for ((i = 0; i < 300; i++)); do
        : >"$work/a/jobs"
        "$program" queue "$work/a" send "$work/files/f2" --user me >/dev/null || break
    done
    holds "files one after the other" "$i" 300
}

# A peer that was down: copies of 290 jobs wait, as `queue` makes them. More can be queued, one session sends all, and they leave
# room for what the other end asks for.
many_files() {
    new_folders
    local i
    mkdir -p "$work/files"
    for ((i = 0; i < 290; i++)); do
        echo "$i" >"$work/a/send/n$i"
        ln "$work/a/send/n$i" "$work/a/send/.copy.n$i"
        echo "send n$i n$i me"
    done >"$work/a/jobs"
    echo more >"$work/files/more"
    "$program" queue "$work/a" send "$work/files/more" --user me >/dev/null
    echo "request y y me" >"$work/b/jobs"
    talk
    holds "many: jobs" "$(cat "$work/a/jobs")" ""
    holds "many: got" "$(find "$work/b/got" -name 'n*' -o -name more | wc -l)" 291
    holds "many: a file that is asked for" "$(cat "$work/b/got/y")" two
    holds "many: copies" "$(names_in "$work/a/send")" "x y "
}

# A pipe without a reader holds nobody: it is refused before anything is opened.
pipes() {
    new_folders
    mkfifo "$work/pipe"
    local option ended
    for option in --report --log; do
        ended=0
        timeout 20 "$program" call "unix:$work/line" "$work/a" --me a --peer b "$option" "$work/pipe" >"$work/out" 2>"$work/err" || ended=$?
        holds "$option: status" "$ended" 3
        holds "$option: said" "$(tail -n 1 "$work/err")" "uucpair: $work/pipe: a named pipe may have no reader: name a file, /dev/stdout or /dev/stderr"
    done
    ended=0
    timeout 20 "$program" call "unix:$work/line" "$work/a" --me a --peer b --size 7 --report "$work/pipe" >"$work/out" 2>"$work/err" || ended=$?
    holds "bad usage: status" "$ended" 2
    for option in failed jobs; do
        new_folders
        mkfifo "$work/a/$option"
        ended=0
        timeout 20 "$program" call "unix:$work/line" "$work/a" --me a --peer b >"$work/out" 2>"$work/err" || ended=$?
        holds "$option: status" "$ended" 3
        holds "$option: said" "$(tail -n 1 "$work/err")" "uucpair: $work/a/$option: not a regular file"
    done
    ended=0
    timeout 20 "$program" queue "$work/a" request q >"$work/out" 2>"$work/err" || ended=$?
    holds "a pipe of jobs: status" "$ended" 3
    new_folders
    talk --report /dev/stdout --log /dev/null
    holds "a report through a pipe" "$(head -n 1 "$work/out")" "caller done pending 0 struck 0 failed 0"
    "$program" answer "unix:$work/line" "$work/b" --me b --peer a >/dev/null 2>&1 &
    wait_for_socket "$work/line"
    holds "the same, of a shell" "$("$program" call "unix:$work/line" "$work/a" --me a --peer b --report /dev/stdout | cat)" "caller done pending 0 struck 0 failed 0"
    wait $! || true
}

for part in tells is_killed closed_output can_not_tell keeps_jobs clears_copies many_files pipes; do
    before=$failed
    $part
    echo "$part: $([ "$failed" -eq "$before" ] && echo well || echo failed)"
done
echo "$passed passed, $failed failed"
[ "$failed" -eq 0 ]
