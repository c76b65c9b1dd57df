#!/usr/bin/env bash
# Jobs that are queued or cancelled by `uucpair queue`: each form of it, what it refuses, and 200 jobs from 4 processes at once while
# sessions of `pair`, `call` and `answer` run over the same folder. Each file must come, whole and once.
#
#   tests/queue.sh [PROGRAM]
#
# It prints a line for each part, and ends with status 1 where one fails. The folders stay then.
# shellcheck disable=SC2088  # a tilde is the public folder of the other end
jobs=50
feeders=4
. "$(dirname "$(readlink -f "$0")")/common.sh"
find_program "${1:-}"
new_work

# row NAME STATUS PRINTED SAID WORD..: runs `queue` with the words. What it says on standard error ends with SAID.
row() {
    local name=$1 status=$2 printed=$3 said=$4 ended=0 text fault=
    shift 4
    "$program" queue "$@" >"$work/out" 2>"$work/err" || ended=$?
    text=$(cat "$work/err")
    [ "$ended" -eq "$status" ] && [ "$(cat "$work/out")" = "$printed" ] && [[ $text == *"$said" && (-n $said || -z $text) ]] ||
        fault="status $ended, printed $(cat "$work/out"), said $text"
    report "$name" "$fault"
}

# holds NAME FILE TEXT
holds() {
    local fault=
    [ "$(cat "$2")" = "$3" ] || fault="$2 has $(cat "$2")"
    report "$1" "$fault"
}

forms() {
    local d=$work/d long i bad
    mkdir -p "$d/send" "$work/files"
    echo one >"$work/files/x"
    echo two >"$work/x"
    : >"$work/.hidden"
    : >"$work/a b"
    head -c 1048576 /dev/zero >"$work/most"
    truncate -s 268435457 "$work/more"
    row "nothing waits" 0 "" "" "$d"
    row "send" 0 "queued send x x me" "" "$d" send "$work/files/x" --user me
    holds "its copy" "$d/send/x" one
    row "a name that is taken" 0 "queued send x.1 y me" "" "$d" send "$work/x" y --user me
    holds "its copy" "$d/send/x.1" two
    holds "the first copy" "$d/send/x" one
    row "request" 0 "queued request ~/q q me" "" "$d" request '~/q' --user me
    row "request with a target" 0 "queued request ~/q r me" "" "$d" request '~/q' r --user me
    row "the list" 0 $'send x x me\nsend x.1 y me\nrequest ~/q q me\nrequest ~/q r me' "" "$d"
    holds "jobs" "$d/jobs" $'send x x me\nsend x.1 y me\nrequest ~/q q me\nrequest ~/q r me'
    USER=u LOGNAME=l row "the user of the system" 0 "queued request q q u" "" "$d" request q
    USER='a b' LOGNAME=l row "a user that is no name" 0 "queued request q q l" "" "$d" request q
    row "a cancel by its number" 0 "cancelled request q q l" "" "$d" --cancel 6
    row "a cancel by its line" 0 "cancelled request q q u" "" "$d" --cancel 'request q q u'
    row "a cancel of no job" 1 "" "\"request q q u\": no such job: give a number from 1 to 4, or a line of the list" "$d" --cancel 'request q q u'
    row "a cancel beyond the list" 1 "" "\"5\": no such job: give a number from 1 to 4, or a line of the list" "$d" --cancel 5
    row "a cancel with an order" 2 "" "queue a job or cancel one, not both" "$d" send "$work/x" --cancel 1
    row "the list then" 0 $'send x x me\nsend x.1 y me\nrequest ~/q q me\nrequest ~/q r me' "" "$d"
    (
        unset USER LOGNAME
        row "no user" 0 "queued request q q uucp" "" "$d" request q
        exit "$failed"
    ) || failed=$((failed + 1))
    row "a large file" 0 "queued send most most me" "" "$d" send "$work/most" --user me
    row "a file that is too long" 3 "" "uucpair: over a limit"$'\n'"uucpair: $work/more: too large" "$d" send "$work/more"
    row "no file" 3 "" "can't read $work/none"$'\n'"uucpair: $work/none: no such file or directory" "$d" send "$work/none"
    row "a folder" 3 "" "can't read $work/files"$'\n'"uucpair: $work/files: not a regular file" "$d" send "$work/files"
    mkfifo "$work/pipe"
    row "a pipe" 3 "" "can't read $work/pipe"$'\n'"uucpair: $work/pipe: not a regular file" "$d" send "$work/pipe"
    row "a hidden file" 2 "" "without spaces or a leading dot" "$d" send "$work/.hidden"
    row "a file with a space" 2 "" "without spaces or a leading dot" "$d" send "$work/a b"
    row "no file is named" 2 "" "FILE is missing: uucpair queue DIR send FILE" "$d" send
    row "a bad target" 2 "" "without spaces" "$d" send "$work/x" 'a b'
    row "a bad user" 2 "" "without spaces" "$d" send "$work/x" --user 'a b'
    row "another order" 2 "" "\"fetch\" is neither send nor request: uucpair queue DIR send FILE, or uucpair queue DIR request FILE" "$d" fetch x
    row "a folder that is not there" 3 "" "device fault"$'\n'"uucpair: $work/gone: no such file or directory" "$work/gone"
    row "a folder that is not there" 3 "" "device fault"$'\n'"uucpair: $work/gone: no such file or directory" "$work/gone" request q
    mkdir "$work/bare"
    row "no send" 3 "" "device fault"$'\n'"uucpair: $work/bare/send: no such file or directory (make it: the files of jobs go there)" "$work/bare" send "$work/x"
    row "a request needs none" 0 "queued request q q me" "" "$work/bare" request q --user me
    # A name that a job has whose file is not there is taken too; a line without its line feed gets one.
    mkdir -p "$work/e/send"
    printf 'send x y u' >"$work/e/jobs"
    row "a name that a job has" 0 "queued send x.1 x me" "" "$work/e" send "$work/x" --user me
    holds "a line feed" "$work/e/jobs" $'send x y u\nsend x.1 x me'
    printf 'send x y u\nbad\n' >"$work/e/jobs"
    bad="bad jobs at line 2"$'\n'"uucpair: $work/e/jobs: line 2: \"bad\" is neither send nor request"
    row "bad jobs" 2 "" "$bad" "$work/e" send "$work/x"
    row "the list of bad jobs" 2 "" "$bad" "$work/e"
    row "a cancel in bad jobs" 2 "" "$bad" "$work/e" --cancel 1
    holds "bad jobs stay" "$work/e/jobs" $'send x y u\nbad'
    for ((i = 0; i < 1024; i++)); do echo "request q q u"; done >"$work/e/jobs"
    row "a job too many" 2 "" "bad jobs at line 1025"$'\n'"uucpair: $work/e/jobs: the limit of 1024 jobs is reached: call, or cancel one" "$work/e" send "$work/x"
    # The copy whose line was overwritten stays, and that of the refused job is gone.
    [ "$(echo "$work"/e/send/.[!.]* "$work"/e/send/*)" = "$work/e/send/.copy.x.1 $work/e/send/x.1" ] || {
        failed=$((failed + 1))
        echo "a refused job leaves $(ls -A "$work/e/send")" >&2
    }
    row "the last of the most jobs" 0 "cancelled request q q u" "" "$work/e" --cancel 1024
    row "a job in its place" 0 "queued request r r me" "" "$work/e" request r --user me
    long=$(head -c 200 /dev/zero | tr '\0' n)
    : >"$work/$long"
    row "a long name" 0 "queued send $long $long me" "" "$d" send "$work/$long" --user me
    row "a long name that is taken" 3 "" "device fault"$'\n'"uucpair: $d/send/$long: it already exists" "$d" send "$work/$long" --user me
    echo "forms: $passed of $((passed + failed)) rows passed"
}

# feed DIR NUMBER: one of the processes that queue at once.
feed() {
    local i
    mkdir -p "$work/feed$2"
    for ((i = 0; i < jobs; i++)); do
        echo "file $2 $i" >"$work/feed$2/f"
        "$program" queue "$1" send "$work/feed$2/f" "t$2.$i" --user u >>"$work/queued$2" 2>>"$work/feed.err" ||
            echo "queue failed with $?" >>"$work/feed.err"
    done
}

session_pair() {
    "$program" pair "$work/line" "$1" "$2" >"$work/run.out" 2>"$work/run.err"
}

# meet CALLER CALLED: a session of both, at a line of their own.
meet() {
    local status=0
    rm -f "$work/line"
    "$program" answer "unix:$work/line" "$2" --me b --peer a >"$work/answer.out" 2>"$work/answer.err" &
    wait_for_socket "$work/line" || {
        echo "queue.sh: nobody listens; see $work" >&2
        exit 1
    }
    "$program" call "unix:$work/line" "$1" --me a --peer b >"$work/run.out" 2>"$work/run.err" || status=$?
    wait $! || status=$?
    return "$status"
}

session_call() {
    meet "$1" "$2"
}

# The folder to which jobs are queued is that of the called end.
session_answer() {
    meet "$2" "$1"
}

# try KIND: sessions until all is queued and nothing is left. Each job is counted by the report lines of its sessions.
try() {
    local a=$work/$1/a b=$work/$1/b feeder=() i n sessions=0 behind=0 missing=0 struck=0 more
    mkdir -p "$a"/{send,got} "$b"/{send,got}
    rm -f "$work"/queued* "$work/feed.err"
    for ((n = 0; n < feeders; n++)); do
        feed "$a" "$n" &
        feeder+=($!)
    done
    while [ "$behind" -eq 0 ] || { [ -s "$a/jobs" ] && [ "$behind" -lt 20 ]; }; do
        kill -0 "${feeder[@]}" 2>/dev/null || { wait "${feeder[@]}" || true; behind=$((behind + 1)); }
        session_"$1" "$a" "$b" || {
            echo "queue.sh: a session failed; see $work" >&2
            exit 1
        }
        more=$(cat "$work/run.out" "$work/answer.out" 2>/dev/null | sed -n 's/^'"$(side_of "$1")"' done pending .* struck \([0-9]*\) .*/\1/p')
        struck=$((struck + more))
        sessions=$((sessions + 1))
    done
    for ((n = 0; n < feeders; n++)); do
        for ((i = 0; i < jobs; i++)); do
            [ "$(cat "$b/got/t$n.$i" 2>/dev/null)" = "file $n $i" ] || missing=$((missing + 1))
        done
    done
    n=$((feeders * jobs))
    echo "$1: of $n jobs $missing are lost, $((struck - n + missing)) came twice, in $sessions sessions; left: $(wc -l <"$a/jobs")$(cat "$work/feed.err" 2>/dev/null)"
    [ "$missing" -eq 0 ] && [ "$struck" -eq "$n" ] && [ ! -s "$work/feed.err" ] || failed=$((failed + 1))
}

side_of() {
    if [ "$1" = answer ]; then echo called; else echo caller; fi
}

forms
try pair
try call
try answer
[ "$failed" -eq 0 ] || {
    echo "queue.sh: $failed failed; see $work" >&2
    exit 1
}
rm -rf "$work"
