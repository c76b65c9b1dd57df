#!/usr/bin/env bash
# What Taylor UUCP makes of a file that we can't read for a moment, and we of its RY with an M. Taylor asks for a file whose
# opening the system refuses us in the first session: its job has to wait, the mail after it has to come, and the next session
# has to bring the file. Then we ask Taylor, which has a job of its own, for a file. Needs Debian's packages (apt-get install
# uucp socat strace), and root, since uucico runs as the user uucp. Run by hand:
#     interop/later.sh [PROGRAM]
# PROGRAM is crates/uucpair/out/uucpair where none is named. Its last line is the number of rows that are as they should be.
set -u
root=$(cd "$(dirname "$0")/.." && pwd)
. "$root/interop/common.sh"
begin_work "$@"
good=0
rows=0

set_up() {
    new_ends "${both_ways[@]}"
    echo "the mail" >"$work/taylor/pub/mail"
    echo "theirs" >"$work/taylor/pub/theirs"
    echo "late" >"$work/ours/send/late"
    own_files
}

# row NAME EXPECTED GOT
row() {
    rows=$((rows + 1))
    if [ "$2" = "$3" ]; then
        good=$((good + 1))
        echo "$1: $3"
    else
        echo "$1: expected $2, but $3"
        cat "$work/err"
        tail -n 5 "$work/taylor/log/Log"
    fi
}

# answered WORD..: a session in which Taylor calls us; WORD.. goes before our program
answered() {
    front=("$@")
    wait_for_taylor "$work/line" -v
    taylor_calls_us
}

set_up
as_uucp uucp -I "$work/taylor/config" -r -g B 'ours!~/late' "$work/taylor/pub/late"
as_uucp uucp -I "$work/taylor/config" -r -g N "$work/taylor/pub/mail" 'ours!~/mail'
answered strace -f -o /dev/null -P "$work/ours/send/late" -e inject=openat:error=EMFILE
row "the session" "called done pending 0 struck 0 failed 0" "$(head -1 "$work/out")"
row "the mail after it" "the mail" "$(cat "$work/ours/got/mail" 2>&1)"
row "Taylor's jobs then" 1 "$(waiting)"
row "what is said" 1 "$(grep -c 'late is not given: it can.t be read' "$work/err")"
answered
row "the next session brings it" "late, 0 jobs" "$(cat "$work/taylor/pub/late" 2>&1), $(waiting) jobs"

set_up
as_uucp uucp -I "$work/taylor/config" -r "$work/taylor/pub/mail" 'ours!~/mail'
echo 'request ~/theirs theirs me' >"$work/ours/jobs"
front=()
taylor_waits "$work/line"
call_taylor -v
row "we ask, and Taylor has a job" "status 0, caller done pending 0 struck 1 failed 0" "status $?, $(head -1 "$work/out")"
row "what has come" "theirs, the mail" "$(cat "$work/ours/got/theirs" 2>&1), $(cat "$work/ours/got/mail" 2>&1)"
echo "$good of $rows as they should be"
[ "$good" = "$rows" ]
