#!/usr/bin/env bash
# `answer --sessions N`: calls one after the other over one socket that listens. What each of them moves and prints, what ends the
# run before there were N, and its status. Then ends whose partner dies: whichever call finds it, they end in one way.
#
#   tests/sessions.sh [PROGRAM]
#
# Each row is a line where it failed; the last line counts them, and the status is 1 where one did. It takes about a minute.
. "$(dirname "$(readlink -f "$0")")/common.sh"
find_program "${1:-}"
new_passing_work

# folders: those of the ends `far`, which is called, and `near`, which calls.
folders() {
    rm -rf "${work:?}"/*
    mkdir -p "$work"/{near,far}/{send,got}
}

# start LINE [WORD..]: the called end, in the background.
start() {
    "$program" answer "$1" "$work/far" --me far --peer near --timeout 2 "${@:2}" >"$work/printed" 2>"$work/said" </dev/null &
    answerer=$!
}

# call_with LINE NAME TEXT [WORD..]: a call that sends a file of this name and text.
call_with() {
    echo "$3" >"$work/near/send/$2"
    echo "send $2 ~/$2 me" >"$work/near/jobs"
    "$program" call "$1" "$work/near" --me near --peer far --timeout 2 "${@:4}" >"$work/called" 2>"$work/call.said" </dev/null
}

# ends STATUS PRINTED SAID: sets `fault` to what is not so of the called end, which has printed and said these lines.
ends() {
    end_of "$answerer" 20
    fault=
    [ "$status" -eq "$1" ] || fault="status $status;"
    [ "$(cat "$work/printed")" = "$2" ] || fault="$fault printed $(cat "$work/printed");"
    [ "$(cat "$work/said")" = "$3" ] || fault="$fault said $(cat "$work/said");"
}

# has_got NAME TEXT: whether the called end has this file.
has_got() {
    same "$2"$'\n' "$work/far/got/$1"
}

done_line="called done pending 0 struck 0 failed 0"
nobody="called gaveup pending 0 struck 0 failed 0"

# three LINE IS_THERE: three calls, each with a file, and one from the called end that is queued between them.
three() {
    local line=$1 is_there=$2
    folders
    start "$line" --sessions 3
    wait_until 10 "$is_there" || true
    call_with "$line" x one
    "$is_there" || fault_before="nobody listens behind the first call;"
    echo back >"$work/far/send/b"
    echo "send b ~/b me" >"$work/far/jobs"
    call_with "$line" y two
    call_with "$line" z three
    ends 0 "$done_line"$'\n'"called done pending 0 struck 1 failed 0"$'\n'"$done_line" ""
    fault="${fault_before:-}$fault"
    has_got x one && has_got y two && has_got z three || fault="$fault not all files came;"
    same $'back\n' "$work/near/got/b" || fault="$fault its own file was not sent;"
    ! "$is_there" || fault="$fault somebody listens still;"
}

at_socket() {
    listens_at "$work/line"
}

at_port() {
    grep -qE "^ *[0-9]+: 0100007F:$(printf %04X "$port") 00000000:0000 0A " /proc/net/tcp
}

three "unix:$work/line" at_socket
[ ! -e "$work/line" ] || fault="$fault the socket is left;"
report "three calls at a Unix socket" "$fault"

port=$((20000 + RANDOM % 10000))
three "tcp:127.0.0.1:$port" at_port
report "three calls at a port" "$fault"

# One that nobody has told a number lets in one caller.
folders
start "unix:$work/line"
wait_for_socket "$work/line" || true
call_with "unix:$work/line" x one
ends 0 "$done_line" ""
report "one call without the option" "$fault"

# The socket of one that was killed is taken over, and that of one that waits is not.
folders
start "unix:$work/line"
wait_for_socket "$work/line" || true
other=0
"$program" answer "unix:$work/line" "$work/near" --me far --peer near >"$work/other" 2>"$work/other.said" </dev/null || other=$?
fault=
[ "$other" -eq 3 ] && same $'uucpair: device fault\nuucpair: '"unix:$work/line: address in use"$'\n' "$work/other.said" \
    || fault="ended with $other, said $(cat "$work/other.said")"
report "a socket at which another waits" "$fault"
{
    kill -9 "$answerer"
    wait "$answerer" || true
} 2>/dev/null
[ -S "$work/line" ] || fault="there is no socket of it;"
start "unix:$work/line"
wait_until 10 at_socket || true
call_with "unix:$work/line" x one
ends 0 "$done_line" ""
has_got x one || fault="$fault the file did not come;"
report "the socket of one that was killed" "$fault"

# A caller who hangs up behind the greeting.
breaks_off() {
    python3 - "$work/line" <<'END'
import socket, sys
line = socket.socket(socket.AF_UNIX)
line.connect(sys.argv[1])
heard = b""
while b"Shere" not in heard or not heard.endswith(b"\0"):
    heard += line.recv(4096)
line.sendall(b"\x10Snear\0")
while b"Pg" not in heard:
    heard += line.recv(4096)
line.sendall(b"\x10Ug\0")
END
}

folders
start "unix:$work/line" --sessions 2
wait_for_socket "$work/line" || true
breaks_off
call_with "unix:$work/line" x one
ends 1 "called hungup pending 0 struck 0 failed 0"$'\n'"$done_line" ""
has_got x one || fault="$fault the file did not come;"
report "a session that ends badly stops no other" "$fault"

# A caller whom the end does not know counts for none.
folders
start "unix:$work/line" --sessions 2
wait_for_socket "$work/line" || true
call_with "unix:$work/line" x one
ended=0
"$program" call "unix:$work/line" "$work/near" --me other --peer far --timeout 2 >"$work/called" 2>/dev/null || ended=$?
call_with "unix:$work/line" y two
ends 0 "$done_line"$'\n'"$done_line" 'uucpair: heard "Sother", expected "near"'
[ "$ended" -eq 1 ] || fault="$fault the stranger ended with $ended;"
has_got x one && has_got y two || fault="$fault not all files came;"
report "a stranger counts for none" "$fault"

# A job that fails is told of behind its own session, and not at the end.
folders
start "unix:$work/line" --sessions 2
wait_for_socket "$work/line" || true
echo "send none ~/none me" >"$work/far/jobs"
call_with "unix:$work/line" x one
wait_until 5 grep -q none "$work/said" || true
why="uucpair: send none ~/none me: no file $work/far/send/none"
before=
[ "$(cat "$work/said")" = "$why" ] || before="between the calls it said $(cat "$work/said");"
call_with "unix:$work/line" y two
failed_line="called done pending 0 struck 0 failed 1"$'\n'"called failed send none ~/none me"
ends 0 "$failed_line"$'\n'"$done_line" "$why"
report "what is said of a session is said behind it" "$before$fault"

# A bad line of its jobs stops it not: it is said, and the next caller is heard.
folders
start "unix:$work/line" --sessions 3
wait_for_socket "$work/line" || true
call_with "unix:$work/line" x one
echo "put x y me" >"$work/far/jobs"
ended=0
call_with "unix:$work/line" y two || ended=$?
: >"$work/far/jobs"
call_with "unix:$work/line" z three
ends 2 "$done_line"$'\n'"$done_line" 'uucpair: bad jobs at line 1'$'\n'"uucpair: $work/far/jobs: line 1: \"put\" is neither send nor request
uucpair: bad jobs at line 1"
[ "$ended" -eq 1 ] || fault="$fault the second caller ended with $ended;"
[ ! -e "$work/line" ] || fault="$fault the socket is left;"
report "a bad line of its jobs" "$fault"

# Each wait is as long, and one in which nobody calls is the last.
folders
start "unix:$work/line" --sessions 5 --wait 3
wait_for_socket "$work/line" || true
begun=$SECONDS
for name in w x y; do
    pause 2
    call_with "unix:$work/line" "$name" text
done
ends 1 "$done_line"$'\n'"$done_line"$'\n'"$done_line"$'\n'"$nobody" "uucpair: heard nothing (is the other end calling? a terminal has to be raw: stty raw -echo)"
took=$((SECONDS - begun))
[ "$took" -ge 8 ] && [ "$took" -le 12 ] || fault="$fault it took $took s;"
[ ! -e "$work/line" ] || fault="$fault the socket is left;"
report "it waits as long each time" "$fault"

# Callers who come together wait for each other.
folders
start "unix:$work/line" --sessions 4
wait_for_socket "$work/line" || true
callers=()
for name in a b c d; do
    mkdir -p "$work/$name"/{send,got}
    head -c 300000 /dev/urandom >"$work/$name/send/$name"
    echo "send $name ~/$name me" >"$work/$name/jobs"
    "$program" call "unix:$work/line" "$work/$name" --me near --peer far >"$work/$name.printed" 2>&1 </dev/null &
    callers+=($!)
done
fault_of_callers=
for caller in "${callers[@]}"; do
    end_of "$caller" 60
    [ "$status" -eq 0 ] || fault_of_callers="a caller ended with $status;"
done
ends 0 "$done_line"$'\n'"$done_line"$'\n'"$done_line"$'\n'"$done_line" ""
for name in a b c d; do
    cmp -s "$work/$name/send/$name" "$work/far/got/$name" || fault="$fault $name did not come;"
done
report "four who call at once" "$fault_of_callers$fault"

# The reports go to one file, one behind the other.
folders
echo old >"$work/report"
start "unix:$work/line" --sessions 2 --report "$work/report"
wait_for_socket "$work/line" || true
call_with "unix:$work/line" x one
call_with "unix:$work/line" y two
ends 0 "" ""
same "$done_line"$'\n'"$done_line"$'\n' "$work/report" || fault="$fault the report is $(cat "$work/report");"
report "the reports in a file" "$fault"

# usage NAME SAID WORD..
usage() {
    local ended=0 fault=
    timeout 20 "$program" "${@:3}" --me far --peer near >"$work/printed" 2>"$work/said" </dev/null || ended=$?
    [ "$ended" -eq 2 ] && [ ! -s "$work/printed" ] && [ "$(cat "$work/said")" = "uucpair: bad usage"$'\n'"uucpair: $2" ] \
        || fault="ended with $ended, said $(cat "$work/said")"
    report "$1" "$fault"
}

folders
usage "no session" "sessions 0 is not 1 to 1000000" answer "unix:$work/line" "$work/far" --sessions 0
usage "too many sessions" "sessions 1000001 is not 1 to 1000000" answer "unix:$work/line" "$work/far" --sessions 1000001
once="sessions 2 is not 1: only a socket allows more"
usage "two sessions at standard input" "$once" answer - "$work/far" --sessions 2
usage "two sessions at a device" "$once" answer /dev/null "$work/far" --sessions 2

# A caller has one session.
ended=0
"$program" call "unix:$work/line" "$work/near" --me near --peer far --sessions 2 >"$work/printed" 2>"$work/said" || ended=$?
fault=
[ "$ended" -eq 2 ] && grep -q "unexpected argument '--sessions'" "$work/said" || fault="ended with $ended, said $(cat "$work/said")"
report "two sessions of a caller" "$fault"

# ---- the other end dies

# hangs_up LINE SIDE JOBS: sets `fault` to what is not so of an end on this side that is left alone; JOBS is a pattern of those that
# pend and are struck. If it says anything it is what the system says of the line.
hangs_up() {
    local words="uucpair: $1: (connection reset|broken pipe|error 5)"
    # A terminal that hangs up drops what was not read yet.
    [ "$1" != "$work/line" ] || words="$words|uucpair: heard \"S(here=far|near)\", and then .*"
    fault=
    [ "$status" -eq 1 ] || fault="status $status;"
    [[ "$(head -n 1 "$work/printed")" =~ ^$2\ hungup\ pending\ $3\ failed\ 0$ ]] || fault="$fault printed $(cat "$work/printed");"
    ! grep -qvxE "$words" "$work/said" || fault="$fault said $(cat "$work/said")"
}

# place KIND: sets `line` to that of our end at a new line, and `theirs` to that of the other one.
place() {
    case $1 in
    unix) line=unix:$work/line theirs=$line ;;
    tcp)
        port=$((20000 + RANDOM % 10000))
        line=tcp:127.0.0.1:$port theirs=tcp:$port
        ;;
    pty) line=$work/line theirs=pty:$work/line ;;
    esac
}

# is_there KIND
is_there() {
    case $1 in
    unix) at_socket ;;
    tcp) at_port ;;
    pty) [ -e "$work/line" ] ;;
    esac
}

# dying ROLE HOW: the other end, in the background.
dying() {
    (
        python3 "$root/tests/dying_end.py" "$theirs" "$1" "$2" >"$work/dying" 2>&1 </dev/null
        exit $?
    ) 2>/dev/null &
    partner=$!
}

# alone_calling KIND HOW: an end that calls, and whose partner dies so.
alone_calling() {
    folders
    place "$1"
    dying answer "$2"
    wait_until 10 is_there "$1" || true
    status=0
    call_with "$line" x one --locks "$work" || status=$?
    mv "$work/called" "$work/printed"
    mv "$work/call.said" "$work/said"
    hangs_up "$line" caller "1 struck 0"
    end_of "$partner" 5
    [ "$status" -eq 137 ] || fault="$fault the other end: $(cat "$work/dying")"
    report "a call over $1, $2" "$fault"
}

# alone_called KIND HOW: the same of one that is called. At a socket it has another session then.
alone_called() {
    local words=(--sessions 2)
    folders
    place "$1"
    if [ "$1" = pty ]; then
        words=(--locks "$work")
        dying call "$2"
        wait_until 10 is_there pty || true
    fi
    start "$line" "${words[@]}"
    if [ "$1" != pty ]; then
        wait_until 10 is_there "$1" || true
        dying call "$2"
        wait_until 10 has_ended "$partner" || true
        call_with "$line" x one || true
    fi
    end_of "$answerer" 20
    hangs_up "$line" called "0 struck 0"
    if [ "$1" != pty ]; then
        [ "$(tail -n +2 "$work/printed")" = "$done_line" ] && has_got x one || fault="$fault the next call: $(cat "$work/printed")"
    fi
    end_of "$partner" 5
    [ "$status" -eq 137 ] || fault="$fault the other end: $(cat "$work/dying")"
    report "an answer over $1, $2" "$fault"
}

for kind in unix tcp pty; do
    for how in unread read speaking; do
        alone_calling "$kind" "$how"
        alone_called "$kind" "$how"
    done
done

# slowly: sets `slow` to the words of ends that take a while for the file that each has for the other, eight times.
slowly() {
    local number
    folders
    head -c 1000000 /dev/urandom >"$work/near/send/x"
    head -c 1000000 /dev/urandom >"$work/far/send/y"
    : >"$work/near/jobs"
    : >"$work/far/jobs"
    for number in {1..8}; do
        echo "send x ~/x$number me" >>"$work/near/jobs"
        echo "send y ~/y$number me" >>"$work/far/jobs"
    done
    : >"$work/caller.said"
    : >"$work/called.said"
    slow=(--timeout 2 --size 32 --window 1)
}

# killed KIND ROLE ROUND: the end in this role is left alone by one of this program that is killed while files move.
killed() {
    local left partner
    slowly
    place "$1"
    "$program" answer "$line" "$work/far" --me far --peer near -v "${slow[@]}" >"$work/called" 2>"$work/called.said" </dev/null &
    answerer=$!
    wait_until 10 is_there "$1" || true
    "$program" call "$line" "$work/near" --me near --peer far -v "${slow[@]}" >"$work/caller" 2>"$work/caller.said" </dev/null &
    left=$answerer partner=$!
    [ "$2" = called ] || left=$! partner=$answerer
    wait_until 20 grep -q " send x " "$work/$2.said" || true
    pause "0.$((1 + RANDOM % 3))"
    kill -9 "$partner"
    wait "$partner" 2>/dev/null || true
    end_of "$left" 20
    mv "$work/$2" "$work/printed"
    grep -vE "^uucpair: ([0-9]+ s: |wrote |read |[0-9]+ timeouts|heard last )" "$work/$2.said" >"$work/said" || true
    hangs_up "$line" "$2" "[1-8] struck [0-7]"
    report "the $2 end over $1 whose partner is killed, $3" "$fault"
}

for kind in unix tcp; do
    for round in 1 2 3; do
        killed "$kind" caller "$round"
        killed "$kind" called "$round"
    done
done

echo "$passed passed, $failed failed"
[ "$failed" -eq 0 ]
