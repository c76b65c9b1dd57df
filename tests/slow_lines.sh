#!/usr/bin/env bash
# Lines that are slow, full, or used by somebody else: strangers who connect and close, or send a byte now and then, before the
# real caller; a socket at which too many wait, of a Unix path and of a port; processes that are stopped and go on; and a serial
# line of 1,200 bit/s.
#
#   tests/slow_lines.sh [PROGRAM]
#
# Each scene is a line. It ends with how many went well, and with status 1 where one did not; the folders stay then. It takes
# some three minutes.
. "$(dirname "$(readlink -f "$0")")/common.sh"
find_program "${1:-}"
new_work
lines=$root/tests/slow_lines.py
well=0 all=0

# helper COMMAND..: one at the other side, which is ended with the scene.
helper() {
    python3 "$lines" "$@" >"$work/helper.out" 2>>"$work/helper.err" &
    helpers+=($!)
}

# pace RATE SECONDS: a serial line that carries so many bytes a second. Whether it is there.
pace() {
    helper paced "$work/near" "$work/far" "$1" "$2"
    wait_until 10 test -e "$work/far"
}

# make_folders BYTES: `a` has a file of so many bytes for `b`.
make_folders() {
    rm -rf "$work"/{a,b,line,near,far,ready}
    mkdir -p "$work"/{a,b}/{send,got}
    head -c "$1" /dev/urandom >"$work/a/send/x"
    echo "send x y u" >"$work/a/jobs"
    : >"$work/b/jobs"
}

# answer LINE [OPTION]..: b waits to be called, as the process `answerer`.
answer() {
    "$program" answer "$1" "$work/b" --me b --peer a --locks "$work/none" "${@:2}" >"$work/b.out" 2>"$work/b.err" &
    answerer=$!
}

# call LINE [OPTION]..: a calls, as the process `caller`.
call() {
    "$program" call "$1" "$work/a" --me a --peer b --locks "$work/none" "${@:2}" >"$work/a.out" 2>"$work/a.err" &
    caller=$!
}

# both_done SECONDS: whether both ends are done within this time, and the file has come.
both_done() {
    local called
    end_of "$caller" "$1"
    called=$status
    end_of "$answerer" 5
    [ "$called" -eq 0 ] && [ "$status" -eq 0 ] && cmp -s "$work/a/send/x" "$work/b/got/y" &&
        [ "$(cat "$work/a.out")" = "caller done pending 0 struck 1 failed 0" ] &&
        [ "$(cat "$work/b.out")" = "called done pending 0 struck 0 failed 0" ]
}

# fails_within LEAST MOST: whether the call ends with a device fault after this many seconds, and its job stays.
fails_within() {
    local begun=$SECONDS
    end_of "$caller" $(($2 + 5))
    [ "$status" -eq 3 ] && [ $((SECONDS - begun)) -ge "$1" ] && [ $((SECONDS - begun)) -le "$2" ] && [ -s "$work/a/jobs" ]
}

strangers_at_a_path() {
    answer "unix:$work/line"
    wait_for_socket "$work/line"
    python3 "$lines" knock "unix:$work/line" 10 || return 1
    call "unix:$work/line"
    both_done 20
}

strangers_at_a_port() {
    local port i
    for i in 1 2 3 4 5; do
        port=$((20000 + RANDOM % 20000))
        answer "tcp:127.0.0.1:$port"
        pause 0.5
        ! kill -0 "$answerer" 2>/dev/null || break
    done
    python3 "$lines" knock "tcp:$port" 10 || return 1
    call "tcp:127.0.0.1:$port"
    both_done 20
}

# A caller of another name is refused, and told so with -v; then the real one calls.
a_wrong_caller() {
    answer "unix:$work/line" -v
    wait_for_socket "$work/line"
    "$program" call "unix:$work/line" "$work/a" --me c --peer b >"$work/c.out" 2>&1 || true
    grep -q "^caller refused " "$work/c.out" || return 1
    call "unix:$work/line"
    both_done 20 && grep -q " s: refused pending 0" "$work/b.err"
}

# Where nobody is let in before the wait is over, the end is as one that nobody has called.
nobody_comes() {
    local begun=$SECONDS
    answer "unix:$work/line" --wait 3
    wait_for_socket "$work/line"
    python3 "$lines" knock "unix:$work/line" 3 || return 1
    end_of "$answerer" 10
    [ "$status" -eq 1 ] && [ $((SECONDS - begun)) -ge 3 ] && [ $((SECONDS - begun)) -le 6 ] && [ ! -e "$work/line" ] &&
        [ "$(cat "$work/b.out")" = "called gaveup pending 0 struck 0 failed 0" ]
}

a_slow_stranger() {
    answer "unix:$work/line"
    wait_for_socket "$work/line"
    helper drip "unix:$work/line" 80
    wait_until 10 test -s "$work/helper.out" || return 1
    call "unix:$work/line" --timeout 30
    both_done 100 && [ "$(sed -n 2p "$work/helper.out")" -le 70 ]
}

a_full_path() {
    helper full "unix:$work/line" "$work/ready" 20
    wait_until 10 test -e "$work/ready" || return 1
    call "unix:$work/line" --timeout 2
    fails_within 2 4
}

# There is room for one more before the time is over: the call connects, and hears nothing.
room_at_last() {
    helper full "unix:$work/line" "$work/ready" 30 3
    wait_until 10 test -e "$work/ready" || return 1
    call "unix:$work/line" --timeout 6
    pause 7
    kill -0 "$caller" 2>/dev/null || return 1
    end_helpers
    end_of "$caller" 5
    [ "$status" -ne 124 ]
}

a_full_port() {
    helper full tcp:0 "$work/ready" 20
    wait_until 10 test -e "$work/ready" || return 1
    call "tcp:127.0.0.1:$(cat "$work/ready")" --timeout 2
    fails_within 2 4
}

# stop_and_go PID: stops it and lets it go on, eight times.
stop_and_go() {
    local i
    for ((i = 0; i < 8; i++)); do
        kill -STOP "$1"
        pause 0.1
        kill -CONT "$1"
        pause 0.2
    done
}

stopped_at_a_socket() {
    answer "unix:$work/far" --timeout 20
    wait_for_socket "$work/far"
    helper hold "$work/near" "$work/far" 6
    wait_for_socket "$work/near"
    call "unix:$work/near" --timeout 20 -v
    pause 1
    stop_and_go "$caller"
    both_done 40 && grep -q "^uucpair: 0 timeouts" "$work/a.err"
}

stopped_at_a_device() {
    pace 2000 60 || return 1
    call "$work/near" --timeout 10 -v
    pause 1
    stop_and_go "$caller"
    answer "$work/far"
    both_done 40 && grep -q "^uucpair: 0 timeouts" "$work/a.err"
}

# The device is spoken to only once somebody has called.
a_quiet_device() {
    pace 2000 60 || return 1
    answer "$work/far" --wait 20 -v
    pause 3
    # no session has begun
    ! grep -q " s: " "$work/b.err" || return 1
    printf '\r' >"$work/near"
    call "$work/near"
    both_done 30
}

# 1,200 bit/s are 120 bytes a second: what is on the way takes far longer than the timeout.
a_slow_line() {
    pace 120 200 || return 1
    answer "$work/far" --timeout 3 --size 256 --speed 1200
    call "$work/near" --timeout 3 --size 256 --speed 1200 -v
    both_done 120 && grep -q "^uucpair: 0 timeouts" "$work/a.err"
}

# tell NAME FUNCTION [BYTES]: runs a scene, and says whether all of it was so.
tell() {
    local pid
    all=$((all + 1))
    answerer='' caller=''
    make_folders "${3:-3000}"
    if "$2"; then
        well=$((well + 1))
        echo "$1: well"
    else
        echo "$1: WRONG"
        mkdir -p "$work/wrong.$all"
        cp "$work"/{a,b}.{out,err} "$work/wrong.$all" 2>/dev/null || true
    fi
    for pid in $answerer $caller; do
        kill -9 "$pid" 2>/dev/null || true
        wait "$pid" 2>/dev/null || true
    done
    end_helpers
}

tell "ten strangers at a path before the caller" strangers_at_a_path
tell "ten strangers at a port before the caller" strangers_at_a_port
tell "a caller of another name before the real one" a_wrong_caller
tell "strangers, and nobody else" nobody_comes
tell "a stranger who sends a byte each two seconds" a_slow_stranger
tell "a path at which too many wait" a_full_path
tell "a path at which there is room at last" room_at_last
tell "a port at which too many wait" a_full_port
tell "eight stops at a socket" stopped_at_a_socket
tell "eight stops at a device" stopped_at_a_device
tell "a device that waits for the first byte" a_quiet_device
tell "a line of 1,200 bit/s" a_slow_line
echo "$well of $all went well"
[ "$well" -eq "$all" ] || {
    echo "slow_lines.sh: see $work" >&2
    exit 1
}
rm -rf "$work"
