#!/usr/bin/env bash
# The program at one end, Taylor UUCP's uucico at the other, in both roles: files of many sizes both ways, sent and
# requested in one session. Needs Debian's packages (apt-get install uucp socat), and root, since uucico runs as the user
# uucp. Run by hand:
#     interop/taylor.sh [PROGRAM]
# PROGRAM is crates/uucpair/out/uucpair where none is named. SIZES has the sizes of the files, and TERMS_LIST the packet
# sizes and windows, as 64:7, that are tried, and NOISY_LIST those of the sessions through relay.py, which loses, doubles
# and damages every 50th packet: as the program is, quiet on repeats, where all files have to come, and with --no-quiet,
# where Taylor may give up. A third number, as in 64:7:8192, is the size of the longest file of such a session, beside
# a few short ones; without it the sizes are those of SIZES. Each session prints a line when it is over, with its seconds.
# The last line is the number of sessions in which all went well. As it stands this takes up to ten minutes. A uucico that
# takes a file waits ten seconds where a data packet was lost (docs/OPERATING.md): a MiB in packets of 64 bytes takes a
# quarter of an hour.
set -u
root=$(cd "$(dirname "$0")/.." && pwd)
. "$root/interop/common.sh"
begin_work "$@"

all_sizes=${SIZES:-0 1 63 64 65 4096 1048576}
# Not 4096:7: uucico stores wrong bytes where more than 16,384 may be on their way to it (docs/OPERATING.md).
terms=${TERMS_LIST-64:3 64:7 1024:3 1024:7 2048:7 4096:3}

# set_up SIZE WINDOW: Taylor's folders and settings, and a folder of ours
set_up() {
    local size
    new_ends "protocol-parameter g packet-size $1" "protocol-parameter g window $2" "${both_ways[@]}"
    began=$SECONDS
    for size in $sizes; do
        head -c "$size" /dev/urandom >"$work/taylor/pub/t-s$size"
        head -c "$size" /dev/urandom >"$work/taylor/pub/t-r$size"
        head -c "$size" /dev/urandom >"$work/ours/send/o-s$size"
        head -c "$size" /dev/urandom >"$work/ours/send/o-r$size"
    done
    own_files
    for size in $sizes; do
        echo "send o-s$size ~/o-s$size u" >>"$work/ours/jobs"
        echo "request ~/t-r$size t-r$size u" >>"$work/ours/jobs"
        as_uucp uucp -I "$work/taylor/config" -r "$work/taylor/pub/t-s$size" "ours!~/t-s$size"
        as_uucp uucp -I "$work/taylor/config" -r "ours!~/o-r$size" "$work/taylor/pub/o-r$size"
    done
}

# judge NAME STATUS: all files are whole, and both say so
judge() {
    local name=$1 status=$2 size bad=0
    for size in $sizes; do
        cmp -s "$work/ours/send/o-s$size" "$work/taylor/pub/o-s$size" || { echo "  o-s$size (we sent it) is not whole"; bad=1; }
        cmp -s "$work/ours/send/o-r$size" "$work/taylor/pub/o-r$size" || { echo "  o-r$size (Taylor asked for it) is not whole"; bad=1; }
        cmp -s "$work/taylor/pub/t-s$size" "$work/ours/got/t-s$size" || { echo "  t-s$size (Taylor sent it) is not whole"; bad=1; }
        cmp -s "$work/taylor/pub/t-r$size" "$work/ours/got/t-r$size" || { echo "  t-r$size (we asked for it) is not whole"; bad=1; }
    done
    grep -q "Call complete" "$work/taylor/log/Log" || { echo "  Taylor's log has no 'Call complete'"; bad=1; }
    [ "$status" = 0 ] || bad=1
    [ ! -s "$work/ours/jobs" ] || bad=1
    echo "$name: status $status; $(head -1 "$work/out"); $(grep -c "Call complete" "$work/taylor/log/Log") Call complete;" \
        "$((SECONDS - began)) s"
    if [ "$bad" = 1 ]; then
        cat "$work/err"
        tail -n 5 "$work/taylor/log/Log"
    else
        good=$((good + 1))
    fi
}

# we_call SIZE WINDOW
we_call() {
    set_up "$1" "$2"
    taylor_waits "$work/line"
    call_taylor --size "$1" --window "$2"
    judge "we call, size $1, window $2" $?
}

# taylor_calls SIZE WINDOW
taylor_calls() {
    set_up "$1" "$2"
    wait_for_taylor "$work/line" --size "$1" --window "$2"
    taylor_calls_us
    judge "Taylor calls, size $1, window $2" $?
}

# check_file FROM TO NAME: whole, or not there and its job pending at one of the two
check_file() {
    local name=$3
    if [ -e "$2" ]; then
        cmp -s "$1" "$2" && { whole=$((whole + 1)); return; }
        echo "  $name is wrong"
        bad=1
    elif grep -q "[ /]$name " "$work/ours/jobs" || grep -q "/$name " "$work/waiting"; then
        pending=$((pending + 1))
    else
        echo "  $name and its job are gone"
        bad=1
    fi
}

# judge_noisy NAME STATUS [--no-quiet]: no file is wrong, and none is gone with its job; without the option all are whole
judge_noisy() {
    local size bad=0 whole=0 pending=0
    as_uucp uustat -I "$work/taylor/config" -a >"$work/waiting"
    for size in $sizes; do
        check_file "$work/ours/send/o-s$size" "$work/taylor/pub/o-s$size" "o-s$size"
        check_file "$work/ours/send/o-r$size" "$work/taylor/pub/o-r$size" "o-r$size"
        check_file "$work/taylor/pub/t-s$size" "$work/ours/got/t-s$size" "t-s$size"
        check_file "$work/taylor/pub/t-r$size" "$work/ours/got/t-r$size" "t-r$size"
    done
    [ "$2" -lt 124 ] || bad=1
    if [ $# = 2 ]; then
        [ "$2" = 0 ] && [ "$pending" = 0 ] && grep -q "Call complete" "$work/taylor/log/Log" || bad=1
    fi
    echo "$1${3:+, $3}: status $2; $(head -1 "$work/out"); $whole whole, $pending pending; $(cat "$work/relay.out");" \
        "$((SECONDS - began)) s"
    grep -i "error\|complete\|too many" "$work/taylor/log/Log" | tail -n 2
    [ "$bad" = 1 ] || good=$((good + 1))
}

# we_call_noisy SIZE WINDOW [--no-quiet]
we_call_noisy() {
    local status
    set_up "$1" "$2"
    rm -f "$work/far" "$work"/taylor/pub/o-*
    taylor_waits "$work/far"
    start_relay "$work/line" "$work/far"
    call_taylor --size "$1" --window "$2" "${@:3}"
    status=$?
    wait "$relay"
    judge_noisy "we call over a bad line, size $1, window $2" "$status" "${@:3}"
}

# taylor_calls_noisy SIZE WINDOW [--no-quiet]
taylor_calls_noisy() {
    local status
    set_up "$1" "$2"
    rm -f "$work/far" "$work"/taylor/pub/o-*
    wait_for_taylor "$work/far" --size "$1" --window "$2" "${@:3}"
    start_relay "$work/line" "$work/far"
    taylor_calls_us
    status=$?
    wait "$relay"
    judge_noisy "Taylor calls over a bad line, size $1, window $2" "$status" "${@:3}"
}

good=0
all=0
sizes=$all_sizes
for pair in $terms; do
    we_call "${pair%:*}" "${pair#*:}"
    taylor_calls "${pair%:*}" "${pair#*:}"
    all=$((all + 2))
done
for entry in ${NOISY_LIST-64:7:8192 1024:1:32768 1024:3:131072 1024:7:131072}; do
    IFS=: read -r size window longest <<<"$entry"
    sizes=${longest:+0 1 65 4096 $longest}
    sizes=${sizes:-$all_sizes}
    for option in "" --no-quiet; do
        we_call_noisy "$size" "$window" $option
        taylor_calls_noisy "$size" "$window" $option
        all=$((all + 2))
    done
done
echo "$good of $all sessions"
[ "$good" = "$all" ]
