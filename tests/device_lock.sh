#!/usr/bin/env bash
# A terminal device is used by one run at a time: by two calls at once, beside the lock file of a process that lives, of one
# that is dead, of a text that nobody can read, where no lock file can be made, after a kill, where two take over the same
# lock, and beside `cu` and `uucico` of Debian's package uucp, which heed the same files. A run that is turned away ends with
# status 3, says that the line is in use, and neither opens nor writes it.
#
#   tests/device_lock.sh [ROUNDS [PROGRAM]]
#
# ROUNDS is how often two runs race for one lock. It needs Debian's packages (apt-get install uucp socat strace), and root,
# since a user who may not write the folder of the locks is another one. Each scene is a line; the status is 1 where one
# went wrong, and the folders stay then.
. "$(dirname "$(readlink -f "$0")")/common.sh"
rounds=${1:-20}
find_program "${2:-}"
new_work
chmod 755 "$work"
cp "$program" "$work/program"
program=$work/program
locks=$work/locks
lock=$locks/LCK..near
mkdir -m 777 "$locks"
failed=0

# start_line NAME: a new line with two ends, NAME/near and NAME/far. `socat` holds it until one of them is closed.
start_line() {
    rm -rf "${work:?}/$1"
    mkdir -p "$work/$1"
    socat "PTY,link=$work/$1/near,raw,echo=0,mode=666" "PTY,link=$work/$1/far,raw,echo=0,mode=666" 2>>"$work/socat.err" &
    helpers+=($!)
    wait_until 5 test -e "$work/$1/near" && wait_until 5 test -e "$work/$1/far"
}

# make_folders: `left` and `right`, each with a file for `hub`.
make_folders() {
    local system
    rm -rf "$work"/{left,right,hub}
    mkdir -p "$work/hub"/{send,got}
    : >"$work/hub/jobs"
    for system in left right; do
        mkdir -p "$work/$system"/{send,got}
        echo "$system" >"$work/$system/send/x"
        echo "send x from_$system u" >"$work/$system/jobs"
    done
    chmod -R a+rwX "$work"/{left,right,hub}
}

# call_by SYSTEM LINE [WORD..]: calls over the near end of this line, by the command that `as` has, with the locks of `folder`.
# Its output and status go to files.
call_by() {
    local system=$1 line=$2 status=0
    shift 2
    rm -f "$work/$system.status"
    ${as:-} "$program" call "$work/$line/near" "$work/$system" --me "$system" --peer hub --locks "${folder:-$locks}" "$@" \
        >"$work/$system.out" 2>"$work/$system.err" || status=$?
    echo "$status" >"$work/$system.status"
}

# answer_at LINE SYSTEM: answers this system at the far end of this line, without a lock file.
answer_at() {
    "$program" answer "$work/$1/far" "$work/hub" --me hub --peer "$2" --locks "$work/none" >"$work/hub.out" 2>"$work/hub.err" || true
}

# turned_away SYSTEM LINE: whether the call was turned away, and its job stays.
turned_away() {
    [ "$(cat "$work/$1.status")" -eq 3 ] &&
        [ "$(head -n 2 "$work/$1.err")" = "$(printf 'uucpair: device fault\nuucpair: %s is in use' "$work/$2/near")" ] &&
        [ ! -s "$work/$1.out" ] && [ -s "$work/$1/jobs" ]
}

# has_called SYSTEM: whether the call is done, and its file has come.
has_called() {
    [ "$(cat "$work/$1.status")" -eq 0 ] && [ ! -s "$work/$1/jobs" ] &&
        cmp -s "$work/$1/send/x" "$work/hub/got/from_$1"
}

# is_empty: whether there is nothing in the folder of the locks.
is_empty() {
    [ -z "$(ls -A "$locks")" ]
}

# tell NAME FUNCTION: runs a scene, and says whether all of it was so.
tell() {
    make_folders
    rm -rf "$locks"
    mkdir -m 777 "$locks"
    start_line one
    if "$2"; then
        echo "$1: well"
    else
        echo "$1: WRONG"
        failed=1
    fi
    end_helpers
}

# wait_for_lock FILE: until there is such a file, at most five seconds.
wait_for_lock() {
    wait_until 5 test -e "$1"
}

# A call waits for its answer, and another call comes meanwhile: it opens nothing. Then the first is answered.
two_calls() {
    local first traced
    call_by left one &
    first=$!
    wait_for_lock "$lock" || return 1
    as="strace -f -o $work/trace -e trace=openat,write,unlink,link" call_by right one
    turned_away right one || return 1
    traced=$(grep -c "one/near\"" "$work/trace") || true
    [ "$traced" -eq 0 ] || return 1
    answer_at one left
    wait "$first"
    has_called left && is_empty
}

# The same where the two look for lock files in different folders: the device itself is locked, and nothing is written to it.
two_folders() {
    local first
    call_by left one &
    first=$!
    wait_for_lock "$lock" || return 1
    mkdir -p "$work/other"
    as="strace -f -y -o $work/trace -e trace=write" folder=$work/other call_by right one
    turned_away right one || return 1
    ! grep -q "/dev/pts" "$work/trace" || return 1
    [ -z "$(ls -A "$work/other")" ] || return 1
    answer_at one left
    wait "$first"
    has_called left && is_empty
}

# The file of a process that has ended is taken over.
of_a_dead_process() {
    local dead
    true &
    dead=$!
    wait "$dead"
    printf '%10d\n' "$dead" >"$lock"
    answer_at one left &
    call_by left one
    wait $!
    has_called left && is_empty
}

# An empty file is of no process, as others see it too.
of_nobody() {
    : >"$lock"
    answer_at one left &
    call_by left one
    wait $!
    has_called left && is_empty
}

# The file of a process that lives stays as it is.
of_a_living_process() {
    printf '%10d\n' $$ >"$lock"
    call_by left one
    turned_away left one && [ "$(cat "$lock")" = "$(printf '%10d' $$)" ] && [ "$(ls -A "$locks")" = "LCK..near" ]
}

# And so does one that can't be read as a number: it may be anybody's.
of_who_knows() {
    echo "busy" >"$lock"
    call_by left one
    turned_away left one && [ "$(cat "$lock")" = "busy" ]
}

# Where the folder can't be written no file is made, and the call goes on.
unwritable() {
    chmod 555 "$locks"
    answer_at one left &
    as="runuser -u nobody --" call_by left one
    wait $!
    has_called left && is_empty
}

# But a file of a living process that is there is heeded.
unwritable_and_held() {
    printf '%10d\n' $$ >"$lock"
    chmod 555 "$locks"
    as="runuser -u nobody --" call_by left one
    turned_away left one
}

# A call that is killed leaves its file, which the next one takes over.
after_a_kill() {
    local killed
    "$program" call "$work/one/near" "$work/left" --me left --peer hub --locks "$locks" >/dev/null 2>&1 &
    killed=$!
    wait_for_lock "$lock" || return 1
    [ "$(cat "$lock")" = "$(printf '%10d' "$killed")" ] || return 1
    kill -9 "$killed"
    wait "$killed" 2>/dev/null || true
    [ -e "$lock" ] || return 1
    pause 0.2
    answer_at one right &
    call_by right one
    wait $!
    has_called right && is_empty
}

# A device that can't be opened, and one that is none, leave no file behind.
after_a_fault() {
    rm "$work/one/near"
    call_by left one
    [ "$(cat "$work/left.status")" -eq 3 ] && is_empty || return 1
    : >"$work/one/near"
    call_by left one
    [ "$(cat "$work/left.status")" -eq 3 ] && is_empty
}

# take_by SYSTEM LINE: begins a call that nobody answers, and sets `taker` to its process.
take_by() {
    rm -f "$work/$1.err"
    "$program" call "$work/$2/near" "$work/$1" --me "$1" --peer hub --locks "$locks" >/dev/null 2>"$work/$1.err" &
    taker=$!
}

# somebody_spoke: whether a call has said something on standard error.
somebody_spoke() {
    [ -s "$work/left.err" ] || [ -s "$work/right.err" ]
}

# Two calls over two lines whose devices have one name take over the same file at once: one of them has it then, the other is
# turned away.
two_takers() {
    local round dead left right winner
    start_line two
    # A device that is open somewhere else is not gone when a call closes it.
    exec {one}<>"$work/one/near" {two}<>"$work/two/near"
    for ((round = 0; round < rounds; round++)); do
        true &
        dead=$!
        wait "$dead"
        printf '%10d\n' "$dead" >"$lock"
        take_by left one
        left=$taker
        take_by right two
        right=$taker
        wait_until 5 somebody_spoke || true
        [ ! -s "$work/left.err" ] || [ ! -s "$work/right.err" ] || return 1
        winner=$left
        [ ! -s "$work/left.err" ] || winner=$right
        [ "$(cat "$lock")" = "$(printf '%10d' "$winner")" ] || return 1
        pause 0.05
        kill -0 "$winner" || return 1
        kill -9 "$left" "$right" 2>/dev/null || true
        wait "$left" 2>/dev/null || true
        wait "$right" 2>/dev/null || true
        [ "$(ls -A "$locks")" = "LCK..near" ] || return 1
    done
    exec {one}<&- {two}<&-
}

# `cu` is turned away while a call holds the line, and a call while `cu` does.
beside_cu() {
    local call cu
    folder=/var/lock call_by left one &
    call=$!
    wait_for_lock /var/lock/LCK..near || return 1
    ! cu -l "$work/one/near" <"/dev/null" >"$work/cu.out" 2>&1 || return 1
    grep -q "Line in use" "$work/cu.out" || return 1
    answer_at one left
    wait "$call"
    has_called left && [ ! -e /var/lock/LCK..near ] || return 1
    end_helpers
    start_line one
    cu -l "$work/one/near" <&"$never" >"$work/cu.out" 2>&1 &
    cu=$!
    wait_for_lock /var/lock/LCK..near || return 1
    folder=/var/lock call_by right one
    turned_away right one || return 1
    kill "$cu"
    wait "$cu" || true
    [ ! -e /var/lock/LCK..near ]
}

# `uucico` is turned away while a call holds the line.
beside_uucico() {
    local call
    mkdir -p "$work/taylor"/{spool,public}
    cat >"$work/taylor/config" <<CONFIG
nodename alpha
spool $work/taylor/spool
pubdir $work/taylor/public
lockdir $locks
logfile $work/taylor/log
statfile $work/taylor/stats
sysfile $work/taylor/sys
portfile $work/taylor/port
CONFIG
    printf 'port line\ntype direct\ndevice %s\nspeed 9600\n' "$work/one/near" >"$work/taylor/port"
    printf 'system hub\ntime any\nport line\nchat "" \\r\nprotocol g\n' >"$work/taylor/sys"
    chown -R uucp:uucp "$work/taylor"
    call_by left one &
    call=$!
    wait_for_lock "$lock" || return 1
    (cd / && runuser -u uucp -- /usr/sbin/uucico -I "$work/taylor/config" -D -f -s hub >"$work/uucico.out" 2>&1) || true
    grep -q "ports in use" "$work/taylor/log" || return 1
    answer_at one left
    wait "$call"
    has_called left && is_empty
}

tell "two calls at once" two_calls
tell "two calls with two folders of locks" two_folders
tell "a lock of a dead process" of_a_dead_process
tell "a lock of no process" of_nobody
tell "a lock of a living process" of_a_living_process
tell "a lock that can't be read" of_who_knows
tell "a folder that can't be written" unwritable
tell "such a folder, and a lock of a living process in it" unwritable_and_held
tell "after a kill" after_a_kill
tell "after a fault" after_a_fault
tell "$rounds times two that take over one lock" two_takers
tell "beside cu" beside_cu
tell "beside uucico" beside_uucico
[ "$failed" -eq 0 ] || {
    echo "device_lock.sh: see $work" >&2
    exit 1
}
rm -rf "$work"
