#!/usr/bin/env bash
# dial.sh DEVICE BPS TEXT ANSWER DIR ME PEER [OPTION..]: has a modem or a TNC at a serial line connect, and calls over it. TEXT
# is what it is told, and ANSWER a part of the line with which it says that the other end is there, as
#
#     dial.sh /dev/ttyS0 57600 ATDT5551234 CONNECT /var/spool/uucpair/here here there --timeout 30
#     dial.sh /dev/ttyS0 9600 'C DB0ABC' '*** CONNECTED' /var/spool/uucpair/here here there --speed 1200 --timeout 15
#
# The device is locked as uucpair, cu and uucico lock theirs. When the call is over it is closed, at which a modem hangs up.
# The status is that of the call, and 3 where there is no connection; standard error says why.
set -u
export LC_ALL=C
uucpair=/usr/bin/uucpair
locks=/var/lock
# Where the cable has but three wires: -crtscts
flow=crtscts
# So many seconds the connection may take.
patience=90

device=$1 bps=$2 text=$3 answer=$4 dir=$5 me=$6 peer=$7
shift 7
lock=$locks/LCK..${device##*/}

fail() {
    echo "dial.sh: $device: $1" >&2
    exit 3
}

# Whether the lock file was made, which is whole as soon as it is there.
make_lock() {
    local made=1
    printf '%10d\n' $$ >"$lock.$$" && ln "$lock.$$" "$lock" 2>/dev/null && made=0
    rm -f "$lock.$$"
    return "$made"
}

# Removes the lock file of a process that is gone. Of several who do so at once each has the folder for itself.
remove_stale() {
    local holder
    exec 4<"$locks"
    flock 4
    if read -r holder <"$lock" && [[ $holder =~ ^[0-9]+$ ]] && [ ! -e "/proc/$holder" ]; then
        rm -f "$lock"
    fi
    exec 4<&-
}

make_lock || { remove_stale && make_lock; } || fail "is in use"
trap 'rm -f "$lock"' EXIT
trap 'exit 3' HUP INT TERM
# With clocal the device is opened though there is no carrier yet. It stays open behind the call. Some end lines with a
# carriage return alone.
stty -F "$device" "$bps" raw -echo cs8 -parenb "$flow" clocal hupcl icrnl || fail "can't be set"
exec 3<>"$device" || exit 3
flock -n 3 || fail "is in use"

# Sets `line` to what comes next. It is read byte by byte: a read of a line takes what is there behind it as well, and that is the
# other end's greeting.
read_line() {
    local byte
    line=
    while [ "$SECONDS" -lt "$end" ] && IFS= read -r -N 1 -t $((end - SECONDS)) -u 3 byte; do
        [ "$byte" != $'\n' ] || return 0
        line+=$byte
    done
    return 1
}

printf '%s\r' "$text" >&3
end=$((SECONDS + patience))
while read_line; do
    case $line in
    *"$text"*) ;; # its echo
    *"$answer"*)
        stty -icrnl <&3
        "$uucpair" call - "$dir" --me "$me" --peer "$peer" "$@" <&3 >&3 3>&-
        exit
        ;;
    *BUSY* | *"NO CARRIER"* | *"NO DIALTONE"* | *"NO ANSWER"* | *ERROR*) fail "$line" ;;
    esac
done
fail "no connection"
