#!/usr/bin/env bash
# How many data packets a sender sends for each that is needed, over a line with faults, where both ends are quiet on
# repeats and where neither is: one end calls another over a Unix socket, through bench/storm_relay.py, and sends it a file.
#
#   bench/storm.sh [PROGRAM]
#
# PROGRAM is crates/uucpair/out/uucpair where none is named; WINDOWS, FAULTS and BYTES say what is tried. A row has the
# fault, the window, and the quotients with the setting on and off; what a call needs is what it sends with no fault. After
# it stands `fails` where a session did not end well, or the file did not come whole. A line waits for one second.
set -u
root=$(cd "$(dirname "$0")/.." && pwd)
. "$root/interop/common.sh"
program=${1:-$root/crates/uucpair/out/uucpair}
windows=${WINDOWS:-1 2 3 7}
faults=${FAULTS:-doubled-once early doubled lost damaged all}
bytes=${BYTES:-65536}
work=$(mktemp -d)
started=()
trap 'kill "${started[@]}" 2>/dev/null; rm -rf "$work"' EXIT

# sent FAULT WINDOW [OPTION]: sends the file, and leaves in `count` how many data packets the caller has sent
sent() {
    local fault=$1 window=$2 answerer relay status=0
    rm -rf "$work/a" "$work/b" "$work/near" "$work/far"
    mkdir -p "$work"/{a,b}/{send,got}
    cp "$work/file" "$work/a/send/x"
    echo 'send x y u' >"$work/a/jobs"
    "$program" answer "unix:$work/far" "$work/b" --me b --peer a --size 64 --window "$window" --timeout 1 "${@:3}" >"$work/b.out" 2>&1 &
    answerer=$!
    started+=("$answerer")
    wait_for "$work/far"
    python3 "$root/bench/storm_relay.py" "$work/near" "$work/far" "$fault" >"$work/count" &
    relay=$!
    started+=("$relay")
    wait_for "$work/near"
    "$program" call "unix:$work/near" "$work/a" --me a --peer b --size 64 --window "$window" --timeout 1 "${@:3}" >"$work/a.out" 2>&1 || status=1
    wait "$answerer" || status=1
    wait "$relay"
    count=$(cat "$work/count")
    cmp -s "$work/file" "$work/b/got/y" || status=1
    return $status
}

# quotient NEEDED [SENT ARGUMENTS]: how many were sent for each needed
quotient() {
    local needed=$1 failed=
    sent "${@:2}" || failed=' fails'
    awk -v sent="$count" -v needed="$needed" -v failed="$failed" 'BEGIN { printf "%.2f%s", sent / needed, failed }'
}

head -c "$bytes" /dev/urandom >"$work/file"
printf '%-14s %6s %8s %8s\n' fault window on off
for window in $windows; do
    sent none "$window" || { echo "storm.sh: a call over a clean line failed" >&2; exit 1; }
    needed=$count
    for fault in $faults; do
        on=$(quotient "$needed" "$fault" "$window")
        off=$(quotient "$needed" "$fault" "$window" --no-quiet)
        printf '%-14s %6s %8s %8s\n' "$fault" "$window" "$on" "$off"
    done
done
