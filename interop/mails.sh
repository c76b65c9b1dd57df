#!/usr/bin/env bash
# How many bytes go over the line, in both directions, where one end sends mail to the other: five mails of 1,500 bytes,
# each as a file D. with the mail and a file X. that says what to do with it, so ten S commands. Taylor UUCP calls Taylor
# UUCP, the program calls Taylor UUCP, and Taylor UUCP calls the program; the one that calls sends. Needs Debian's packages
# (apt-get install uucp socat), and root, since uucico runs as the user uucp. Run by hand:
#     interop/mails.sh [PROGRAM]
# PROGRAM is crates/uucpair/out/uucpair where none is named, and SIZES has the packet sizes (64 1024 4096). Each file has to
# come as it is. The program sends no digests, which uucico lacks. Ends with status 1 where a file does not come, or where the
# program takes more than 1.05 times the bytes.
set -u
root=$(cd "$(dirname "$0")/.." && pwd)
. "$root/interop/common.sh"
begin_work "$@"

sizes=${SIZES:-64 1024 4096}
mails=5

# taylor ME OTHER SIZE: the folders and settings of a Taylor end; it calls through the socket near
taylor() {
    local here=$work/$1
    taylor_settings "$1" "$here" "$work/near"
    taylor_system "$2" gate "protocol-parameter g packet-size $3" "protocol-parameter g window 3" >"$here/sys"
}

# queue ME OTHER: the mails wait at a Taylor end, as uux would leave them for an end that knows no other command than S
queue() {
    local here=$work/$1/spool/$2 i
    mkdir -p "$here"/{C.,D.,D.X}
    for ((i = 1; i <= mails; i++)); do
        cp "$work/mails/D.000$i" "$here/D./D.000$i"
        cp "$work/mails/X.000$i" "$here/D.X/D.X000$i"
        echo "S D.000$i D.$1N000$i uucp - D.000$i 0666"
        echo "S D.X000$i X.$1N000$i uucp - D.X000$i 0666"
    done >"$here/C./C.N0001"
}

# queue_ours: the mails wait at an end of the program
queue_ours() {
    local i
    mkdir -p "$work"/ours/{send,got}
    for ((i = 1; i <= mails; i++)); do
        cp "$work/mails/D.000$i" "$work/ours/send/D.000$i"
        cp "$work/mails/X.000$i" "$work/ours/send/D.X000$i"
        echo "send D.000$i D.oursN000$i uucp"
        echo "send D.X000$i X.oursN000$i uucp"
    done >"$work/ours/jobs"
}

# answer_as ME: a Taylor end waits for a call at the socket far
answer_as() {
    (cd / && exec socat "UNIX-LISTEN:$work/far,mode=666" \
        "EXEC:runuser -u uucp -- /usr/sbin/uucico -q -I $work/$1/config") 2>"$work/answered" &
    started+=($!)
    wait_for "$work/far"
}

# count: a line from the socket near to the socket far, whose bytes are counted
count() {
    python3 "$root/interop/count.py" "$work/near" "$work/far" >"$work/counted" &
    counter=$!
    started+=("$counter")
    wait_for "$work/near"
}

# judge NAME FROM FOLDER: the mails that the end FROM sent are somewhere in the folder; counts the bytes
judge() {
    local i kind found
    wait "$counter"
    for ((i = 1; i <= mails; i++)); do
        for kind in D X; do
            found=$(find "$3" -type f -name "$kind.$2N000$i" | head -n 1)
            [ -n "$found" ] && cmp -s "$work/mails/$kind.000$i" "$found" ||
                { echo "  $1: $kind.000$i is not whole"; bad=1; }
        done
    done
    bytes=$(awk '{ print $1 + $2 }' "$work/counted")
}

fresh() {
    rm -rf "$work"/{taylor,other,ours,near,far}
}

# taylor_to_taylor SIZE
taylor_to_taylor() {
    fresh
    taylor taylor other "$1"
    taylor other taylor "$1"
    queue taylor other
    chown -R uucp:uucp "$work"/{taylor,other}
    answer_as other
    count
    (cd / && as_uucp /usr/sbin/uucico -q -I "$work/taylor/config" -f -s other)
    judge "Taylor to Taylor, size $1" taylor "$work/other"
}

# ours_to_taylor SIZE
ours_to_taylor() {
    fresh
    taylor taylor ours "$1"
    chown -R uucp:uucp "$work/taylor"
    queue_ours
    answer_as taylor
    count
    "$program" call "unix:$work/near" "$work/ours" --me ours --peer taylor --size "$1" --window 3 --no-digest >"$work/out" 2>&1 ||
        { echo "  we call, size $1: $(cat "$work/out")"; bad=1; }
    judge "we call, size $1" ours "$work/taylor"
}

# taylor_to_ours SIZE
taylor_to_ours() {
    local answerer
    fresh
    taylor taylor ours "$1"
    queue taylor ours
    chown -R uucp:uucp "$work/taylor"
    mkdir -p "$work"/ours/{send,got}
    : >"$work/ours/jobs"
    "$program" answer "unix:$work/far" "$work/ours" --me ours --peer taylor --size "$1" --window 3 --no-digest >"$work/out" 2>&1 &
    answerer=$!
    started+=("$answerer")
    wait_for "$work/far"
    count
    (cd / && as_uucp /usr/sbin/uucico -q -I "$work/taylor/config" -f -s ours)
    wait "$answerer" || { echo "  Taylor calls, size $1: $(cat "$work/out")"; bad=1; }
    judge "Taylor calls, size $1" taylor "$work/ours/got"
}

# within BYTES: they are at most 1.05 times Taylor's
within() {
    [ $((100 * $1)) -le $((105 * theirs)) ] || { echo "  more than 1.05 times the bytes"; bad=1; }
}

mkdir -p "$work/mails"
for ((i = 1; i <= mails; i++)); do
    head -c 1125 /dev/urandom | base64 -w 75 | head -c 1500 >"$work/mails/D.000$i"
    printf 'U uucp taylor\nF D.taylorN000%s\nI D.taylorN000%s\nC rmail bob\n' "$i" "$i" >"$work/mails/X.000$i"
done
chmod -R a+rX "$work/mails"
bad=0
echo " size  Taylor to Taylor  we to Taylor  Taylor to us"
for size in $sizes; do
    taylor_to_taylor "$size"
    theirs=$bytes
    ours_to_taylor "$size"
    sent=$bytes
    taylor_to_ours "$size"
    printf '%5d %17d %13d %13d\n' "$size" "$theirs" "$sent" "$bytes"
    within "$sent"
    within "$bytes"
done
[ "$bad" = 0 ]
