#!/usr/bin/env bash
# Two programs, one at each end of a line, move files of many sizes both ways, sent and requested: over a Unix socket,
# over TCP, and over a pair of pseudo-terminals, which Debian's package socat makes (apt-get install socat). Run by hand:
#     interop/pair.sh [PROGRAM]
# PROGRAM is crates/uucpair/out/uucpair where none is named. SIZES has the sizes of the files, and TERMS_LIST the packet
# sizes and windows, as 64:7, that are tried. A further session goes through relay.py, which loses, doubles and damages
# every 50th packet, and one over a good line then has to finish what it left. Then both ends keep a number of their
# conversations, and a stranger calls. Its last line is the number of lines and calls at which all went well.
set -u
root=$(cd "$(dirname "$0")/.." && pwd)
. "$root/interop/common.sh"
begin_work "$@"
port=${PORT:-15540}

sizes=${SIZES:-0 1 63 64 65 4096 1048576}
terms=${TERMS_LIST:-64:7 1024:3 4096:7}

# fill DIR SIDE: files to send and to be asked for, and jobs for half of each
fill() {
    local dir=$1 side=$2 other=$3 size
    mkdir -p "$dir/send" "$dir/got"
    : >"$dir/jobs"
    for size in $sizes; do
        head -c "$size" /dev/urandom >"$dir/send/$side-s$size"
        head -c "$size" /dev/urandom >"$dir/send/$side-r$size"
        echo "send $side-s$size $side-s$size u" >>"$dir/jobs"
        echo "request ~/$other-r$size ~/$other-r$size u" >>"$dir/jobs"
    done
}

# same_files FROM TO: each file of FROM is whole in TO
same_files() {
    local file bad=0
    for file in "$1"/send/*; do
        cmp -s "$file" "$2/got/$(basename "$file")" || { echo "  $(basename "$file") is not whole"; bad=1; }
    done
    return $bad
}

# run NAME ANSWER_LINE CALL_LINE SIZE WINDOW
run() {
    local name=$1 answer=$2 call=$3 size=$4 window=$5 answered called answerer
    rm -rf "$work/a" "$work/b"
    fill "$work/a" a b
    fill "$work/b" b a
    "$program" answer "$answer" "$work/b" --me b --peer a --size "$size" --window "$window" --timeout 5 >"$work/b.out" 2>"$work/b.err" &
    answerer=$!
    started+=("$answerer")
    case $answer in
    unix:*) wait_for "${answer#unix:}" ;;
    *) sleep "${WAIT:-1}" ;;
    esac
    "$program" call "$call" "$work/a" --me a --peer b --size "$size" --window "$window" --timeout 5 >"$work/a.out" 2>"$work/a.err"
    called=$?
    wait "$answerer"
    answered=$?
    echo "$name, size $size, window $window: call $called, answer $answered; $(head -1 "$work/a.out"); $(head -1 "$work/b.out")"
    cat "$work/a.err" "$work/b.err"
    [ "$called" = 0 ] && [ "$answered" = 0 ] && [ ! -s "$work/a/jobs" ] && [ ! -s "$work/b/jobs" ] &&
        same_files "$work/a" "$work/b" && same_files "$work/b" "$work/a" && good=$((good + 1))
}

# meet DIR STATUS NUMBERS [OPTION]: the end over DIR calls the one over b, both with this option and ending with this
# status; the files number of a and b then have these
meet() {
    local dir=$1 status=$2 numbers=$3 answerer called answered kept
    shift 3
    # An end whose caller is refused waits for another one.
    "$program" answer "unix:$work/line" "$work/b" --me b --peer a --timeout 5 --wait 10 "$@" >"$work/b.out" 2>"$work/b.err" &
    answerer=$!
    started+=("$answerer")
    wait_for "$work/line"
    "$program" call "unix:$work/line" "$dir" --me a --peer b --timeout 5 "$@" >"$work/a.out" 2>"$work/a.err"
    called=$?
    wait "$answerer"
    answered=$?
    kept="$(cat "$work/a/number") $(cat "$work/b/number")"
    echo "numbers $kept: call $called, answer $answered; $(head -1 "$work/a.out"); $(head -1 "$work/b.out")"
    cat "$work/a.err" "$work/b.err"
    all=$((all + 1))
    [ "$called" = "$status" ] && [ "$answered" = "$status" ] && [ "$kept" = "$numbers" ] && good=$((good + 1))
}

# none_is_wrong FROM TO: each file of FROM is whole in TO, or not there and its job pending at one of the two
none_is_wrong() {
    local file name bad=0
    for file in "$1"/send/*; do
        name=$(basename "$file")
        if [ -e "$2/got/$name" ]; then
            cmp -s "$file" "$2/got/$name" || { echo "  $name is wrong"; bad=1; }
        else
            grep -q " \(~/\)\?$name " "$1/jobs" "$2/jobs" || { echo "  $name and its job are gone"; bad=1; }
        fi
    done
    return $bad
}

# run_noisy SIZE WINDOW: the same through the relay, and then what is left over a good line
run_noisy() {
    local size=$1 window=$2 answerer called answered bad=0
    rm -rf "$work/a" "$work/b"
    fill "$work/a" a b
    fill "$work/b" b a
    timeout 900 "$program" answer "unix:$work/far" "$work/b" --me b --peer a --size "$size" --window "$window" --timeout 1 >"$work/b.out" 2>"$work/b.err" &
    answerer=$!
    started+=("$answerer")
    wait_for "$work/far"
    start_relay "$work/near" "$work/far"
    timeout 900 "$program" call "unix:$work/near" "$work/a" --me a --peer b --size "$size" --window "$window" --timeout 1 >"$work/a.out" 2>"$work/a.err"
    called=$?
    wait "$answerer"
    answered=$?
    wait "$relay"
    echo "a bad line, size $size, window $window: call $called, answer $answered; $(head -1 "$work/a.out"); $(head -1 "$work/b.out"); $(cat "$work/relay.out")"
    none_is_wrong "$work/a" "$work/b" || bad=1
    none_is_wrong "$work/b" "$work/a" || bad=1
    [ "$called" -lt 124 ] && [ "$answered" -lt 124 ] || bad=1
    again "$size" "$window" || bad=1
    [ "$bad" = 1 ] || good=$((good + 1))
}

# again SIZE WINDOW: what is left moves over a good line
again() {
    local answerer
    "$program" answer "unix:$work/line" "$work/b" --me b --peer a --size "$1" --window "$2" --timeout 5 >/dev/null 2>&1 &
    answerer=$!
    started+=("$answerer")
    wait_for "$work/line"
    "$program" call "unix:$work/line" "$work/a" --me a --peer b --size "$1" --window "$2" --timeout 5 >/dev/null 2>&1
    wait "$answerer"
    [ ! -s "$work/a/jobs" ] && [ ! -s "$work/b/jobs" ] && same_files "$work/a" "$work/b" && same_files "$work/b" "$work/a"
}

good=0
all=0
for pair in $terms; do
    set -- "${pair%:*}" "${pair#*:}"
    run "Unix socket" "unix:$work/line" "unix:$work/line" "$1" "$2"
    [ ! -e "$work/line" ] || echo "  the socket is still there"
    run "TCP" "tcp:$port" "tcp:127.0.0.1:$port" "$1" "$2"
    port=$((port + 1))
    socat "PTY,link=$work/tty_a,raw,echo=0" "PTY,link=$work/tty_b,raw,echo=0" &
    started+=($!)
    sleep 1
    run "pseudo-terminals" "$work/tty_b" "$work/tty_a" "$1" "$2"
    run_noisy "$1" "$2"
    all=$((all + 4))
done
rm -rf "$work/a" "$work/b"
mkdir -p "$work/a/got" "$work/b/got" "$work/stranger/got"
meet "$work/a" 0 "1 1" --number
meet "$work/a" 0 "2 2"
# it knows the names, and keeps no number
meet "$work/stranger" 1 "2 2"
meet "$work/a" 0 "3 3"
echo "$good of $all lines and calls"
[ "$good" = "$all" ]
