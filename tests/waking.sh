#!/usr/bin/env bash
# A call at a terminal device: it writes carriage returns until it has heard a byte, so that it wakes an end there that says nothing
# before it is called. With another end of this program at the other side, with and without --wait, begun before it or behind it,
# and with Debian's uucico; and with nobody, where they are counted.
#
#   tests/waking.sh [PROGRAM]
#
# It needs Debian's packages (apt-get install uucp socat), and root, since uucico runs as the user uucp. Each row is a line where
# it failed; the last line counts them, and the status is 1 where one did. It takes about half a minute.
. "$(dirname "$(readlink -f "$0")")/common.sh"
find_program "${1:-}"
new_work
trap 'end_helpers; rm -rf "$work"' EXIT
chmod 755 "$work"

# scene: a folder for each end, with a file that it sends.
scene() {
    local end
    end_helpers
    rm -rf "${work:?}"/*
    mkdir -p "$work"/{near,far}/{send,got} "$work/locks"
    for end in near far; do
        seq -f "$end %g" 500 >"$work/$end/send/$end"
        echo "send $end ~/$end me" >"$work/$end/jobs"
    done
    chmod -R a+rwX "$work"
}

# start_line FAR: a line between the device `at_near` and this other side.
start_line() {
    socat "PTY,link=$work/at_near,raw,echo=0,mode=666" "$1" 2>"$work/socat.err" &
    helpers+=($!)
    wait_until 10 [ -e "$work/at_near" ] || true
}

# start_two_ends: the same to the device `at_far`.
start_two_ends() {
    start_line "PTY,link=$work/at_far,raw,echo=0,mode=666"
    wait_until 10 [ -e "$work/at_far" ] || true
}

answer_at_far() {
    "$program" answer "$work/at_far" "$work/far" --me far --peer near --timeout 3 --locks "$work/locks" "$@" \
        >"$work/far.out" 2>"$work/far.err" </dev/null &
    answerer=$!
}

call_at_near() {
    "$program" call "$work/at_near" "$work/near" --me near --peer far --timeout 3 --locks "$work/locks" "$@" \
        >"$work/near.out" 2>"$work/near.err" </dev/null &
    caller=$!
}

# moved FOLDER: sets `fault` to what is not so: the caller is done, and each file has come. That of the called end is in this folder.
moved() {
    fault=
    end_of "$caller" 60
    [ "$status" -eq 0 ] || fault="the caller ended with $status;"
    same "caller done pending 0 struck 1 failed 0"$'\n' "$work/near.out" || fault="$fault it printed $(cat "$work/near.out");"
    cmp -s "$work/near/send/near" "$1/near" || fault="$fault its file did not come;"
    cmp -s "$work/far/send/far" "$work/near/got/far" || fault="$fault nor that of the other end;"
}

# ours NAME SECONDS [WORD..]: the called end, with these words, is begun so long before the call, or behind it.
ours() {
    local name=$1 seconds=$2
    scene
    start_two_ends
    if [ "$seconds" -ge 0 ]; then
        answer_at_far "${@:3}"
        pause "$seconds"
        call_at_near
    else
        call_at_near
        pause "${seconds#-}"
        answer_at_far "${@:3}"
    fi
    moved "$work/far/got"
    end_of "$answerer" 60
    [ "$status" -eq 0 ] || fault="$fault the called end ended with $status;"
    same "called done pending 0 struck 1 failed 0"$'\n' "$work/far.out" || fault="$fault it printed $(cat "$work/far.out");"
    report "$name" "$fault"
}

ours "an end that waits to be called" 1 --wait 30
ours "an end that speaks at once" 1
ours "an end that waits, and is begun behind the call" -2 --wait 30
ours "an end that speaks at once, and is begun behind the call" -2

# Debian's uucico, which is called over a terminal, and sends its file.
scene
mkdir -p "$work"/taylor/{spool,public}
cp "$work/far/send/far" "$work/taylor/public"
taylor_node "$work/taylor" far near line
printf '%s\n' "port line" "type stdin" >"$work/taylor/port"
chmod -R a+rwX "$work/taylor"
chown -R uucp:uucp "$work/taylor"
(cd / && runuser -u uucp -- uucp -I "$work/taylor/config" -r "$work/taylor/public/far" 'near!~/far')
start_line "EXEC:runuser -u uucp -- /usr/sbin/uucico -q -I $work/taylor/config,pty,raw,echo=0"
call_at_near -v
moved "$work/taylor/public"
grep -q "Call complete" "$work/taylor/log" || fault="$fault uucico says $(cat "$work/taylor/log");"
report "uucico" "$fault"

# Nobody: one before each of the eight silences, and no other byte. The report says that nothing was heard.
count_bytes() {
    python3 - "$work/near.out" "$@" <<'END'
import os, subprocess, sys, tty
near, far = os.openpty()
tty.setraw(near)
tty.setraw(far)
os.set_blocking(near, False)
ended = subprocess.run(sys.argv[2:3] + [sys.argv[3], os.ttyname(far)] + sys.argv[4:], stdout=open(sys.argv[1], "w"),
                       stderr=subprocess.PIPE, stdin=subprocess.DEVNULL, timeout=60)
try:
    heard = os.read(near, 4096)
except BlockingIOError:
    heard = b""
print(ended.returncode, heard, ended.stderr)
END
}
scene
said=$(count_bytes "$program" call "$work/near" --me near --peer far --timeout 1 --locks "$work/locks")
fault=
[ "$said" = "1 b'$(printf '\\r%.0s' 1 2 3 4 5 6 7 8)' b'uucpair: heard nothing (is the other end answering? a terminal has to be raw: stty raw -echo)\\n'" ] || fault="$said"
same "caller gaveup pending 1 struck 0 failed 0"$'\n' "$work/near.out" || fault="$fault printed $(cat "$work/near.out")"
report "a call at which nobody is" "$fault"

said=$(count_bytes "$program" answer "$work/far" --me far --peer near --wait 2 --timeout 1 --locks "$work/locks")
fault=
[ "$said" = "1 b'' b'uucpair: heard nothing (is the other end calling? a terminal has to be raw: stty raw -echo)\\n'" ] || fault="$said"
report "an end that nobody calls says nothing" "$fault"

echo "$passed passed, $failed failed"
[ "$failed" -eq 0 ]
