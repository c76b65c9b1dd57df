#!/usr/bin/env bash
# `call --log FILE` and `answer --log FILE`: which lines are in the log of a session, when, and what a log leaves alone.
#
#   tests/log.sh [PROGRAM]
#
# It needs Debian's packages (apt-get install uucp strace), of which `uulog` reads the log. Each row is a line where it failed; the
# last line counts them, and the status is 1 where one did. It takes about half a minute.
. "$(dirname "$(readlink -f "$0")")/common.sh"
find_program "${1:-}"
new_passing_work
cd "$work"
line_feed=$'\n'

# folders [LINE..]: those of the ends `near`, which calls and has these jobs, and `far`, which is called, each with a file to give.
folders() {
    rm -rf "${work:?}"/*
    mkdir -p {near,far}/{send,got}
    echo "a file of near" >near/send/x
    echo "of far" >far/send/y
    [ $# -eq 0 ] || printf '%s\n' "$@" >near/jobs
}

# answer_at [WORD..]: the called end, in the background.
answer_at() {
    "$program" answer unix:line far --me far --peer near --timeout 2 "$@" >far.out 2>far.err </dev/null &
    answerer=$!
    wait_for_socket "$work/line" || true
}

# call_at [WORD..]: sets `status` to that of the call.
call_at() {
    status=0
    "$program" call unix:line near --me near --peer far --timeout 2 "$@" >near.out 2>near.err </dev/null || status=$?
}

# masked FILE: the log, each line without its time, which has to be one, and without its process.
masked() {
    sed -E 's/^(uucpair [^ ]+ -) \(20[0-9]{2}-[01][0-9]-[0-3][0-9] [0-2][0-9]:[0-5][0-9]:[0-6][0-9]\.[0-9]{2} [0-9]+\)/\1/' "$1"
}

# logged NAME FILE LINES [FAULT]: the log has these lines, and no others.
logged() {
    local fault=${4:-}
    [ "$(masked "$2")" = "$3" ] || fault="$fault $2 has $(masked "$2")"
    report "$1" "$fault"
}

# ---- what is in a log

folders "send x ~/x me" "request y y me" "request none none me" "send none ~/n me"
answer_at --log far.log
call_at --log near.log
end_of "$answerer" 20
fault=
[ "$(cat near.err)" = "uucpair: request none none me: not given by the other end: no such file in its send, or barred there; or it can't be put in its place here
uucpair: send none ~/n me: no file near/send/none" ] || fault="the caller said $(cat near.err);"
logged "a caller" near.log "uucpair far - Calling system far (port unix:line)
uucpair far - Sending x (15 bytes)
uucpair far - Receiving y (7 bytes)
uucpair far - ERROR: request none none: refused
uucpair far - ERROR: 2 jobs were given up
uucpair far - Call complete (0 seconds 22 bytes 0 bps)
uucpair far - ERROR: request none none me: not given by the other end: no such file in its send, or barred there; or it can't be put in its place here
uucpair far - ERROR: send none ~/n me: no file near/send/none" "$fault"
logged "a called end" far.log "uucpair - - Incoming call (login - port unix:line)
uucpair near - Receiving ~/x (15 bytes)
uucpair near - Sending y (7 bytes)
uucpair near - ERROR: request none none: refused
uucpair near - Call complete (0 seconds 22 bytes 0 bps)"

# Of which process it is.
pids=$(sed -E 's/.* ([0-9]+)\) .*/\1/' far.log | sort -u)
fault=
[ "$pids" = "$answerer" ] || fault="$pids, and not $answerer"
report "the process" "$fault"

# uulog prints it, and of one system what is of that.
printf 'nodename here\nlogfile %s\nspool %s\n' "$work/near.log" "$work" >config
chmod 755 "$work" && chmod 644 config ./*.log
fault=
[ "$(uulog -I "$work/config")" = "$(cat near.log)" ] || fault="all of it: $(uulog -I "$work/config");"
[ "$(uulog -I "$work/config" -s far)" = "$(cat near.log)" ] || fault="$fault of far: $(uulog -I "$work/config" -s far);"
[ -z "$(uulog -I "$work/config" -s near)" ] || fault="$fault of near: $(uulog -I "$work/config" -s near)"
report "uulog" "$fault"

# Jobs for which there is no room in the session.
folders "send x ~/x me" "send large ~/large me" "send x ~/y me"
head -c 1048576 /dev/zero >near/send/large
answer_at
call_at --log near.log --most 1048576
end_of "$answerer" 20
fault=
[ "$(cat near.err)" = "uucpair: 2 jobs wait for the next session" ] || fault="the caller said $(cat near.err);"
grep -q " ERROR: 2 jobs wait for the next session$" near.log || fault="$fault the log has $(cat near.log)"
report "jobs that wait" "$fault"

# A job that the other end refuses.
folders "send x ~/.x me"
answer_at
call_at --log near.log
end_of "$answerer" 20
fault=
refused="send x ~/.x me: refused by the other end: in a folder a target is a name, NAME or ~/NAME, without a leading dot"
[ "$(cat near.err)" = "uucpair: $refused" ] || fault="the caller said $(cat near.err);"
grep -qF " ERROR: $refused" near.log || fault="$fault the log has $(cat near.log)"
report "why a job was refused" "$fault"

# It is appended to, -v says what it says beside it, and each session of several is in it.
folders "send x ~/x me"
echo "what was there" >far.log
answer_at --log far.log --sessions 2 -v
call_at
echo "send x ~/z me" >near/jobs
call_at
end_of "$answerer" 20
grep -q "uucpair: 0 s: peer's send x ~/z" far.err && fault='' || fault="-v says $(cat far.err)"
logged "two sessions" far.log "what was there
uucpair - - Incoming call (login - port unix:line)
uucpair near - Receiving ~/x (15 bytes)
uucpair near - Call complete (0 seconds 15 bytes 0 bps)
uucpair - - Incoming call (login - port unix:line)
uucpair near - Receiving ~/z (15 bytes)
uucpair near - Call complete (0 seconds 15 bytes 0 bps)" "$fault"

# A stranger, and then nobody.
folders
answer_at --log far.log --wait 3
ended=0
"$program" call unix:line near --me other --peer far --timeout 2 --log near.log >near.out 2>near.err || ended=$?
end_of "$answerer" 20
logged "a stranger at the called end, and then nobody" far.log "uucpair - - Incoming call (login - port unix:line)
uucpair near - ERROR: refused: heard \"Sother\", expected \"near\"
uucpair near - Call complete (0 seconds 0 bytes 0 bps)
uucpair near - ERROR: gaveup: heard nothing (is the other end calling? a terminal has to be raw: stty raw -echo)"
logged "the stranger" near.log "uucpair far - Calling system far (port unix:line)
uucpair far - ERROR: refused: the other end refused: \"RYou are unknown to me\" (it does not know the name of this end)
uucpair far - Call complete (0 seconds 0 bytes 0 bps)"

# A session that does not begin.
folders "put x"
call_at --log near.log
logged "bad jobs" near.log "uucpair far - Calling system far (port unix:line)
uucpair far - ERROR: bad jobs at line 1: near/jobs: line 1: \"put\" is neither send nor request"
folders "send x ~/x me"
"$program" call $'unix:\e[31m' near --me near --peer far --log near.log >near.out 2>near.err && true
logged "a line that can't be opened, of which not all can be seen" near.log 'uucpair far - Calling system far (port unix:\x1b[31m)
uucpair far - ERROR: device fault: unix:\x1b[31m: no such file or directory'

# The other end dies.
folders "send x ~/x me"
python3 "$root/tests/dying_end.py" unix:line answer unread >dying 2>&1 </dev/null &
partner=$!
wait_for_socket "$work/line" || true
call_at --log near.log
end_of "$partner" 5
logged "an end that is left alone" near.log "uucpair far - Calling system far (port unix:line)
uucpair far - ERROR: hungup
uucpair far - Call complete (0 seconds 0 bytes 0 bps)
uucpair far - ERROR: unix:line: connection reset"

# A session that a signal ends is told by the next one.
folders "send x ~/x me"
python3 -c 'import socket
listener = socket.socket(socket.AF_UNIX)
listener.bind("line")
listener.listen()
listener.accept()[0].recv(100)' &
partner=$!
wait_for_socket "$work/line" || true
"$program" call unix:line near --me near --peer far --log near.log >near.out 2>near.err </dev/null &
caller=$!
wait_until 5 test -e near/.session || true
kill -TERM "$caller"
wait "$caller" || true
end_of "$partner" 5
rm -f line
answer_at
call_at --log near.log
end_of "$answerer" 20
[ ! -e near/.session ] && fault='' || fault="its mark is left;"
logged "a session that a signal has ended" near.log "uucpair far - Calling system far (port unix:line)
uucpair far - Calling system far (port unix:line)
uucpair far - ERROR: the last session was broken off
uucpair far - Sending x (15 bytes)
uucpair far - Call complete (0 seconds 15 bytes 0 bps)" "$fault"

# ---- when

# What becomes of a job is in the log once it is in `jobs`.
folders "send x ~/x me"
answer_at
strace -f -s 200 -e trace=write,rename,renameat,renameat2,link,linkat -o trace "$program" call unix:line near --me near --peer far --log near.log \
    >near.out 2>near.err
end_of "$answerer" 20
jobs_at=$(grep -nE 'rename.*"near/jobs"' trace | head -n 1 | cut -d : -f 1)
line_at=$(grep -n 'write(.*Sending x' trace | cut -d : -f 1)
fault=
[ -n "$jobs_at" ] && [ -n "$line_at" ] && [ "$jobs_at" -lt "$line_at" ] || fault="jobs at $jobs_at, the line at $line_at;"
[ "$(grep -c 'write(.*uucpair far' trace)" -eq "$(wc -l <near.log)" ] || fault="$fault not one write for each line"
report "a job's line comes once jobs is without it, by one write" "$fault"

# The time is that of the place.
folders
for zone in UTC Asia/Tokyo :America/New_York XYZ-3:30; do
    rm -f near.log
    TZ=$zone "$program" call unix:line near --me near --peer far --log near.log >near.out 2>near.err && true
    at=$(sed -nE '1s/.*\((.*)\.[0-9]+ [0-9]+\).*/\1/p' near.log)
    fault="$at"
    for past in 0 1 2; do
        [ "$at" != "$(TZ=$zone date -d "-$past seconds" '+%F %T')" ] || fault=
    done
    report "the time in $zone" "$fault"
done

# Ends that have one log write whole lines.
folders
enders=()
for ((i = 0; i < 8; i++)); do
    mkdir -p "n$i"/{send,got} "f$i"/got
    for ((k = 0; k < 40; k++)); do
        echo "$i $k" >"n$i/send/f$k"
        echo "send f$k ~/f$k me" >>"n$i/jobs"
    done
    "$program" answer "unix:line$i" "f$i" --me far --peer near --log both.log >/dev/null 2>&1 </dev/null &
    enders+=($!)
done
for ((i = 0; i < 8; i++)); do
    wait_for_socket "$work/line$i" || true
    "$program" call "unix:line$i" "n$i" --me near --peer far --log both.log >/dev/null 2>&1 </dev/null &
    enders+=($!)
done
fault=
for ender in "${enders[@]}"; do
    end_of "$ender" 60
    [ "$status" -eq 0 ] || fault="an end ended with $status;"
done
# Eight begin and end at each side, and each of the forty files goes and comes eight times.
[ "$(wc -l <both.log)" -eq 672 ] || fault="$fault $(wc -l <both.log) lines;"
[ "$(masked both.log | grep -c '^uucpair [^ ]* - \(Sending f\|Receiving ~/f\)[0-9]* ([0-9]* bytes)$')" -eq 640 ] || fault="$fault some lines are not whole"
report "sixteen ends with one log" "$fault"

# ---- what a log leaves alone

folders "send x ~/x me"
call_at --log none/log
fault=
[ "$status" -eq 3 ] && [ "$(cat near.err)" = "uucpair: device fault${line_feed}uucpair: none/log: no such file or directory" ] \
    || fault="status $status, said $(cat near.err)"
report "a log in no folder" "$fault"
call_at --log near
fault=
[ "$status" -eq 3 ] && [ "$(cat near.err)" = "uucpair: device fault${line_feed}uucpair: near: is a directory" ] \
    || fault="status $status, said $(cat near.err)"
report "a log that is a folder" "$fault"
"$program" answer unix:line far --me far --peer near --log none/log >far.out 2>far.err && ended=0 || ended=$?
fault=
[ "$ended" -eq 3 ] && [ ! -e line ] && [ "$(cat far.err)" = "uucpair: device fault${line_feed}uucpair: none/log: no such file or directory" ] \
    || fault="status $ended, said $(cat far.err)"
report "the same of an end that is called, which makes no socket then" "$fault"
call_at --log near.log --report none/report
fault=
[ "$status" -eq 3 ] && [ "$(cat near.err)" = "uucpair: device fault${line_feed}uucpair: none/report: no such file or directory" ] \
    || fault="status $status, said $(cat near.err)"
report "a log, and a report that can't be made" "$fault"
call_at --log near.log --window 8
fault=
[ "$status" -eq 2 ] && [ ! -e near.log ] || fault="status $status"
report "no log of bad usage" "$fault"

# A log that takes nothing stops no session.
folders "send x ~/x me"
answer_at --log /dev/full
call_at --log /dev/full
end_of "$answerer" 20
fault=
[ "$(cat near.out far.out)" = "caller done pending 0 struck 1 failed 0${line_feed}called done pending 0 struck 0 failed 0" ] \
    || fault="printed $(cat near.out far.out)"
report "a full disk" "$fault"

echo "$passed passed, $failed failed"
[ "$failed" -eq 0 ]
