#!/usr/bin/env bash
# Tests what no contract says of the program: its command line, its texts, and that the system's streams move bytes and
# faults.
#
#     tests/command_line.sh [PROGRAM]
#
# Without PROGRAM it is the one of the sources here, which is proved and built first where that is needed. Says how many rows passed, and ends with status 1 where one
# did not. Needs python3, as rt does.
. "$(dirname "$(readlink -f "$0")")/common.sh"
find_program "${1:-}"
new_passing_work
line_feed='
'
usage="uucpair: bad usage${line_feed}uucpair: "
device="uucpair: device fault$line_feed"
uncalled="heard nothing (is the other end calling? a terminal has to be raw: stty raw -echo)"

# row NAME STATUS SAID PRINTED WORD..: runs the program with the words on standard input, by the function that `by` names,
# if it does. What it says on standard error is SAID, to the last byte, or where `begins` is set begins with it: the parser's
# texts, and what has a time in it. What it prints is PRINTED.
row() {
    local name=$1 status=$2 said=$3 printed=$4 ended=0 text fault=
    shift 4
    ${by:-} "$program" "$@" >"$work/printed" 2>"$work/said" || ended=$?
    text=$(cat "$work/said" && echo .)
    text=${text%.}
    [ "$ended" -eq "$status" ] || fault="$fault ended with $ended, not $status;"
    [ "$text" = "$said" ] || [[ -n ${begins:-} && $text == "$said"* ]] || fault="$fault said $text;"
    printf '%s' "$printed" | cmp -s - "$work/printed" || fault="$fault printed $(cat "$work/printed");"
    report "$name" "$fault"
}

# helps NAME TEXT: what was said last has the text.
helps() {
    local fault=
    grep -qF -e "$2" "$work/said" || fault="not said: $2"
    report "$1" "$fault"
}

# holds NAME FILE TEXT: the file has the text.
holds() {
    local fault=
    printf '%s' "$3" | cmp -s - "$2" || fault="$2 has $(cat "$2")"
    report "$1" "$fault"
}

# folders JOB: the folder of the caller, with this job and an empty file to give, and that of the called end.
folders() {
    rm -rf "$work/a" "$work/b"
    mkdir -p "$work/a/send" "$work/a/got" "$work/b/got"
    printf '%s\n' "$1" >"$work/a/jobs"
    : >"$work/a/send/x"
}

# The six bytes of one packet.
packet() {
    printf '\020\011\157\252\073\367'
}

# on_a_broken_line COMMAND..: the command's standard input has these bytes, and then fails.
on_a_broken_line() {
    python3 -c '
import os, sys, tty
near, far = os.openpty()
tty.setraw(far)
os.write(far, sys.stdin.buffer.read())
os.close(far)
os.dup2(near, 0)
os.execv(sys.argv[1], sys.argv[1:])
' "$@"
}

# at_a_terminal COMMAND..: the command's standard input and standard error are a terminal, at which its user ends the input
# at once.
at_a_terminal() {
    python3 -c '
import os, sys, termios
near, far = os.openpty()
mode = termios.tcgetattr(far)
mode[1] &= ~termios.OPOST
mode[3] &= ~termios.ECHO
termios.tcsetattr(far, termios.TCSANOW, mode)
os.write(near, mode[6][termios.VEOF])
child = os.fork()
if child == 0:
    os.dup2(far, 0)
    os.dup2(far, 2)
    os.execv(sys.argv[1], sys.argv[1:])
os.close(far)
said = b""
try:
    while piece := os.read(near, 4096):
        said += piece
except OSError:
    pass
sys.stderr.buffer.write(said)
sys.exit(os.waitstatus_to_exitcode(os.waitpid(child, 0)[1]))
' "$@"
}

to_a_full_disk() {
    "$@" >/dev/full
}

with_little_memory() {
    (ulimit -v 16384 && exec "$@")
}

# Two ends whose line brings nothing.
silent='caller a 2 32
called b 2 32
'
silent_report='session 1
caller sent 0 taken 0 most 0 hail
called sent 0 taken 0 most 0 hail
caller pending 0 struck 0 failed 0
called pending 0 struck 0 failed 0
verdict clean
'

# Two ends with nothing to do.
idle='caller a 2 32
called b 2 32
flow 20
'
idle_report='session 1
caller sent 2 taken 1 most 1 done
called sent 1 taken 2 most 1 done
caller pending 0 struck 0 failed 0
called pending 0 struck 0 failed 0
verdict clean
'

# The called end finds in the field of a packet whose header is lost what was not sent.
fooled='caller a 2 32
called b 2 32
file caller x 0644 100985aa2503
send caller x y u
flow 5
pass called 1000
pass caller 1000
pass called 6
drop called 6
pass called 1000
'
fooled_report='session 1
caller sent 3 taken 1 most 2 talking
called sent 1 taken 1 most 1 talking
caller pending 1 struck 0 failed 0
called pending 0 struck 0 failed 0
verdict fooled 14 called
'

# The packet that offers a file is lost, and nothing after it.
lost='caller a 2 32
called b 2 32
file caller x 0644 -
send caller x y u
flow 5
drop called 1000
'
lost_report='session 1
caller sent 1 taken 0 most 1 talking
called sent 0 taken 0 most 0 talking
caller pending 1 struck 0 failed 0
called pending 0 struck 0 failed 0
verdict clean
session 1
caller sent 4 taken 3 most 1 done
called sent 3 taken 4 most 1 done
caller pending 0 struck 1 failed 0
called pending 0 struck 0 failed 0
called stored y 0644 -
verdict clean
'

# A job whose file is missing, one that asks for what the other end lacks, and two that stay.
undone='caller a 2 32
called b 2 32
file caller x 0644 -
later called y
send caller z y u
send caller x y u
request caller x y u
flow 20
call
'
undone_report='session 1
caller sent 4 taken 3 most 1 done
called sent 3 taken 4 most 1 done
session 2
caller sent 0 taken 0 most 0 hail
called sent 0 taken 0 most 0 hail
caller pending 1 struck 0 failed 2
called pending 0 struck 0 failed 0
verdict clean
'
undone_reasons='send caller z y u: no such file
request caller x y u: no such file at the other end
send caller x y u: put off: the other end will take it later
'

# The called end keeps a number, and the caller tells another one.
misnumbered='caller a 2 32
called b 2 32
number caller 7
number called 9
flow 20
'
misnumbered_report='session 1
caller sent 0 taken 0 most 0 badsequence
called sent 0 taken 0 most 0 badsequence
caller pending 0 struck 0 failed 0
called pending 0 struck 0 failed 0
caller number 7
called number 9
verdict clean
'

row "a scan of nothing" 0 "" "REST 0$line_feed" scan </dev/null
row "a scan of a packet" 0 "" "INITA 3${line_feed}REST 0$line_feed" scan < <(packet)
detailed="INITA 3 AT 0 LENGTH 6${line_feed}REST 0 AT 6 LENGTH 0$line_feed"
row "a detailed scan of a packet" 0 "" "$detailed" scan -v < <(packet)
row "a detailed scan of a text" 0 "" "TEXT Shere=b\\x0d AT 0 LENGTH 10${line_feed}REST 0 AT 10 LENGTH 0$line_feed" \
    scan --verbose < <(printf '\020Shere=b\r\n')
row "a play of idle ends" 0 "" "$idle_report" play < <(printf '%s' "$idle")
row "a play of a silent line" 1 "" "$silent_report" play < <(printf '%s' "$silent")
row "a play that fools an end" 5 "" "$fooled_report" play < <(printf '%s' "$fooled")
row "a bad script" 2 "uucpair: bad script at line 2$line_feed" "" play < <(printf '\ncall me\n')
row "what is wrong with a bad script" 2 "uucpair: bad script at line 2${line_feed}uucpair: unexpected word me$line_feed" "" \
    play -v < <(printf '\ncall me\n')
row "what is wrong with a window" 2 "uucpair: bad script at line 1${line_feed}uucpair: window 8 is not 1 to 7$line_feed" "" \
    play --verbose < <(printf 'caller a 8 32\n')
row "nothing wrong with a script" 0 "" "$idle_report" play -v < <(printf '%s' "$idle")
row "why jobs are not done" 1 "$undone_reasons" "$undone_report" play -v < <(printf '%s' "$undone")
row "the same without that" 1 "" "$undone_report" play < <(printf '%s' "$undone")
row "a play whose caller tells another number" 1 "" "$misnumbered_report" play < <(printf '%s' "$misnumbered")
row "a number that is too great" 2 "uucpair: bad script at line 1${line_feed}uucpair: number 4294967296 is not 0 to 4294967295$line_feed" "" \
    play -v < <(printf 'number caller 4294967296\n')
row "a play that settles" 0 "" "$lost_report" play --settle < <(printf '%s' "$lost")
row "a play of what is done" 0 "" "${idle_report}not settled: caller is not talking$line_feed" play --settle < <(printf '%s' "$idle")
row "a play that fools an end, and does not settle" 5 "" "${fooled_report}not settled: the line fooled an end$line_feed" \
    play --settle < <(printf '%s' "$fooled")
row "a play with an end that is quiet on repeats does not settle" 1 "" \
    "$(head -n 6 <<<"$lost_report")${line_feed}not settled: caller is quiet on repeats$line_feed" \
    play --settle < <(printf '%squiet caller\n' "$lost")
row "an end that is quiet twice" 2 "uucpair: bad script at line 2$line_feed" "" \
    play < <(printf 'quiet caller\nquiet caller\n')
row "an end whose commands are short twice" 2 \
    "uucpair: bad script at line 2${line_feed}uucpair: the end has this setting already, or 1024 jobs$line_feed" "" \
    play -v < <(printf 'short caller\nshort caller\n')
row "an end that is lenient twice" 2 "uucpair: bad script at line 2$line_feed" "" \
    play < <(printf 'lenient called\nlenient called\n')
row "a bad script that does not settle" 2 "uucpair: bad script at line 2$line_feed" "" play --settle < <(printf '\ncall me\n')
row "a ladder that ends at once" 1 "" "${silent_report}session 1${line_feed}event  caller                                               called${line_feed}start           ...---------------------------------------- TEXT Shere=b$line_feed" \
    play --ladder < <(printf 'caller a 2 32\ncalled b 2 32\n')
row "a bad script that is not drawn" 2 "uucpair: bad script at line 2$line_feed" "" play --ladder < <(printf '\ncall me\n')
begins=yes row "a ladder that settles" 2 "error: " "" play --ladder --settle </dev/null
begins=yes row "two options that exclude each other" 2 "error: " "" play --settle -v </dev/null

begins=yes row "no tool" 2 "error: " "" </dev/null
begins=yes row "an unknown tool" 2 "error: " "" copy s a b </dev/null
begins=yes row "two words after scan" 2 "error: " "" scan file file </dev/null
begins=yes row "two words after play" 2 "error: " "" play file file </dev/null
begins=yes row "a pair without a folder" 2 "error: " "" pair s a </dev/null
begins=yes row "a pair with a number that is none" 2 "error: " "" pair s a b --drop-every x </dev/null
row "a pair with a number out of range" 2 "${usage}flip-every 1 is not 2 to 1000000$line_feed" "" pair s a b --flip-every 1 </dev/null
begins=yes row "a call without names" 2 "error: " "" call l a </dev/null
row "a call with a window of 8" 2 "${usage}window 8 is not 1 to 7$line_feed" "" call l a --me a --peer b --window 8 </dev/null
row "a call with a size of 65" 2 "${usage}size 65 is not 32, 64, 128, 256, 512, 1024, 2048 or 4096$line_feed" "" call l a --me a --peer b --size 65 </dev/null
row "a call that never waits" 2 "${usage}timeout 0 is not 1 to 600$line_feed" "" call l a --me a --peer b --timeout 0 </dev/null
row "a call over a line without a speed" 2 "${usage}speed 0 is not 300 to 10000000$line_feed" "" call l a --me a --peer b --speed 0 </dev/null
row "a call over a line that is too slow" 2 "${usage}speed 299 is not 300 to 10000000$line_feed" "" call l a --me a --peer b --speed 299 </dev/null
row "a call over a line that is too fast" 2 "${usage}speed 10000001 is not 300 to 10000000$line_feed" "" call l a --me a --peer b --speed 10000001 </dev/null
begins=yes row "a call that waits to be called" 2 "uucpair: --wait is for answer: " "" call l a --me a --peer b --wait 5 </dev/null
row "an answer that doesn't wait" 2 "${usage}wait 0 is not 1 to 1000000000$line_feed" "" answer l a --me a --peer b --wait 0 </dev/null
row "an answer that waits too long" 2 "${usage}wait 1000000001 is not 1 to 1000000000$line_feed" "" answer l a --me a --peer b --wait 1000000001 </dev/null
row "a call to a port that is none" 2 "${usage}tcp:h:x has no port number (0 to 65535): give tcp:HOST:PORT$line_feed" "" call tcp:h:x a --me a --peer b </dev/null
row "a call to a socket without a path" 2 "${usage}unix: has no path$line_feed" "" call unix: a --me a --peer b </dev/null
row "a call over a line without a name" 2 "${usage}LINE is empty$line_feed" "" call "" a --me a --peer b </dev/null
row "an answer with a name that is none" 2 \
    "${usage}\"a b\" is not a system name: 1 to 200 printable characters without spaces$line_feed" "" answer l a --me "a b" --peer b </dev/null
row "an answer without the name of the other end" 2 \
    "${usage}the name of the other end is missing: --peer$line_feed" "" answer l a --me a </dev/null
begins=yes row "a call without the name of the other end" 2 "error: " "" call l a --spool --me a </dev/null
row "an order with a cancel" 2 "${usage}queue a job or cancel one, not both$line_feed" "" queue a send x --cancel 1 </dev/null
begins=yes row "a cancel of nothing" 2 "error: " "" queue a --cancel </dev/null
begins=yes row "a status of nothing" 2 "error: " "" status --json </dev/null
begins=yes row "a status of two folders" 2 "error: " "" status a b </dev/null
row "a word that is no text" 2 "uucpair: bad usage$line_feed" "" $'\377' </dev/null
begins=yes row "help" 2 "Tools for the" "" --help </dev/null
helps "help on scan" "scan    Reads bytes"
helps "help on play" "play    Reads a script"
helps "help on pair" "pair    Moves files"
helps "help on call" "call    Calls another system"
helps "help on answer" "answer  Waits for another"
helps "help on queue" "queue   Queues a job"
helps "help on status" "status  Shows the pending"
begins=yes row "help of scan" 2 "Reads bytes" "" scan --help </dev/null
helps "a line of a listing" "  DATA N ACK N SIZE N VALID N"
helps "a line of a detailed listing" "  CONTROL BAD checksum"
helps "the statuses of scan" "Status: 0 done, 2 bad usage"
helps "an example of scan" "printf '\\020\\011\\157\\252\\073\\367' | uucpair scan"
begins=yes row "help of play" 2 "Reads a script" "" play --help </dev/null
helps "a line of a script" "  immovable SIDE NAME "
helps "the statuses of play" "5 the line fooled an end"
helps "an example of play" "flow 20\\n' | uucpair play"
begins=yes row "help of pair" 2 "Moves files" "" pair --help </dev/null
helps "a line of jobs" "request SOURCE TARGET USER"
helps "the statuses of pair" "Status: 0 both sessions are done"
helps "an example of pair" "uucpair pair line a b --drop-every 7"
begins=yes row "help of status" 2 "Shows the pending" "" status --help </dev/null
helps "a line of a status" "  failed JOB: WHY"
helps "the statuses of status" "Status: 0 done, 2 bad usage or bad jobs"
begins=yes row "help of call" 2 "Calls another system" "" call --help </dev/null
helps "a name of a line" "  tcp:HOST:PORT  "
helps "the statuses of call" "Status: 0 the session is done"
helps "an example of call" "uucpair call unix:line a --me alpha --peer beta"
helps "the log of a call" "--log <FILE>"
begins=yes row "help of answer" 2 "Waits for another" "" answer --help </dev/null
row "the version" 0 "" "uucpair 0.1.0$line_feed" --version </dev/null
row "the version in short" 0 "" "uucpair 0.1.0$line_feed" -V </dev/null

packet >"$work/packet"
printf '%s' "$idle" >"$work/script"
row "a scan of a file" 0 "" "INITA 3${line_feed}REST 0$line_feed" scan "$work/packet" <"$work"
row "a detailed scan of a file" 0 "" "$detailed" scan -v "$work/packet" <"$work"
row "a play of a file" 0 "" "$idle_report" play "$work/script" <"$work"
row "a bad script in a file" 2 "uucpair: bad script at line 1$line_feed" "" play "$work/packet" </dev/null
row "what is wrong with a bad script in a file" 2 "uucpair: bad script at line 1${line_feed}uucpair: unknown statement$line_feed" "" \
    play -v "$work/packet" </dev/null
absent="${device}uucpair: can't read $work/absent${line_feed}uucpair: $work/absent: no such file or directory$line_feed"
row "a scan of no file" 3 "$device" "" scan "$work/absent" </dev/null
row "a detailed scan of no file" 3 "$absent" "" scan -v "$work/absent" </dev/null
row "a play of no file" 3 "$device" "" play "$work/absent" </dev/null
row "a play of no file that would settle" 3 "$device" "" play --settle "$work/absent" </dev/null
row "a play of no file that would be drawn" 3 "$device" "" play --ladder "$work/absent" </dev/null
row "what is wrong with no file" 3 "$absent" "" play -v "$work/absent" </dev/null
folder="${device}uucpair: can't read $work${line_feed}uucpair: $work: is a directory$line_feed"
row "a scan of a folder by name" 3 "$device" "" scan "$work" </dev/null
row "a detailed scan of a folder by name" 3 "$folder" "" scan -v "$work" </dev/null
row "a play of a folder by name" 3 "$device" "" play "$work" </dev/null
row "what is wrong with a folder by name" 3 "$folder" "" play -v "$work" </dev/null
reading="uucpair: reading standard input, until Ctrl-D$line_feed"
by=at_a_terminal row "a scan at a terminal" 0 "$reading" "REST 0$line_feed" scan
by=at_a_terminal row "a detailed scan at a terminal" 0 "$reading" "REST 0 AT 0 LENGTH 0$line_feed" scan -v
by=at_a_terminal row "a play at a terminal" 2 "${reading}uucpair: bad script at line 1$line_feed" "" play
by=at_a_terminal row "a scan of a file at a terminal" 0 "" "INITA 3${line_feed}REST 0$line_feed" scan "$work/packet"

cp "$root/uucpair" "$work/launcher"
begins=yes program=$work/launcher row "a launcher that was copied away" 125 "uucpair: the launcher runs only in the folder" "" scan </dev/null
helps "what the launcher misses" "$work has no crates.txt"

a=$work/a
b=$work/b
socket=$work/socket
folders "send x y u"
row "a pair over a line that loses packets" 0 "" \
    "caller done pending 0 struck 1 failed 0${line_feed}called done pending 0 struck 0 failed 0$line_feed" \
    pair "$socket" "$a" "$b" --drop-every 7 </dev/null
holds "the file that was sent" "$b/got/y" ""
holds "no job left" "$a/jobs" ""
holds "no job made" "$b/jobs" ""
folders "send x .y u"
row "a pair with a hidden target" 0 "" \
    "caller done pending 0 struck 0 failed 1${line_feed}called done pending 0 struck 0 failed 0${line_feed}caller failed send x .y u$line_feed" \
    pair "$socket" "$a" "$b" </dev/null
folders "send x y u"
rmdir "$b/got"
row "a pair that can't keep" 1 "" \
    "caller peerclosed pending 1 struck 0 failed 0${line_feed}called spoolfault pending 0 struck 0 failed 0$line_feed" \
    pair "$socket" "$a" "$b" </dev/null
holds "the job that is left" "$a/jobs" "send x y u$line_feed"
spool=$work/spool
mkdir "$spool"
row "a spool that is not there" 3 \
    "uucpair: device fault${line_feed}uucpair: $spool/none: no such file or directory$line_feed" "" \
    call unix:"$socket" "$spool/none" --spool --me a --peer b --locks "$spool" </dev/null
row "a spool whose line is not there" 3 \
    "uucpair: device fault${line_feed}uucpair: unix:$socket: no such file or directory$line_feed" "" \
    call unix:"$socket" "$spool" --spool --me a --peer b --locks "$spool" </dev/null
fault=
grep -qx '2 1 [0-9]* 600 Dial failed b' "$spool/.Status/b" || fault="the status is $(cat "$spool/.Status/b")"
report "the status of a call that nobody answered" "$fault"
printf '%10d\n' $$ >"$spool/LCK..b"
cp "$spool/.Status/b" "$work/status"
row "a spool whose other system is locked" 1 "uucpair: system b is locked by $spool/LCK..b$line_feed" "" \
    call unix:"$socket" "$spool" --spool --me a --peer b --locks "$spool" </dev/null
holds "the status of a system that is locked" "$spool/.Status/b" "$(cat "$work/status")$line_feed"
row "a spool whose folder of locks is a file" 3 \
    "uucpair: device fault${line_feed}uucpair: no lock file can be created (--locks): $spool/LCK..b: not a directory$line_feed" "" \
    call unix:"$socket" "$spool" --spool --me a --peer b --locks "$spool/LCK..b" </dev/null
row "a spool whose folder of locks is not there" 3 \
    "uucpair: device fault${line_feed}uucpair: no lock file can be created (--locks): $spool/none: no such file or directory$line_feed" "" \
    call unix:"$socket" "$spool" --spool --me a --peer b --locks "$spool/none" </dev/null
# hears NAME WORDS [OPTION]..: what a caller `b` hears of an end over a spool
hears() {
    local name=$1 words=$2 heard
    shift 2
    heard=$(printf '\020Sb\0' | "$program" answer - "$spool" --spool --me a --timeout 1 --locks "$spool" --report "$work/report" "$@" 2>/dev/null | tr '\020\0' '<>') || true
    report "$name" "$([ "$heard" = "$words" ] || echo "heard: $heard")"
}
mkdir -p "$spool/b"
hears "a caller of a hub whose system is locked" "<Shere=a><RLCK>"
hears "a caller of an end whose system is locked" "<Shere=a><RLCK>" --peer b
rm "$spool/LCK..b"
rm -r "$spool/b"
hears "a caller of a hub that knows no such system" "<Shere=a><RYou are unknown to me>"
folders "send x y"
row "a pair with a bad job" 2 "uucpair: bad jobs at line 1$line_feed" "" pair "$socket" "$a" "$b" </dev/null
row "what is wrong with a bad job" 2 \
    "uucpair: bad jobs at line 1${line_feed}uucpair: $a/jobs: line 1: USER is missing$line_feed" "" pair "$socket" "$a" "$b" -v </dev/null
row "a call with a bad job" 2 \
    "uucpair: bad jobs at line 1${line_feed}uucpair: $a/jobs: line 1: USER is missing$line_feed" "" \
    call "unix:$socket" "$a" --me a --peer b </dev/null
holds "the bad job" "$a/jobs" "send x y$line_feed"
folders "send x y u"
touch "$socket"
row "a pair whose socket has no place" 3 "$device" "" pair "$socket" "$a" "$b" </dev/null
row "why that socket has none" 3 "${device}uucpair: $socket: address in use$line_feed" "" pair "$socket" "$a" "$b" --verbose </dev/null
row "a pair without a folder to read" 3 "$device" "" pair "$socket" "$a/none" "$b" </dev/null
row "why there is none" 3 "${device}uucpair: $a/none: no such file or directory$line_feed" "" pair "$socket" "$a/none" "$b" -v </dev/null
holds "the job that was not begun" "$a/jobs" "send x y u$line_feed"

# answer_in_the_background [OPTION]: waits until the socket is there.
answer_in_the_background() {
    "$program" answer "unix:$socket" "$b" --me b --peer a "$@" >"$work/answered" 2>&1 </dev/null &
    answerer=$!
    for _ in 1 2 3 4 5 6 7 8 9 10; do
        [ ! -e "$socket" ] || break
        sleep 0.1
    done
}

rm -f "$socket"
folders "send x ~/y u"
answer_in_the_background
row "a call" 0 "" "caller done pending 0 struck 1 failed 0$line_feed" call "unix:$socket" "$a" --me a --peer b </dev/null
wait "$answerer" || true
holds "what the end that was called says" "$work/answered" "called done pending 0 struck 0 failed 0$line_feed"
holds "the file that was sent by a call" "$b/got/y" ""
holds "no job left after a call" "$a/jobs" ""
folders "send x y u"
answer_in_the_background --no-quiet
row "a call that answers each repeat" 0 "" "caller done pending 0 struck 1 failed 0$line_feed" \
    call "unix:$socket" "$a" --me a --peer b --no-quiet </dev/null
wait "$answerer" || true
folders "send x y u"
answer_in_the_background --every-ack
row "a call that acknowledges each packet" 0 "" "caller done pending 0 struck 1 failed 0$line_feed" \
    call "unix:$socket" "$a" --me a --peer b --every-ack </dev/null
wait "$answerer" || true
folders "send x y u"
answer_in_the_background --fill-commands
row "a call that fills up its commands" 0 "" "caller done pending 0 struck 1 failed 0$line_feed" \
    call "unix:$socket" "$a" --me a --peer b --fill-commands </dev/null
wait "$answerer" || true
folders "send x y u"
answer_in_the_background --strict
row "a call of a strict end" 0 "" "caller done pending 0 struck 1 failed 0$line_feed" \
    call "unix:$socket" "$a" --me a --peer b --strict </dev/null
wait "$answerer" || true
folders "send x y u"
answer_in_the_background --no-digest
row "a call to an end that compares no digests" 0 "" "caller done pending 0 struck 1 failed 0$line_feed" \
    call "unix:$socket" "$a" --me a --peer b </dev/null
wait "$answerer" || true
folders "send x y u"
answer_in_the_background
row "a call that tells no digests" 0 "" "caller done pending 0 struck 1 failed 0$line_feed" \
    call "unix:$socket" "$a" --me a --peer b --no-digest </dev/null
wait "$answerer" || true
folders "send ~/x y u"
answer_in_the_background
begins=yes row "a call that is followed" 0 "uucpair: 0 s: " "caller done pending 0 struck 1 failed 0$line_feed" \
    call "unix:$socket" "$a" --me a --peer b -v </dev/null
wait "$answerer" || true
helps "the job that begins" " s: send ~/x y"
helps "how it ends" " s: send ~/x y: done 0 bytes in "
helps "what was lost" " bytes rejects 0 repeats 0 damaged 0"
folders "send x /etc/y u"
answer_in_the_background
row "a call with a path for a target" 0 "uucpair: send x /etc/y u: refused by the other end: in a folder a target is a name, NAME or ~/NAME, without a leading dot$line_feed" \
    "caller done pending 0 struck 0 failed 1${line_feed}caller failed send x /etc/y u$line_feed" \
    call "unix:$socket" "$a" --me a --peer b </dev/null
wait "$answerer" || true
answer_in_the_background --wait 4
row "a call of a stranger" 1 \
    "uucpair: the other end refused: \"RYou are unknown to me\" (it does not know the name of this end)$line_feed" \
    "caller refused pending 0 struck 0 failed 0$line_feed" \
    call "unix:$socket" "$a" --me c --peer b </dev/null
wait "$answerer" || true
folders "send x y u"
answer_in_the_background --number
row "a call that begins to keep a number" 0 "" "caller done pending 0 struck 1 failed 0$line_feed" \
    call "unix:$socket" "$a" --me a --peer b --number </dev/null
wait "$answerer" || true
holds "the caller's next number" "$a/number" "1$line_feed"
holds "the called end's next number" "$b/number" "1$line_feed"
answer_in_the_background
row "a call with the number that is kept" 0 "" "caller done pending 0 struck 0 failed 0$line_feed" \
    call "unix:$socket" "$a" --me a --peer b </dev/null
wait "$answerer" || true
holds "the caller's number after it" "$a/number" "2$line_feed"
rm "$a/number"
mend_numbers=" (write the same number to both number files, or remove both, while neither end runs)"
answer_in_the_background --wait 4
row "a call of a stranger who knows the names" 1 "uucpair: this end keeps no number$mend_numbers$line_feed" "caller badsequence pending 0 struck 0 failed 0$line_feed" \
    call "unix:$socket" "$a" --me a --peer b </dev/null
wait "$answerer" || true
holds "what the end says that a stranger called" "$work/answered" \
    "uucpair: the number of this end is 2$mend_numbers${line_feed}uucpair: $uncalled${line_feed}called gaveup pending 0 struck 0 failed 0$line_feed"
holds "the called end's number after a stranger" "$b/number" "2$line_feed"
echo 17 >"$a/number"
answer_in_the_background --wait 4
row "a call with another number" 1 "uucpair: the number of this end is 17$mend_numbers$line_feed" "caller badsequence pending 0 struck 0 failed 0$line_feed" \
    call "unix:$socket" "$a" --me a --peer b </dev/null
wait "$answerer" || true
holds "what the called end says of both numbers" "$work/answered" \
    "uucpair: the number of this end is 2, that of the other end 17$mend_numbers${line_feed}uucpair: $uncalled${line_feed}called gaveup pending 0 struck 0 failed 0$line_feed"
folders "send x y u"
printf 'seven\n' >"$a/number"
row "a call with a bad number file" 2 "uucpair: bad number file${line_feed}uucpair: $a/number: not a number up to 4294967295$line_feed" "" \
    call "unix:$socket" "$a" --me a --peer b --number </dev/null
holds "the bad number" "$a/number" "seven$line_feed"
holds "the job that is left behind a bad number" "$a/jobs" "send x y u$line_feed"
folders "send x y u"
row "a call where nobody listens" 3 "${device}uucpair: unix:$socket: no such file or directory$line_feed" "" \
    call "unix:$socket" "$a" --me a --peer b </dev/null
# EPERM: a regular file can't be waited for
row "a call over what is no device" 3 \
    "${device}uucpair: $a/jobs: not a terminal (LINE is a terminal device, tcp:HOST:PORT, unix:PATH or -)$line_feed" "" call "$a/jobs" "$a" --me a --peer b </dev/null
holds "the job that is left after no call" "$a/jobs" "send x y u$line_feed"

by=at_a_terminal row "an answer at a terminal" 1 "uucpair: waiting on unix:$socket${line_feed}uucpair: $uncalled$line_feed" \
    "called gaveup pending 0 struck 0 failed 0$line_feed" answer "unix:$socket" "$b" --me b --peer a --wait 1 --timeout 1
# announces NAME SIZE [OPTION]..: the end that is called announces packets of this size, to a caller of whom the greeting and
# the start of the link come at once: INITA 7, INITB 64 and INITC 7.
announces() {
    local name=$1 size=$2 heard
    shift 2
    heard=$(printf '\020Sa\0\020Ug\0\020\011\153\252\077\367\020\011\171\252\061\353\020\011\173\252\057\367' |
        "$program" answer - "$b" --me b --peer a --timeout 1 --report "$work/report" "$@" 2>/dev/null | "$program" scan |
        grep INITB) || true
    report "$name" "$([ "$heard" = "INITB $size" ] || echo "announced: $heard")"
}

folders "send x y u"
announces "the packets of an end that is told no size" 1024
announces "those of one on a slow line" 256 --speed 1199
announces "those of one on a line that is not so slow" 1024 --speed 1200
announces "those of one that is told a size" 64 --size 64 --speed 300

row "a scan of a folder" 3 "$device" "" scan <"$work"
row "a detailed scan of a folder" 3 "${device}uucpair: standard input: is a directory$line_feed" "" scan -v <"$work"
row "a play of a folder" 3 "$device" "" play <"$work"
row "why a folder is not played" 3 "${device}uucpair: standard input: is a directory$line_feed" "" play -v <"$work"
# EIO
broken="${device}uucpair: standard input: error 5$line_feed"
by=on_a_broken_line row "a scan whose input fails" 3 "$device" "INITA 3$line_feed" scan < <(packet)
by=on_a_broken_line row "a detailed scan whose input fails" 3 "$broken" "INITA 3 AT 0 LENGTH 6$line_feed" scan -v < <(packet)
by=on_a_broken_line row "a play whose input fails" 3 "$device" "" play < <(printf '%s' "$idle")
by=on_a_broken_line row "why the input of a play fails" 3 "$broken" "" play -v < <(printf '%s' "$idle")
full="${device}uucpair: standard output: no space left$line_feed"
by=to_a_full_disk row "a scan whose output fails" 3 "$device" "" scan < <(packet)
by=to_a_full_disk row "a detailed scan whose output fails" 3 "$full" "" scan -v < <(packet)
by=to_a_full_disk row "a play whose output fails" 3 "$device" "" play < <(printf '%s' "$idle")
by=to_a_full_disk row "why the output of a play fails" 3 "$full" "" play -v < <(printf '%s' "$idle")
by=to_a_full_disk row "a ladder whose output fails" 3 "$device" "" play --ladder < <(printf '%s' "$idle")
folders "send x y u"
rm -f "$socket"
by=to_a_full_disk row "a pair whose output fails" 3 "$device" "" pair "$socket" "$a" "$b" </dev/null
folders "send x y u"
by=to_a_full_disk row "why the output of a pair fails" 3 "$full" "" pair "$socket" "$a" "$b" -v </dev/null
folders "send x y u"
by=to_a_full_disk row "a list whose output fails" 3 "$full" "" queue "$a" </dev/null
by=to_a_full_disk row "a status whose output fails" 3 "$full" "" status "$a" </dev/null
by=to_a_full_disk row "a status in JSON whose output fails" 3 "$full" "" status "$a" --json </dev/null
by=to_a_full_disk row "a cancel whose output fails" 3 "$full" "" queue "$a" --cancel 1 </dev/null
holds "the jobs behind a cancel whose output fails" "$a/jobs" ""
by=with_little_memory row "a script that memory does not hold" 4 "uucpair: out of memory$line_feed" "" \
    play < <(head -c 67108864 /dev/zero)

echo "$passed passed, $failed failed"
[ "$failed" -eq 0 ]
