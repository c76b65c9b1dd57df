#!/usr/bin/env bash
# Mistakes that a new operator makes, each made for real: what the program says of it on standard error, to the last byte, and
# its status.
#
#   tests/mistakes.sh [PROGRAM]
#
# It prints a line for each mistake that is answered otherwise, and how many were answered as they ought to be. The status is 1
# where one was not.
. "$(dirname "$(readlink -f "$0")")/common.sh"
find_program "${1:-}"
new_work
trap 'rm -rf "$work"' EXIT
passed=0
failed=0

# Whoever may not read what root may.
as_user=()
[ "$(id -u)" -ne 0 ] || as_user=(setpriv --reuid 65534 --regid 65534 --clear-groups)

# folders [LINE..]: those of the ends a and b, of which a has these jobs and an empty file to give.
folders() {
    chmod -R u+rwX "$work"
    rm -rf "${work:?}"/*
    mkdir -p "$work"/{a,b}/{send,got}
    : >"$work/a/send/x"
    [ $# -eq 0 ] || printf '%s\n' "$@" >"$work/a/jobs"
    : >"$work/said"
    [ ${#as_user[@]} -eq 0 ] || chown -R 65534:65534 "$work"
}

# mistake NAME STATUS SAID WORD..: runs the program with the words in the folder of this run. SAID are the lines that it says,
# each without its `uucpair: `.
mistake() {
    local name=$1 status=$2 said=$3 ended=0 want
    shift 3
    want="uucpair: ${said//$'\n'/$'\n'uucpair: }"
    (cd "$work" && "${as_user[@]}" timeout 60 "$program" "$@") >"$work/printed" 2>"$work/said" </dev/null || ended=$?
    if [ "$ended" -eq "$status" ] && [ "$(cat "$work/said")" = "$want" ] && [ ! -s "$work/printed" ]; then
        passed=$((passed + 1))
    else
        failed=$((failed + 1))
        echo "$name: ended with $ended, said $(cat "$work/said") and printed $(cat "$work/printed")"
    fi
}

# misspoken NAME WORD.. -- LINE..: the words ask for nothing that there is. What is said of them has each of these lines, and nothing is
# done.
misspoken() {
    local name=$1 words=() ended=0 line fault=''
    shift
    while [ "$1" != -- ]; do
        words+=("$1")
        shift
    done
    shift
    (cd "$work" && "${as_user[@]}" timeout 60 "$program" "${words[@]}") >"$work/printed" 2>"$work/said" </dev/null || ended=$?
    [ "$ended" -eq 2 ] && [ ! -s "$work/printed" ] || fault="ended with $ended;"
    for line in "$@"; do
        grep -qxF -e "$line" "$work/said" || fault="$fault not said: $line;"
    done
    if [ -z "$fault" ]; then
        passed=$((passed + 1))
    else
        failed=$((failed + 1))
        echo "$name: $fault said $(cat "$work/said")"
    fi
}

# call_of LINE [WORD..]: the words of a call over this line.
call_of() {
    call=(call "$@" --me alpha --peer beta --timeout 2 --locks .)
}

fault="device fault"$'\n'
usage="bad usage"$'\n'

# ---- the line

folders
call_of unix:none a
mistake "no socket" 3 "${fault}unix:none: no such file or directory" "${call[@]}"
call_of tcp:127.0.0.1:1 a
mistake "nobody listens at a port" 3 "${fault}tcp:127.0.0.1:1: connection refused" "${call[@]}"
call_of tcp:nobody.invalid:540 a
mistake "no such host" 3 "${fault}tcp:nobody.invalid:540: unknown host" "${call[@]}"
call_of tcp:127.0.0.1:0 a
mistake "port 0" 3 "${fault}tcp:127.0.0.1:0: connection refused (0 is not a port: give 1 to 65535)" "${call[@]}"
brackets="unknown host (an IPv6 address has no brackets: tcp:::1:540)"
call_of "tcp:[::1]:4000" a
mistake "an IPv6 address in brackets" 3 "${fault}tcp:[::1]:4000: $brackets" "${call[@]}"
mistake "the same of an end that waits" 3 "${fault}tcp:[::1]:4000: $brackets" answer "tcp:[::1]:4000" a --me alpha --peer beta
call_of tcp://nobody.invalid:540 a
mistake "a line that looks like a web address" 3 \
    "${fault}tcp://nobody.invalid:540: unknown host (give tcp:HOST:PORT, without slashes)" "${call[@]}"
if [ ${#as_user[@]} -ne 0 ] && [ "$(cat /proc/sys/net/ipv4/ip_unprivileged_port_start)" -gt 540 ]; then
    mistake "a port that needs a privilege" 3 \
        "${fault}tcp:127.0.0.1:540: permission denied (a port below 1024 needs root, or CAP_NET_BIND_SERVICE)" \
        answer tcp:127.0.0.1:540 a --me alpha --peer beta
fi
call_of /dev/ttyNONE a
mistake "no such device" 3 "${fault}/dev/ttyNONE: no such file or directory" "${call[@]}"
call_of a unix:line
exchanged="(LINE and DIR look swapped: give LINE first)"
mistake "line and folder exchanged" 3 "${fault}unix:line: no such file or directory $exchanged" "${call[@]}"
call_of a /dev/ttyNONE
mistake "a device and a folder exchanged" 3 "${fault}/dev/ttyNONE: no such file or directory $exchanged" "${call[@]}"
call_of a /dev/null
mistake "a device that is there and a folder exchanged" 3 "${fault}/dev/null: not a directory $exchanged" "${call[@]}"
call_of a -
mistake "standard input and a folder exchanged" 3 "${fault}-: no such file or directory $exchanged" "${call[@]}"
mistake "a port and a folder exchanged" 3 "${fault}tcp:4000: no such file or directory $exchanged" \
    answer a tcp:4000 --me alpha --peer beta
mistake "a port and a spool exchanged" 3 "${fault}tcp:4000: no such file or directory $exchanged" \
    answer a tcp:4000 --me alpha --spool --locks .
call_of unix:line none
mistake "a folder that is not there" 3 "${fault}none: no such file or directory" "${call[@]}"
: >"$work/taken"
mistake "a place of a socket that is taken" 3 "${fault}unix:taken: address in use" answer unix:taken a --me alpha --peer beta
mistake "the same of a pair" 3 "${fault}taken: address in use" pair taken a b -v
python3 -c 'import socket, sys
socket.socket(socket.AF_UNIX).bind(sys.argv[1])' "$work/old"
chmod 777 "$work/old"
call_of ./old a
mistake "a socket without unix:" 3 "${fault}./old: error 6 (for a socket give unix:PATH)" "${call[@]}"
mistake "an address of another machine" 3 \
    "${fault}tcp:192.0.2.1:54000: address not available (not an address of this machine; 0.0.0.0 is all of them)" \
    answer tcp:192.0.2.1:54000 a --me alpha --peer beta
call_of unix:old a
mistake "a socket at which nobody listens" 3 "${fault}unix:old: connection refused" "${call[@]}"
mistake "a socket in a folder that is not there" 3 "${fault}none/s: no such file or directory" pair none/s a b -v
mistake "what can't be seen in the name of a socket" 3 "${fault}none\\x1b[31m/s: no such file or directory" pair $'none\e[31m/s' a b -v
long=$(printf 's%.0s' {1..108})
too_long="invalid argument (the path of a socket has at most 107 bytes)"
call_of "unix:$long" a
mistake "a socket's path that is too long" 3 "${fault}unix:$long: $too_long" "${call[@]}"
mistake "the same of an end that waits" 3 "${fault}unix:$long: $too_long" answer "unix:$long" a --me alpha --peer beta
mistake "the same of both ends" 3 "${fault}$long: $too_long" pair "$long" a b -v
one_folder="${usage}DIR_A and DIR_B are one folder: give each end its own"
mistake "one folder for both ends" 2 "$one_folder" pair s a a
mistake "one folder of two names for both ends" 2 "$one_folder" pair s a ./a/ -v
mistake "one folder for both ends, and each packet lost" 2 "${usage}drop-every 1 is not 2 to 1000000" pair s a a --drop-every 1
call_of - a
mistake "standard input that is no line" 3 "${fault}-: standard input or output is not a socket, pipe or terminal" "${call[@]}"
: >"$work/device"
chmod 0 "$work/device"
call_of ./device a
mistake "no right to a device" 3 "${fault}./device: permission denied" "${call[@]}"
chmod 666 "$work/device"
forms="(LINE is a terminal device, tcp:HOST:PORT, unix:PATH or -)"
mistake "a file that is no device" 3 "${fault}./device: not a terminal $forms" "${call[@]}"
call_of /dev/null a
mistake "a device that is no terminal" 3 "${fault}/dev/null: not a terminal $forms" "${call[@]}"
lines="(LINE is a terminal device, tcp:HOST:PORT, unix:PATH or -"
call_of ttyNONE a
mistake "a device without its folder" 3 \
    "${fault}ttyNONE: no such file or directory $lines: give /dev/ttyNONE)" "${call[@]}"
call_of beta.example:4000 a
mistake "a host and a port without tcp:" 3 \
    "${fault}beta.example:4000: no such file or directory $lines: give tcp:beta.example:4000)" "${call[@]}"
call_of TCP:h:1 a
mistake "a line whose front is in capitals" 3 \
    "${fault}TCP:h:1: no such file or directory $lines: give tcp:h:1)" "${call[@]}"
call_of ssh:beta a
mistake "a line of another program" 3 "${fault}ssh:beta: no such file or directory $forms" "${call[@]}"
call_of beta.example a
mistake "a host without a port" 3 "${fault}beta.example: no such file or directory $forms" "${call[@]}"
call_of b a
mistake "a folder for the line" 3 "${fault}b: is a directory $forms" "${call[@]}"

# A device that another program holds, by its lock file, and by a lock of its own.
held_by="./LCK..line"
socat pty,link="$work/line",raw,echo=0,mode=666 pty,raw,echo=0 &
terminals=$!
wait_until 10 test -e "$work/line" || true
call_of ./line a
printf '%10d\n' $$ >"$work/LCK..line"
mistake "a device that another process holds" 3 \
    "${fault}./line is in use"$'\n'"process $$ holds it, by $held_by: call again when that has ended" "${call[@]}"
echo hello >"$work/LCK..line"
mistake "a lock file without a process" 3 \
    "${fault}./line is in use"$'\n'"by $held_by, which names no process: remove that file if nobody uses the line" "${call[@]}"
rm -f "$work/LCK..line"
exec {held}<>"$work/line"
flock "$held"
mistake "a device that another program has opened" 3 \
    "${fault}./line is in use"$'\n'"it has no lock file: fuser ./line shows who has it open" "${call[@]}"
exec {held}>&-

# unlocked NAME LOCKS WHY: a call over the device in whose folder of locks no file can be made says so, on standard error and in the log.
unlocked() {
    local ended=0 want="no lock file can be created (--locks): $2: $3"
    rm -f "$work/Log"
    (cd "$work" && "${as_user[@]}" timeout 60 "$program" call ./line a --me alpha --peer beta --timeout 1 --locks "$2" --log Log) \
        >"$work/printed" 2>"$work/said" </dev/null || ended=$?
    if [ "$ended" -eq 1 ] && [ "$(head -n 1 "$work/said")" = "uucpair: $want" ] && grep -qF "ERROR: $want" "$work/Log"; then
        passed=$((passed + 1))
    else
        failed=$((failed + 1))
        echo "$1: ended with $ended, said $(cat "$work/said"), logged $(cat "$work/Log")"
    fi
}

no_lock="no lock file can be created (--locks): none: no such file or directory"
unlocked "no folder of locks" none "no such file or directory"
unlocked "a file for the folder of locks" device "not a directory"
mkdir "$work/spool"
chmod 777 "$work/spool"
mistake "no folder of locks for a spool" 3 "${fault}$no_lock" \
    call unix:none spool --spool --me alpha --peer beta --locks none
rm -rf "$work/spool"
kill "$terminals"
wait "$terminals" || true

raw="a terminal has to be raw: stty raw -echo"
uncalled="heard nothing (is the other end calling? $raw)"
unanswered="heard nothing (is the other end answering? $raw)"

# waiting LINE SAID: who waits there is told so at the start.
waiting() {
    (cd "$work" && "${as_user[@]}" timeout 60 "$program" answer "$1" a --me alpha --peer beta --wait 1 --timeout 1) \
        >"$work/printed" 2>"$work/said" </dev/null || true
    if [ "$(cat "$work/said")" = "${2:+uucpair: $2$'\n'}uucpair: $uncalled" ]; then
        passed=$((passed + 1))
    else
        failed=$((failed + 1))
        echo "who waits at $1: said $(cat "$work/said")"
    fi
}

port=$(python3 -c 'import socket
stream = socket.socket()
stream.bind(("127.0.0.1", 0))
print(stream.getsockname()[1])')
waiting "tcp:$port" "waiting on 127.0.0.1:$port (this machine only; tcp:0.0.0.0:$port for all)"
waiting "tcp:127.0.0.1:$port" ""
any_port="(any free port, which no caller knows: give 1 to 65535)"
waiting tcp:0 "waiting on 127.0.0.1:0 $any_port"
waiting tcp:0.0.0.0:0 "waiting on 0.0.0.0:0 $any_port"

# ---- the folder

folders "send x y me"
mistake "no folder" 3 "${fault}none: no such file or directory" answer unix:s none --me alpha --peer beta
mistake "a file for a folder" 3 "${fault}a/jobs: not a directory" answer unix:s a/jobs --me alpha --peer beta
rmdir "$work/a/got"
call_of unix:none a
mistake "no folder for what comes" 3 \
    "${fault}a/got: no such file or directory (make it; only a spool, with --spool, has none)" "${call[@]}"
mkdir "$work/a/got"
mv "$work/a/send" "$work/a/sent"
mistake "no folder for what is sent" 3 \
    "${fault}a/send: no such file or directory (make it: the files of jobs go there)" "${call[@]}"
mv "$work/a/sent" "$work/a/send"
chmod 0 "$work/a/jobs"
mistake "no right to the jobs" 3 "${fault}a/jobs: permission denied" "${call[@]}"
rm -f "$work/a/jobs"
mkdir "$work/a/jobs"
chmod 777 "$work/a/jobs"
mistake "a folder for the jobs" 3 "${fault}a/jobs: not a regular file" "${call[@]}"
folders "send x y me"
for ((i = 1; i < 257; i++)); do
    : >"$work/a/send/$i"
done
chmod -R a+rX "$work/a/send"
mistake "too many files" 3 "${fault}a/send: over the limit of 256 files" pair s a b -v

folders "send x y me"
mkdir -p "$work/spool/.Status"
chmod -R a+rX "$work/spool"
call_of unix:none spool
mistake "a spool for a folder" 3 "${fault}spool: it is a spool of Taylor UUCP: give --spool" "${call[@]}"
call_of unix:none a
mistake "a folder for a spool" 3 "${fault}a: not a spool, as it has jobs or send: leave out --spool" "${call[@]}" --spool

# ---- jobs

jobs="bad jobs at line"
call_of unix:none a
folders "# mine" "put x y"
mistake "a word that is no order" 2 "$jobs 2"$'\n''a/jobs: line 2: "put" is neither send nor request' "${call[@]}"
folders "send x ~/y me" "send x"
mistake "too few words" 2 "$jobs 2"$'\n'"a/jobs: line 2: TARGET and USER are missing" "${call[@]}"
folders "send my file ~/y me"
mistake "a blank in the name of a file" 2 "$jobs 1"$'\n''a/jobs: line 1: "me" is one word too many: names have no spaces' \
    "${call[@]}"
folders $'send x ~/y me\r'
mistake "a line of another system" 2 "$jobs 1"$'\n'"a/jobs: line 1: it ends in CR LF: end lines with LF alone" "${call[@]}"
folders $'send x\t~/y me'
mistake "a tab between words" 2 "$jobs 1"$'\n'"a/jobs: line 1: it has a tab: separate words with spaces only" "${call[@]}"
folders $'send x ~/\a me'
mistake "a target that is no name" 2 "$jobs 1"$'\n''a/jobs: line 1: "~/\x07" is not a name: 1 to 200 printable characters' "${call[@]}"
folders "send x ~/y me"
echo "get x y me" >"$work/b/jobs"
mistake "the same of the called end of a pair" 2 "$jobs 1"$'\n''b/jobs: line 1: "get" is neither send nor request' pair s a b -v

# ---- jobs that fail

# failing NAME SAID JOB [BEFORE]: the job of a call fails, and SAID is what the caller says of it; BEFORE is what it says before.
failing() {
    local name=$1 ended=0 answerer report want="uucpair: $3: $2"
    [ $# -lt 4 ] || want="uucpair: $4"$'\n'"$want"
    folders "$3"
    head -c 1048577 /dev/zero >"$work/a/send/large"
    chmod a+r "$work/a/send/large"
    (cd "$work" && "${as_user[@]}" timeout 60 "$program" answer unix:line b --me beta --peer alpha >/dev/null 2>&1 </dev/null) &
    answerer=$!
    wait_for_socket "$work/line" || true
    call_of unix:line a
    (cd "$work" && "${as_user[@]}" timeout 60 "$program" "${call[@]}" --file-limit 1048576) >"$work/printed" 2>"$work/said" </dev/null ||
        ended=$?
    wait "$answerer" || true
    report="caller done pending 0 struck 0 failed 1"$'\n'"caller failed $3"
    if [ "$ended" -eq 0 ] && [ "$(cat "$work/said")" = "$want" ] && [ "$(cat "$work/printed")" = "$report" ]; then
        passed=$((passed + 1))
    else
        failed=$((failed + 1))
        echo "$name: ended with $ended, said $(cat "$work/said") and printed $(cat "$work/printed")"
    fi
}

failing "no such file" "no file a/send/none" "send none ~/y me"
failing "a file that is too large" "a/send/large is larger than --file-limit" "send large ~/y me" \
    "a/send/large: 1048577 bytes, over the limit of 1048576 (--file-limit); the job will be given up"
failing "a path for a file" "a source is a name: NAME or ~/NAME, without a leading dot" "send send/x ~/y me"
failing "a file that is hidden" "a source is a name: NAME or ~/NAME, without a leading dot" "send .x ~/y me"
no_target="refused by the other end: in a folder a target is a name, NAME or ~/NAME, without a leading dot"
failing "a target below a folder" "$no_target" "send x ~/dir/y me"
failing "a target that is hidden" "$no_target" "send x ~/.y me"
failing "a target here that is hidden" "a target is a name: NAME or ~/NAME, without a leading dot" "request y .y me"
failing "no such file at the other end" \
    "not given by the other end: no such file in its send, or barred there; or it can't be put in its place here" \
    "request none ~/y me"

# A caller that has no job, and a file in `send`.
folders
(cd "$work" && "${as_user[@]}" timeout 60 "$program" answer unix:line b --me beta --peer alpha >/dev/null 2>&1 </dev/null) &
answerer=$!
wait_for_socket "$work/line" || true
call_of unix:line a
(cd "$work" && "${as_user[@]}" timeout 60 "$program" "${call[@]}") >"$work/printed" 2>"$work/said" </dev/null || true
wait "$answerer" || true
if [ "$(cat "$work/said")" = "uucpair: no job sends the files in a/send (queue one: uucpair queue DIR send FILE)" ]; then
    passed=$((passed + 1))
else
    failed=$((failed + 1))
    echo "a file that is not queued: said $(cat "$work/said")"
fi

# over_there NAME SAID JOB: what a caller says of a job that an end refuses which takes files of at most 5 bytes.
over_there() {
    local answerer
    folders "$3"
    echo 12345 >"$work/a/send/six"
    mkdir "$work/b/got/dir"
    chmod -R a+rwX "$work/a/send" "$work/b/got"
    (cd "$work" && "${as_user[@]}" timeout 60 "$program" answer unix:line b --me beta --peer alpha --file-limit 5 \
        >/dev/null 2>&1 </dev/null) &
    answerer=$!
    wait_for_socket "$work/line" || true
    call_of unix:line a
    (cd "$work" && "${as_user[@]}" timeout 60 "$program" "${call[@]}") >"$work/printed" 2>"$work/said" </dev/null || true
    wait "$answerer" || true
    if [ "$(cat "$work/said")" = "uucpair: $3: refused by the other end: maybe $2" ]; then
        passed=$((passed + 1))
    else
        failed=$((failed + 1))
        echo "$1: said $(cat "$work/said")"
    fi
}

over_there "a file that is over the limit there" "6 bytes are over its --file-limit, or a folder has that name there" "send six y me"
over_there "a folder of that name there" "a folder has that name there" "send x dir me"

# Nobody answers, and a file that is too large is told of all the same, once for both its jobs.
folders "send large ~/y me" "send x x me" "send large ~/z me"
head -c 1048577 /dev/zero >"$work/a/send/large"
chmod a+r "$work/a/send/large"
call_of unix:none a --file-limit 1048576
mistake "a file that is too large, and nobody there" 3 "a/send/large: 1048577 bytes, over the limit of 1048576 (--file-limit); \
the job will be given up"$'\n'"${fault}unix:none: no such file or directory" "${call[@]}"

# counted STATUS WORD..: a call of which a job fails ends so.
counted() {
    local ended=0 answerer
    folders "send none ~/y me"
    (cd "$work" && "${as_user[@]}" timeout 60 "$program" answer unix:line b --me beta --peer alpha >/dev/null 2>&1 </dev/null) &
    answerer=$!
    wait_for_socket "$work/line" || true
    call_of unix:line a
    (cd "$work" && "${as_user[@]}" timeout 60 "$program" "${call[@]}" --log Log "${@:2}") >"$work/printed" 2>"$work/said" </dev/null || ended=$?
    wait "$answerer" || true
    if [ "$ended" -eq "$1" ] && [ "$(cat "$work/said")" = "uucpair: send none ~/y me: no file a/send/none" ] \
        && [ "$(sed -n 's/.*ERROR: send/send/p' "$work/Log")" = "send none ~/y me: no file a/send/none" ]; then
        passed=$((passed + 1))
    else
        failed=$((failed + 1))
        echo "a job that fails, and the status $1: ended with $ended, said $(cat "$work/said"), logged $(cat "$work/Log")"
    fi
}

counted 0
counted 1 --fail-status

# What is taken away while an end waits to be called is said by its path.
folders "send x ~/y me"
(cd "$work" && "${as_user[@]}" timeout 60 "$program" answer unix:line b --me beta --peer alpha >"$work/printed" 2>"$work/said" </dev/null) &
answerer=$!
wait_for_socket "$work/line" || true
rmdir "$work/b/got"
call_of unix:line a
(cd "$work" && "${as_user[@]}" timeout 60 "$program" "${call[@]}") >"$work/called" 2>&1 </dev/null || true
ended=0
wait "$answerer" || ended=$?
closed="uucpair: the other end ended the session early (it may not have stored a file: see what it says)"
if [ "$ended" -eq 1 ] && [ "$(cat "$work/said")" = "uucpair: b/got/y: no such file or directory" ] \
    && [ "$(head -n 1 "$work/called")" = "$closed" ]; then
    passed=$((passed + 1))
else
    failed=$((failed + 1))
    echo "got is gone while it waits: ended with $ended, said $(cat "$work/said"), who called said $(cat "$work/called")"
fi

# ---- what was heard

# speaker TEXT..: an end at the socket `line` that says one of the texts when it is called, and the next behind each read.
speaker() {
    python3 - "$work/line" "$@" 2>/dev/null <<'END' &
import os, socket, sys
listener = socket.socket(socket.AF_UNIX)
listener.bind(sys.argv[1])
os.chmod(sys.argv[1], 0o777)
listener.listen()
stream = listener.accept()[0]
for text in sys.argv[2:]:
    stream.sendall(text.encode().decode("unicode_escape").encode("latin-1"))
    stream.recv(4096)
while stream.recv(4096):
    pass
END
    answerer=$!
    wait_for_socket "$work/line" || true
}

# unhappy NAME PHASE SAID WORD..: a call that ends so, of which the caller says this.
unhappy() {
    local name=$1 ended=0 report
    report="caller $2 pending 1 struck 0 failed 0"
    (cd "$work" && "${as_user[@]}" timeout 60 "$program" call unix:line a --timeout 1 "${@:4}") \
        >"$work/printed" 2>"$work/said" </dev/null || ended=$?
    wait "$answerer" || true
    if [ "$ended" -eq 1 ] && [ "$(cat "$work/said")" = "uucpair: $3" ] && [ "$(cat "$work/printed")" = "$report" ]; then
        passed=$((passed + 1))
    else
        failed=$((failed + 1))
        echo "$name: ended with $ended, said $(cat "$work/said") and printed $(cat "$work/printed")"
    fi
}

# refusing NAME SAID WORD..: an end that is called for four seconds says this of its caller.
refusing() {
    local name=$1 said=$2 answerer
    (cd "$work" && "${as_user[@]}" timeout 60 "$program" answer unix:line b --me beta --peer alpha --wait 4 \
        >"$work/answered" 2>"$work/heard" </dev/null) &
    answerer=$!
    wait_for_socket "$work/line" || true
    "${@:3}" || true
    wait "$answerer" || true
    if [ "$(head -n 1 "$work/heard")" = "uucpair: $said" ]; then
        passed=$((passed + 1))
    else
        failed=$((failed + 1))
        echo "$name: the end that was called said $(cat "$work/heard")"
    fi
}

alpha=(--me alpha --peer beta)
folders "send x ~/y me"
speaker '\x10Shere=other\0'
unhappy "another end" wrongname 'heard "Shere=other", expected "beta"' "${alpha[@]}"
folders "send x ~/y me"
speaker '\x10Shere=beta\0' '\x10RLCK\0'
unhappy "an end that is busy" refused 'the other end refused: "RLCK" (it is busy: call later)' "${alpha[@]}"
folders "send x ~/y me"
speaker '\x10Shere=beta\0' '\x10RLOGIN\0'
unhappy "an end that does not know us" refused \
    'the other end refused: "RLOGIN" (it does not admit the name of --me, or not with this login)' "${alpha[@]}"

# parting [TEXT]: an end at the socket `line` that hangs up when it is called, behind this text.
parting() {
    python3 - "$work/line" "${1:-}" <<'END' &
import os, socket, sys
listener = socket.socket(socket.AF_UNIX)
listener.bind(sys.argv[1])
os.chmod(sys.argv[1], 0o777)
listener.listen()
stream = listener.accept()[0]
stream.sendall(sys.argv[2].encode().decode("unicode_escape").encode("latin-1"))
stream.shutdown(socket.SHUT_WR)
while stream.recv(4096):
    pass
END
    answerer=$!
    wait_for_socket "$work/line" || true
}

folders "send x ~/y me"
parting
unhappy "an end that hangs up at once" hungup \
    "the other end hung up, and said nothing (no uucico or uucpair answers there, or it turns this machine away)" "${alpha[@]}"
folders "send x ~/y me"
parting '\x10Shere=beta\0'
unhappy "an end that hangs up behind its name" hungup \
    'heard "Shere=beta", and then it hung up (it may not know the name of this end)' "${alpha[@]}"
folders "send x ~/y me"
speaker '\x10Shere=beta\0' '\x10ROK\0\x10Pxyz\0'
unhappy "an end without the protocol" noprotocol 'no protocol g: heard "Pxyz"' "${alpha[@]}"
folders "send x ~/y me"
speaker '\r\nlogin: '
unhappy "a getty" gaveup 'heard 9 bytes and no text: "\x0d\x0alogin: "' "${alpha[@]}"
folders "send x ~/y me"
speaker ''
unhappy "nobody who says anything" gaveup "$unanswered" "${alpha[@]}"
folders "send x ~/y me"
speaker '\x10Shere=beta\0'
unhappy "an end that can't hear" gaveup "heard \"Shere=beta\", and then no answer ($raw, at the other end too)" "${alpha[@]}"
folders "send x ~/y me"
speaker '\r'
unhappy "another end that calls" gaveup \
    'heard 1 bytes and no text: "\x0d" (only line breaks: both ends call, or a terminal is not raw: stty raw -echo)' "${alpha[@]}"
folders "send x ~/y me"
refusing "a stranger who calls" 'heard "Sgamma", expected "alpha"' \
    unhappy "a name that the other end does not know" refused \
    'the other end refused: "RYou are unknown to me" (it does not know the name of this end)' --me gamma --peer beta

# narrow HOW WORD..: both ends talk over a line of terminals that drops something of the called end's bytes: the eighth bit, XON and
# XOFF, or all behind the greeting.
narrow() {
    python3 - "$work/line" "$@" <<'END' &
import os, select, socket, sys
listener = socket.socket(socket.AF_UNIX)
listener.bind(sys.argv[1])
os.chmod(sys.argv[1], 0o777)
listener.listen()
near = listener.accept()[0]
far = socket.socket(socket.AF_UNIX)
far.connect(os.path.join(os.path.dirname(sys.argv[1]), "far"))
how, texts = sys.argv[2], 0
while True:
    for side in select.select([near, far], [], [])[0]:
        piece = side.recv(4096)
        if not piece:
            os._exit(0)
        if side is far:
            if how == "seven":
                piece = bytes(byte & 0x7f for byte in piece)
            elif how == "flow":
                piece = bytes(byte for byte in piece if byte not in (0x11, 0x13))
            elif texts >= 3:
                piece = b""
            texts += piece.count(0)
        try:
            (far if side is near else near).sendall(piece)
        except OSError:
            os._exit(0)
END
    answerer=$!
    wait_for_socket "$work/line" || true
}

# narrowed NAME HOW SAID JOB: what the caller says that gives up over such a line.
narrowed() {
    local far
    folders
    rm "$work/a/send/x"
    [ -z "$4" ] || echo "$4" >"$work/a/jobs"
    python3 -c 'import sys
sys.stdout.buffer.write(bytes(range(256)) * 40)' >"$work/b/send/bytes"
    chmod -R a+rwX "$work/a" "$work/b"
    (cd "$work" && "${as_user[@]}" timeout 60 "$program" answer unix:far b --me beta --peer alpha --timeout 1 \
        >/dev/null 2>&1 </dev/null) &
    far=$!
    wait_for_socket "$work/far" || true
    narrow "$2"
    (cd "$work" && "${as_user[@]}" timeout 60 "$program" call unix:line a --timeout 1 --log Log "${alpha[@]}") \
        >"$work/printed" 2>"$work/said" </dev/null || true
    wait "$answerer" "$far" || true
    if [ "$(sed 's/ [0-9]* bytes/ N bytes/' "$work/said")" = "uucpair: $3" ]; then
        passed=$((passed + 1))
    else
        failed=$((failed + 1))
        echo "$1: said $(cat "$work/said")"
    fi
}

narrowed "a line of seven bits" seven \
    "N bytes came after the greeting, all seven-bit (the line has to pass eight bits: stty raw pass8, at both ends)" ""
narrowed "flow control that drops bytes" flow "N bytes came after the greeting, none of them XON or XOFF \
(flow control may drop these: stty raw -ixon -ixoff, at both ends)" "request bytes y me"
narrowed "a line that drops what comes behind the greeting" all \
    "nothing came after the greeting (the other end is gone, or the line drops bytes: stty raw pass8, at both ends)" ""

# saying TEXT: who calls says this, and then nothing more.
saying() {
    python3 -c 'import socket, sys
stream = socket.socket(socket.AF_UNIX)
stream.connect(sys.argv[1])
stream.sendall(sys.argv[2].encode().decode("unicode_escape").encode("latin-1"))
stream.shutdown(socket.SHUT_WR)
while stream.recv(4096):
    pass' "$work/line" "$1"
}

folders
refusing "a caller that hangs up at once" \
    "the caller hung up, and said nothing (it may expect a name other than --me)" saying ''
folders
refusing "a caller that hangs up behind its name" \
    'heard "Salpha", and then the caller hung up (it may lack protocol g)' saying '\x10Salpha\0'
folders
refusing "another end that answers" \
    'heard "Shere=alpha", expected "alpha" (both ends answer, and one has to call; or a terminal echoes: stty raw -echo)' \
    saying '\x10Shere=alpha\0'
folders
refusing "a terminal that echoes" \
    'heard 15 bytes and no text: "\x0d^PShere=beta^@" (a terminal echoes: stty raw -echo, at the other end too)' \
    saying '\r^PShere=beta^@'
folders
refusing "a terminal that is not raw" \
    'heard 1 bytes and no text: "\x0a" (only line breaks: both ends call, or a terminal is not raw: stty raw -echo)' saying '\n'

folders "send x ~/y me"
speaker '\x10Shere=beta\0'
unhappy "the names exchanged" wrongname 'heard "Shere=beta", expected "alpha"' --me beta --peer alpha
folders "send x ~/y me"
speaker '\x10Shere=beta\0'
unhappy "a name that is misspelt" wrongname 'heard "Shere=beta", expected "betta"' --me alpha --peer betta
folders "send x ~/y me"
refusing "a name in capitals" 'heard "SALPHA", expected "alpha"' \
    unhappy "the same at the end that calls" refused \
    'the other end refused: "RYou are unknown to me" (it does not know the name of this end)' --me ALPHA --peer beta
folders "send x ~/y me"
mend_numbers=" (write the same number to both number files, or remove both, while neither end runs)"
speaker '\x10Shere=beta\0' '\x10RBADSEQ\0'
unhappy "an end that keeps a number" badsequence "this end keeps no number$mend_numbers" "${alpha[@]}"

# heard_last NAME TEXT SAID: it is said which text was heard last of an end that has closed the line behind this one.
heard_last() {
    local ended=0
    folders "send x ~/y me"
    speaker '\x10Shere=beta\0' "$2"
    (cd "$work" && "${as_user[@]}" timeout 60 "$program" call unix:line a --timeout 1 -v "${alpha[@]}") \
        >"$work/printed" 2>"$work/said" </dev/null &
    caller=$!
    wait_until 10 grep -q hail "$work/said" || true
    pause 0.5
    kill "$answerer"
    wait "$caller" || ended=$?
    if [ "$ended" -eq 1 ] && grep -qxF "uucpair: heard $3, and then it hung up" "$work/said"; then
        passed=$((passed + 1))
    else
        failed=$((failed + 1))
        echo "$1: ended with $ended, said $(cat "$work/said")"
    fi
}

heard_last "an end that is gone" '\x10ROK\0' '"ROK"'
heard_last "the same, of which not all can be seen" '\x10ROK\x1b[31m\0' '"ROK\x1b[31m"'

# ---- the log of an end over a folder

# errors_are NAME LINE..: the log `Log` has these errors of the other system, and no others.
errors_are() {
    local name=$1 found
    found=$(sed -nE 's/^uucpair beta - \([^)]*\) ERROR: //p' "$work/Log" 2>&1)
    if [ "$found" = "$(printf '%s\n' "${@:2}")" ]; then
        passed=$((passed + 1))
    else
        failed=$((failed + 1))
        echo "$name: the log has $(cat "$work/Log")"
    fi
}

# called_with WORD..: a call with these words, and with a log.
called_with() {
    (cd "$work" && "${as_user[@]}" timeout 60 "$program" call "$@" a "${alpha[@]}" --timeout 1 --locks . --log Log) \
        >"$work/printed" 2>"$work/said" </dev/null || true
}

folders "put x y"
called_with unix:none
errors_are "the log of bad jobs" 'bad jobs at line 1: a/jobs: line 1: "put" is neither send nor request'
folders
exec {held}<"$work/a"
flock "$held"
called_with unix:none
exec {held}<&-
errors_are "the log of a folder in use" "device fault: a: in use"
folders
printf '%10d\n' $$ >"$work/LCK..tty"
called_with ./tty
errors_are "the log of a device in use" \
    "device fault: ./tty: in use: process $$ holds it, by ./LCK..tty: call again when that has ended"
folders "send x ~/y me"
echo 17 >"$work/a/number"
chmod 666 "$work/a/number"
speaker '\x10Shere=beta\0' '\x10RBADSEQ\0'
called_with unix:line
wait "$answerer" || true
errors_are "the log of another number" badsequence "the number of this end is 17$mend_numbers"

# A file that is not given is no fault of the session's, and the log has it all the same.
folders "send x ~/y me"
: >"$work/a/send/secret"
[ ${#as_user[@]} -eq 0 ] || chown 65534:65534 "$work/a/send/secret"
chmod 0 "$work/a/send/secret"
(cd "$work" && "${as_user[@]}" timeout 60 "$program" answer unix:line b --me beta --peer alpha >/dev/null 2>&1 </dev/null) &
answerer=$!
wait_for_socket "$work/line" || true
called_with unix:line
wait "$answerer" || true
errors_are "the log of a file that is not given" "a/send/secret is not given: it can't be read"

# silent_ones NAME LOG WORD..: an end that is called with these words says the same of each of two callers who say nothing, on standard
# error and in its log. Who calls behind them is served.
silent_ones() {
    local name=$1 log=$2 hub said logged want="the caller said nothing for N s, while others waited" served
    (cd "$work" && "${as_user[@]}" timeout 60 "$program" answer unix:line "${@:3}" --me beta --timeout 1 --log "$log" \
        >"$work/answered" 2>"$work/heard" </dev/null) &
    hub=$!
    wait_for_socket "$work/line" || true
    exec {held}> >(python3 -c 'import socket, sys
streams = [socket.socket(socket.AF_UNIX) for _ in range(2)]
for stream in streams:
    stream.connect(sys.argv[1])
open(sys.argv[2], "w").close()
sys.stdin.read()' "$work/line" "$work/held")
    wait_until 10 test -e "$work/held" || true
    (cd "$work" && "${as_user[@]}" timeout 60 "$program" call unix:line a "${alpha[@]}") >"$work/called" 2>&1 </dev/null || true
    exec {held}>&-
    wait "$hub" || true
    said=$(sed 's/for [0-9]* s,/for N s,/' "$work/heard")
    logged=$(sed -nE 's/^.*\) ERROR: //p' "$work/$log" | sed 's/for [0-9]* s,/for N s,/')
    served="caller done pending 0 struck 1 failed 0"
    if [ "$said" = "uucpair: $want"$'\n'"uucpair: $want" ] && [ "$logged" = "$want"$'\n'"$want" ] && [ "$(cat "$work/called")" = "$served" ]; then
        passed=$((passed + 1))
    else
        failed=$((failed + 1))
        echo "$name: said $(cat "$work/heard"), logged $(cat "$work/$log"), and who called printed $(cat "$work/called")"
    fi
}

folders "send x ~/y me"
silent_ones "callers who say nothing" Log b --peer alpha

# ---- the log of an end over a spool

# spool_of END: the words for its spool, which is made.
spool_of() {
    mkdir -p "$work/$1"/{spool,pub,lock}
    [ ${#as_user[@]} -eq 0 ] || chown -R 65534:65534 "$work/$1"
    spool=("$1/spool" --spool --public "$1/pub" --locks "$1/lock" --log "$1/Log" --timeout 1)
}

# has_logged NAME END LINE..: the log of the end has these errors, each behind the name of the other system, and no others.
has_logged() {
    local name=$1 found
    found=$(sed -nE 's/^uucico ([^ ]+) - \([^)]*\) ERROR: /\1 /p' "$work/$2/Log" 2>&1)
    if [ "$found" = "$(printf '%s\n' "${@:3}")" ]; then
        passed=$((passed + 1))
    else
        failed=$((failed + 1))
        echo "$name: the log has $(cat "$work/$2/Log")"
    fi
}

# spooled NAME LINE TEXT..: a call over a spool of an end that says these texts has this line in its log.
spooled() {
    folders
    speaker "${@:3}"
    spool_of alpha
    (cd "$work" && "${as_user[@]}" timeout 60 "$program" call unix:line "${spool[@]}" --me alpha --peer beta) \
        >"$work/printed" 2>"$work/said" </dev/null || true
    kill "$answerer" 2>/dev/null || true
    wait "$answerer" || true
    has_logged "$1" alpha "beta $2"
}

spooled "a spool's call of another end" 'wrongname: heard "Shere=other", expected "beta"' '\x10Shere=other\0'
spooled "a spool's call of an end that is busy" 'refused: the other end refused: "RLCK" (it is busy: call later)' \
    '\x10Shere=beta\0' '\x10RLCK\0'
spooled "a spool's call of an end without the protocol" 'noprotocol: no protocol g: heard "Pxyz"' \
    '\x10Shere=beta\0' '\x10ROK\0\x10Pxyz\0'
spooled "a spool's call of one who says nothing" "gaveup: $unanswered" ''
spooled "a spool's call of a getty" 'gaveup: heard 9 bytes and no text: "\x0d\x0alogin: "' '\r\nlogin: '

folders
spool_of alpha
(cd "$work" && "${as_user[@]}" timeout 60 "$program" call unix:line none --spool --me alpha --peer beta --log alpha/Log) \
    >"$work/printed" 2>"$work/said" </dev/null || true
has_logged "a spool that is not there" alpha "beta device fault: none: no such file or directory"

# a hub, which four call: a stranger, one whose system is busy, a port scan, and one that gives and wants what may not go
folders
spool_of beta
mkdir -p "$work/beta/spool/alpha"
chmod 777 "$work/beta/spool/alpha"
(cd "$work" && "${as_user[@]}" timeout 60 "$program" answer unix:line "${spool[@]}" --me beta --wait 30 \
    >"$work/answered" 2>"$work/heard" </dev/null) &
hub=$!
wait_for_socket "$work/line" || true
spool_of alpha
call_hub() {
    (cd "$work" && "${as_user[@]}" timeout 60 "$program" call unix:line "${spool[@]}" --me "$1" --peer beta) \
        >"$work/printed" 2>"$work/said" </dev/null || true
}
call_hub gamma
printf '%10d\n' $$ >"$work/beta/lock/LCK..alpha"
call_hub alpha
rm -f "$work/beta/lock/LCK..alpha"
python3 -c 'import socket, sys
stream = socket.socket(socket.AF_UNIX)
stream.connect(sys.argv[1])
stream.sendall(b"GET / HTTP/1.0\r\n\r\n")
stream.shutdown(socket.SHUT_WR)
while stream.recv(4096):
    pass' "$work/line"
mkdir -p "$work/alpha/spool/beta/C."
echo "S $work/a/send/x /no/such/x me - D.0 0644" >"$work/alpha/spool/beta/C./C.N1"
echo "R /etc/passwd ~/y me -d" >"$work/alpha/spool/beta/C./C.N2"
spool_of alpha
call_hub alpha
wait "$hub" || true
has_logged "a hub, which says whom it refused, and what" beta \
    'gamma refused: heard "Sgamma", but the spool has no folder for that system' \
    "alpha System already locked" \
    '* hungup: heard 18 bytes and no text: "GET / HTTP/1.0\x0d\x0a\x0d\x0a"' \
    "alpha send $work/a/send/x /no/such/x: refused" \
    "alpha request /etc/passwd ~/y: refused"

folders "send x ~/y me"
spool_of beta
mkdir -p "$work/beta/spool/alpha"
chmod 777 "$work/beta/spool/alpha"
silent_ones "callers who say nothing, over a spool" beta/Log "${spool[@]:0:6}"

# ---- what is read

folders
mistake "no file to list" 3 "${fault}can't read none"$'\n'"none: no such file or directory" scan -v none
mistake "a folder to play" 3 "${fault}can't read a"$'\n'"a: is a directory" play -v a
mistake "nothing to queue in" 3 "${fault}none: no such file or directory" queue none
mistake "nothing to show the status of" 3 "${fault}none: no such file or directory" status none
queue="uucpair queue DIR"
mistake "an order without its file" 2 "${usage}FILE is missing: $queue send FILE" queue a send
mistake "a request without its file" 2 "${usage}FILE is missing: $queue request FILE" queue a request
mistake "a word that is no order to queue" 2 \
    "${usage}\"get\" is neither send nor request: $queue send FILE, or $queue request FILE" queue a get x
mistake "the order in front of the folder" 2 "${usage}DIR goes first: $queue send FILE" queue send a x
mistake "no file to queue" 3 "${fault}can't read none"$'\n'"none: no such file or directory" queue a send none
truncate -s 268435457 "$work/large"
chmod 644 "$work/large"
mistake "a file to queue that is too large" 3 "over a limit"$'\n'"large: too large" queue a send large

folders "send x y me" "get x y me"
for words in "queue a" "queue a send a/send/x" "queue a request x" "queue a --cancel 1" "status a" "status a --json"; do
    # shellcheck disable=SC2086  # the words are several
    mistake "bad jobs: $words" 2 "$jobs 2"$'\n''a/jobs: line 2: "get" is neither send nor request' $words
done
mapfile -t many < <(for ((i = 0; i < 1024; i++)); do echo "send x y me"; done)
folders "${many[@]}"
mistake "a job too many" 2 "$jobs 1025"$'\n'"a/jobs: the limit of 1024 jobs is reached: call, or cancel one" queue a send a/send/x

# Two jobs with one target.
folders
(cd "$work" && "${as_user[@]}" "$program" queue a send a/send/x y && "${as_user[@]}" "$program" queue a send a/send/x y) \
    >"$work/printed" 2>"$work/said" </dev/null || true
if [ "$(cat "$work/said")" = "uucpair: another job sends to y, and this one replaces its file" ]; then
    passed=$((passed + 1))
else
    failed=$((failed + 1))
    echo "a second job with the same target: said $(cat "$work/said")"
fi

# remarked NAME SAID WORD..: the job is queued, and this is said of it.
remarked() {
    local name=$1 said=$2 ended=0
    folders
    (cd "$work" && "${as_user[@]}" "$program" queue a "${@:3}" --user me) >"$work/printed" 2>"$work/said" </dev/null || ended=$?
    if [ "$ended" -eq 0 ] && [ "$(cat "$work/said")" = "${said:+uucpair: $said}" ] && [ "$(wc -l <"$work/a/jobs")" -eq 1 ]; then
        passed=$((passed + 1))
    else
        failed=$((failed + 1))
        echo "$name: ended with $ended, said $(cat "$work/said") and printed $(cat "$work/printed")"
    fi
}

refuses="has a leading dot: uucpair at the other end refuses such a target, Taylor UUCP takes it"
remarked "a target with a dot in front" ".y $refuses" send a/send/x .y
public='~'
remarked "a target with a dot in front in the public folder" "$public/.y $refuses" send a/send/x "$public/.y"
remarked "a target here with a dot in front" ".y has a leading dot: this end takes no such target, so the job will be given up" \
    request y .y
remarked "a target with a dot in its middle" "" send a/send/x x.y

# ---- the words of the command line

folders
misspoken "no words behind call" call -- "  --me <NAME>" "  --peer <NAME>" "  <LINE>" "  <DIR>"
misspoken "no name of the other end" call unix:s a --me alpha -- "  --peer <NAME>"
misspoken "an option that there is not" call unix:s a --me alpha --peer beta --baud 9600 -- "error: unexpected argument '--baud' found" \
    "uucpair: set a device speed with stty; --speed is for the timers"
misspoken "a port apart" call unix:s a --me alpha --peer beta --port 540 -- "error: unexpected argument '--port' found" \
    "uucpair: the port is part of LINE: tcp:HOST:PORT"
misspoken "an order without its command" send a x -- "uucpair: to queue a file: uucpair queue DIR send FILE"
misspoken "a file behind a call" call unix:s a --me alpha --peer beta send x -- "error: unexpected argument 'send' found" \
    "uucpair: to queue a file: uucpair queue DIR send FILE"
misspoken "a timeout that is no whole number" call unix:s a --me alpha --peer beta --timeout 0.5 -- \
    "error: invalid value '0.5' for '--timeout <SECONDS>': invalid digit found in string"
misspoken "an option in front of its command" -v call unix:s a --me alpha --peer beta -- "error: unexpected argument '-v' found" \
    "uucpair: options go after the command: uucpair call .. -v"
misspoken "an option of answer behind call" call unix:s a --me alpha --peer beta --wait 60 -- "error: unexpected argument '--wait' found" \
    "uucpair: --wait is for answer: a call waits as long as --timeout says"
misspoken "sessions of a call" call unix:s a --me alpha --peer beta --sessions=2 -- "error: unexpected argument '--sessions' found" \
    "uucpair: --sessions is for answer: a call has one session"
misspoken "an option of call behind answer" answer unix:s a --me alpha --peer beta --fail-status -- \
    "error: unexpected argument '--fail-status' found" "uucpair: --fail-status is for call"
for option in "--public pub" "--stats Stats" "--grade A" "--grade=-" "--port-name ttyS0" "--give none" "--take ~/in"; do
    first=${option%%[ =]*}
    needs_spool="${usage}$first is for a spool: give --spool too, or leave it out"
    # shellcheck disable=SC2086  # an option and its word
    call_of unix:none a $option
    mistake "$option of a call without --spool" 2 "$needs_spool" "${call[@]}"
    # shellcheck disable=SC2086
    mistake "$option of an answer without --spool" 2 "$needs_spool" answer tcp:4000 a --me alpha --peer beta $option
done
mistake "an option of a spool, and another mistake" 2 "${usage}timeout 601 is not 1 to 600" \
    call unix:none a --me alpha --peer beta --stats Stats --timeout 601
call_of unix:s a --window 8
mistake "a window of 8" 2 "${usage}window 8 is not 1 to 7" "${call[@]}"
call_of unix:s a --size 65
mistake "a size of 65" 2 "${usage}size 65 is not 32, 64, 128, 256, 512, 1024, 2048 or 4096" "${call[@]}"
mistake "a timeout of 0" 2 "${usage}timeout 0 is not 1 to 600" call unix:s a --me alpha --peer beta --timeout 0
call_of unix:s a --speed 299
mistake "a line that is too slow" 2 "${usage}speed 299 is not 300 to 10000000" "${call[@]}"
call_of unix:s a --most 1048575
mistake "no room for files" 2 "${usage}most 1048575 is not 1048576 or more" "${call[@]}"
call_of unix:s a --keep-partials 3651
mistake "too many days" 2 "${usage}keep-partials 3651 is not 1 to 3650" "${call[@]}"
call_of unix:s a --keep-partials 0
mistake "no day" 2 "${usage}keep-partials 0 is not 1 to 3650" "${call[@]}"
mistake "no time to be called" 2 "${usage}wait 0 is not 1 to 1000000000" answer unix:s a --me alpha --peer beta --wait 0
call_of tcp:127.0.0.1 a
no_port="has no port number (0 to 65535): give tcp:HOST:PORT"
mistake "no port" 2 "${usage}tcp:127.0.0.1 $no_port" "${call[@]}"
call_of tcp:h:70000 a
mistake "a port that is too great" 2 "${usage}tcp:h:70000 $no_port" "${call[@]}"
call_of tcp:h:uucp a
mistake "the name of a port" 2 "${usage}tcp:h:uucp $no_port" "${call[@]}"
call_of tcp::540 a
mistake "no host" 2 "${usage}tcp::540 has no host" "${call[@]}"
call_of unix: a
mistake "no path of a socket" 2 "${usage}unix: has no path" "${call[@]}"
call_of "" a
mistake "no line" 2 "${usage}LINE is empty" "${call[@]}"
no_name="is not a system name: 1 to 200 printable characters without spaces"
mistake "a name with a blank" 2 "${usage}\"Foo bar\" $no_name" call unix:s a --me "Foo bar" --peer beta
mistake "an empty name" 2 "${usage}\"\" $no_name" call unix:s a --me "" --peer beta
mistake "an empty name of the other end" 2 "${usage}the name of the other end is missing: --peer" \
    call unix:s a --me alpha --peer ""
mistake "a name with a control character" 2 "${usage}\"b\\x07\" $no_name" call unix:s a --me alpha --peer $'b\a'
mistake "two mistakes, of which the first is told" 2 "${usage}timeout 601 is not 1 to 600" \
    call tcp:x a --me "Foo bar" --peer beta --timeout 601
mistake "each packet lost" 2 "${usage}drop-every 1 is not 2 to 1000000" pair s a b --drop-every 1
mistake "each packet changed" 2 "${usage}flip-every 1 is not 2 to 1000000" pair s a b --drop-every 2 --flip-every 1

echo "$passed mistakes are answered as they ought to be, $failed are not"
[ "$failed" -eq 0 ]
