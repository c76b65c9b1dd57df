#!/usr/bin/env bash
# LINE `-`: standard input and output are the line of an end. Each kind of line that a program is given so, in both roles,
# with another end of this program and with Debian's uucico at the other side: a socket, two pipes, two fifos, a terminal,
# inetd, Taylor UUCP's port of type `pipe`, and a login shell. Then what the standard streams may be besides: descriptors 0 to 2
# closed in each combination, and a standard output that is full, closed, or a closed pipe, for each tool.
#
#   tests/standard_line.sh [PROGRAM]
#
# It needs Debian's packages (apt-get install uucp socat strace openbsd-inetd), and root, since uucico runs as the user uucp.
# Each scene is a line; the status is 1 where one went wrong, and the folders stay then.
. "$(dirname "$(readlink -f "$0")")/common.sh"
find_program "${1:-}"
new_shared_work
joined=$root/tests/standard_line.py
uucico=/usr/sbin/uucico

# make_scene: `near` and `far`, each with two files: it sends the first, and the other end asks for the second. `taylor` is
# what uucico has in the place of `far`. All of it is of the scene, and anybody may write there.
make_scene() {
    local end
    scene=$work/scene
    rm -rf "$scene"
    mkdir -p "$scene"/{near,far}/{send,got} "$scene"/taylor/{spool,public}
    for end in near far; do
        seq -f "$end 1 %g" 600 >"$scene/$end/send/${end}1"
        seq -f "$end 2 %g" 600 >"$scene/$end/send/${end}2"
    done
    cp "$scene"/far/send/* "$scene/taylor/public"
    printf 'send near1 ~/near1 u\nrequest ~/far2 far2 u\n' >"$scene/near/jobs"
    printf 'send far1 far1 u\nrequest near2 near2 u\n' >"$scene/far/jobs"
    taylor_node "$scene/taylor" far near line
    chmod -R a+rwX "$scene"
    chown -R uucp:uucp "$scene/taylor"
}

as_uucp() {
    (cd / && exec runuser -u uucp -- "$@")
}

# queue_at_taylor LINE..: its port, and its two jobs.
queue_at_taylor() {
    printf '%s\n' "port line" "$@" >"$scene/taylor/port"
    as_uucp uucp -I "$scene/taylor/config" -r "$scene/taylor/public/far1" 'near!~/far1'
    as_uucp uucp -I "$scene/taylor/config" -r 'near!~/near2' "$scene/taylor/public/near2"
}

# near_words ROLE [OPTION..]: sets `near` to the words of the end whose line is standard input and output.
near_words() {
    near=("$program" "$1" - "$scene/near" --me near --peer far "${@:2}")
}

# far_words ROLE PEER: sets `far` to those of the end at the other side, which is one of ours, or uucico.
far_words() {
    if [ "$2" = ours ]; then
        far=("$program" "$1" - "$scene/far" --me far --peer near --report "$scene/far.report")
        return
    fi
    queue_at_taylor "type stdin"
    far=(runuser -u uucp -- "$uucico" -q -I "$scene/taylor/config")
    [ "$1" = answer ] || far+=(-D -f -s near)
}

other_role() {
    [ "$1" = call ] && echo answer || echo call
}

# word ROLE: how a report calls the end.
word() {
    [ "$1" = call ] && echo caller || echo called
}

# all_moved PEER: whether each of the four files has come, whole, and no job is left.
all_moved() {
    local taken
    cmp -s "$scene/far/send/far1" "$scene/near/got/far1" && cmp -s "$scene/far/send/far2" "$scene/near/got/far2" || return 1
    same "" "$scene/near/jobs" || return 1
    if [ "$1" = ours ]; then
        same "" "$scene/far/jobs" || return 1
        taken=$scene/far/got
    else
        [ -z "$(as_uucp uustat -I "$scene/taylor/config" -a)" ] || return 1
        grep -q "Call complete" "$scene/taylor/log" || return 1
        taken=$scene/taylor/public
    fi
    cmp -s "$scene/near/send/near1" "$taken/near1" && cmp -s "$scene/near/send/near2" "$taken/near2"
}

# join KIND TEXT: runs the commands `near` and `far` with a line of this kind between them. What is printed of them is this text.
join() {
    local line
    line=$(cd / && python3 "$joined" "$1" "$scene/record" "${near[@]}" -- "${far[@]}" 2>"$scene/near.err")
    [ "$line" = "$2" ] || {
        echo "  $line"
        return 1
    }
}

# over KIND ROLE PEER: the end has this role over a line of this kind, all files move, and nothing but texts and packets goes to
# its standard output. Its report is in the file that is named, or without one on standard error.
over() {
    local kind=$1 role=$2 peer=$3 report
    report="$(word "$role") done pending 0 struck 2 failed 0"$'\n'
    if [ "$kind" = socket ]; then
        near_words "$role"
    else
        near_words "$role" --report "$scene/near.report"
    fi
    far_words "$(other_role "$role")" "$peer"
    join "$kind" "near 0 far 0 stray 0 waits" && all_moved "$peer" || return 1
    if [ "$kind" = socket ]; then
        same "$report" "$scene/near.err"
    else
        same "$report" "$scene/near.report" && same "" "$scene/near.err"
    fi
}

# at_inetd ROLE PEER: the end is started by inetd, at whose port the other one connects.
at_inetd() {
    local role=$1 peer=$2 port inetd
    port=$((20000 + RANDOM % 20000))
    near_words "$role" --report "$scene/near.report"
    echo "127.0.0.1:$port stream tcp nowait root $program ${near[*]}" >"$scene/inetd.conf"
    inetd -i "$scene/inetd.conf" 2>"$scene/inetd.err" &
    inetd=$!
    wait_until 5 listens "$port"
    if [ "$role $peer" = "answer uucico" ]; then
        queue_at_taylor "type tcp" "service $port"
        echo "address 127.0.0.1" >>"$scene/taylor/sys"
        as_uucp "$uucico" -q -I "$scene/taylor/config" -D -f -s near
    else
        far_words "$(other_role "$role")" "$peer"
        # One of the two is the first to close the connection.
        (cd / && socat -t 5 "TCP:127.0.0.1:$port" "EXEC:${far[*]}" 2>"$scene/socat.err") || true
    fi
    wait_until 10 test -s "$scene/near.report"
    kill "$inetd"
    wait "$inetd" || true
    all_moved "$peer" && same "$(word "$role") done pending 0 struck 2 failed 0"$'\n' "$scene/near.report"
}

# Taylor UUCP itself starts the end, which is its port. It sends it a SIGHUP as soon as its own work is done.
at_a_pipe_port() {
    near_words answer --report "$scene/near.report"
    queue_at_taylor "type pipe" "command /usr/bin/nohup ${near[*]}"
    as_uucp "$uucico" -q -I "$scene/taylor/config" -D -f -s near || return 1
    wait_until 10 test -s "$scene/near.report"
    all_moved uucico && same $'called done pending 0 struck 2 failed 0\n' "$scene/near.report"
}

# at_a_login PEER: a user logs in at a terminal, whose shell is packaging/login-shell.sh. Only here the system has such a user.
at_a_login() {
    sed -e "s:^uucpair=.*:uucpair=$program:" -e "s:^table=.*:table=$scene/logins:" -e "s:^log=.*:log=$scene/log:" \
        "$root/packaging/login-shell.sh" >"$scene/shell"
    chmod 755 "$scene/shell"
    printf '%s\n' "Uother /nowhere near other" "Ufar $scene/near near far --report $scene/near.report" >"$scene/logins"
    : >"$scene/log"
    chmod 666 "$scene/log"
    (cat /etc/passwd && echo "Ufar:x:54321:54321::/tmp:$scene/shell") >"$scene/passwd"
    (cat /etc/shadow && echo "Ufar:*:1::::::") >"$scene/shadow"
    # shellcheck disable=SC2016  # sh expands it
    near=(unshare -m sh -c 'mount --bind "$0/passwd" /etc/passwd && mount --bind "$0/shadow" /etc/shadow && exec su - Ufar' "$scene")
    far_words call "$1"
    join terminal "near 0 far 0 stray 0 waits" && all_moved "$1" && same "" "$scene/log" &&
        same $'called done pending 0 struck 2 failed 0\n' "$scene/near.report"
}

# unchanged: whether the jobs of the end are as they were.
unchanged() {
    same $'send near1 ~/near1 u\nrequest ~/far2 far2 u\n' "$scene/near/jobs"
}

# nobody_there KIND ROLE: the other side closes the line at once.
nobody_there() {
    local said="the caller hung up, and said nothing (it may expect a name other than --me)"
    [ "$2" = answer ] ||
        said="the other end hung up, and said nothing (no uucico or uucpair answers there, or it turns this machine away)"
    near_words "$2"
    far=(true)
    join "$1" "near 1 far 0 stray 0 waits" && unchanged &&
        same "uucpair: $said"$'\n'"$(word "$2") hungup pending 2 struck 0 failed 0"$'\n' "$scene/near.err"
}

# Where the line is the controlling terminal, its end is a signal.
terminal_gone() {
    near_words answer
    far=(true)
    join terminal "near -1 far 0 stray 0 does not wait" && unchanged
}

# in_use ROLE: another run works in the folder. Nothing goes to the line.
in_use() {
    local holder
    flock -F "$scene/near" cat <&"$never" &
    holder=$!
    wait_until 5 is_locked "$scene/near"
    near_words "$1"
    far=(true)
    join socket "near 3 far 0 stray 0 waits" || return 1
    kill "$holder"
    wait "$holder" || true
    unchanged && same "" "$scene/record" &&
        same $'uucpair: device fault\nuucpair: '"$scene/near is in use"$'\n' "$scene/near.err"
}

# report_fails PATH: where the report's file can't be made nothing is begun.
report_fails() {
    near_words call --report "$scene/none/report"
    far=(true)
    join socket "near 3 far 0 stray 0 waits" && unchanged && same "" "$scene/record" &&
        same $'uucpair: device fault\nuucpair: '"$scene/none/report: no such file or directory"$'\n' "$scene/near.err"
}

# Where it can't be written the session is over.
report_full() {
    near_words call --report /dev/full
    far_words answer ours
    join socket "near 3 far 0 stray 0 waits" && all_moved ours && same $'uucpair: device fault\nuucpair: /dev/full: no space left\n' "$scene/near.err"
}

# with CLOSED: sets `near` to the same command with these descriptors closed, as `<&- >&-`.
with() {
    # shellcheck disable=SC2016  # bash expands it
    near=(bash -c 'eval "exec $0" && exec "$@"' "$1" "${near[@]}")
}

# line_closed CLOSED ROLE: without one half of the line there is none.
line_closed() {
    near_words "$2"
    with "$1"
    far=(true)
    join socket "near 3 far 0 stray 0 waits" && unchanged && same "" "$scene/record"
}

# errors_closed KIND ROLE: without standard error the report has no place, unless it has a file.
errors_closed() {
    near_words "$2"
    with "2>&-"
    far_words "$(other_role "$2")" ours
    join "$1" "near 3 far 0 stray 0 waits" && all_moved ours || return 1
    make_scene
    near_words "$2" --report "$scene/near.report"
    with "2>&-"
    far_words "$(other_role "$2")" ours
    join "$1" "near 0 far 0 stray 0 waits" && all_moved ours &&
        same "$(word "$2") done pending 0 struck 2 failed 0"$'\n' "$scene/near.report"
}

# The tools, each as a function that runs it over the scene, behind the words of `by`, and sets `status`; and whether it has
# done its work, as one that is called done_ and its name.

run_by() {
    status=0
    "${by[@]}" "$program" "$@" 2>"$scene/said" || status=$?
}

scan() {
    run_by scan -v "$root/examples/noise.bytes"
}
done_scan() {
    :
}

play() {
    run_by play -v "$root/examples/clean.script"
}
done_play() {
    :
}

version() {
    run_by --version
}
done_version() {
    :
}

list() {
    run_by queue "$scene/near"
}
done_list() {
    unchanged
}

queue() {
    run_by queue "$scene/near" send "$root/README.md" --user u
}
done_queue() {
    same $'send near1 ~/near1 u\nrequest ~/far2 far2 u\nsend README.md README.md u\n' "$scene/near/jobs" &&
        cmp -s "$root/README.md" "$scene/near/send/README.md"
}

pair() {
    printf 'send near1 near1 u\nrequest far2 far2 u\n' >"$scene/near/jobs"
    run_by pair "$scene/socket" "$scene/near" "$scene/far" -v
}
done_pair() {
    all_moved ours
}

call() {
    local other
    "$program" answer "unix:$scene/socket" "$scene/far" --me far --peer near >"$scene/far.report" 2>&1 &
    other=$!
    wait_for_socket "$scene/socket"
    run_by call "unix:$scene/socket" "$scene/near" --me near --peer far
    wait "$other"
}
done_call() {
    all_moved ours
}

answer() {
    local other
    (wait_for_socket "$scene/socket" &&
        exec "$program" call "unix:$scene/socket" "$scene/far" --me far --peer near >"$scene/far.report" 2>&1) &
    other=$!
    run_by answer "unix:$scene/socket" "$scene/near" --me near --peer far
    wait "$other"
}
done_answer() {
    all_moved ours
}

# closed TOOL SET STATUS: the tool with these descriptors closed. Its work is done, and neither a file nor a socket of it ever has
# the number of a standard stream.
closed() {
    # shellcheck disable=SC2016  # bash expands it
    by=(strace -f -y -o "$scene/trace" -e "trace=open,openat,openat2,socket,accept,accept4,dup,dup2,dup3,fcntl"
        bash -c 'eval "exec $0" && exec "$@"' "$2")
    "$1" </dev/null >"$scene/out"
    [ "$status" -eq "$3" ] && "done_$1" || { echo "  status $status"; return 1; }
    grep -q "/dev/null" "$scene/trace" || return 1
    ! grep -E " = [012]<($scene/(near|far|socket)|UNIX|TCP|socket|$root)" "$scene/trace"
}

# input_closed TOOL: it reads standard input, and there is none.
input_closed() {
    by=()
    run_by "$1" -v <&- >"$scene/out"
    # EBADF
    [ "$status" -eq 3 ] && same $'uucpair: device fault\nuucpair: standard input: error 9\n' "$scene/said" && same "" "$scene/out"
}

full() {
    by=()
    "$1" >/dev/full
    refused "$1" "no space left"
}

gone() {
    by=()
    "$1" >&-
    refused "$1" "error 9"
}

# A pipe whose reader has closed it.
unread() {
    by=()
    mkfifo "$scene/pipe"
    # shellcheck disable=SC2094  # a pipe
    exec {reader}<>"$scene/pipe" {writer}>"$scene/pipe" {reader}<&-
    "$1" >&"$writer"
    exec {writer}>&-
    refused "$1" "broken pipe"
}

# refused TOOL WHY: it has done its work, and could not print it.
refused() {
    [ "$status" -eq 3 ] && "done_$1" &&
        same $'uucpair: device fault\nuucpair: standard output: '"$2"$'\n' "$scene/said" || {
        echo "  status $status: $(cat "$scene/said")"
        return 1
    }
}

for kind in socket pipes fifos terminal; do
    for role in call answer; do
        for peer in ours uucico; do
            tell "$kind, $role, with $peer" over "$kind" "$role" "$peer"
        done
    done
done
for role in call answer; do
    for peer in ours uucico; do
        tell "inetd, $role, with $peer" at_inetd "$role" "$peer"
    done
done
tell "a port of Taylor UUCP" at_a_pipe_port
tell "a login shell, with ours" at_a_login ours
tell "a login shell, with uucico" at_a_login uucico
for role in call answer; do
    for kind in socket pipes fifos; do
        tell "nobody at the other side, $kind, $role" nobody_there "$kind" "$role"
    done
    tell "a folder in use, $role" in_use "$role"
    for closed in "<&-" ">&-" "<&- >&-" "<&- 2>&-" ">&- 2>&-" "<&- >&- 2>&-"; do
        tell "$role - with $closed" line_closed "$closed" "$role"
    done
    for kind in socket pipes terminal; do
        tell "$role - with 2>&-, $kind" errors_closed "$kind" "$role"
    done
done
tell "a terminal that is gone" terminal_gone
tell "a report that can't be made" report_fails
tell "a report that can't be written" report_full
tell "scan of a closed input" input_closed scan
tell "play of a closed input" input_closed play
for tool in scan play version list queue pair call answer; do
    for set in "<&-" "2>&-" "<&- 2>&-"; do
        tell "$tool with $set" closed "$tool" "$set" 0
    done
    for set in ">&-" "<&- >&-" ">&- 2>&-" "<&- >&- 2>&-"; do
        tell "$tool with $set" closed "$tool" "$set" 3
    done
    tell "$tool to a full disk" full "$tool"
    tell "$tool to a closed output" gone "$tool"
    tell "$tool to a closed pipe" unread "$tool"
done
echo "$well of $all scenes were well"
[ "$well" -eq "$all" ] || {
    echo "standard_line.sh: see $work" >&2
    exit 1
}
rm -rf "$work"
