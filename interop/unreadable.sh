#!/usr/bin/env bash
# What Taylor UUCP may queue and this program can't take, with a mail behind it: the mail has to come, and the job in front
# of it has to be over, whoever calls. With --strict the session ends, and both jobs stay. Needs Debian's packages (apt-get
# install uucp socat), and root, since uucico runs as the user uucp. Run by hand:
#     interop/unreadable.sh [PROGRAM]
# PROGRAM is crates/uucpair/out/uucpair where none is named. CASES has the jobs that are tried. Its last line is the
# number of sessions in which all went as it should.
set -u
root=$(cd "$(dirname "$0")/.." && pwd)
. "$root/interop/common.sh"
begin_work "$@"

cases=${CASES:-wildcard execution long_path long_request high_byte long_file}

# set_up: Taylor's folders and settings, and a folder of ours
set_up() {
    new_ends "${both_ways[@]}"
    echo "the mail" >"$work/taylor/pub/mail"
    echo "a file" | tee "$work/taylor/pub/file" >"$work/taylor/pub/caf"$'\xe9'
    head -c 1048577 /dev/zero >"$work/taylor/pub/long"
    own_files
}

# letters COUNT: so many
letters() {
    head -c "$1" /dev/zero | tr '\0' n
}

# queue CASE: the job that can't be taken, of a high grade, and the mail of a low one
queue() {
    local queue=(as_uucp uucp -I "$work/taylor/config" -r -g B)
    case $1 in
    wildcard) "${queue[@]}" 'ours!~/*.txt' "$work/taylor/pub/" ;;
    execution) as_uucp uux -I "$work/taylor/config" -r -g B "ours!cat !$work/taylor/pub/caf"$'\xe9' ;;
    long_path) "${queue[@]}" "$work/taylor/pub/file" "ours!~/$(letters 249)" ;;
    long_request) "${queue[@]}" "ours!~/$(letters 249)" "$work/taylor/pub/asked" ;;
    high_byte) "${queue[@]}" "$work/taylor/pub/file" "ours!~/caf"$'\xe9' ;;
    long_file) "${queue[@]}" "$work/taylor/pub/long" 'ours!~/long' ;;
    esac
    as_uucp uucp -I "$work/taylor/config" -r -g N "$work/taylor/pub/mail" 'ours!~/mail'
}

# judge NAME STATUS [--strict]
judge() {
    local left mail=lost wanted="0 jobs, the mail came"
    left=$(waiting)
    cmp -s "$work/taylor/pub/mail" "$work/ours/got/mail" && mail=came
    [ $# = 2 ] || wanted="2 jobs, the mail lost"
    echo "$1${3:+, $3}: status $2; $(head -1 "$work/out"); $left jobs, the mail $mail"
    if [ "$left jobs, the mail $mail" = "$wanted" ] && { [ $# = 3 ] || [ "$2" = 0 ]; } &&
        { [ $# = 2 ] || grep -q badtalk "$work/out"; }; then
        good=$((good + 1))
    else
        cat "$work/err"
        tail -n 5 "$work/taylor/log/Log"
    fi
}

# we_call CASE [--strict]
we_call() {
    set_up
    queue "$1"
    taylor_waits "$work/line"
    call_taylor --file-limit 1048576 "${@:2}"
    judge "we call, $1" $? "${@:2}"
}

# taylor_calls CASE [--strict]
taylor_calls() {
    set_up
    queue "$1"
    wait_for_taylor "$work/line" --file-limit 1048576 "${@:2}"
    taylor_calls_us
    judge "Taylor calls, $1" $? "${@:2}"
}

good=0
all=0
for case in $cases; do
    for option in "" --strict; do
        we_call "$case" $option
        taylor_calls "$case" $option
        all=$((all + 2))
    done
done
echo "$good of $all sessions"
[ "$good" = "$all" ]
