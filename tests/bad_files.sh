#!/usr/bin/env bash
# Files and folders with which a session can do nothing: `call` and `answer` move two files one way and one the other, while
# one of the two has such a file. It is passed over, or its job is refused, and everything else is done.
#
#   tests/bad_files.sh [PROGRAM]
#
# It prints a line for each kind, at the end that calls and at the one that answers:
#
#   hidden   a file whose name begins with a dot, for which the other end asks
#   no_text  a name in `send` that is no UTF-8
#   no_name  names in `send` with a space and with control characters
#   unread   a file in `send` that the user of the program may not read
#   many     300 files in `send`
#   folder   a folder in `got` that has the name of a file which comes
#   asked    the same, of a file for which the end has asked
#   long     a file that comes, whose path would be too long for the system
#
#   ended    the statuses of `call` and of `answer`, and how their sessions ended
#   came     of the three other files, how many came
#   failed   the jobs that were printed as failed
#   told     what the end with the bad file said on standard error, where it ought to
#
# The status is 1 where a row was not as it ought to be.
. "$(dirname "$(readlink -f "$0")")/common.sh"
find_program "${1:-}"
new_passing_work
as_user=()
[ "$(id -u)" -ne 0 ] || as_user=(setpriv --reuid 65534 --regid 65534 --clear-groups)

# long_path: of the folder of the end that `at` names, so that names of up to 80 bytes have room behind it.
long_path() {
    local path=$work
    while [ ${#path} -lt 4008 ]; do
        path+=/.
    done
    while [ ${#path} -lt 4009 ]; do
        path+=/
    done
    echo "$path/$at"
}

# new_folders: of both ends. The one that `at` names gives x, the other one y and z.
new_folders() {
    rm -rf "$work"/{a,b}
    mkdir -p "$work"/{a,b}/{send,got}
    : >"$work/$peer/jobs"
    echo "send x x u" >"$work/$at/jobs"
    printf 'send y y u\nsend z z u\n' >"$work/$peer/jobs"
}

# fill_folders: after what a kind has put there.
fill_folders() {
    echo x >"$work/$at/send/x"
    echo y >"$work/$peer/send/y"
    echo z >"$work/$peer/send/z"
    [ ${#as_user[@]} -eq 0 ] || chown -R 65534:65534 "$work"
}

# prepare KIND: sets `wants_failed`, what is printed of failed jobs, and `wants_told`, a part of what is said.
prepare() {
    local i name
    wants_failed='' wants_told=''
    case $1 in
    hidden)
        echo secret >"$work/$at/send/.h"
        echo "request .h h u" >>"$work/$peer/jobs"
        wants_failed="$(side "$peer") failed request .h h u"
        ;;
    no_text)
        : >"$work/$at/send/"$'\xff'
        wants_told="/$at/send/? is not given: its name is not text"
        ;;
    no_name)
        : >"$work/$at/send/"$'a\x1b[2J'
        : >"$work/$at/send/b c"
        wants_told="1 more files in "
        ;;
    unread)
        : >"$work/$at/send/u"
        chmod 0 "$work/$at/send/u"
        wants_told="/$at/send/u is not given: it can't be read"
        ;;
    many)
        for ((i = 0; i < 300; i++)); do
            : >"$work/$at/send/f$i"
        done
        wants_told="43 more files in "
        ;;
    folder)
        mkdir "$work/$at/got/f"
        echo "send y f u" >>"$work/$peer/jobs"
        wants_failed="$(side "$peer") failed send y f u"
        ;;
    asked)
        mkdir "$work/$at/got/f"
        echo "request y f u" >>"$work/$at/jobs"
        wants_failed="$(side "$at") failed request y f u"
        wants_told="uucpair: request y f u: not given by the other end: no such file in its send, or barred there; or it can't be put in its place here"
        ;;
    long)
        name=$(printf 'n%.0s' {1..100})
        echo "send y $name u" >>"$work/$peer/jobs"
        dir[$at]=$(long_path)
        wants_failed="$(side "$peer") failed send y $name u"
        ;;
    esac
}

side() {
    [ "$1" = a ] && echo caller || echo called
}

# meet: one session. Sets `caller_status` and `called_status`.
meet() {
    local called
    rm -f "$work/line"
    "${as_user[@]}" "$program" answer "unix:$work/line" "${dir[b]}" --me b --peer a --timeout 5 \
        >"$work/b.out" 2>"$work/b.err" &
    called=$!
    wait_for_socket "$work/line" || true
    caller_status=0
    timeout 30 "${as_user[@]}" "$program" call "unix:$work/line" "${dir[a]}" --me a --peer b --timeout 5 \
        >"$work/a.out" 2>"$work/a.err" || caller_status=$?
    [ ! -S "$work/line" ] || kill -9 "$called" 2>/dev/null || true
    end_of "$called" 30
    called_status=$status
}

# how FILE: how the session ended, by the report.
how() {
    local phase=-
    read -r _ phase _ <"$1" || true
    echo "${phase:--}"
}

# count_came: sets `came`.
count_came() {
    came=0
    cmp -s "$work/$at/send/x" "$work/$peer/got/x" && came=$((came + 1))
    cmp -s "$work/$peer/send/y" "$work/$at/got/y" && came=$((came + 1))
    cmp -s "$work/$peer/send/z" "$work/$at/got/z" && came=$((came + 1))
    true
}

# says_it: whether the end with the bad file said what it ought to, and nothing that can't be seen.
says_it() {
    local text
    text=$(cat "$work/$at.err")
    [[ ($text == *"$wants_told"* && -n $wants_told) || -z $text$wants_told ]] && ! grep -q '[^ -~]' "$work/$at.err"
}

# try KIND: at the end that `at` names.
try() {
    local ended failed told=yes
    declare -A dir=([a]=$work/a [b]=$work/b)
    new_folders
    prepare "$1"
    fill_folders
    meet
    ended="$caller_status $(how "$work/a.out"), $called_status $(how "$work/b.out")"
    count_came
    failed=$(cat "$work/a.out" "$work/b.out" | grep ' failed [sr]' || true)
    says_it || told=no
    rows=$((rows + 1))
    if [ "$ended" = "0 done, 0 done" ] && [ $came -eq 3 ] && [ "$failed" = "$wants_failed" ] && [ $told = yes ] &&
        [ ! -s "$work/a/jobs" ] && [ ! -s "$work/b/jobs" ] && [ ! -e "$work/$peer/got/h" ]; then
        well=$((well + 1))
    fi
    printf '%-8s %-6s %-30s %4d  %-30.30s %s\n' "$1" "$([ $at = a ] && echo call || echo answer)" "$ended" $came \
        "${failed:--}" $told
}

rows=0 well=0
printf '%-8s %-6s %-30s %4s  %-30s %s\n' kind at ended came failed told
for kind in hidden no_text no_name unread many folder asked long; do
    for at in a b; do
        peer=$(other $at)
        try $kind
    done
done
echo "bad_files: $well of $rows rows were well"
[ $well -eq $rows ]
