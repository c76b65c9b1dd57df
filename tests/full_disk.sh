#!/usr/bin/env bash
# A disk that is full, and folders that can't be written or are not there: `call` and `answer` move four files each way, one
# of them requested, while the folder of one of the two is so. Then it is mended, and what is left has to come.
#
#   tests/full_disk.sh [PROGRAM]
#
# It prints a line for each fault, at the end that calls and at the one that answers:
#
#   during  the status of `call` and of `answer`, and how their sessions ended; `-` where an end said nothing, and status
#           137 where `answer` was stopped, since nobody called it
#   lost    jobs that are gone without their file, and files in `got` that are not whole, when the fault is mended
#   told    whether the end that has the fault ended with a status that is not 0
#   then    the statuses of the sessions that follow, of which there are three at most
#   missing files that have not come by then, and jobs that are there still
#   left    names of files that were not whole
#
# The status is 1 where a fault was not told, something is lost or missing, or an end didn't end by itself. It needs root,
# as it mounts.
. "$(dirname "$(readlink -f "$0")")/common.sh"
files=4
size=3000
find_program "${1:-}"
new_work
started=()

clean_up() {
    kill -9 "${started[@]}" 2>/dev/null || true
    for end in a b; do
        umount -q "$work/$end/got" "$work/$end" 2>/dev/null || true
    done
    rm -rf "$work"
}
trap clean_up EXIT

# new_folders: of both ends. That of the one with the fault is a small disk of its own.
new_folders() {
    local end
    rm -rf "$work"/{a,b,*.given}
    mkdir "$work"/{a,b}
    mount -t tmpfs -o size=80k uucpair "$work/$at"
    for end in a b; do
        mkdir "$work/$end"/{send,got}
        : >"$work/$end/jobs"
    done
}

# fill_folders: the files, and the jobs that bring each to the other end: three that send, and one that requests.
fill_folders() {
    local end i
    for end in a b; do
        for ((i = 0; i < files; i++)); do
            seq -f "$end$i %g" 1000 | head -c $size >"$work/$end/send/$end$i"
        done
        for ((i = 1; i < files; i++)); do
            echo "send $end$i $end$i u" >>"$work/$end/jobs"
        done
        echo "request $(other $end)0 $(other $end)0 u" >>"$work/$end/jobs"
    done
    for end in a b; do
        cp "$work/$end/jobs" "$work/$end.given"
    done
}

fill_disk() {
    cat /dev/zero >"$work/$at/filler" 2>/dev/null || true
}

# make_read_only FOLDER
make_read_only() {
    mount --bind "$1" "$1"
    mount -o remount,ro,bind "$1"
}

# break_it FAULT: at the end that `at` names.
break_it() {
    case $1 in
    full | numbered) fill_disk ;;
    full_soon) # two files have room
        fill_disk
        truncate -s -8192 "$work/$at/filler"
        ;;
    read_only_got) make_read_only "$work/$at/got" ;;
    read_only_dir) make_read_only "$work/$at" ;;
    no_got) mv "$work/$at/got" "$work/$at/aside" ;;
    no_send) mv "$work/$at/send" "$work/$at/aside" ;;
    no_dir) mount --move "$work/$at" "$work/aside" && rmdir "$work/$at" ;;
    esac
}

mend_it() {
    case $1 in
    full | numbered | full_soon) rm "$work/$at/filler" ;;
    read_only_got) umount "$work/$at/got" ;;
    read_only_dir) umount "$work/$at" ;;
    no_got) mv "$work/$at/aside" "$work/$at/got" ;;
    no_send) mv "$work/$at/aside" "$work/$at/send" ;;
    no_dir) mkdir -p "$work/$at" && mount --move "$work/aside" "$work/$at" ;;
    esac
}

# how FILE: how the session ended, by the report.
how() {
    local phase=-
    read -r _ phase _ <"$1" || true
    echo "${phase:--}"
}

# meet: one session. Sets `caller_status` and `called_status`.
meet() {
    local caller called i
    rm -f "$work/line"
    "$program" answer "unix:$work/line" "$work/b" --me b --peer a --timeout 5 "${options[@]}" \
        >"$work/b.out" 2>"$work/b.err" &
    called=$!
    started=("$called")
    for ((i = 0; i < 500; i++)); do
        [ ! -S "$work/line" ] && kill -0 "$called" 2>/dev/null || break
        pause 0.01
    done
    "$program" call "unix:$work/line" "$work/a" --me a --peer b --timeout 5 "${options[@]}" \
        >"$work/a.out" 2>"$work/a.err" &
    caller=$!
    started+=("$caller")
    end_of "$caller" 30
    caller_status=$status
    # Whom nobody has called waits for ever.
    [ ! -S "$work/line" ] || kill -9 "$called" 2>/dev/null || true
    end_of "$called" 30
    called_status=$status
    started=()
}

# is_there END NAME: the file of this end is whole at the other one.
is_there() {
    cmp -s "$work/$1/send/$2" "$work/$(other "$1")/got/$2"
}

# count_lost: sets `lost`.
count_lost() {
    local end kind source from path
    lost=0
    for end in a b; do
        while read -r kind source _; do
            from=$end
            [ "$kind" = send ] || from=$(other $end)
            is_there "$from" "$source" || grep -q "^$kind $source " "$work/$end/jobs" || lost=$((lost + 1))
        done <"$work/$end.given"
        for path in "$work/$end/got"/*; do
            [ ! -e "$path" ] || is_there "$(other $end)" "${path##*/}" || lost=$((lost + 1))
        done
    done
}

# count_missing: sets `missing`.
count_missing() {
    local end i
    missing=$(cat "$work/a/jobs" "$work/b/jobs" | wc -l)
    for end in a b; do
        for ((i = 0; i < files; i++)); do
            is_there $end "$end$i" || missing=$((missing + 1))
        done
    done
}

# try FAULT: at the end that `at` names.
try() {
    local told during later=() lost missing left broken
    options=()
    new_folders
    if [ "$1" = numbered ]; then
        options=(--number)
        meet # so that both have a number
    fi
    fill_folders
    break_it "$1"
    meet
    during="$caller_status $(how "$work/a.out"), $called_status $(how "$work/b.out")"
    [ $at = a ] && broken=$caller_status || broken=$called_status
    [ "$broken" -eq 0 ] && told=no || told=yes
    [ "$caller_status" -ne 124 ] && [ "$called_status" -ne 124 ] || told=stuck
    mend_it "$1"
    count_lost
    missing=1
    while [ $missing -gt 0 ] && [ ${#later[@]} -lt 3 ]; do
        meet
        later+=("$caller_status $called_status")
        count_missing
    done
    left=$(find "$work"/{a,b} -name '.part*' | wc -l)
    printf '%-14s %-6s %-32s %4d  %-5s %-15s %7d %4d\n' "$1" "$([ $at = a ] && echo call || echo answer)" "$during" \
        "$lost" $told "$(IFS=,; echo "${later[*]}")" "$missing" "$left"
    rows=$((rows + 1)) all_lost=$((all_lost + lost))
    if [ $told = yes ] && [ "${later[-1]}" = "0 0" ] && [ $((lost + missing + left)) -eq 0 ]; then
        well=$((well + 1))
    fi
    umount "$work/$at"
}

mkdir "$work/aside"
rows=0 well=0 all_lost=0
printf '%-14s %-6s %-32s %4s  %-5s %-15s %7s %4s\n' fault at during lost told "then" missing left
for fault in full full_soon numbered read_only_got read_only_dir no_got no_send no_dir; do
    for at in a b; do
        try $fault
    done
done
echo "full_disk: $well of $rows faults were well, $all_lost lost"
[ $well -eq $rows ]
