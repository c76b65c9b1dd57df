#!/usr/bin/env bash
# Cuts the power of an end, or of both, at random moments, while they move 30 files over a line of 20,000 bytes in a second,
# 15 from each folder to the other, some sent and some requested. Each folder is on a disk of its own (ext4 in a file, which
# writes nothing by itself for minutes, and no data for a renaming). At the moment its end is stopped, its disk is kept as it
# stands, and the end is killed; the folder is that disk from then on. The other end goes on meanwhile. Up to four times a
# trial; then both are begun anew, until no job is left. In every other trial both ends keep a number (`--number`).
#
#   tests/power_cut.sh [TRIALS [PROGRAM [SEED]]]
#
# A line is printed for each trial, and in the end one for all:
#
#   cuts    moments at which the power of an end was cut, or of both
#   lost    files whose job was gone after a cut, and that had not come whole; files in `got` that were not whole; and lines of
#           `jobs` that nobody has given
#   again   jobs that their end had said to be done (-v), and that were in `jobs` after a cut
#   refused ends of sessions that ended as `badsequence`
#   stuck   trials that were not done in twelve sessions
#
# The disk keeps what has reached it in the order in which it came: a disk that loses what is in its own memory, and does not
# write it when it is told to, is not tried. Needs root, and python3. The status is 1 where a number behind the cuts is not 0;
# the folders of such a trial stay.
. "$(dirname "$(readlink -f "$0")")/common.sh"
trials=${1:-20}
seed=${3:-1}
rate=${RATE:-20000}
files=15
sessions_max=12
find_program "${2:-}"
new_work
started=()
clean_up() {
    kill -9 "${started[@]}" 2>/dev/null || true
    umount -q "$work/a" "$work/b" 2>/dev/null || true
}
trap clean_up EXIT

# mount_disk END: its folder is its disk. What its journal has is done first.
mount_disk() {
    mkdir -p "$work/$1"
    mount -o loop,commit=300,noauto_da_alloc "$work/$1.disk" "$work/$1"
}

new_disk() {
    umount -q "$work/$1" 2>/dev/null || true
    rm -f "$work/$1.disk"
    truncate -s 16M "$work/$1.disk"
    mkfs.ext4 -qF "$work/$1.disk"
    mount_disk "$1"
}

# new_folders: of three files of each end one is requested by the other one, and two are sent. All is on the disks.
new_folders() {
    local i end
    : >"$work/lost"
    for end in a b; do
        new_disk $end
        mkdir -p "$work/$end"/{send,got} "$work/$end.files"
        : >"$work/$end.given"
    done
    for end in a b; do
        for ((i = 0; i < files; i++)); do
            seq -f "$end$i %g" 1000 | head -c $((i * 1367 % 3001)) >"$work/$end.files/$end$i"
            cp "$work/$end.files/$end$i" "$work/$end/send/"
            if [ $((i % 3)) -eq 0 ]; then
                echo "request $end$i $end$i u" >>"$work/$(other $end).given"
            else
                echo "send $end$i $end$i u" >>"$work/$end.given"
            fi
        done
    done
    for end in a b; do
        cp "$work/$end.given" "$work/$end/jobs"
        sync -f "$work/$end"
    done
}

# cut_power END..: their power goes now.
cut_power() {
    local end stopped=()
    for end in "$@"; do
        ! kill -STOP "${pids[$end]}" 2>/dev/null || stopped+=("$end")
    done
    for end in "${stopped[@]}"; do
        cp --sparse=always "$work/$end.disk" "$work/$end.cut"
        kill -9 "${pids[$end]}" 2>/dev/null || true
    done
    [ "${#stopped[@]}" -eq 0 ] || cuts=$((cuts + 1))
}

# session: one call over the slow line, in which power may go. Sets `statuses`.
declare -A pids
session() {
    local end ends=(a b "a b")
    rm -f "$work"/{near,far,*.cut}
    "$program" answer "unix:$work/far" "$work/b" --me b --peer a --timeout 5 --wait 20 -v "${options[@]}" >"$work/b.out" 2>"$work/b.log" &
    pids[b]=$!
    wait_for_socket "$work/far" || echo "power_cut.sh: nobody answers: $(cat "$work/b.log")" >&2
    python3 "$root/tests/slow_relay.py" "$work/near" "$work/far" "$rate" >"$work/relay.log" 2>&1 &
    pids[relay]=$!
    wait_for_socket "$work/near" || echo "power_cut.sh: there is no line: $(cat "$work/relay.log")" >&2
    "$program" call "unix:$work/near" "$work/a" --me a --peer b --timeout 5 -v "${options[@]}" >"$work/a.out" 2>"$work/a.log" &
    pids[a]=$!
    started=("${pids[@]}")
    if [ $cuts -lt "$cuts_max" ]; then
        pause "$((RANDOM % 3)).$((RANDOM % 900 + 100))"
        # shellcheck disable=SC2086
        cut_power ${ends[RANDOM % 3]}
    fi
    statuses=
    for end in a b relay; do
        end_of "${pids[$end]}" 40
        statuses="$statuses $status"
    done
    for end in a b; do
        [ -e "$work/$end.cut" ] || continue
        umount "$work/$end"
        mv "$work/$end.cut" "$work/$end.disk"
        mount_disk $end
    done
}

# check END: what is gone from its `jobs` is whole where it belongs, and each file that came; and what it said to be done is gone.
check() {
    local kind source target from path name
    sort "$work/$1/jobs" >"$work/now"
    sort "$work/$1.given" >"$work/before"
    comm -23 "$work/now" "$work/before" | sed "s/^/jobs of $1: nobody gave /" >>"$work/lost"
    while read -r kind source target _; do
        from=$1
        [ "$kind" = send ] || from=$(other "$1")
        cmp -s "$work/$from.files/$source" "$work/$(other "$from")/got/$target" ||
            echo "$source: $1 has no job to $kind it any more, and it has not come" >>"$work/lost"
    done < <(comm -13 "$work/now" "$work/before")
    for path in "$work/$1/got"/*; do
        [ -e "$path" ] || continue
        name=${path##*/}
        cmp -s "$path" "$work/$(other "$1").files/$name" || echo "$name: it is not whole" >>"$work/lost"
    done
    while read -r kind source target; do
        ! grep -qx "$kind $source $target u" "$work/$1/jobs" || again=$((again + 1))
    done < <(sed -nE 's/^uucpair: [0-9]+ s: (send|request) ([^ ]+) ([^ :]+): done .*/\1 \2 \3/p' "$work/$1.log")
}

try() {
    local end
    sessions=0 cuts=0 again=0 refused=0 stuck=1
    cuts_max=$((RANDOM % 4 + 1))
    new_folders
    while [ $sessions -lt $sessions_max ] && [ $stuck -eq 1 ]; do
        sessions=$((sessions + 1))
        session
        for end in a b; do
            check $end
            [[ $(head -n 1 "$work/$end.out") != *" badsequence "* ]] || refused=$((refused + 1))
        done
        [ -s "$work/a/jobs" ] || [ -s "$work/b/jobs" ] || stuck=0
    done
}

RANDOM=$seed
echo "trial number sessions cuts lost again refused left stuck"
all_cuts=0 all_lost=0 all_again=0 bad=0
for ((trial = 1; trial <= trials; trial++)); do
    options=()
    [ $((trial % 2)) -eq 1 ] || options=(--number)
    try
    lost=$(cut -d: -f1 "$work/lost" | sort -u | wc -l)
    left=$(find "$work"/{a,b} -name '.part*' | wc -l)
    printf '%5d %6s %8d %4d %4d %5d %7d %4d %5d\n' $trial "$([ ${#options[@]} -eq 0 ] && echo no || echo yes)" \
        $sessions $cuts "$lost" $again $refused "$left" $stuck
    all_cuts=$((all_cuts + cuts)) all_lost=$((all_lost + lost)) all_again=$((all_again + again))
    if [ $((lost + again + refused + left + stuck)) -gt 0 ]; then
        bad=$((bad + 1))
        mkdir "$work/trial$trial"
        cp -a "$work"/{a,b,*.log,*.out,*.given,lost} "$work/trial$trial"
    fi
done
echo "power_cut: $trials trials, $all_cuts cuts, $all_lost lost, $all_again done and in jobs again, $bad trials wrong"
[ $bad -gt 0 ] || rm -rf "$work"/{a.files,b.files}
[ $bad -eq 0 ]
