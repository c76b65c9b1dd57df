#!/usr/bin/env bash
# Kills `call`, `answer` or both with signal 9 at random moments, while they move files over a line of 6,000 bytes in a
# second: 15 from each folder to the other, some sent and some requested, and 5 more from each, whose jobs are appended to
# `jobs` meanwhile, every other one by `uucpair queue`. Up to six times a trial one is killed; then both are begun anew, until both end with status 0 and no job
# is left, which may take twelve sessions. In every other trial both ends keep a number of their conversations (`--number`).
#
#   tests/kill_calls.sh [TRIALS [PROGRAM [SEED]]]
#
# SEED (1) decides who is killed and when. In the environment WHEN=anywhere has the moments lie anywhere in six seconds,
# WHEN=done has each wait for the next job that an end says is done, and come up to 20 ms after it, where that is written,
# and WHEN=greeting has them in the first 150 ms of a session, where the number is; without WHEN one in two is anywhere, and
# one in four each of the others. A session that is over before its moment is not counted, and the next one is struck. RATE
# has the bytes of a second. A line is printed for each trial, and in the end one for all:
#
#   kills   moments at which an end was killed, or both
#   lost    files whose job was gone, after a kill or in the end, and that had not come whole; files in `got` that were not
#           whole; and ends of which `jobs` had a line that nobody has given
#   again   files that were sent again after their giver had read that they were stored (`CY`), by what it says with -v
#   twice   files that were stored again, these and those whose `CY` was lost in a kill
#   refused ends of sessions that ended as `badsequence`
#   left    names of files that were not whole, when all is done
#   stuck   trials that were not done in twelve sessions, or in which an end didn't end by itself
#
# A kill strikes one job at most: so the status is 1 where a trial has more files again, or twice, than it has kills, and
# where it has any of the others. The folders of such a trial stay. It needs python3, as rt does.
. "$(dirname "$(readlink -f "$0")")/common.sh"
trials=${1:-20}
seed=${3:-1}
rate=${RATE:-6000}
files=15
appended=5
sessions_max=12
find_program "${2:-}"
new_work
started=()
trap 'kill -9 "${started[@]}" 2>/dev/null || true' EXIT

# give END NAME SIZE: makes a file, and puts it into `send`.
give() {
    write_file "$work/$1/files/$2" "$3"
    cp "$work/$1/files/$2" "$work/$1/send/$2"
}

# write_file PATH SIZE: each packet of it is another one, and it is that of no other file.
write_file() {
    seq -f "${1##*/} %g" 1000 | head -c "$2" >"$1"
}

# queue END LINE: appends a job as a person does. Before it is in `jobs` it is known as offered, behind that as given.
queue() {
    echo "$2" >>"$work/$1.offered"
    echo "$2" >>"$work/$1/jobs"
    echo "$2" >>"$work/$1.given"
}

# new_folders: of three files of each end one is requested by the other one, and two are sent.
new_folders() {
    local i end
    rm -rf "$work"/{a,b} "$work"/{lost,read,stamps.*,log.*,*.given,*.offered}
    : >"$work/lost"
    : >"$work/read"
    for end in a b; do
        mkdir -p "$work/$end"/{files,send,got}
        : >"$work/stamps.$end"
        : >"$work/$end.given"
        : >"$work/$end.offered"
    done
    for end in a b; do
        for ((i = 0; i < files; i++)); do
            give $end $end$i $((i * 1367 % 3001))
            if [ $((i % 3)) -eq 0 ]; then
                queue "$(other "$end")" "request $end$i $end$i u"
            else
                queue "$end" "send $end$i $end$i u"
            fi
        done
    done
}

# feed PAUSE..: puts a file and then its job into a folder after each pause, into both in turn.
feed() {
    local i=0 end name seconds
    for seconds in "$@"; do
        pause "$seconds"
        end=$([ $((i % 2)) -eq 0 ] && echo a || echo b)
        name=$end$((files + i / 2))
        if [ $((i / 2 % 2)) -eq 0 ]; then
            give "$end" "$name" $((i * 977 % 3001))
            queue "$end" "send $name $name u"
        else
            write_file "$work/$end/files/$name" $((i * 977 % 3001))
            echo "send $name $name u" >>"$work/$end.offered"
            "$program" queue "$work/$end" send "$work/$end/files/$name" --user u >/dev/null
            echo "send $name $name u" >>"$work/$end.given"
        fi
        i=$((i + 1))
    done
}

# start_feeding: sets `feeder`.
start_feeding() {
    local i pauses=()
    for ((i = 0; i < appended * 2; i++)); do
        pauses+=("$((RANDOM % 3)).$((RANDOM % 900 + 100))")
    done
    feed "${pauses[@]}" &
    feeder=$!
    started+=("$feeder")
}

is_fed() {
    ! kill -0 "$feeder" 2>/dev/null
}

# count_done: sets `count` to how many jobs both ends have said to be done in this session.
count_done() {
    local end line lines
    count=0
    for end in a b; do
        mapfile -t lines <"$work/log.$sessions.$end"
        for line in "${lines[@]}"; do
            [[ $line != *": done "* ]] || count=$((count + 1))
        done
    done
}

# await_done: until one more is, for two seconds at most.
await_done() {
    local i count before
    count_done
    before=$count
    for ((i = 0; i < 400; i++)); do
        count_done
        [ "$count" -eq "$before" ] || break
        pause 0.003
    done
}

# wait_to_strike: until a moment of the kind that is named, or of one of the three.
wait_to_strike() {
    local kinds=(anywhere anywhere "done" greeting) moment
    local kind=${kinds[RANDOM % 4]}
    printf -v moment '%d.%03d' $((RANDOM % 6)) $((RANDOM % 1000))
    case ${WHEN:-$kind} in
    greeting) printf -v moment '0.%03d' $((RANDOM % 150)) ;;
    esac
    pause "$moment"
    case ${WHEN:-$kind} in
    done)
        await_done
        printf -v moment '0.%03d' $((RANDOM % 20))
        pause "$moment"
        ;;
    esac
}

# strike: kills an end, or both, at a moment of its own.
strike() {
    local who=$((RANDOM % 3))
    wait_to_strike
    [ $who -eq 1 ] || kill -9 "$caller" 2>/dev/null || true
    [ $who -eq 0 ] || kill -9 "$called" 2>/dev/null || true
}

# end_session: waits for both ends. Sets `statuses`.
end_session() {
    end_of "$caller" 60
    statuses=$status
    # Whom nobody has called waits for ever.
    if [ "$status" -eq 137 ] && [ -S "$work/far" ]; then
        kill -9 "$called" 2>/dev/null || true
    fi
    end_of "$called" 15
    statuses="$statuses $status"
    end_of "$relay" 2
    started=("$feeder")
}

# session: one call over the slow line, which a kill may break off.
session() {
    local log=$work/log.$sessions
    rm -f "$work"/{near,far}
    touch "$log".{a,b}{,.out} # an end may be killed before it has opened them
    "$program" answer "unix:$work/far" "$work/b" --me b --peer a --timeout 5 -v "${options[@]}" \
        >"$log.b.out" 2>"$log.b" &
    called=$!
    started+=("$called")
    wait_for_socket "$work/far" || echo "kill_calls.sh: nobody answers: $(cat "$log.b")" >&2
    python3 "$root/tests/slow_relay.py" "$work/near" "$work/far" "$rate" >"$log.relay" 2>&1 &
    relay=$!
    started+=("$relay")
    wait_for_socket "$work/near" || echo "kill_calls.sh: there is no line: $(cat "$log.relay")" >&2
    "$program" call "unix:$work/near" "$work/a" --me a --peer b --timeout 5 -v "${options[@]}" \
        >"$log.a.out" 2>"$log.a" &
    caller=$!
    started+=("$caller")
    [ "$kills_left" -eq 0 ] || strike
    end_session
}

# check_jobs END: what is gone from its `jobs` is whole where it belongs. A job may be appended meanwhile, so what was given
# before `jobs` is read has to be in it or done, and what is in it has to be offered when it has been read.
check_jobs() {
    local kind source target from
    sort "$work/$1.given" >"$work/before"
    sort "$work/$1/jobs" >"$work/now"
    sort "$work/$1.offered" >"$work/after"
    comm -23 "$work/now" "$work/after" | sed "s/^/jobs of $1: nobody gave /" >>"$work/lost"
    while read -r kind source target _; do
        from=$1
        [ "$kind" = send ] || from=$(other "$1")
        cmp -s "$work/$from/files/$source" "$work/$(other "$from")/got/$target" ||
            echo "$source: $1 has no job to $kind it any more, and it has not come" >>"$work/lost"
    done < <(comm -23 "$work/before" "$work/now")
}

# check_got END: each file is whole. Counts those that were stored again, by their inode and time.
check_got() {
    local path name
    for path in "$work/$1/got"/*; do
        [ -e "$path" ] || continue
        name=${path##*/}
        cmp -s "$path" "$work/$(other "$1")/files/$name" || echo "$name: it is not whole" >>"$work/lost"
    done
    find "$work/$1/got" -type f ! -name '.*' -printf '%f %i %T@\n' | sort >"$work/now"
    twice=$((twice + $(join "$work/stamps.$1" "$work/now" | awk '$2 != $4 || $3 != $5' | wc -l)))
    cp "$work/now" "$work/stamps.$1"
}

# said END WORD: the files of this end that begin (WORD is empty) or that are settled so in the last session.
said() {
    sed -nE "s/^uucpair: [0-9]+ s: (send|peer's request) ([^ ]+) [^ :]+$2\$/\2/p" "$work/log.$sessions.$1" | sort -u
}

# check_sent_again: files that begin in this session, and that their giver has read to be stored in one before it.
check_sent_again() {
    local end
    for end in a b; do
        said $end '' | comm -23 - <(said $end ': (refused|put off) .*')
    done | sort >"$work/now"
    again=$((again + $(comm -12 "$work/now" "$work/read" | wc -l)))
    for end in a b; do
        said $end ': done .*'
    done | sort -u - "$work/read" >"$work/after"
    cp "$work/after" "$work/read"
}

check_session() {
    local end
    for end in a b; do
        check_jobs $end
        check_got $end
        case $(head -1 "$work/log.$sessions.$end.out") in
        *\ badsequence\ *) refused=$((refused + 1)) ;;
        esac
    done
    check_sent_again
}

is_done() {
    is_fed && [ "$statuses" = "0 0" ] && [ ! -s "$work/a/jobs" ] && [ ! -s "$work/b/jobs" ]
}

# check_end: each file is where it belongs, or its job is pending still.
check_end() {
    local end name
    wait "$feeder" || true
    [ $stuck -eq 0 ] || return 0
    for end in a b; do
        for name in "$work/$end/files"/*; do
            name=${name##*/}
            cmp -s "$work/$end/files/$name" "$work/$(other $end)/got/$name" ||
                echo "$name: it has not come in the end" >>"$work/lost"
        done
    done
}

# try: sessions until all is done.
try() {
    local i
    sessions=0 kills=0 again=0 twice=0 refused=0 stuck=1
    kills_left=$((RANDOM % 6 + 1))
    new_folders
    start_feeding
    while [ $sessions -lt $sessions_max ]; do
        sessions=$((sessions + 1))
        session
        case $statuses in
        *137*) kills=$((kills + 1)) kills_left=$((kills_left - 1)) ;;
        *124*) break ;;
        esac
        check_session
        if is_done; then
            stuck=0
            break
        fi
        # Until there is something to do again, or nothing more comes.
        for ((i = 0; i < 500; i++)); do
            [ ! -s "$work/a/jobs" ] && [ ! -s "$work/b/jobs" ] && ! is_fed || break
            pause 0.02
        done
    done
    check_end
}

RANDOM=$seed
echo "trial number sessions kills lost again twice refused left stuck seconds"
all_kills=0 all_lost=0 all_again=0 all_stuck=0 bad=0
for ((trial = 1; trial <= trials; trial++)); do
    options=()
    [ $((trial % 2)) -eq 1 ] || options=(--number)
    begun=$SECONDS
    try
    lost=$(cut -d: -f1 "$work/lost" | sort -u | wc -l)
    left=$(find "$work"/{a,b} -name '.part*' | wc -l)
    printf '%5d %6s %8d %5d %4d %5d %5d %7d %4d %5d %7d\n' $trial "$([ ${#options[@]} -eq 0 ] && echo no || echo yes)" \
        $sessions $kills "$lost" $again $twice $refused "$left" $stuck $((SECONDS - begun))
    all_kills=$((all_kills + kills)) all_lost=$((all_lost + lost)) all_again=$((all_again + again))
    all_stuck=$((all_stuck + stuck))
    if [ $((lost + refused + left + stuck)) -gt 0 ] || [ $again -gt $kills ] || [ $twice -gt $kills ]; then
        bad=$((bad + 1))
        mkdir "$work/trial$trial"
        cp -a "$work"/{a,b,lost,read} "$work"/{log,stamps}.* "$work"/*.{given,offered} "$work/trial$trial"
    fi
done
echo "kill_calls: $trials trials, $all_kills kills, $all_lost lost, $all_again sent again, $all_stuck stuck"
[ $bad -eq 0 ] || {
    echo "kill_calls.sh: $bad trials were not well; see $work" >&2
    exit 1
}
rm -rf "$work"
