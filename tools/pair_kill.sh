#!/usr/bin/env bash
# Kills `uucpair pair`, `call` or `answer` with signal 9 at random moments, while it moves 64 files, 32 from each folder to
# the other, some sent and some requested: `pair` over a line on which each 7th packet is lost and each 11th changed, and
# the other two over a socket to each other, of which the one that is named is killed.
#
#   tools/pair_kill.sh [KILLS [PROGRAM [pair|call|answer]]]
#
# After each kill: a job that is gone from its `jobs` has its whole file in `got` of the end that takes it; `jobs` has no
# other line than those that were given; and each file in `got` is whole. Then a second run must end with status 0, all
# files in place, no job left, and nothing of files that were not whole. The socket that a killed run may leave is removed
# before.
#
# Half of the moments lie anywhere in a run, the other half in the part in which the `jobs` are replaced, or what is near
# to it: the last tenth of the time that a run takes. A run that has ended before its moment is not counted, and is made
# once more. Where something is wrong the folders stay as they are, and the status is 1.
. "$(dirname "$(readlink -f "$0")")/../tests/common.sh"
kills=${1:-200}
kind=${3:-pair}
files=64
work=
options=(--drop-every 7 --flip-every 11)

fail() {
    echo "pair_kill.sh: $*${work:+; see $work}" >&2
    exit 1
}

# Files of 0 to 6,000 bytes in both folders, and the jobs that bring each of them to the other one. Of four files two are
# sent and two requested. A pipe among them, which is not to be opened.
make_folders() {
    local i from
    mkdir -p "$work"/{a,b}/{send,got}
    mkfifo "$work/a/send/pipe"
    for ((i = 0; i < files; i++)); do
        from=$([ $((i % 2)) -eq 0 ] && echo a || echo b)
        "$root/tools/seen_bytes.py" $((i * 1367 % 6001)) >"$work/$from/send/file$i"
        case $((i % 4)) in
        0) echo "send file$i got$i u" >>"$work/a.jobs" ;;
        1) echo "send file$i got$i u" >>"$work/b.jobs" ;;
        2) echo "request file$i got$i u" >>"$work/b.jobs" ;;
        3) echo "request file$i got$i u" >>"$work/a.jobs" ;;
        esac
    done
}

# Both folders as they were before the first run, with a pipe of a name that files and jobs have before they are whole.
reset_folders() {
    local end
    rm -f "$socket"
    for end in a b; do
        rm -rf "$work/$end/got" "$work/$end"/.part.*
        mkdir "$work/$end/got"
        mkfifo "$work/$end/got/.part.1.0" "$work/$end/.part.1.0"
        cp "$work/$end.jobs" "$work/$end/jobs"
    done
}

other() {
    [ "$1" = a ] && echo b || echo a
}

# check_job END KIND SOURCE TARGET: a job of this end is gone from its `jobs`.
check_job() {
    local from=$1 to
    [ "$2" = send ] || from=$(other "$1")
    to=$(other "$from")
    cmp -s "$work/$from/send/$3" "$work/$to/got/$4" || fail "$2 $3 $4 is gone from the jobs of $1, and its file is not there"
}

# check_jobs END: sets `left` to the number of jobs in its `jobs`.
check_jobs() {
    local kind source target
    sort "$work/$1/jobs" >"$work/now"
    sort "$work/$1.jobs" >"$work/given"
    [ -z "$(comm -23 "$work/now" "$work/given")" ] || fail "the jobs of $1 have a line that was not given"
    while read -r kind source target _; do
        check_job "$1" "$kind" "$source" "$target"
    done < <(comm -13 "$work/now" "$work/given")
    left=$(wc -l <"$work/now")
}

# check_got END: each file is whole, and of no other name. Sets `kept` to how many there are.
check_got() {
    local path name
    kept=0
    for path in "$work/$1/got"/*; do
        [ -e "$path" ] || continue
        name=${path##*/got}
        cmp -s "$path" "$work/$(other "$1")/send/file$name" || fail "$path is not the file that was sent"
        kept=$((kept + 1))
    done
}

# check_folders: sets `stage` to how far the run had come.
check_folders() {
    local left_a left_b kept_a
    check_got a
    kept_a=$kept
    check_got b
    check_jobs a
    left_a=$left
    check_jobs b
    left_b=$left
    stage=turns
    [ $((kept_a + kept)) -gt 0 ] || stage=early
    [ "$left_a" -eq $((files / 2)) ] || stage=between
    [ "$left_b" -eq $((files / 2)) ] || stage=late
}

# Begins a run. Sets `main` to the process that is looked at, and `partner` to the one at the line's other end, if there is
# one.
begin() {
    partner=
    case $kind in
    pair)
        "$program" pair "$socket" "$work/a" "$work/b" "${options[@]}" >"$work/report" 2>"$work/errors" &
        main=$!
        ;;
    call)
        "$program" answer "unix:$socket" "$work/b" --me b --peer a >"$work/partner" 2>&1 &
        partner=$!
        wait_for_socket "$socket" || fail "nobody listens"
        "$program" call "unix:$socket" "$work/a" --me a --peer b >"$work/report" 2>"$work/errors" &
        main=$!
        ;;
    answer)
        "$program" answer "unix:$socket" "$work/a" --me a --peer b >"$work/report" 2>"$work/errors" &
        main=$!
        wait_for_socket "$socket" || fail "nobody listens"
        "$program" call "unix:$socket" "$work/b" --me b --peer a >"$work/partner" 2>&1 &
        partner=$!
        ;;
    esac
}

# The partner has ended, or nobody has come to it.
is_over_or_alone() {
    has_ended "$partner" || [ -S "$socket" ]
}

# Waits for the partner, which notices that the other one is gone, unless that never came to it.
end_partner() {
    [ -n "$partner" ] || return 0
    wait_until 15 is_over_or_alone || true
    kill -9 "$partner" 2>/dev/null || true
    wait "$partner" 2>/dev/null || true
}

# Runs the program to its end: all is done that the `jobs` ask for. Sets `took` to its microseconds.
run_to_end() {
    local begun status=0
    rm -f "$socket"
    begun=${EPOCHREALTIME/./}
    begin
    wait "$main" || status=$?
    # It waits for another caller where this one has not come to it.
    [ "$status" -eq 0 ] || end_partner
    [ -z "$partner" ] || wait "$partner" || status=$?
    took=$((${EPOCHREALTIME/./} - begun))
    [ "$status" -eq 0 ] || fail "status $status: $(cat "$work/errors" "$work/report")"
    check_folders
    [ "$(cat "$work/a/jobs" "$work/b/jobs" | wc -c)" -eq 0 ] || fail "jobs are left"
    [ "$(find "$work"/{a,b}/got -name 'got*' -type f | wc -l)" -eq $files ] || fail "files are missing"
    [ -z "$(find "$work"/{a,b} -name '.part*')" ] || fail "something is left of files that were not whole"
}

# kill_at MICROSECONDS: whether the run was killed before it ended.
kill_at() {
    local status=0 moment
    printf -v moment '%d.%06d' $(($1 / 1000000)) $(($1 % 1000000))
    begin
    pause "$moment"
    kill -9 "$main" 2>/dev/null || true
    wait "$main" 2>/dev/null || status=$?
    end_partner
    [ "$status" -eq 137 ]
}

# random BELOW
random() {
    echo $(((RANDOM * 32768 + RANDOM) % $1))
}

case $kind in
pair | call | answer) ;;
*) fail "no $kind is known" ;;
esac
find_program "${2:-}"
new_work
socket=$work/socket
make_folders

for i in 1 2 3; do
    reset_folders
    run_to_end
    echo "$took"
done >"$work/times"
whole=$(sort -n "$work/times" | sed -n 2p)

declare -A stages=([early]=0 [turns]=0 [between]=0 [late]=0)
killed=0 tries=0
while [ "$killed" -lt "$kills" ]; do
    tries=$((tries + 1))
    [ "$tries" -le $((kills * 20)) ] || fail "runs end before they are killed"
    reset_folders
    if [ $((tries % 2)) -eq 0 ]; then
        moment=$(random "$whole")
    else
        moment=$((whole * 9 / 10 + $(random $((whole / 8)))))
    fi
    kill_at "$moment" || continue
    killed=$((killed + 1))
    check_folders
    stages[$stage]=$((stages[$stage] + 1))
    run_to_end
done
echo "$kind: a run takes $((whole / 1000)) ms; of $tries runs $killed were killed before their end:"
echo "  ${stages[early]} before a file was kept, ${stages[turns]} with files kept and both jobs as before,"
echo "  ${stages[between]} with the jobs of a replaced, ${stages[late]} with both"
echo "no job was gone without its file, and each second run did the rest"
rm -rf "$work"
