#!/usr/bin/env bash
# Measures `uucpair play` on scripts in which the caller sends 1 MiB, or half of that, over a clean line, and over one on
# which each 50th piece is lost. The report must tell each file as the script has it, and that all was done.
#
#   bench/play.sh [PROGRAM ..]
#
# PROGRAM is crates/uucpair/out/uucpair where none is named, which is proved and built first where that is needed; several are
# measured in turns. ROUNDS says how many runs of each (11).
#
# A time is the processor's, in seconds, the program's own and the system's on its behalf. `read` is that of a script of
# the same files with nothing on the line: what it takes to start, to read the script and to report that nothing was done.
# `rest` is the difference of the two runs of a round: the run of both ends, and the report of the files. Of each the median
# is printed, and of `rest` the least too. `check` is what a C program needs to check the same bytes, once for each end,
# and `to C` the quotient of the two. `instr` is how many million instructions `rest` takes, as valgrind counts them, where
# the machine has it (`apt-get install valgrind`).
#
# Where Taylor UUCP is installed (`apt-get install uucp`), two `uucico`, joined by two pipes, send one file of 1 MiB in each
# round too, with protocol g and the same packets and window (of 64 and 1,024 bytes): `whole` is then the time of both,
# `read` that of a session with no job, and `rest` the difference.
#
# After these rows come two of `play --settle`, on a lossy line that loses all that is on it when about half of the MiB has
# come: `whole` is what it takes with that option, `played` without it, and `settle` the difference of the two runs of a
# round, which is what it takes to go on to the end on a clean line, and to report that. The second report must tell each
# file, and that all was done. A build that has no such option is left out.
set -eu
export LC_ALL=C
rounds=${ROUNDS:-11}
mb=${MIB:-$((1 << 20))}
bench=$(dirname "$(readlink -f "$0")")
programs=("$@")
work=$(mktemp -d)
trap 'rm -rf "$work"' EXIT
# shellcheck source=uucico.bash
source "$bench/uucico.bash"

fail() {
    echo "play.sh: $*" >&2
    exit 1
}

# run_of PROGRAM SCRIPT STATUS [OPTION]: plays the script, and says how many seconds that took.
run_of() {
    local TIMEFORMAT='%U %S' status=0
    { time "$1" play "${@:4}" <"$2" >"$work/report" 2>"$work/errors" || status=$?; } 2>"$work/time"
    [ "$status" -eq "$3" ] || fail "status $status: $(cat "$work/errors")"
    awk '{ print $1 + $2 }' "$work/time"
}

# Each file of the script was stored as it is, and in order, and no job is left.
check_report() {
    sed -n 's/^file caller //p' "$work/text" >"$work/files"
    sed -n 's/^called stored //p' "$work/report" | cmp - "$work/files" || fail "the report tells other files"
    grep -q '^caller pending 0 struck 64 failed 0$' "$work/report" || fail "a job was not done"
}

# The median of the numbers on standard input.
median() {
    sort -g | awk '{ n[NR] = $1 } END { print (n[int((NR + 1) / 2)] + n[int(NR / 2) + 1]) / 2 }'
}

# instructions PROGRAM SCRIPT [OPTION]: how many the program takes to play it.
instructions() {
    valgrind --tool=cachegrind --cache-sim=no --cachegrind-out-file=/dev/null "$1" play "${@:3}" <"$2" 2>&1 >/dev/null |
        sed -n 's/.*I *refs: *//p' | tr -d ,
}

# count PROGRAM: of `rest`, in millions.
count() {
    command -v valgrind >/dev/null || return 0
    millions "$(instructions "$1" "$work/text")" "$(instructions "$1" "$work/files_only")"
}

# settle_count PROGRAM: of `settle`, in millions.
settle_count() {
    command -v valgrind >/dev/null || return 0
    millions "$(instructions "$1" "$work/text" --settle)" "$(instructions "$1" "$work/text")"
}

# millions MORE FEWER: how many there are between the two.
millions() {
    awk -v more="$1" -v fewer="$2" 'BEGIN { printf "%.0f", (more - fewer) / 1000000 }'
}

# note NUMBER LONGER SHORTER: the two times of a round of the program of this number, and their difference.
note() {
    echo "$2" >>"$work/longer$1"
    echo "$3" >>"$work/shorter$1"
    awk -v a="$2" -v b="$3" 'BEGIN { print a - b }' >>"$work/rest$1"
}

# round NUMBER: plays both scripts once with the program of this number.
round() {
    local read whole
    read=$(run_of "${programs[$1]}" "$work/files_only" 1)
    whole=$(run_of "${programs[$1]}" "$work/text" 0)
    check_report
    note "$1" "$whole" "$read"
}

# settle_round NUMBER: plays the script that is cut off once without the option and once with it.
settle_round() {
    local played settled
    has_settle "$1" || return 0
    played=$(run_of "${programs[$1]}" "$work/text" 1)
    settled=$(run_of "${programs[$1]}" "$work/text" 0 --settle)
    sed '1,/^verdict/d' "$work/report" >"$work/second"
    mv "$work/second" "$work/report"
    check_report
    note "$1" "$settled" "$played"
}

# has_settle NUMBER: whether the program of this number has the option.
has_settle() {
    "${programs[$1]}" play --help 2>&1 | grep -q -e '--settle'
}

# uucico_time SIZE FILES: sends so many files once, and says how many seconds that took.
uucico_time() {
    rm -f "$work/uucico.times"
    run_uucico "$1" "$2"
    awk '{ print $2 + $3 }' "$work/uucico.times"
}

# uucico_round SIZE: a session with the file, and one with no job.
uucico_round() {
    local read whole
    read=$(uucico_time "$1" 0)
    whole=$(uucico_time "$1" 1)
    note _uucico "$whole" "$read"
}

# measure ROUND [SIZE]: makes rounds of this kind, with each program in turn, and beside them, where a size is given, with
# the two `uucico`.
measure() {
    local number i
    rm -f "$work"/longer* "$work"/shorter* "$work"/rest*
    for ((i = 0; i < rounds; i++)); do
        for number in "${!programs[@]}"; do
            "$1" "$number"
        done
        [ -z "${2:-}" ] || uucico_round "$2"
    done
}

# row KIND BYTES WINDOW SIZE EVERY: prints a line for each program, and one for the two `uucico` where they do the same.
row() {
    local number checked rest beside=
    # With packets of 4,096 bytes and a window of seven `uucico` stores other bytes (docs/OPERATING.md).
    [ -z "$uucico" ] || [ "$1 $2" != "clean $mb" ] || [ "$4" = 4096 ] || beside=$4
    "$work/make" "$2" 0 "$4" 0 >"$work/files_only"
    "$work/make" "$2" "$3" "$4" "$5" >"$work/text"
    measure round ${beside:+"$beside"}
    read -r checked _ < <("$work/check" "$4" <"$work/text")
    for number in "${!programs[@]}"; do
        rest=$(median <"$work/rest$number")
        printf '%-6s %9d  %d x %-4d  %7d  %6.3f  %6.3f  %6.3f  %6.3f  %7.4f  %6.1f  %6s\n' \
            "$1" "$2" "$3" "$4" "$number" "$(median <"$work/longer$number")" "$(median <"$work/shorter$number")" \
            "$rest" "$(sort -g "$work/rest$number" | head -n 1)" "$checked" \
            "$(awk -v a="$rest" -v b="$checked" 'BEGIN { print (b > 0) ? a / b : 0 }')" \
            "$(count "${programs[$number]}")"
    done
    [ -n "$beside" ] || return 0
    printf '%-6s %9d  %d x %-4d  %7s  %6.3f  %6.3f  %6.3f  %6.3f\n' "$1" "$2" "$3" "$4" uucico \
        "$(median <"$work/longer_uucico")" "$(median <"$work/shorter_uucico")" "$(median <"$work/rest_uucico")" \
        "$(sort -g "$work/rest_uucico" | head -n 1)"
}

# cut_off SCRIPT PART: the script, which ends when about half of the bytes have come, with all lost that is on the line.
# Behind the lines that set the ends up one PART of the rest is enough for that, since more rounds are there than are needed.
cut_off() {
    local setup all
    setup=$(grep -c '^[cfs]' "$1")
    all=$(wc -l <"$1")
    head -n $((setup + (all - setup) / $2)) "$1"
    printf 'drop called 1000000000\ndrop caller 1000000000\n'
}

# settle_row BYTES WINDOW SIZE EVERY PART: prints a line for each program that has the option.
settle_row() {
    local number
    "$work/make" "$1" "$2" "$3" "$4" >"$work/all"
    cut_off "$work/all" "$5" >"$work/text"
    measure settle_round
    for number in "${!programs[@]}"; do
        has_settle "$number" || continue
        printf '%-6s %9d  %d x %-4d  %7d  %6.3f  %6.3f  %6.3f  %6.3f                   %6s\n' \
            settle "$1" "$2" "$3" "$number" "$(median <"$work/longer$number")" "$(median <"$work/shorter$number")" \
            "$(median <"$work/rest$number")" "$(sort -g "$work/rest$number" | head -n 1)" \
            "$(settle_count "${programs[$number]}")"
    done
}

# The user that `uucico` runs as reads what stands here.
chmod a+rx "$work"
head -c "$mb" /dev/urandom >"$work/file0"
gcc -O2 -Wall -Wextra -o "$work/make" "$bench/script.c"
gcc -O2 -Wall -Wextra -o "$work/check" "$bench/check.c"
if [ $# -eq 0 ]; then
    "$bench/../uucpair" --version >/dev/null
    programs=("$bench/../crates/uucpair/out/uucpair")
fi

for number in "${!programs[@]}"; do
    echo "program $number: ${programs[$number]}"
done
echo "line       bytes  packets   program  whole    read    rest   least    check    to C   instr"
for size in 64 1024 4096; do
    row clean "$mb" 7 $size 0
    row clean $((mb / 2)) 7 $size 0
done
row lossy "$mb" 7 64 50
row lossy "$mb" 7 1024 50
echo
echo "line       bytes  packets   program  whole  played  settle   least                     instr"
settle_row "$mb" 7 64 50 3
settle_row "$mb" 7 1024 50 6
