#!/usr/bin/env bash
# Measures `uucpair pair`: one folder sends 1 MiB, or 16 MiB as files of 1 MiB, to the other, with packets of 64 bytes and
# a window of seven, over a clean line and over one on which packets are lost and changed. Beside it, where it is
# installed, Taylor UUCP does the same: two `uucico`, joined by two pipes, with protocol g, the same packets and window.
# Each file must come as it is, else this ends with status 1.
#
#   bench/pair.sh [ROUNDS [PROGRAM]]
#
# `cpu` is the processor's time in seconds, that of the programs and of the system on their behalf; `wall` is what goes by
# on the clock. Each is the median of the rounds (5), in which the programs take turns; in brackets stand the least and
# the greatest. The row `empty` has no job: it is what starting and ending takes. PROGRAM is that of the sources where none is
# named; it is proved and built first where that is needed.
set -eu
export LC_ALL=C
rounds=${1:-5}
mb=${MIB:-$((1 << 20))}
bench=$(dirname "$(readlink -f "$0")")
uucpair=${2:-$bench/../uucpair}
work=$(mktemp -d)
trap 'rm -rf "$work"' EXIT
# shellcheck source=uucico.bash
source "$bench/uucico.bash"

fail() {
    echo "pair.sh: $*" >&2
    exit 1
}

# new_folders FILES: what the two ends have before a run.
new_folders() {
    local i
    rm -rf "$work"/{a,b,socket}
    mkdir -p "$work"/{a,b}/{send,got}
    for ((i = 0; i < $1; i++)); do
        ln "$work/file$i" "$work/a/send/file$i"
        echo "send file$i file$i u"
    done >"$work/a/jobs"
}

# run_pair FILES OPTION..: one run, timed.
run_pair() {
    local files=$1 TIMEFORMAT='%R %U %S'
    shift
    new_folders "$files"
    { time "$uucpair" pair "$work/socket" "$work/a" "$work/b" "$@" >"$work/report" 2>"$work/errors"; } 2>>"$work/pair.times" ||
        fail "uucpair failed: $(cat "$work/errors" "$work/report")"
    check_files "$files" "$work/b/got"
    [ ! -s "$work/a/jobs" ] || fail "jobs are left"
}

# row NAME FILES IS_BESIDE OPTION..: measures and prints a line.
row() {
    local name=$1 files=$2 is_beside=$3 theirs_cpu=- theirs_wall=-
    shift 3
    rm -f "$work"/*.times
    for ((i = 0; i < rounds; i++)); do
        run_pair "$files" "$@"
        [ "$is_beside" = no ] || run_uucico 64 "$files"
    done
    if [ "$is_beside" = yes ]; then
        theirs_cpu=$(median_of cpu "$work/uucico.times")
        theirs_wall=$(median_of wall "$work/uucico.times")
    fi
    printf '%-24s %9d  %-22s %-22s  %-22s %-22s\n' "$name" $((files * mb)) \
        "$(median_of cpu "$work/pair.times")" "$(median_of wall "$work/pair.times")" "$theirs_cpu" "$theirs_wall"
}

chmod a+rx "$work"
# The file that travels over noisy lines has no piece of which an end could not see that it was changed.
"$bench/../tools/seen_bytes.py" "$mb" >"$work/file0"
for ((i = 1; i < 16; i++)); do
    head -c "$mb" /dev/urandom >"$work/file$i"
done
"$uucpair" scan </dev/null >/dev/null
beside=yes
[ -n "$uucico" ] || beside=no

printf '%-24s %9s  %-45s  %s\n' "" "" uucpair "two uucico"
printf '%-24s %9s  %-22s %-22s  %-22s %-22s\n' line bytes cpu wall cpu wall
row empty 0 $beside
row clean 1 $beside
row clean 16 $beside
row "drop 50" 1 no --drop-every 50
row "flip 50" 1 no --flip-every 50
row "drop 7, flip 11" 1 no --drop-every 7 --flip-every 11
echo "all files came as they were"
