#!/usr/bin/env bash
# What an ordinary job, or a person, may do to a spool over which the program stands in uucico's place, and what has to become of
# the others then: nothing is lost, falsified, held up, or done again. Two nodes, alpha and beta (`interop/nodes.sh`); beta has the
# program, and alpha uucico. Needs Debian's packages (apt-get install uucp socat), python3, and root. Run by
# hand:
#     interop/spool_faults.sh [PROGRAM]
# PROGRAM is crates/uucpair/out/uucpair where none is named. PARTS is what is tried, of these; all of them where it isn't set:
#     targets    a target that is a folder, with a slash behind it or without one, and targets that are refused
#     barred     a name in the public folder that can't be taken: another's file, a folder that is made in the session, and what a
#                session has left in front of one
#     hubfault   of three systems that call one run of the program the first one's files are in such a state that its session fails
#     words      jobs without a copy whose lines have the same temporary name
#     long       a C. file of more lines than a session offers, and one whose session is killed
#     preserve   jobs of two systems that are given up, whose copies have the same name
#     starve     lines that no session offers, in front of a mail; and a C. file with more bytes than a session is to hold
#     planted    a link in the place of a folder of the spool, and pipes in the places of files
#     killed     a C. file whose sessions are killed at random moments, and `uustat -k` of one in its session
# Each is tried where the program calls (`we-call`) and where it is called (`we-answer`), but for `hubfault` and `preserve`, where it
# is called. It prints a line for each, and ends with status 1 where something is not so, which it names.
# shellcheck disable=SC2088  # a tilde is the public folder
set -u
root=$(cd "$(dirname "$0")/.." && pwd)
. "$root/interop/common.sh"
. "$root/interop/nodes.sh"
begin_nodes "${1:-$root/crates/uucpair/out/uucpair}"
slow=6000
fast=4000000
rate=$fast
RANDOM=${SEED:-1}

# Each line that sends a file without a copy has a temporary name of its own, which no copy has, but in the part `words`.

# give NODE NAME..: files of a person there, each with lines of its own, in the folder src
give() {
    local folder=$work/$1/src name
    mkdir -p "$folder"
    for name in "${@:2}"; do
        seq -f "$1 $name %g" 400 >"$folder/$name"
    done
    chmod -R a+rX "$folder"
}

# offer NODE NAME: files of its public folder, which the other one may ask for
offer() {
    give "$1" "$2"
    cp "$work/$1/src/$2" "$work/$1/pub/$2"
}

# spool_file NODE FOLDER NAME: what comes in is this file of the spool, in that folder of the other system
spool_file() {
    local folder
    folder=$work/$1/spool/$(other "$1")/$2
    as_uucp mkdir -p "$folder"
    as_uucp tee "$folder/TMP" >/dev/null
    mv "$folder/TMP" "$folder/$3"
}

# work_file NODE NAME: what comes in is this C. file
work_file() {
    spool_file "$1" C. "$2"
}

# data_file NODE NAME: what comes in is a copy of this name
data_file() {
    spool_file "$1" D. "$2"
}

# same FILE FILE
same() {
    cmp -s "$1" "$2"
}

# kept NODE FILE: whether the bytes of the file are among what the node preserves
kept() {
    local one
    while read -r one; do
        ! same "$one" "$2" || return 0
    done < <(find "$work/$1/spool/.Preserve" -type f 2>/dev/null)
    return 1
}

# told NAME: whether alpha's log says that its job with a source of this name was not taken
told() {
    grep -q "ERROR: .*/$1: " "$work/alpha/log/Log"
}

# has_mail NODE ID: whether this mail of the other node has come there
has_mail() {
    grep -qx "mail-$(other "$1")-$2" "$work/$1/mails"
}

# deliver: what has come is run
deliver() {
    run_uuxqt alpha
    run_uuxqt beta
}

# well_ended WHAT: the session that was
well_ended() {
    is "$1 ends with status 0, not $status" [ "$status" = 0 ]
}

# targets PART
targets() {
    local name
    new_nodes
    give alpha f g deeper outside above hid .hidden barred through
    offer alpha wanted
    mkdir -p "$work/beta/pub"/{dir,incoming/barred} "$work/elsewhere"
    ln -sfn "$work/elsewhere" "$work/beta/pub/link"
    chown -R uucp:uucp "$work/beta/pub" "$work/elsewhere"
    chmod -R 777 "$work/beta/pub" "$work/elsewhere"
    for name in '' dir/ incoming; do
        program_of alpha uucp -r -C "$work/alpha/src/f" "beta!~/$name"
    done
    program_of alpha uucp -r -C "$work/alpha/src/g" 'beta!~/x'
    program_of alpha uucp -r -c "$work/alpha/src/g" 'beta!~/incoming'
    program_of alpha uucp -r -C "$work/alpha/src/deeper" 'beta!~/a/b/c'
    program_of alpha uucp -r -C "$work/alpha/src/outside" 'beta!/etc/uucpair/c'
    program_of alpha uucp -r -C "$work/alpha/src/above" 'beta!~/dir/..'
    program_of alpha uucp -r -C "$work/alpha/src/hid" 'beta!~/.hid'
    program_of alpha uucp -r -C "$work/alpha/src/.hidden" 'beta!~/'
    program_of alpha uucp -r -C "$work/alpha/src/barred" 'beta!~/incoming'
    program_of alpha uucp -r -C "$work/alpha/src/through" 'beta!~/link'
    for name in dir/ incoming ''; do
        program_of beta uucp -r 'alpha!~/wanted' "$work/beta/pub/$name"
    done
    mail alpha 1 500
    mail beta 1 500
    session "$1"
    # what stands in a folder of the public one is not looked at before
    is "the session ends with status 0 or 1, not $status" [ "$status" -le 1 ]
    finish "$1" 2
    for name in f dir/f incoming/f; do
        is "pub/$name is whole" same "$work/alpha/src/f" "$work/beta/pub/$name"
    done
    for name in x incoming/g; do
        is "pub/$name is whole" same "$work/alpha/src/g" "$work/beta/pub/$name"
    done
    for name in dir/wanted incoming/wanted wanted; do
        is "pub/$name, which beta asked for, is whole" same "$work/alpha/src/wanted" "$work/beta/pub/$name"
    done
    is "pub/a/b/c is whole" same "$work/alpha/src/deeper" "$work/beta/pub/a/b/c"
    for name in outside above hid .hidden barred; do
        is "alpha hears that $name is not taken" told "$name"
        is "alpha keeps $name" kept alpha "$work/alpha/src/$name"
    done
    is "no other folder is made" [ ! -e "$work/beta/pub/etc" ]
    is "nothing hidden came" [ -z "$(find "$work/beta" -name '.hid*')" ]
    is "nothing went through the link" [ -z "$(ls -A "$work/elsewhere")" ]
    judge "targets, $1"
}

# barred PART
barred() {
    others_file "$1"
    late_folder "$1"
    left_behind "$1"
}

# others_file PART: the public folder is root's, where nobody may replace another's file, and so is a file there
others_file() {
    new_nodes
    give alpha f
    offer alpha wanted
    echo "of root" >"$work/beta/pub/x"
    chown root:root "$work/beta/pub" "$work/beta/pub/x"
    chmod 1777 "$work/beta/pub"
    program_of alpha uucp -r -C "$work/alpha/src/f" 'beta!~/x'
    program_of beta uucp -r 'alpha!~/wanted' "$work/beta/pub/x"
    mail alpha 1 500
    mail beta 1 500
    session "$1"
    well_ended "the session"
    deliver
    is "the mails behind it came in the same session" has_mail beta 1
    is "also that of beta" has_mail alpha 1
    mail alpha 2 500
    session "$1"
    well_ended "the next session"
    finish "$1" 2
    is "the other's file is as it was" [ "$(cat "$work/beta/pub/x")" = "of root" ]
    is "alpha hears that f is not taken" told f
    is "alpha keeps f" kept alpha "$work/alpha/src/f"
    is "who asked for the other file has mail" grep -q '~/wanted' "$work/beta/mails"
    judge "barred, another's file, $1"
}

# bar_late: a folder of this name is made once the file is on its way
bar_late() {
    local i
    for ((i = 0; i < 300; i++)); do
        ! grep -q 'Sending .*/src/late ' "$work/alpha/log/Log" || break
        sleep 0.1
    done
    is "the session runs when the folder is made" [ -d "/proc/$caller" ]
    as_uucp mkdir "$work/beta/pub/late"
}

# late_folder PART: a folder is made while the file is on its way
late_folder() {
    local i
    new_nodes
    give alpha late
    seq 4500 >"$work/alpha/src/late"
    program_of alpha uucp -r -C "$work/alpha/src/late" 'beta!~/late'
    mail alpha 1 500
    mail beta 1 500
    rate=$slow
    session "$1" bar_late
    rate=$fast
    for i in 2 3; do
        mail beta "$i" 500
        session "$1"
        is "session $i does not end with status 3" [ "$status" != 3 ]
    done
    is "late arrives, or alpha hears that it is not taken" late_is_over
    is "late is not lost" is_somewhere "$work/alpha/src/late"
    judge "barred, a late folder, $1"
}

late_is_over() {
    same "$work/alpha/src/late" "$work/beta/pub/late/late" || same "$work/alpha/src/late" "$work/beta/pub/late" || told late
}

# is_somewhere FILE: whether its bytes are in a spool, or in beta's public folder
is_somewhere() {
    local one
    while read -r one; do
        ! same "$one" "$1" || return 0
    done < <(find "$work"/{alpha,beta}/spool "$work/beta/pub" -type f)
    return 1
}

# left_behind PART: a session was stopped between a file's arrival and its place, which is now a folder
left_behind() {
    new_nodes
    give alpha late
    as_uucp mkdir -p "$work/beta/spool"/{.Temp,.Received}/alpha "$work/beta/pub/late"
    as_uucp tee "$work/beta/spool/.Temp/alpha/late" <"$work/alpha/src/late" >/dev/null
    printf late | as_uucp tee "$work/beta/spool/.Received/alpha/late" >/dev/null
    mail alpha 1 500
    mail beta 1 500
    session "$1"
    well_ended "the session"
    is "what was left is kept" kept beta "$work/alpha/src/late"
    is "the log says so" grep -q ' alpha .*late' "$work/beta/log/Log"
    is "nothing is left" [ -z "$(find "$work/beta/spool"/.{Temp,Received} -name late)" ]
    judge "barred, what was left, $1"
}

# hubfault: one system's fault is no other's
hubfault() {
    local place
    for place in alpha/C. .Received/alpha .Temp/alpha; do
        hub_over "$place"
    done
}

# hub_over PLACE: a file in the place of this folder
hub_over() {
    local name came=0
    new_hub alpha gamma delta
    for name in alpha gamma delta; do
        seq 200 | as_uucp uux -I "$work/$name/config" -r -n -z - 'beta!rmail' '(user@beta)'
        seq 300 | as_uucp uux -I "$work/beta/config" -r -n -z - "$name!rmail" "(user@$name)"
    done
    as_uucp rm -rf "$work/beta/spool/$1"
    as_uucp mkdir -p "$(dirname "$work/beta/spool/$1")"
    as_uucp touch "$work/beta/spool/$1"
    start_hub 3
    for name in alpha gamma delta; do
        call_hub "$name"
    done
    run_uuxqt beta
    for name in gamma delta; do
        run_uuxqt "$name"
        is "$name has its mail" [ "$(wc -l <"$work/$name/mails")" = 300 ]
        is "$name has sent its mail" [ -z "$(find "$work/$name/spool/beta/C." -type f)" ]
        came=$((came + $(wc -l <"$work/$name/mails") / 300))
    done
    is "alpha's fault is said" grep -q 'spoolfault\|device fault\|ERROR' "$work"/beta.{out,err} "$work/beta/log/Log"
    end_all "$hub"
    echo "hubfault: $1 is a file: $came of 2 others have their mail"
}

# words PART: the data of a line without a copy is what its path names, whatever temporary name it has
words() {
    local word
    for word in D.0 D.0002; do
        one_word "$1" "$word"
    done
    beside_copy "$1"
}

# sending NODE OPTIONS TEMP SOURCE..: a line of a C. file for each, whose target has the name of the source
sending() {
    local name
    for name in "${@:4}"; do
        echo "S $work/$1/src/$name ~/$name uucp -$2 $3 0644 "
    done
}

# arrived WHAT NAME..: these files are whole
arrived() {
    local name
    for name in "${@:2}"; do
        is "$name, $1, is whole" same "$work/beta/src/$name" "$work/alpha/pub/$name"
    done
}

# one_word PART WORD: three lines with this temporary name; and three of which the file of one is gone
one_word() {
    new_nodes
    give beta f1 f2 f3 g1 g3
    {
        sending beta c "$2" f1 f2 f3
        echo "S $work/beta/src/f1 ~/twin uucp -c $2 0644 "
    } | work_file beta C.N0001
    sending beta c "$2" g1 gone g3 | work_file beta C.N0002
    mail beta 1 500
    session "$1"
    well_ended "the session"
    deliver
    arrived "$2" f1 f2 f3 g1 g3
    is "a second line of one file is right, too" same "$work/beta/src/f1" "$work/alpha/pub/twin"
    is "nothing comes for the file that is gone" [ ! -e "$work/alpha/pub/gone" ]
    is "its user has mail" grep -q '/src/gone' "$work/beta/mails"
    judge "words, $2, $1"
}

# beside_copy PART: the temporary name of a line is that of another one's copy
beside_copy() {
    new_nodes
    give beta plain copied behind
    data_file beta D.0002 <"$work/beta/src/copied"
    sending beta c D.0002 plain | work_file beta C.N0001
    sending beta C D.0002 copied | work_file beta C.N0002
    sending beta c D.0002 behind | work_file beta C.N0003
    session "$1"
    well_ended "the session"
    arrived "beside a copy" plain copied behind
    judge "words, beside a copy, $1"
}

# many COUNT: so many short files of beta, and the lines that send them
many() {
    local i folder=$work/beta/src
    mkdir -p "$folder"
    for ((i = 1; i <= $1; i++)); do
        echo "file $i" >"$folder/p$i"
        printf 'S %s/p%d ~/p%d uucp -c D.U%03X 0644 \n' "$folder" "$i" "$i" "$i"
    done
    chmod -R a+rX "$folder"
}

# came: the names of the many that alpha has taken, again where it took one again
came() {
    grep -so 'Receiving .*/pub/p[0-9]*' "$work/alpha/log/Log" | sed 's/.*\///'
}

# whole COUNT: how many of so many files are there, and right
whole() {
    local i count=0
    for ((i = 1; i <= $1; i++)); do
        [ "$(cat "$work/alpha/pub/p$i" 2>/dev/null)" != "file $i" ] || count=$((count + 1))
    done
    echo "$count"
}

# long PART
long() {
    long_file "$1"
    long_cut "$1"
}

# long_file PART: 30 lines that ask for files which are not there, and 1,100 that send; then a mail
long_file() {
    local i
    new_nodes
    {
        for ((i = 1; i <= 30; i++)); do
            echo "R ~/none$i $work/beta/pub/none$i uucp -d"
        done
        many 1100
    } | work_file beta C.A0001
    mail beta 1 500
    patience=2400
    for i in 1 2; do
        session "$1"
        is "session $i ends with status 0 or 1, not $status" [ "$status" -le 1 ]
        deliver
    done
    patience=600
    is "1100 files are whole after two sessions, not $(whole 1100)" [ "$(whole 1100)" = 1100 ]
    is "each was sent once, not $(came | wc -l) sendings of $(came | sort -u | wc -l)" [ "$(came | wc -l)" = 1100 ]
    is "the C. file is gone" [ "$(queued beta)" = 0 ]
    is "the mail behind it came" has_mail alpha 1
    is "30 files that are not there are mailed of once, not $(grep -c '~/none' "$work/beta/mails") times" \
        [ "$(grep -c '~/none' "$work/beta/mails")" = 30 ]
    is "each of them" [ "$(grep -o '~/none[0-9]* ' "$work/beta/mails" | sort -u | wc -l)" = 30 ]
    judge "long, $1"
}

# kill_ours: the program, if it still runs. Who has started it stays, so that no dead process holds its lock.
kill_ours() {
    [ ! -d "/proc/$of_program" ] || { kill -9 "$(tree "$of_program" | tail -n 1)" && cuts=$((cuts + 1)); } 2>/dev/null
}

# kill_at COUNT [SECONDS]: the program, so long after alpha has begun to take so many files
kill_at() {
    local i
    for ((i = 0; i < patience; i++)); do
        [ -d "/proc/$of_program" ] || return
        [ "$(came | wc -l)" -lt "$1" ] || break
        sleep 0.05
    done
    sleep "${2:-0}"
    kill_ours
}

# long_cut PART: what was over when the program was killed is not sent again
long_cut() {
    new_nodes
    many 300 | work_file beta C.A0001
    mail beta 1 500
    rate=20000
    session "$1" kill_at 100
    is "the session was killed" [ "$cuts" = 1 ]
    is "not all had come by then" [ "$(came | wc -l)" -lt 300 ]
    rate=$fast
    finish "$1" 2
    is "300 files are whole, not $(whole 300)" [ "$(whole 300)" = 300 ]
    is "each was sent once, but for one, not $(came | wc -l) sendings" [ "$(came | wc -l)" -le 301 ]
    judge "long, killed, $1"
}

# refused NAME ROUND: a job for this system, which that refuses, whose copy has the same name each time; and its session
refused() {
    local here=$work/beta/spool/$1
    as_uucp mkdir -p "$here/D."
    seq -f "for $1, $2, %g" 500 | as_uucp tee "$here/D./D.0009" "$work/$1.$2" >/dev/null
    echo "S $work/beta/$1.source /etc/$1 uucp -C D.0009 0644 " | as_uucp tee "$here/C./C.N0001" >/dev/null
    call_hub "$1"
}

# preserve: two systems, each with a job that it refuses, and one of them with another one later, whose copies have one name
preserve() {
    local job files=()
    new_hub alpha gamma
    start_hub 3
    refused alpha 1
    refused gamma 1
    refused alpha 2
    end_all "$hub"
    run_uuxqt beta
    mapfile -t files < <(grep -o "$work/beta/spool/.Preserve/[^ ]*" "$work/beta/mails")
    is "three mails name what they keep, not ${#files[@]}" [ "${#files[@]}" = 3 ]
    for job in alpha.1 gamma.1 alpha.2; do
        is "what was refused, $job, is kept" kept beta "$work/$job"
        is "one of the mails names that, $job" names_it "$job" "${files[@]}"
    done
    echo "preserve: 3 jobs, $(find "$work/beta/spool/.Preserve" -type f ! -name failed | wc -l) copies, ${#files[@]} are named"
}

# names_it JOB FILE..: whether one of the files is that of the job
names_it() {
    local file
    for file in "${@:2}"; do
        ! same "$file" "$work/$1" || return 0
    done
    return 1
}

# starve PART
starve() {
    seq -f "X ~/glob%g* beta!~/ uucp -d" 1100 | behind "$1" "wildcards"
    seq -f "Q what is this %g" 1100 | behind "$1" "lines that are none"
    seq -f "S /srv/a\040%g ~/a uucp -cq D.0 0644 " 1100 | behind "$1" "quoted names"
    yes '' | head -n 1100 | behind "$1" "empty lines"
    memory "$1"
}

# behind PART WHAT: a mail goes in the first session, which has a C. file of these lines in front of it
behind() {
    new_nodes
    work_file beta C.A0001
    mail beta 1 500
    mail alpha 1 500
    session "$1"
    is "the session, $2, ends with status 0 or 1, not $status" [ "$status" -le 1 ]
    count_mails
    is "mail goes behind $2" [ "$lost$twice" = 00 ]
    echo "starve, $2, $1: 2 mails, $lost lost, $twice twice"
}

# watch_memory COUNT: sets `peak` to the most that the program has held, in KiB, until alpha has taken so many files, and ends it
watch_memory() {
    local now
    while [ -d "/proc/$of_program" ] && [ "$(came | wc -l)" -lt "$1" ]; do
        now=$(sed -n 's/^VmHWM:\s*\([0-9]*\) kB/\1/p' "/proc/$(pgrep -P "$of_program")/status" 2>/dev/null)
        [ "${now:-0}" -le "$peak" ] || peak=$now
        sleep 0.1
    done
    kill_ours
}

# big COUNT: so many files of beta, of 100,000 bytes, and the lines that send them
big() {
    local i
    mkdir -p "$work/beta/src"
    for ((i = 1; i <= $1; i++)); do
        head -c 100000 /dev/urandom >"$work/beta/src/p$i"
        printf 'S %s/p%d ~/p%d uucp -c D.U%03X 0644 \n' "$work/beta/src" "$i" "$i" "$i"
    done
    chmod -R a+rX "$work/beta/src"
}

# memory PART: a session offers 1 MiB of the 60 MB that the files of one C. file have
memory() {
    local sum
    # a build that is not proved keeps what it has freed, unless told
    export ASAN_OPTIONS=quarantine_size_mb=0:thread_local_quarantine_size_kb=0
    options=(--most 1048576)
    peak=0
    new_nodes
    big 600 | work_file beta C.A0001
    session "$1" watch_memory 12
    is "at most 40 MiB are held, not $peak KiB" [ "$peak" -gt 0 -a "$peak" -le 40960 ]
    new_nodes
    big 25 | work_file beta C.A0001
    mail beta 1 500
    finish "$1" 5
    sum=$(cd "$work/beta/src" && cat p* | sha256sum)
    is "all came" [ "$(cd "$work/alpha/pub" && cat p* | sha256sum)" = "$sum" ]
    options=()
    unset ASAN_OPTIONS
    judge "starve, memory, $peak KiB, $1"
}

# planted PART
planted() {
    local what
    linked "$1" .Received/alpha
    linked "$1" .Temp/alpha
    linked_spool "$1"
    for what in --log --stats --report failed; do
        piped "$1" "$what"
    done
}

# linked PART PLACE: in this place is a link to a folder, whose files have names that files there have
linked() {
    local folder=$work/private name names=(notes D.alphaN0001 X.alphaN0001 X.alphaN0002)
    new_nodes
    rm -rf "$folder"
    as_uucp mkdir -p "$folder" "$(dirname "$work/beta/spool/$2")"
    for name in "${names[@]}"; do
        echo "mine, $name" | as_uucp tee "$folder/$name" >/dev/null
    done
    as_uucp ln -s "$folder" "$work/beta/spool/$2"
    : >"$work/beta.err"
    mail alpha 1 500
    mail beta 1 500
    session "$1"
    [ "$status" = 0 ] || is "what is said names the link, $2" grep -q "$2" "$work/beta.err"
    for name in "${names[@]}"; do
        is "$name behind the link, $2, is untouched" [ "$(cat "$folder/$name" 2>/dev/null)" = "mine, $name" ]
    done
    is "nothing else is behind the link" [ "$(find "$folder" -type f | wc -l)" = ${#names[@]} ]
    rm -f "$work/beta/spool/$2"
    finish "$1" 2
    judge "planted, a link, $2, $1"
}

# linked_spool PART: the spool may be a link itself, as may be what stands in front of it
linked_spool() {
    new_nodes
    mv "$work/beta/spool" "$work/beta/there"
    as_uucp ln -s there "$work/beta/spool"
    mail alpha 1 500
    mail beta 1 500
    session "$1"
    well_ended "the session"
    judge "planted, a spool that is a link, $1"
}

# piped PART WHAT: a pipe that nobody reads is where this is to be written
piped() {
    local pipe begun ended
    new_nodes
    give alpha f
    case $2 in
    --log) pipe=$work/beta/log/Log ;;
    --stats) pipe=$work/beta/log/Stats ;;
    --report) pipe=$work/beta/log/Report options=(--report "$work/beta/log/Report") ;;
    failed) pipe=$work/beta/spool/.Preserve/failed ;;
    esac
    # one that is given up, so that it is told
    echo "S $work/beta/src/gone ~/gone uucp -c D.0 0644 " | work_file beta C.A0001
    mail alpha 1 500
    mail beta 1 500
    rm -f "$pipe"
    as_uucp mkdir -p "$(dirname "$pipe")"
    as_uucp mkfifo "$pipe"
    patience=150
    begun=$SECONDS
    session "$1"
    ended="status $status, $((SECONDS - begun)) s"
    is "with a pipe as $2 the program ends within 15 seconds" [ "$status" != 124 ]
    is "with a pipe as $2 no lock is left" [ -z "$(ls -A "$work/beta/lock")" ]
    patience=600
    options=()
    rm -f "$pipe" "$work"/{alpha,beta}/lock/*
    finish "$1" 2
    is "what is given up is told of" grep -q '~/gone' "$work/beta/spool/.Preserve/failed"
    judge "planted, a pipe as $2, $ended, $1"
}

# killed PART
killed() {
    killed_often "$1"
    killed_by_user "$1" "at any moment"
}


# ten: as many files of beta, of 3,500 bytes or so, and the lines that send them
ten() {
    local i
    mkdir -p "$work/beta/src"
    for i in {1..10}; do
        { echo "file $i"; seq -f "of file $i, line %g" 180; } >"$work/beta/src/p$i"
        printf 'S %s/p%d ~/p%d uucp -c D.U%03X 0644 \n' "$work/beta/src" "$i" "$i" "$i"
    done
    chmod -R a+rX "$work/beta/src"
}

# kill_soon: the program, at a random moment behind the second to the fourth file of its session
kill_soon() {
    kill_at $(($(came | wc -l) + 2 + RANDOM % 3)) "0.$((RANDOM % 7))"
}

# killed_often PART
killed_often() {
    local i
    new_nodes
    rate=$slow
    ten | work_file beta C.A0001
    mail beta 1 500
    mail alpha 1 500
    for i in {1..6}; do
        [ "$(queued beta)" != 0 ] || break
        session "$1" kill_soon
    done
    finish "$1" 3
    for i in {1..10}; do
        is "p$i is whole" same "$work/beta/src/p$i" "$work/alpha/pub/p$i"
    done
    is "in $cuts kills one was sent again for each at most, not $(came | wc -l) sendings of 10" [ "$(came | wc -l)" -le $((10 + cuts)) ]
    rate=$fast
    judge "killed, $1"
}

# kill_job: `uustat -k`, once so many files have come
kill_job() {
    local i
    for ((i = 0; i < 300; i++)); do
        [ "$(came | wc -l)" -lt "$1" ] || break
        sleep 0.1
    done
    is "the session runs when a job is killed" [ -d "/proc/$caller" ]
    program_of beta uustat -k alpha.A0001
}

# killed_by_user PART WHEN
killed_by_user() {
    new_nodes
    rate=$slow
    ten | work_file beta C.A0001
    mail alpha 1 500
    session "$1" kill_job 3
    front=()
    is "the job does not come back" [ "$(queued beta)" = 0 ]
    is "uustat knows of none" [ -z "$(program_of beta uustat -a)" ]
    rate=$fast
    session "$1"
    well_ended "the next session"
    is "nothing was sent twice" [ "$(came | wc -l)" = "$(came | sort -u | wc -l)" ]
    is "nothing of it is left" [ -z "$(find "$work/beta/spool" -name '*A0001*')" ]
    judge "killed by uustat $2, $(came | wc -l) of 10 had gone, $1"
}

# try PART
try() {
    local role
    case $1 in
    hubfault) hubfault ;;
    preserve) preserve ;;
    *)
        for role in we-call we-answer; do
            case $1 in
            targets) targets $role ;;
            barred) barred $role ;;
            words) words $role ;;
            long) long $role ;;
            starve) starve $role ;;
            planted) planted $role ;;
            killed) killed $role ;;
            esac
        done
        ;;
    esac
}

for part in ${PARTS:-targets barred hubfault words long preserve starve planted killed}; do
    try "$part"
done
[ "$bad" = 0 ]
