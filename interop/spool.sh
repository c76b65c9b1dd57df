#!/usr/bin/env bash
# The program in uucico's place, over a spool of Debian's package: mail both ways, exactly once. Two nodes, alpha and beta
# (`interop/nodes.sh`); beta has the program, and alpha uucico, or the program too. Needs Debian's packages (apt-get install uucp
# socat strace), python3, and root, since all runs as the user uucp, and a small disk is mounted. Run by hand:
#     interop/spool.sh [PROGRAM]
# PROGRAM is crates/uucpair/out/uucpair where none is named. PARTS is what is tried, of these; all of them where it isn't set:
#     hub        three systems call one run of the program, one after the other
#     programs   files both ways, a file that is too long, `uustat` and `uulog`
#     gone       `uustat -k` while its job waits, and then in a session
#     asked      uucico asks for files of the program's public folder, and for others
#     later      uucico asks for a file of the program's public folder whose opening the system refuses for a session
#     unread     data that the program can't read, and a C. file that is too long, at a place whose time is another
#     full       the program's spool is on a disk that is full
#     folders    each folder of the program's node in turn can't be written, or not even be seen
#     anew       mail while sessions are cut; then alpha's spool is made anew, so that its numbers begin anew
#     power      mail while the power of the program's node is cut: its spool is on a disk, which is then as it stood at that moment
#     we-call we-answer both   mail both ways, and then mail while sessions are cut: the program is killed with signal 9, or the
#                line, at random moments
# Where SITE is set the program is not called itself, but packaging/uucico, as uucico is.
# MAILS (15) is how many each node sends in a trial of the last three, KILLS (6) how many sessions of a trial are cut, RATE (6000)
# the bytes of a second, TRIALS (1) how many trials there are. It prints a line for each part, and ends with status 1 where a mail
# is lost or came twice, or is queued in the end. Where uucico sends a mail as two files and the line is cut behind the second one,
# it names that anew: the program knows it by its text.
set -u
root=$(cd "$(dirname "$0")/.." && pwd)
. "$root/interop/common.sh"
. "$root/interop/nodes.sh"
begin_nodes "${1:-$root/crates/uucpair/out/uucpair}"
mails=${MAILS:-15}
kills=${KILLS:-6}
slow=${RATE:-6000}
fast=1000000
rate=$slow
trials=${TRIALS:-1}
sessions_max=20
RANDOM=${SEED:-1}

# mails PART [WHO..]: one trial, whose sessions are cut so
mails() {
    local name=$1 i who
    shift
    new_nodes
    [ "${1:-}" != power ] || own_disk
    for ((i = 1; i <= mails; i++)); do
        mail alpha "$i" $((30 + RANDOM % 3000))
        mail beta "$i" $((30 + RANDOM % 3000))
    done
    while [ "$sessions" -lt "$sessions_max" ] && [ "$(queued alpha)$(queued beta)" != 00 ]; do
        who=
        [ "$cuts" -ge "$kills" ] || [ $# -eq 0 ] || who=$(shuf -n 1 -e "$@" --random-source=<(yes "$RANDOM"))
        # what the package's programs have done is on the disk
        [ "${1:-}" != power ] || sync -f "$work/beta/spool"
        # shellcheck disable=SC2086
        session "$name" ${who:+cut $who}
        run_uuxqt alpha
        [ $((RANDOM % 2)) = 0 ] || run_uuxqt beta
    done
    judge "$name"
}

# hub: three systems call one run of the program, one after the other; the first is locked at its first call, and hears that
hub() {
    local name lost=0 hub
    new_hub alpha gamma delta
    for name in alpha gamma delta; do
        seq 200 | as_uucp uux -I "$work/$name/config" -r -n -z - 'beta!rmail' '(user@beta)'
        seq 300 | as_uucp uux -I "$work/beta/config" -r -n -z - "$name!rmail" "(user@$name)"
    done
    printf '%10d\n' $$ >"$work/beta/lock/LCK..alpha"
    start_hub 3
    for name in alpha gamma alpha delta; do
        call_hub "$name" || rm -f "$work/beta/lock/LCK..alpha"
    done
    end_hub
    run_uuxqt beta
    [ "$(wc -l <"$work/beta/mails")" = 600 ] || lost=$((lost + 1))
    for name in alpha gamma delta; do
        run_uuxqt "$name"
        [ "$(wc -l <"$work/$name/mails")" = 300 ] || lost=$((lost + 1))
    done
    is "the first hears that it is locked" grep -q 'Handshake failed (LCK)' "$work/alpha/log/Log"
    echo "hub: 3 systems, $(grep -c '^called done pending 0 struck 2 failed 0$' "$work/beta.out") sessions, $(grep -c 'already locked' "$work/beta/log/Log") locked, $lost nodes without their mail"
    [ "$lost" = 0 ] || bad=1
}

# same_file NAME: both public folders have it, the same
same_file() {
    cmp -s "$work/alpha/pub/$1" "$work/beta/pub/$1"
}

# queue_files: of each node for the other, one that is a copy and one that is none, and one of beta that it asks for
queue_files() {
    local node
    for node in alpha beta; do
        seq -f "$node %g" 2000 >"$work/$node/pub/copy-$node"
        seq -f "$node %g" 3000 >"$work/$node/pub/plain-$node"
        chmod 666 "$work/$node/pub"/*
        program_of "$node" uucp -r -C "$work/$node/pub/copy-$node" "$(other "$node")!~/copy-$node"
        program_of "$node" uucp -r -c "$work/$node/pub/plain-$node" "$(other "$node")!~/plain-$node"
    done
    seq 4000 >"$work/alpha/pub/asked"
    chmod 666 "$work/alpha/pub/asked"
    program_of beta uucp -r 'alpha!~/asked' "$work/beta/pub/asked"
    as_uucp touch "$work/beta/spool/alpha/C./C.Nempty"
}

# programs PART: files both ways, in each of its roles, and what the programs of the package say of the program's spool
programs() {
    local file
    rate=$fast
    new_nodes
    queue_files
    mail alpha 1 500
    mail beta 1 500
    is "uustat -a lists what waits" [ "$(program_of beta uustat -a | wc -l)" = 5 ]
    session "$1"
    for file in copy-alpha plain-alpha copy-beta plain-beta asked; do
        is "$file is at both" same_file "$file"
    done
    is "uustat -a lists nothing" [ -z "$(program_of beta uustat -a)$(program_of alpha uustat -a)" ]
    is "uustat -m" grep -q '^alpha .*Conversation complete' <(program_of beta uustat -m)
    is "uulog has what was sent" grep -q 'alpha uucp .*Sending .*copy-beta ([0-9]* bytes)' <(program_of beta uulog -s alpha -n 99)
    is "uulog has what came" grep -q 'alpha .*Receiving .*copy-alpha ([0-9]* bytes)' <(program_of beta uulog -s alpha -n 99)
    is "the statistics" [ "$(grep -c ' alpha (.*) sent ' "$work/beta/log/Stats")" = 4 ]
    # no configuration of uucico's has such a limit
    [ -n "$site" ] || too_long "$1"
    judge "files, $1"
    rate=$slow
}

# too_long PART: a file of a byte more than a session takes, each way, and a mail: it is over, and its user has mail
too_long() {
    local node
    head -c 1048577 /dev/zero | as_uucp uux -I "$work/beta/config" -r -n -z -asender@beta - 'alpha!rmail' '(user@alpha)'
    for node in alpha beta; do
        head -c 1048577 /dev/zero >"$work/$node/pub/long-$node"
        chmod 666 "$work/$node/pub/long-$node"
        program_of "$node" uucp -r -C "$work/$node/pub/long-$node" "$(other "$node")!~/long-$node"
    done
    options=(--file-limit 1048576)
    session "$1"
    options=()
    run_uuxqt beta
    is "what is too long is over" [ "$(queued alpha)$(queued beta)" = 00 ]
    is "it is kept" [ "$(find "$work/beta/spool/.Preserve" -name '*.D.*' -size +1024k | wc -l)" = 2 ]
    is "its user has mail" grep -q '^To: uucp' "$work/beta/mails"
    is "and who asks for a command" grep -q '^To: sender@beta' "$work/beta/mails"
    is "uucico says why" grep -q 'ERROR: .*long-alpha: .*final location' "$work/alpha/log/Log"
    is "none of it came" [ ! -e "$work/beta/pub/long-alpha" ]
}

# asked PART: alpha asks for files of beta's public folder, of which one is not for everybody and one is a link, and for another
asked() {
    local file
    rate=$fast
    new_nodes
    seq 4000 >"$work/beta/pub/open"
    seq 4000 >"$work/beta/pub/shut"
    ln -s /etc/hostname "$work/beta/pub/link"
    chmod 644 "$work/beta/pub/open"
    chmod 600 "$work/beta/pub/shut"
    # whom it calls itself it knows, also without a folder
    [ "$1" = we-call ] || as_uucp mkdir -p "$work/beta/spool/alpha/C."
    # shellcheck disable=SC2088
    for file in '~/open' '~/shut' '~/link' /etc/hostname; do
        program_of alpha uucp -r "beta!$file" "$work/alpha/pub/$(basename "$file")"
    done
    session "$1"
    run_uuxqt alpha
    is "what everybody may read came" same_file open
    is "nothing else came" [ ! -e "$work/alpha/pub/shut" -a ! -e "$work/alpha/pub/link" -a ! -e "$work/alpha/pub/hostname" ]
    judge "asked, $1"
    rate=$slow
}

# later PART: the system refuses beta the opening of a public file for which alpha asks: the job waits, the mail behind it goes, and
# the next session brings the file
later() {
    rate=$fast
    new_nodes
    seq 4000 >"$work/beta/pub/late"
    chmod 644 "$work/beta/pub/late"
    [ "$1" = we-call ] || as_uucp mkdir -p "$work/beta/spool/alpha/C."
    # shellcheck disable=SC2088
    program_of alpha uucp -r -g B 'beta!~/late' "$work/alpha/pub/late"
    mail alpha 1 500
    front=(strace -f -o /dev/null -P "$work/beta/pub/late" -e inject=openat:error=EMFILE)
    session "$1"
    front=()
    is "the job waits, and the mail went" [ "$(queued alpha)" = 1 ]
    session "$1"
    is "the next session brings it" same_file late
    judge "later, $1"
    rate=$slow
}

# unread PART: beta can't read the data of a mail, nor a C. file that is too long: the others go, and this one does once it can be
# read
unread() {
    local data begun long
    rate=$fast
    new_nodes
    mail beta 1 500
    data=$(find "$work/beta/spool/alpha/D." -type f)
    chown root:root "$data"
    chmod 600 "$data"
    mail beta 2 500
    mail alpha 1 500
    long=$work/beta/spool/alpha/C./C.Nlong
    yes '' | head -c 1048577 | as_uucp tee "$long" >/dev/null
    begun=$(TZ=Asia/Tokyo date +%Y-%m-%d)
    TZ=Asia/Tokyo session "$1"
    is "the others went" [ "$(queued alpha)$(queued beta)" = 02 ]
    is "the log says why" grep -q "^uucico alpha - .*${data##*/} is put off: permission denied" "$work/beta/log/Log"
    is "the log has the time of the place" grep -q "^uucico alpha - ($begun $(TZ=Asia/Tokyo date +%H):" "$work/beta/log/Log"
    is "the log says that one is too long" grep -q "^uucico alpha - .*C.Nlong is put off: too large" "$work/beta/log/Log"
    rm "$long"
    chown uucp:uucp "$data"
    finish "$1" 2
    judge "unread, $1"
    rate=$slow
}

# last_job: the job of beta that is taken last
last_job() {
    find "$work/beta/spool/alpha/C." -name 'C.*' -printf '%f\n' | LC_ALL=C sort | tail -n 1
}

# kill_last: `uustat -k` of the last job, whose mail may come or not
kill_last() {
    local file data
    file=$(last_job)
    data=$(awk '{ print $2 }' "$work/beta/spool/alpha/C./$file")
    killed="$killed $(head -n 1 "$work/beta/spool/alpha/D./$data")"
    program_of beta uustat -k "alpha.${file#C.}"
}

# kill_later: the same, once the session runs
kill_later() {
    sleep 3
    is "the session runs when a job is killed" [ -d "/proc/$caller" ]
    kill_last
}

# gone PART: a job is killed before the session, and one in it
gone() {
    local i
    killed=
    new_nodes
    for ((i = 1; i <= 8; i++)); do
        mail alpha "$i" 3000
        mail beta "$i" 3000
    done
    kill_last
    session "$1" kill_later
    finish "$1" 2
    judge "killed, $1"
    echo "  of two killed jobs, one of them in the session, $spared came"
    killed=
}

# full PART: the program's spool is on a small disk that is full in the first session
full() {
    local i
    rate=$fast
    new_nodes
    mount -t tmpfs -o size=400k,mode=755,uid="$(id -u uucp)",gid="$(id -g uucp)" uucpair "$work/beta/spool"
    for ((i = 1; i <= 3; i++)); do
        mail alpha "$i" 9000
        mail beta "$i" 9000
    done
    cat /dev/zero >"$work/beta/spool/filler" 2>/dev/null
    : >"$work/beta.out"
    session "$1"
    is "the session ends as spoolfault" grep -q ' spoolfault ' "$work/beta.out"
    rm "$work/beta/spool/filler"
    finish "$1" 3
    judge "full, $1"
    umount "$work/beta/spool"
    rate=$slow
}

# shut PART FOLDER MODE: beta's folder has these rights in one session
shut() {
    local i said
    new_nodes
    mail alpha first 100
    mail beta first 100
    as_uucp mkdir -p "$work/beta/spool/.Preserve"
    finish "$1" 2
    for ((i = 1; i <= 2; i++)); do
        mail alpha "$i" 2000
        mail beta "$i" 2000
    done
    sessions=0
    : >"$work/beta.out"
    : >"$work/beta.err"
    chmod "$3" "$work/beta/$2"
    session "$1"
    chmod 755 "$work/beta/$2"
    said=$(sed -n 's/^cal[a-z]* \([a-z]*\) .*/\1/p' "$work/beta.out" | head -n 1)
    [ -n "$said" ] || said=$(grep -v 'device fault' "$work/beta.err" | head -n 1 | sed 's/.*: //')
    finish "$1" 3
    judge "folders, $1, $2 $3: $said"
}

# folders PART: each folder in turn
folders() {
    local folder mode
    rate=$fast
    for folder in spool spool/alpha spool/alpha/C. spool/alpha/D. spool/alpha/X. spool/.Temp spool/.Temp/alpha \
        spool/.Received spool/.Received/alpha spool/.Preserve spool/.Status pub lock log; do
        for mode in 555 000; do
            shut "$1" "$folder" "$mode"
        done
    done
    rate=$slow
}

# anew PART: what came before sessions were cut is known by more than its name
anew() {
    local i
    mails "$1" line caller called
    rm -rf "$work/alpha/spool"
    as_uucp mkdir "$work/alpha/spool"
    for i in alpha beta; do
        : >"$work/$i/mails"
        : >"$work/$i/sent"
    done
    rate=$fast
    for ((i = 1; i <= mails; i++)); do
        mail alpha "anew$i" 500
    done
    finish "$1" 2
    judge "anew, $1"
    rate=$slow
}

# trials PART: of mail, without cuts and with them
trials() {
    local trial
    for ((trial = 0; trial < trials; trial++)); do
        mails "$1"
        # shellcheck disable=SC2086
        [ "$kills" = 0 ] || mails "$1" ${CUTS:-line caller called ${site:+site}}
    done
}

# try PART
try() {
    local role
    case $1 in
    hub) hub ;;
    we-call | we-answer | both) trials "$1" ;;
    power) for role in we-call we-answer both; do mails $role power; done ;;
    *)
        for role in we-call we-answer; do
            case $1 in
            programs) programs $role ;;
            gone) gone $role ;;
            asked) asked $role ;;
            later) later $role ;;
            unread) unread $role ;;
            full) full $role ;;
            folders) folders $role ;;
            anew) anew $role ;;
            esac
        done
        ;;
    esac
}

for part in ${PARTS:-hub programs gone asked later unread full folders anew power we-call we-answer both}; do
    try "$part"
done
[ "$bad" = 0 ]
