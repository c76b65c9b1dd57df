# What the scripts of this folder share. A script that reads it ends with the first command that fails.
# shellcheck shell=bash disable=SC2034
set -eu
export LC_ALL=C

# The folder of the repository.
root=$(dirname "$(dirname "$(readlink -f "${BASH_SOURCE[0]}")")")
. "$root/interop/common.sh"

# find_program [PATH]: sets `program` to the one at this path, or to the one that is built of the sources here.
find_program() {
    if [ -n "${1:-}" ]; then
        program=$(readlink -f "$1")
    else
        # builds it where that is needed
        "$root/uucpair" scan </dev/null >/dev/null
        program=$root/crates/uucpair/out/uucpair
    fi
}

# new_work: sets `work` to a folder of this run, and opens a pipe that stays silent, to wait by.
new_work() {
    work=$(mktemp -d)
    mkfifo "$work/never"
    exec {never}<>"$work/never"
    rm "$work/never"
}

# new_passing_work: the same, of a folder that is gone when the script ends.
new_passing_work() {
    new_work
    trap 'rm -rf "$work"' EXIT
}

# new_shared_work: new_work, where anybody may go, with a copy of the program that anybody may run.
new_shared_work() {
    new_work
    chmod 755 "$work"
    cp "$program" "$work/program"
    program=$work/program
}

# other END: of the ends a and b.
other() {
    [ "$1" = a ] && echo b || echo a
}

passed=0
failed=0

# report NAME FAULT: counts a row, which passed where the fault is empty.
report() {
    if [ -z "$2" ]; then
        passed=$((passed + 1))
    else
        failed=$((failed + 1))
        echo "$1: $2" >&2
    fi
}

# The processes at the other side of a line, which are ended together.
helpers=()

end_helpers() {
    local pid
    for pid in "${helpers[@]}"; do
        kill "$pid" 2>/dev/null || true
        wait "$pid" 2>/dev/null || true
    done
    helpers=()
}

well=0
all=0

# tell NAME FUNCTION [WORD..]: runs a scene, which make_scene of the script makes in `$work/scene`, and says whether all of it
# was so. The folders of one that went wrong stay.
tell() {
    local name=$1
    shift
    all=$((all + 1))
    make_scene
    if "$@"; then
        well=$((well + 1))
        echo "$name: well"
    else
        echo "$name: WRONG"
        cp -a "$work/scene" "$work/wrong.$all"
    fi
    end_helpers
}

# taylor_node FOLDER NAME SYSTEM PORT: the configuration of a node of Taylor UUCP of this name, which lies in this folder and
# knows a system that may be called, and calls, at any time, at this port.
taylor_node() {
    cat >"$1/config" <<CONFIG
nodename $2
spool $1/spool
pubdir $1/public
lockdir $1
logfile $1/log
statfile $1/stats
debugfile $1/debug
sysfile $1/sys
portfile $1/port
CONFIG
    taylor_system "$3" "$4" "${both_ways[@]}" >"$1/sys"
}

# pause SECONDS: starts no process.
pause() {
    read -rt "$1" -u "$never" || true
}

# wait_until SECONDS COMMAND..: whether the command succeeds within this time.
wait_until() {
    local i
    for ((i = 0; i < $1 * 100; i++)); do
        ! "${@:2}" || return 0
        pause 0.01
    done
    return 1
}

# listens_at PATH: a socket is there a moment before it listens, so the system is asked, which knows it by the path that it was
# made at, from whichever folder. A relay makes its own under another name.
listens_at() {
    [ -S "$1" ] && grep -qE " 00010000 .* ($1|${1##*/})(\.new)?\$" /proc/net/unix
}

# wait_for_socket PATH: whether an end listens there within ten seconds.
wait_for_socket() {
    wait_until 10 listens_at "$1"
}

# has_ended PID: whether there is no such process.
has_ended() {
    ! kill -0 "$1" 2>/dev/null
}

# end_of PID SECONDS: sets `status` to the one with which the process ends, 124 where it had to be stopped after this time.
end_of() {
    status=0
    wait_until "$2" has_ended "$1" || true
    if kill -9 "$1" 2>/dev/null; then
        wait "$1" 2>/dev/null || true
        status=124
    else
        wait "$1" 2>/dev/null || status=$?
    fi
}

# same TEXT FILE: whether the file has this text, and nothing else.
same() {
    printf '%s' "$1" | cmp -s - "$2"
}

# is_locked FILE: whether somebody holds its lock. It takes none itself, which another could find.
is_locked() {
    grep -q "FLOCK .*:$(stat -c %i "$1") " /proc/locks
}

# listens PORT: whether somebody listens at this port of this machine.
listens() {
    grep -Eq ":$(printf '%04X' "$1") [0:]+ 0A" /proc/net/tcp /proc/net/tcp6
}
