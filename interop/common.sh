# What the scripts of this folder share, and what those of `tests/` have of it. Needs `root`, the folder of the repository.
# shellcheck shell=bash disable=SC2034,SC2154

# begin_work [PROGRAM]: `program` is the one at this path, or that which is built here; `work` is a folder of this run, which goes
# when the script ends, and with it what is in `started`
begin_work() {
    program=$(readlink -f "${1:-$root/crates/uucpair/out/uucpair}")
    work=$(mktemp -d)
    chmod 755 "$work"
    started=()
    trap 'kill "${started[@]}" 2>/dev/null; rm -rf "$work"' EXIT
}

# wait_for SOCKET: until it is there
wait_for() {
    local i
    for ((i = 0; i < ${PATIENCE:-100}; i++)); do
        [ ! -S "$1" ] || return 0
        sleep 0.1
    done
    echo "  $1 was not made"
}

# start_relay LISTEN CONNECT: loses, doubles and damages every 50th packet on the way
start_relay() {
    python3 "$root/interop/relay.py" "$1" "$2" "${EVERY:-50}" "${SECONDS_MAX:-1800}" >"$work/relay.out" 2>&1 &
    relay=$!
    started+=("$relay")
    wait_for "$1"
}

as_uucp() {
    runuser -u uucp -- "$@"
}

# taylor_settings NAME FOLDER SOCKET: what a Taylor end of this name needs in FOLDER, but for sys: its folders, config, and a port
# gate, which calls through SOCKET
taylor_settings() {
    mkdir -p "$2"/{spool,pub,log,lock}
    cat >"$2/config" <<END
nodename $1
spool $2/spool
pubdir $2/pub
lockdir $2/lock
logfile $2/log/Log
statfile $2/log/Stats
debugfile $2/log/Debug
sysfile $2/sys
portfile $2/port
END
    cat >"$2/port" <<END
port gate
type pipe
command /usr/bin/socat - UNIX-CONNECT:$3
END
}

# taylor_system NAME PORT LINE..: what a Taylor end knows of a system that calls, and may be called, at any time, at this port, with
# these lines besides
taylor_system() {
    printf 'system %s\ntime any\nport %s\nchat ""\nprotocol g\n' "$1" "$2"
    printf '%s\n' "${@:3}"
}

# The lines of a system that may ask for, and be asked for, what is public.
both_ways=("remote-send ~" "remote-receive ~" "local-send ~" "local-receive ~")

# new_ends LINE..: the folders of the Taylor end `taylor`, which knows the system `ours` with these lines, and those of `ours`
new_ends() {
    rm -rf "$work"/{taylor,ours,line}
    taylor_settings taylor "$work/taylor" "$work/line"
    taylor_system ours gate "$@" >"$work/taylor/sys"
    mkdir -p "$work"/ours/{send,got}
    : >"$work/ours/jobs"
}

# own_files: what lies in Taylor's public folder is Taylor's, and anybody's to read
own_files() {
    chmod 644 "$work"/taylor/pub/*
    # uucico puts a file only where everybody may.
    chmod 777 "$work/taylor/pub"
    chown -R uucp:uucp "$work/taylor"
}

# taylor_waits SOCKET: Taylor answers whoever calls there
taylor_waits() {
    (cd / && exec socat "UNIX-LISTEN:$1,mode=666" \
        "EXEC:runuser -u uucp -- /usr/sbin/uucico -I $work/taylor/config") 2>>"$work/socat.err" &
    started+=($!)
    wait_for "$1"
}

# The command under which the program runs.
front=()

# call_taylor WORD..: the program calls Taylor, with these words besides; its status
call_taylor() {
    local status=0
    timeout 2000 "${front[@]}" "$program" call "unix:$work/line" "$work/ours" --me ours --peer taylor "$@" \
        >"$work/out" 2>"$work/err" || status=$?
    # uucico takes its log's lock once more when it has heard the end of the line.
    sleep 1
    return "$status"
}

# wait_for_taylor SOCKET WORD..: the program waits there for Taylor's call, with these words besides
wait_for_taylor() {
    timeout 2000 "${front[@]}" "$program" answer "unix:$1" "$work/ours" --me ours --peer taylor "${@:2}" \
        >"$work/out" 2>"$work/err" &
    answerer=$!
    started+=("$answerer")
    wait_for "$1"
    chmod 666 "$1"
}

# taylor_calls_us: Taylor calls; the status of the program
taylor_calls_us() {
    (cd / && timeout 2000 runuser -u uucp -- /usr/sbin/uucico -I "$work/taylor/config" -f -s ours)
    wait "$answerer"
}

# waiting: how many jobs Taylor has left
waiting() {
    as_uucp uustat -I "$work/taylor/config" -a | grep -c .
}
