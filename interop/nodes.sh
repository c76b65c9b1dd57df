# Two nodes of Debian's `uucp`, alpha and beta, each with its own settings, spool and stand-in for `rmail`, and sessions between
# them over a slow line; or a hub, beta, whom others call. Needs `work`, `root` and `program`; `rate` is the bytes of a second.
# What is started is in `started`. The program has the words of `options` besides, and runs under the command `front`; `status` is
# the one with which it has ended a session, which has `patience` tenths of a second, at least. Where SITE is set the program is run
# by a copy of packaging/uucico, `site`, which reads the node's settings; `options` are not heard then.
# shellcheck shell=bash disable=SC2034,SC2154
options=()
front=()
patience=600
site=

# begin_nodes PROGRAM: `work` is a folder of this run, which goes when the script ends, unless KEEP is set, with a copy of the
# program that anybody may run
begin_nodes() {
    work=$(mktemp -d)
    chmod 777 "$work"
    started=()
    trap end_nodes EXIT
    cp "$1" "$work/program"
    chmod 755 "$work/program"
    program=$work/program
    [ -z "${SITE:-}" ] || copy_site
    bad=0
}

# copy_site: `site` is a copy of packaging/uucico that runs the program
copy_site() {
    cp -r "$root/packaging/uucico" "$root/packaging/uucp_site" "$work"
    sed -i "s|^UUCPAIR = .*|UUCPAIR = \"$program\"|; s|^ERRORS = .*|ERRORS = \"$work/errors\"|" "$work/uucp_site/paths.py"
    chmod -R a+rX "$work/uucico" "$work/uucp_site"
    site=$work/uucico
}

end_nodes() {
    kill -9 "${started[@]}" 2>/dev/null
    umount -q "$work/beta/spool" 2>/dev/null
    [ -n "${KEEP:-}" ] || rm -rf "$work"
}

# is WHAT COMMAND..: says what is not so.
is() {
    local what=$1
    shift
    "$@" || { echo "  not so: $what"; bad=1; }
}

# program_of NODE WORD..: a program of the package, with the node's settings
program_of() {
    local here=$work/$1
    shift
    (cd / && as_uucp "$1" -I "$here/config" "${@:2}")
}

other() {
    [ "$1" = alpha ] && echo beta || echo alpha
}

# node NAME: the folders and settings of a node
node() {
    local here=$work/$1
    taylor_settings "$1" "$here" "$work/near"
    mkdir -p "$here/bin"
    cat >"$here/sys" <<END
system $(other "$1")
time any
port gate
chat ""
protocol g
protocol-parameter g packet-size 1024
protocol-parameter g window 7
commands rmail
command-path $here/bin
remote-send ~
remote-receive ~
local-send /
END
    [ -z "$site" ] || echo "protocol-parameter g timeout 5" >>"$here/sys"
    printf '#!/bin/sh\n/bin/cat >>%s/mails\n' "$here" >"$here/bin/rmail"
    chmod 755 "$here/bin/rmail"
    : >"$here/mails"
    : >"$here/sent"
    chmod 777 "$here/pub"
    chown -R uucp:uucp "$here"
}

# new_nodes: both, with nothing queued
new_nodes() {
    umount -q "$work/beta/spool" 2>/dev/null
    rm -rf "$work"/{alpha,beta}
    node alpha
    node beta
    sessions=0
    cuts=0
}

# hub_node NAME: a node that calls beta, and the folder that beta has of it
hub_node() {
    node "$1"
    sed -i 's/^system .*/system beta/' "$work/$1/sys"
    as_uucp mkdir -p "$work/beta/spool/$1/C."
    printf 'system %s\ntime any\ncommands rmail\ncommand-path %s\n' "$1" "$work/beta/bin" >>"$work/beta/sys"
}

# new_hub NAME..: beta, and nodes of these names, which call it
new_hub() {
    local name
    rm -rf "$work"/{alpha,beta,gamma,delta,near,beta.err}
    node beta
    : >"$work/beta/sys"
    for name in "$@"; do
        hub_node "$name"
    done
}

# start_hub COUNT: the program answers at beta, so many sessions, and lets in whom it has a folder of
start_hub() {
    [ -z "$site" ] || { start_site_hub; return; }
    runuser -u uucp -- "$program" answer "unix:$work/near" "$work/beta/spool" --spool --me beta \
        --public "$work/beta/pub" --locks "$work/beta/lock" --log "$work/beta/log/Log" --timeout 5 --sessions "$1" --wait 60 \
        >"$work/beta.out" 2>>"$work/beta.err" &
    hub=$!
    started+=("$hub")
    wait_for "$work/near"
    chmod 666 "$work/near"
}

start_site_hub() {
    (cd / && exec socat "UNIX-LISTEN:$work/near,mode=666,fork" "EXEC:runuser -u uucp -- $site -q -I $work/beta/config") \
        2>>"$work/socat.err" &
    hub=$!
    started+=("$hub")
    wait_for "$work/near"
}

# end_hub: it has ended its sessions
end_hub() {
    local i
    [ -n "$site" ] || { wait "$hub"; return; }
    for ((i = 0; i < patience; i++)); do
        [ -n "$(pgrep -P "$hub")" ] || break
        sleep 0.1
    done
    # shellcheck disable=SC2046
    end_all $(tree "$hub")
    keep_said
}

# call_hub NAME: uucico calls it
call_hub() {
    (cd / && runuser -u uucp -- /usr/sbin/uucico -q -D -f -I "$work/$1/config" -S beta)
}

# mail FROM ID SIZE: queues a mail, as postfix does
mail() {
    local here=$work/$1
    echo "mail-$1-$2" >>"$here/sent"
    { echo "mail-$1-$2"; seq -f "of $1 $2, line %g" 1000 | head -c "$3"; echo; } |
        as_uucp uux -I "$here/config" -r -n -z "-asender@$1" - "$(other "$1")!rmail" "(user@$(other "$1"))"
}

# queued NODE: how many C. files wait there
queued() {
    find "$work/$1/spool/$(other "$1")/C." -type f -name 'C.*' 2>/dev/null | wc -l
}

run_uuxqt() {
    (cd / && as_uucp /usr/sbin/uuxqt -I "$work/$1/config")
}

# ours CALL|ANSWER NODE LINE: the program's words at a node
ours() {
    [ -z "$site" ] || by_site "$@"
    exec runuser -u uucp -- "${front[@]}" "$program" "$1" "$3" "$work/$2/spool" --spool --me "$2" --peer "$(other "$2")" \
        --public "$work/$2/pub" --locks "$work/$2/lock" --log "$work/$2/log/Log" --stats "$work/$2/log/Stats" \
        --size 1024 --timeout 5 "${options[@]}" >>"$work/$2.out" 2>>"$work/$2.err"
}

# by_site CALL|ANSWER NODE LINE: the same as uucico is called; its line is the socket `far` where it answers, else the node's port
by_site() {
    cd / || exit 1
    [ "$1" = call ] &&
        exec runuser -u uucp -- "${front[@]}" "$site" -q -D -f -I "$work/$2/config" -S "$(other "$2")" 2>>"$work/$2.err"
    printf '#!/bin/sh\nexec %s\n' "runuser -u uucp -- ${front[*]} $site -q -I $work/$2/config 2>>$work/$2.err" >"$work/called"
    chmod 755 "$work/called"
    exec socat "UNIX-LISTEN:${3#unix:},mode=666" "EXEC:$work/called" 2>>"$work/socat.err"
}

# keep_said: what `packaging/uucico` has had the program say is where the program's own words are
keep_said() {
    local node
    for node in ${site:+alpha beta}; do
        [ -e "$work/$node/log/Debug" ] || continue
        tee -a "$work/$node.out" <"$work/$node/log/Debug" >>"$work/$node.err"
        rm "$work/$node/log/Debug"
    done
}

# listen_taylor NODE: uucico answers at the socket far
listen_taylor() {
    (cd / && exec socat "UNIX-LISTEN:$work/far,mode=666" "EXEC:runuser -u uucp -- /usr/sbin/uucico -q -I $work/$1/config") \
        2>>"$work/socat.err" &
    answerer=$!
    started+=("$answerer")
    wait_for "$work/far"
}

listen_ours() {
    local i
    ours answer "$1" "unix:$work/far" &
    answerer=$!
    started+=("$answerer")
    # one that has ended never listens
    for ((i = 0; i < ${PATIENCE:-100}; i++)); do
        [ -d "/proc/$answerer" ] && [ ! -S "$work/far" ] || break
        sleep 0.1
    done
    if [ -S "$work/far" ]; then chmod 666 "$work/far"; else echo "  nobody listens at $work/far"; fi
}

# relay: a slow line from the socket near to the socket far
relay() {
    python3 "$root/tests/slow_relay.py" "$work/near" "$work/far" "$rate" 120 >>"$work/relay.out" 2>&1 &
    relay=$!
    started+=("$relay")
    wait_for "$work/near"
    chmod 666 "$work/near"
}

# end_all PID..: ends those that still run, and waits for them
end_all() {
    local pid
    {
        for pid in "$@"; do
            kill -9 "$pid"
            wait "$pid"
        done
    } 2>/dev/null
}

# tree PID: it and those that it started
tree() {
    local child
    echo "$1"
    for child in $(pgrep -P "$1"); do
        tree "$child"
    done
}

# own_disk: beta's spool is on a disk of its own, which writes nothing by itself for minutes
own_disk() {
    truncate -s 16M "$work/disk"
    mkfs.ext4 -qF "$work/disk"
    mount_disk
    chown uucp:uucp "$work/beta/spool"
}

mount_disk() {
    mount -o loop,commit=300,noauto_da_alloc "$work/disk" "$work/beta/spool"
}

# freeze PID: stops it, and then those that it started: who is stopped starts no more. Says which they are.
freeze() {
    local child
    kill -STOP "$1" 2>/dev/null || return
    echo "$1"
    for child in $(pgrep -P "$1"); do
        freeze "$child"
    done
}

# cut_power PID: that of the program: its disk is from now on as it stands at this moment
cut_power() {
    local frozen
    frozen=$(freeze "$1")
    [ -n "$frozen" ] || return
    cp --sparse=always "$work/disk" "$work/disk.cut"
    # shellcheck disable=SC2086
    kill -9 $frozen 2>/dev/null && cuts=$((cuts + 1))
}

# cut WHO: at a random moment the line goes (`line`), or the end that calls or is called is killed (`caller`, `called`), or
# packaging/uucico alone, and not what it runs (`site`), or the power of the program (`power`)
cut() {
    local victim
    sleep "$((RANDOM % 6)).$((RANDOM % 10))"
    case $1 in
    power)
        cut_power "$of_program"
        return
        ;;
    line) victim=$(tree "$relay") ;;
    site) victim=$(pgrep -fx "/usr/bin/python3 -I $site .*") ;;
    caller) victim=$(tree "$caller") ;;
    called) victim=$(tree "$answerer") ;;
    esac
    # shellcheck disable=SC2086
    [ ! -d "/proc/$caller" ] || { kill -9 $victim 2>/dev/null && cuts=$((cuts + 1)); }
}

# session PART [COMMAND..]: one session, and the command while it runs. The program is at beta: it calls uucico (`we-call`), or is
# called by it (`we-answer`), or calls the program at alpha (`both`).
session() {
    local i alone=0
    rm -f "$work"/{near,far}
    case $1 in
    we-call) listen_taylor alpha ;;
    we-answer) listen_ours beta ;;
    both) listen_ours alpha ;;
    esac
    relay
    case $1 in
    we-answer) (cd / && exec runuser -u uucp -- /usr/sbin/uucico -q -D -f -I "$work/alpha/config" -S beta) & ;;
    *) ours call beta "unix:$work/near" & ;;
    esac
    caller=$!
    started+=("$caller")
    [ "$1" = we-answer ] && of_program=$answerer || of_program=$caller
    shift
    [ $# -eq 0 ] || "$@"
    for ((i = 0; i < patience && alone < 300; i++)); do
        [ -d "/proc/$caller" ] || [ -d "/proc/$answerer" ] || break
        sleep 0.1
        # an end that waits for a caller who is gone, or who never came
        [ -d "/proc/$caller" ] || alone=$((alone + 1))
        [ "$alone" -lt 20 ] || ! grep -qE " 00010000 .* $work/far(\.new)?\$" /proc/net/unix || break
    done 2>/dev/null
    status=124
    [ -d "/proc/$of_program" ] || { wait "$of_program" && status=0 || status=$?; } 2>/dev/null
    # shellcheck disable=SC2046
    end_all $(tree "$caller") $(tree "$answerer") "$relay"
    if [ -e "$work/disk.cut" ]; then
        umount "$work/beta/spool"
        mv "$work/disk.cut" "$work/disk"
        mount_disk
    fi
    keep_said
    sessions=$((sessions + 1))
}

# finish PART COUNT: sessions until nothing is queued, so many at most
finish() {
    local i
    for ((i = 0; i < $2; i++)); do
        [ "$(queued alpha)$(queued beta)" != 00 ] || return
        session "$1"
        run_uuxqt alpha
        run_uuxqt beta
    done
}

# count_mails: sets `lost` and `twice`, and names what is so; the mails of `killed` may have come or not, and `spared` counts those
count_mails() {
    local node id
    lost=0
    twice=0
    spared=0
    run_uuxqt alpha
    run_uuxqt beta
    for node in alpha beta; do
        while read -r id; do
            case $(grep -cx "$id" "$work/$(other "$node")/mails") in
            0) [[ " ${killed:-} " == *" $id "* ]] || { lost=$((lost + 1)); echo "  lost: $id"; } ;;
            1) [[ " ${killed:-} " != *" $id "* ]] || spared=$((spared + 1)) ;;
            *) twice=$((twice + 1)); echo "  twice: $id" ;;
            esac
        done <"$work/$node/sent"
    done
}

# judge ROW: each mail came once, and nothing is queued
judge() {
    local left
    count_mails
    left=$(($(queued alpha) + $(queued beta)))
    echo "$1: $(cat "$work"/{alpha,beta}/sent | wc -l) mails, $sessions sessions, $cuts cut, $lost lost, $twice twice, $left queued"
    [ "$lost$left" = 00 ] && [ "$twice" = 0 ] || bad=1
}
