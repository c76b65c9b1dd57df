#!/usr/bin/env bash
# The files of packaging/, each tried for real: Debian's inetd, cron, sshd, agetty and login, systemd's own check of the units
# and systemd-socket-activate in the place of systemd, and a modem that is a script. Only the paths in the files are others.
#
#   tests/packaging.sh [PROGRAM]
#
# It needs Debian's packages (apt-get install uucp socat openbsd-inetd cron openssh-server systemd openssl), and root: it starts
# these where nobody else sees their files (unshare). Each scene is a line; the status is 1 where one went wrong, and the folders
# stay then. It takes some two minutes, one of which is cron's.
. "$(dirname "$(readlink -f "$0")")/common.sh"
find_program "${1:-}"
new_shared_work

# helper COMMAND..: a process that is ended with the scene.
helper() {
    (cd / && exec "$@" </dev/null >>"$scene/helpers.out" 2>&1) &
    helpers+=($!)
}

# make_scene: the folders of the files of packaging/, `here` and `there`, each with a file for the other, and a copy of these
# files whose paths are those of the scene.
make_scene() {
    local end other
    scene=$work/scene
    port=$((20000 + RANDOM % 20000))
    rm -rf "$scene"
    mkdir -p "$scene"/spool/{here,there}/{send,got} "$scene"/{log,tmp,locks}
    for end in here there; do
        other=there
        [ "$end" = here ] || other=here
        seq -f "$end %g" 600 >"$scene/spool/$end/send/from_$end"
        echo "send from_$end from_$end $other" >"$scene/spool/$end/jobs"
    done
    cp -r "$root/packaging" "$scene/lib"
    find "$scene/lib" -type f -exec sed -i -e "s:/usr/bin/uucpair:$program:g" -e "s:/var/spool/uucpair:$scene/spool:g" \
        -e "s:/var/log/uucpair:$scene/log:g" -e "s:/usr/local/lib/uucpair:$scene/lib:g" -e "s:/etc/uucpair:$scene/lib:g" \
        -e "s:/var/lock:$scene/locks:g" -e "s/there.example:540/127.0.0.1:$port/" -e "s/0.0.0.0:540/127.0.0.1:$port/" {} +
    chmod -R a+rwX "$scene"
    chmod 644 "$scene"/lib/uucpair-*
    chown -R uucp:uucp "$scene/spool"
    export TMPDIR=$scene/tmp
}

# moved: whether both files have come, whole, and no job is left.
moved() {
    cmp -s "$scene/spool/here/send/from_here" "$scene/spool/there/got/from_here" &&
        cmp -s "$scene/spool/there/send/from_there" "$scene/spool/here/got/from_there" &&
        same "" "$scene/spool/here/jobs" && same "" "$scene/spool/there/jobs"
}

called_done=$'called done pending 0 struck 1 failed 0\n'
caller_done=$'caller done pending 0 struck 1 failed 0\n'

# call_here LINE: `here` calls, and is done.
call_here() {
    "$program" call "$1" "$scene/spool/here" --me here --peer there >"$scene/here.out" 2>"$scene/here.err" &&
        same "$caller_done" "$scene/here.out"
}

start_inetd() {
    sed -n "s/^uucp /127.0.0.1:$port /p" "$scene/lib/inetd.conf" >"$scene/inetd.conf"
    helper inetd -i "$scene/inetd.conf"
    wait_until 5 listens "$port"
}

by_inetd() {
    start_inetd && call_here "tcp:$port" && wait_until 5 test -s "$scene/log/there.log" &&
        same "$called_done" "$scene/log/there.log" && moved
}

# More connect in a minute than inetd takes without a number.
many_strangers() {
    local i
    start_inetd || return 1
    for ((i = 0; i < 300; i++)); do
        exec {stranger}<>"/dev/tcp/127.0.0.1/$port" || return 1
        exec {stranger}>&-
    done
    wait_until 30 call_here "tcp:$port" && moved
}

# Where there is no log nothing is said to the caller.
without_log() {
    rm -r "$scene/log"
    start_inetd
    socat -u "TCP:127.0.0.1:$port" - >"$scene/heard"
    same "" "$scene/heard"
}

units_verified() {
    (cd "$scene/lib" && systemd-analyze verify ./uucpair-*) 2>"$scene/verified" && same "" "$scene/verified"
}

# start_of UNIT: the words of its ExecStart.
start_of() {
    sed -n 's/^ExecStart=//p' "$scene/lib/$1"
}

by_systemd() {
    local words
    read -ra words <<<"$(start_of uucpair-answer@.service)"
    helper runuser -u uucp -- systemd-socket-activate --inetd -a -l "127.0.0.1:$port" "${words[@]}"
    wait_until 5 listens "$port"
    read -ra words <<<"$(start_of uucpair-call.service)"
    runuser -u uucp -- "${words[@]}" >"$scene/here.out" && same "$caller_done" "$scene/here.out" || return 1
    wait_until 5 grep -q "^${called_done%$'\n'}" "$scene/helpers.out" && moved
}

# A stranger is let pass, and who calls meanwhile waits.
listening() {
    local words
    read -ra words <<<"$(start_of uucpair-listen.service)"
    helper runuser -u uucp -- "${words[@]}"
    wait_until 5 listens "$port"
    exec {stranger}<>"/dev/tcp/127.0.0.1/$port" || return 1
    (pause 1 && exec {stranger}>&-) &
    exec {stranger}>&-
    call_here "tcp:$port" && wait "$!" && wait_until 5 grep -q "^${called_done%$'\n'}" "$scene/helpers.out" && moved
}

# cron itself, which sees no other file of its kind.
by_cron() {
    start_inetd || return 1
    sed -i 's/^17 /* /' "$scene/lib/uucpair.cron"
    mkdir "$scene/cron.d" "$scene/crontabs"
    install -m 644 "$scene/lib/uucpair.cron" "$scene/cron.d/uucpair"
    # shellcheck disable=SC2016  # sh expands it
    helper unshare -m sh -c 'mount -t tmpfs run /run && mount --bind "$0/cron.d" /etc/cron.d && : >"$0/crontab" &&
        mount --bind "$0/crontab" /etc/crontab && mount --bind "$0/crontabs" /var/spool/cron/crontabs && exec cron -f' "$scene"
    wait_until 70 test -s "$scene/log/here.log"
    same "$caller_done" "$scene/log/here.log" && wait_until 5 test -s "$scene/log/there.log" && moved
}

# Two at once: one is turned away, and says so.
cron_overlaps() {
    local line busy
    line=$(sed -n 's/^17 .*  uucp  //p' "$scene/lib/uucpair.cron")
    # Nobody takes this call before the other line was run.
    helper socat "TCP-LISTEN:$port,bind=127.0.0.1" "SYSTEM:sleep 2"
    wait_until 5 listens "$port"
    helper sh -c "$line"
    wait_until 5 is_locked "$scene/spool/here"
    sh -c "$line" || busy=$?
    [ "${busy:-0}" -eq 3 ] && grep -q "here is in use" "$scene/log/here.log"
}

# start_sshd: with a user of this system, whose key may do what ssh-call.sh says, and a user `Uthere`, whose shell is
# login-shell.sh. `ssh` calls it.
start_sshd() {
    local forced
    ssh-keygen -q -t ed25519 -N "" -f "$scene/host"
    ssh-keygen -q -t ed25519 -N "" -f "$scene/key"
    forced=$(sed -n 's/^# *\(restrict,.*\) ssh-ed25519 \.\.$/\1/p' "$scene/lib/ssh-call.sh")
    [ -n "$forced" ] || return 1
    echo "$forced $(cat "$scene/key.pub")" >"$scene/keys.root"
    cp "$scene/key.pub" "$scene/keys.Uthere"
    make_users
    cat >"$scene/sshd_config" <<CONFIG
ListenAddress 127.0.0.1:$port
HostKey $scene/host
AuthorizedKeysFile $scene/keys.%u
StrictModes no
PidFile none
UsePAM yes
CONFIG
    cat >"$scene/ssh_config" <<CONFIG
Host there
HostName 127.0.0.1
Port $port
IdentityFile $scene/key
StrictHostKeyChecking accept-new
UserKnownHostsFile $scene/known
LogLevel ERROR
CONFIG
    mkdir "$scene/bin"
    printf '#!/bin/sh\nexec /usr/bin/ssh -F "%s/ssh_config" "$@"\n' "$scene" >"$scene/bin/ssh"
    chmod 755 "$scene/bin/ssh"
    PATH=$scene/bin:$PATH
    in_other_system /usr/sbin/sshd -D -e -f "$scene/sshd_config"
    wait_until 5 listens "$port"
}

# make_users: the users of the system, and `Uthere`, whose password is `secret`.
make_users() {
    (cat /etc/passwd && echo "Uthere:x:54321:54321::/tmp:$scene/lib/login-shell.sh") >"$scene/passwd"
    (cat /etc/shadow && echo "Uthere:$(openssl passwd -6 secret):19000::::::") >"$scene/shadow"
    printf '%s\n' "Uother /nowhere there other" "Uthere $scene/spool/there there here" >"$scene/lib/logins"
    chmod -R a+rwX "$scene/spool"
    : >"$scene/log/logins.log"
    chmod 666 "$scene/log/logins.log"
}

# in_other_system COMMAND..: a helper for which the system has these users.
in_other_system() {
    # shellcheck disable=SC2016  # sh expands it
    helper unshare -m sh -c 'mount -t tmpfs run /run && mkdir /run/sshd && mount --bind "$0/passwd" /etc/passwd &&
        mount --bind "$0/shadow" /etc/shadow && exec "$@"' "$scene" "$@"
}

by_ssh() {
    start_sshd || return 1
    "$scene/lib/ssh-call.sh" root@there "$scene/spool/here" here there >"$scene/here.out" 2>"$scene/here.err" || return 1
    same "" "$scene/here.out" && moved && grep -qx "${caller_done%$'\n'}" "$scene/here.err" &&
        grep -qx "${called_done%$'\n'}" "$scene/here.err" && [ -z "$(ls -A "$scene/tmp")" ]
}

# Nobody listens: ssh says so, and the job stays.
without_sshd() {
    local status=0
    printf 'Host there\nHostName 127.0.0.1\nPort %s\n' "$port" >"$scene/ssh_config"
    mkdir "$scene/bin"
    printf '#!/bin/sh\nexec /usr/bin/ssh -F "%s/ssh_config" "$@"\n' "$scene" >"$scene/bin/ssh"
    chmod 755 "$scene/bin/ssh"
    PATH=$scene/bin:$PATH "$scene/lib/ssh-call.sh" there "$scene/spool/here" here there 2>"$scene/here.err" || status=$?
    [ "$status" -eq 1 ] && grep -q "Connection refused" "$scene/here.err" &&
        grep -qx "caller hungup pending 1 struck 0 failed 0" "$scene/here.err" &&
        same $'send from_here from_here there\n' "$scene/spool/here/jobs" && [ -z "$(ls -A "$scene/tmp")" ]
}

# login_by_ssh OPTION: a user logs in over ssh, with a terminal there or without one, and nothing is run for a command.
login_by_ssh() {
    start_sshd || return 1
    mkfifo "$scene/back"
    # shellcheck disable=SC2094  # a pipe
    "$program" call - "$scene/spool/here" --me here --peer there <"$scene/back" 2>"$scene/here.err" |
        ssh "$1" -e none Uthere@there 2>"$scene/ssh.err" >"$scene/back" || true
    same "$caller_done" "$scene/here.err" && moved && same "$called_done" "$scene/log/logins.log" || return 1
    ! ssh -T Uthere@there id >"$scene/heard" 2>&1 && same "" "$scene/heard"
}

# uucico calls over a serial line, at which agetty has it log in.
login_by_getty() {
    local taylor=$scene/taylor
    make_users
    mkdir -p "$taylor"/{spool,public}
    cat >"$taylor/config" <<CONFIG
nodename here
spool $taylor/spool
pubdir $taylor/public
lockdir $taylor
logfile $taylor/log
statfile $taylor/stats
debugfile $taylor/debug
sysfile $taylor/sys
portfile $taylor/port
callfile $taylor/call
CONFIG
    cat >"$taylor/sys" <<SYS
system there
time any
port line
call-login *
call-password *
chat "" \\r\\c ogin: \\L ssword: \\P
protocol g
remote-receive ~
local-send ~
SYS
    echo "there Uthere secret" >"$taylor/call"
    printf 'port line\ntype direct\ndevice %s\nspeed 9600\ncarrier false\nhardflow false\n' "$scene/near" >"$taylor/port"
    cp "$scene/spool/here/send/from_here" "$taylor/public"
    chmod 777 "$taylor/public"
    chown -R uucp:uucp "$taylor"
    (cd / && runuser -u uucp -- uucp -I "$taylor/config" -r "$taylor/public/from_here" 'there!~/from_here')
    helper socat "PTY,link=$scene/near,raw,echo=0,mode=666" "PTY,link=$scene/far,mode=666"
    wait_until 5 test -e "$scene/near" && wait_until 5 test -e "$scene/far"
    in_other_system setsid agetty -L 9600 "$(readlink "$scene/far" | cut -c 6-)" vt100
    (cd / && runuser -u uucp -- /usr/sbin/uucico -q -I "$taylor/config" -D -f -s there) || return 1
    wait_until 5 test -s "$scene/log/logins.log" && same "$called_done" "$scene/log/logins.log" &&
        cmp -s "$scene/spool/here/send/from_here" "$scene/spool/there/got/from_here" &&
        cmp -s "$scene/spool/there/send/from_there" "$taylor/public/from_there"
}

# start_modem WORD [COMMAND..]: a device `modem`, at which a modem echoes what it is told, says the word, and connects to the
# command. Its lines end with `ends`.
start_modem() {
    cat >"$scene/modem.sh" <<MODEM
#!/bin/bash
IFS= read -r -d $'\r' told
echo "\$told" >>$scene/told
printf '%s\r$ends%s$ends' "\$told" '$1'
cd "$scene" && exec ${*:2}
MODEM
    chmod 755 "$scene/modem.sh"
    helper socat -t 5 "PTY,link=$scene/modem,raw,echo=0,mode=666" "EXEC:$scene/modem.sh"
    wait_until 5 test -e "$scene/modem"
}

ends='\r\n'

# dial [TEXT ANSWER]: calls over the modem, and sets `status`.
dial() {
    status=0
    "$scene/lib/dial.sh" "$scene/modem" 9600 "${1:-ATDT5551234}" "${2:-CONNECT}" "$scene/spool/here" here there --report "$scene/here.out" \
        2>"$scene/here.err" || status=$?
}

# dialed [TEXT]: whether the modem connected, all has moved, and the device is free.
dialed() {
    [ "$status" -eq 0 ] && moved && same "$caller_done" "$scene/here.out" && same "" "$scene/here.err" &&
        same "${1:-ATDT5551234}"$'\n' "$scene/told" && [ -z "$(ls -A "$scene/locks")" ]
}

# not_dialed TEXT: whether it did not, and says this.
not_dialed() {
    [ "$status" -eq 3 ] && same "dial.sh: $scene/modem: $1"$'\n' "$scene/here.err" &&
        same $'send from_here from_here there\n' "$scene/spool/here/jobs"
}

answers=(answer - spool/there --me there --peer here --report there.out)

by_modem() {
    start_modem "CONNECT 9600" "$program" "${answers[@]}"
    dial
    dialed
}

# Its lines end with a carriage return alone, and what it is told has a part of what it says.
by_tnc() {
    ends='\r' start_modem "*** CONNECTED to DB0ABC" "$program" "${answers[@]}"
    dial "CONNECT DB0ABC" "CONNECT"
    dialed "CONNECT DB0ABC"
}

# What holds the device is gone.
by_modem_of_the_dead() {
    local dead
    true &
    dead=$!
    wait "$dead"
    printf '%10d\n' "$dead" >"$scene/locks/LCK..modem"
    by_modem
}

engaged() {
    start_modem BUSY true
    dial
    not_dialed BUSY && [ -z "$(ls -A "$scene/locks")" ]
}

no_modem() {
    sed -i 's/^patience=.*/patience=2/' "$scene/lib/dial.sh"
    helper socat "PTY,link=$scene/modem,raw,echo=0,mode=666" "PTY,raw,echo=0"
    wait_until 5 test -e "$scene/modem"
    dial
    not_dialed "no connection" && [ -z "$(ls -A "$scene/locks")" ]
}

# Another program holds the device: nothing is written to it, and its lock stays.
modem_in_use() {
    printf '%10d\n' $$ >"$scene/locks/LCK..modem"
    start_modem "CONNECT 9600" true
    dial
    not_dialed "is in use" && [ ! -e "$scene/told" ] && same "$(printf '%10d' $$)"$'\n' "$scene/locks/LCK..modem"
}

tell "inetd" by_inetd
tell "inetd, behind 300 strangers" many_strangers
tell "inetd, without a log" without_log
tell "the units" units_verified
tell "a socket unit's service, and the service of a call" by_systemd
tell "a service that listens, with a stranger" listening
tell "cron" by_cron
tell "two calls of cron at once" cron_overlaps
tell "ssh-call.sh" by_ssh
tell "ssh-call.sh, where nobody listens" without_sshd
tell "a login over ssh, without a terminal" login_by_ssh -T
tell "a login over ssh, with a terminal" login_by_ssh -tt
tell "a login at a getty, by uucico" login_by_getty
tell "dial.sh" by_modem
tell "dial.sh, a TNC" by_tnc
tell "dial.sh, with a lock of a dead process" by_modem_of_the_dead
tell "dial.sh, engaged" engaged
tell "dial.sh, without a modem" no_modem
tell "dial.sh, a device in use" modem_in_use
echo "$well of $all scenes were well"
[ "$well" -eq "$all" ] || {
    echo "packaging.sh: see $work" >&2
    exit 1
}
rm -rf "$work"
