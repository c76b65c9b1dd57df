#!/usr/bin/env bash
# The lines of README that put the program in uucico's place on Debian, with the package that tools/release.sh makes, in a root that
# `debootstrap` makes anew. Then mail goes both ways: a user of that machine, who is not uucp, queues one for beta by `uux`, which
# has it sent at once; and beta's uucico calls the machine. Beta is Debian's package here, with its own settings. In the end uucico
# is put back. Needs root, and Debian's packages (apt-get install debootstrap uucp socat binutils). Run by hand:
#     interop/debian.sh [PROGRAM]
# PROGRAM is crates/uucpair/out/uucpair where none is named; libraries that it needs come with it. BASE is a folder with the root,
# which is made where it is missing; MIRROR (http://deb.debian.org/debian) and SUITE (stable) are for that. It ends with status 1
# where a part fails.
set -u
root=$(cd "$(dirname "$0")/.." && pwd)
. "$root/interop/common.sh"
. "$root/interop/nodes.sh"
program=${1:-$root/crates/uucpair/out/uucpair}
work=$(mktemp -d)
chmod 755 "$work"
base=${BASE:-$work/base}
machine=$work/machine
started=()
failed=0
clean_up() {
    end_all "${started[@]}"
    umount -q "$machine/proc" "$machine/dev" 2>/dev/null
    rm -rf --one-file-system "$work"
}
trap clean_up EXIT

# part NAME COMMAND..: says whether it went well
part() {
    if "${@:2}" >"$work/said" 2>&1; then
        echo "$1: well"
    else
        echo "$1: WRONG"
        cat "$work/said"
        failed=1
    fi
}

# there WORD..: runs a command on the machine
there() {
    chroot "$machine" /usr/bin/env -i PATH=/usr/sbin:/usr/bin:/sbin:/bin "$@"
}

make_machine() {
    local library
    if [ ! -d "$base" ]; then
        debootstrap --variant=minbase --include=socat "${SUITE:-stable}" "$base.part" "${MIRROR:-http://deb.debian.org/debian}" &&
            mv "$base.part" "$base" || return 1
    fi
    cp -a "$base" "$machine" && mount -t proc proc "$machine/proc" && mount --bind /dev "$machine/dev" || return 1
    for library in $(ldd "$program" | grep -o '/[^ ]*'); do
        [ -e "$machine$library" ] || install -D "$library" "$machine$library"
    done
    "$root/tools/release.sh" "$machine/tmp" "$program" && there useradd joe
}

# lines_of_readme: those of the section, but the last two, which queue a mail and look at what became of it
lines_of_readme() {
    awk '/^## In uucico/ { here = 1 } here && /^```/ { inside = !inside; next } here && inside { print } here && !inside && /^## The/ { exit }' \
        "$root/README.md" | grep -v '^echo hello\|^uustat'
}

put_in_place() {
    lines_of_readme | sed "s/address beta.example/address 127.0.0.1\\\\nport service $port/; s/^apt-get/& -y/" >"$machine/tmp/lines"
    there env DEBIAN_FRONTEND=noninteractive bash -ec 'cd /tmp; . ./lines' || return 1
    me=$(there uuname -l)
    stand_in
}

# stand_in: mail is not delivered there, but kept
stand_in() {
    local path
    for path in bin sbin; do
        rm -f "$machine/usr/$path/rmail"
        printf '#!/bin/sh\ncat >>/var/spool/uucppublic/mails\n' >"$machine/usr/$path/rmail"
        chmod 755 "$machine/usr/$path/rmail"
    done
}

# of_root: what root calls belongs to uucp, whom a file of root's would stop. Nobody answers yet.
of_root() {
    ! there uucico -D -r1 -s beta && there grep 'Connection refused' /var/log/uucp/Log || return 1
    [ -z "$(find "$machine"/var/{spool,log}/uucp -user root)" ] && rm "$machine/var/spool/uucp/.Status/beta"
}

# make_beta: the other system, which `uucico` serves at the port
make_beta() {
    node beta
    sed -i "s/^system .*/system $me/; s/^port .*/port gate/" "$work/beta/sys"
    sed -i "s|UNIX-CONNECT:.*|TCP:127.0.0.1:$back|" "$work/beta/port"
    seq 500 | as_uucp uux -I "$work/beta/config" -r -n -z - "$me!rmail" "(joe@$me)"
    (cd / && exec socat "TCP-LISTEN:$port,reuseaddr,fork" "EXEC:runuser -u uucp -- /usr/sbin/uucico -q -I $work/beta/config") \
        2>>"$work/socat.err" &
    started+=($!)
}

# until_there FILE LINES: waits until a file has so many lines
until_there() {
    local i
    for ((i = 0; i < 300; i++)); do
        [ "$(wc -l <"$1" 2>/dev/null)" = "$2" ] && return 0
        sleep 0.1
    done
    echo "$1 has $(wc -l <"$1") lines in place of $2"
    tail -n 20 "$machine"/var/log/uucp/* "$work/beta/log/Log"
    return 1
}

# of_joe: he queues a mail, and what waits at beta comes back in the same session
of_joe() {
    seq 300 | there setpriv --reuid=joe --regid=joe --clear-groups uux - 'beta!rmail' '(you@beta)' || return 1
    for ((i = 0; i < 300; i++)); do
        run_uuxqt beta
        [ ! -s "$work/beta/mails" ] || break
        sleep 0.1
    done
    until_there "$work/beta/mails" 300 && until_there "$machine/var/spool/uucppublic/mails" 500
}

what_it_says() {
    local i
    for ((i = 0; i < 50; i++)); do
        there uustat -m | grep '^beta .*Conversation complete' && break
        sleep 0.1
    done
    [ "$i" -lt 50 ] && [ -z "$(there uustat -a)" ] && there uulog -s beta | grep 'Call complete'
}

# not_his: joe can't have the wrapper run a program of his own
not_his() {
    printf '#!/bin/sh\nid >/tmp/his\n' >"$machine/tmp/evil"
    chmod 755 "$machine/tmp/evil"
    mkdir "$machine/tmp/evil.d"
    echo 'import os; os.system("id >/tmp/his")' | tee "$machine/tmp/evil.d"/{serial,getopt}.py >"$machine/tmp/evil.d/pexpect.py"
    echo x | there setpriv --reuid=joe --regid=joe --clear-groups env PYTHONPATH=/tmp/evil.d BASH_ENV=/tmp/evil PATH=/tmp:/usr/bin:/bin \
        uux - 'beta!rmail' '(you@beta)' || return 1
    for ((i = 0; i < 300; i++)); do
        run_uuxqt beta
        [ "$(wc -l <"$work/beta/mails")" -lt 301 ] || break
        sleep 0.1
    done
    [ ! -e "$machine/tmp/his" ] && until_there "$work/beta/mails" 301
}

# called: beta calls the machine, where socat stands for inetd
called() {
    seq 700 | as_uucp uux -I "$work/beta/config" -r -n -z - "$me!rmail" "(joe@$me)" || return 1
    there setpriv --reuid=uucp --regid=uucp --clear-groups socat "TCP-LISTEN:$back,reuseaddr" EXEC:/usr/sbin/uucico,stderr &
    started+=($!)
    sleep 1
    (cd / && as_uucp /usr/sbin/uucico -q -D -f -I "$work/beta/config" -S "$me") || return 1
    until_there "$machine/var/spool/uucppublic/mails" 1200
}

put_back() {
    there uucpair-replace-uucico --undo && there uucico --version | grep 'Taylor UUCP' && is_as_packaged || return 1
    there uucpair-replace-uucico && there uucico --version | grep uucpair || return 1
    there apt-get -y remove uucpair && there uucico --version | grep 'Taylor UUCP' && is_as_packaged
}

# is_as_packaged: nothing of the package uucp has changed
is_as_packaged() {
    [ -z "$(there dpkg --verify uucp)" ] && [ "$(there stat -c '%a %U' /usr/lib/uucp/uucico)" = '6755 uucp' ]
}

port=$((20000 + RANDOM % 20000))
back=$((port + 1))
part "a fresh root" make_machine
part "the lines of README" put_in_place
part "a call of root" of_root
make_beta
part "mail of a user, and mail for one" of_joe
part "what the programs of the package say" what_it_says
part "a user's environment is not heard" not_his
part "a call from the other system" called
part "uucico is back" put_back
[ "$failed" = 0 ]
