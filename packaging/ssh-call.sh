#!/bin/sh
# ssh-call.sh HOST DIR ME PEER [OPTION..]: calls over ssh. The other machine has in ~/.ssh/authorized_keys, on one line,
#
#     restrict,command="/usr/bin/uucpair answer - /var/spool/uucpair/there --me there --peer here" ssh-ed25519 ..
#
# so that this key can do nothing else there. What either end says comes to standard error here. The status is that of the
# call: 1 where there was no connection, of which ssh says why.
uucpair=/usr/bin/uucpair

host=$1 dir=$2 me=$3 peer=$4
shift 4
folder=$(mktemp -d) || exit 3
trap 'rm -rf "$folder"' EXIT
trap 'exit 3' HUP INT TERM
back=$folder/back
status=3
mkfifo "$back" || exit 3
# No terminal, no character that ends the connection, and nobody who is asked for a password.
# shellcheck disable=SC2094  # a pipe is read and written at once
{
    exec 3<"$back"
    "$uucpair" call - "$dir" --me "$me" --peer "$peer" "$@" <&3 3<&-
    echo $? >"$folder/status"
    # Without a reader ssh would end before it has said what the other end says.
    exec >&-
    cat <&3 >/dev/null
} | ssh -T -e none -o BatchMode=yes "$host" >"$back"
read -r status <"$folder/status"
exit "$status"
