#!/bin/sh
# A login shell: who logs in as a user whose shell this is has called uucpair. The user's folder and names are a line of the
# table: USER DIR ME PEER [OPTION..]. The users may share one number, as those of uucico do. It takes no command. What it says
# goes to the log, since all that goes to a terminal goes to the caller.
PATH=/usr/bin:/bin
uucpair=/usr/bin/uucpair
table=/etc/uucpair/logins
log=/var/log/uucpair/logins.log

exec 2>/dev/null
exec 2>>"$log"
[ $# -eq 0 ] || exit 2
while read -r name dir me peer options <&3 || [ -n "$name" ]; do
    [ "$name" = "$LOGNAME" ] || continue
    [ ! -t 0 ] || stty raw -echo cs8 -parenb
    # shellcheck disable=SC2086  # each word is an option
    exec "$uucpair" answer - "$dir" --me "$me" --peer "$peer" $options 3<&-
done 3<"$table"
echo "login-shell.sh: $LOGNAME is not in $table" >&2
exit 2
