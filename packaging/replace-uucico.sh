#!/bin/sh
# replace-uucico.sh [--undo]: puts uucpair's uucico in the place of that of Debian's package uucp, or, with --undo, takes it away
# again. The package of uucpair has it as uucpair-replace-uucico, and undoes it when it is removed.
#
# dpkg puts Taylor UUCP's uucico, and each newer one, beside that place, as uucico.taylor. There is a uucico at each moment, and a
# run that was killed is completed by the next one, of either kind.
set -eu
export LC_ALL=C PATH=/usr/sbin:/usr/bin:/sbin:/bin
# As a script of a package this has a name for its diversions, which is not that of a diversion by hand.
unset DPKG_MAINTSCRIPT_PACKAGE
ours=/usr/lib/uucpair/uucico
place=/usr/lib/uucp/uucico
received=/var/spool/uucp/.Received

say() {
    echo "uucpair-replace-uucico: $*"
}

fail() {
    say "$*" >&2
    exit 1
}

# is_ours: whether the place leads to uucpair's.
is_ours() {
    [ "$(readlink "$place")" = "$ours" ]
}

# may_replace: says what to do where it may not.
may_replace() {
    case $diverter in
    uucpair) ;;
    '') [ ! -e "$theirs" ] || fail "$theirs is in the way: move it to another folder" ;;
    LOCAL) fail "$place was replaced by hand: rm -r $place ${place%/*}/uucp_site; dpkg-divert --rename --remove $place" ;;
    *) fail "the package $diverter has replaced $place: remove it" ;;
    esac
    [ -x "$ours" ] || fail "there is no $ours: install uucpair's package"
    [ -e "$theirs" ] || { [ -e "$place" ] && ! is_ours; } || fail "there is no uucico of Taylor UUCP: apt-get install uucp"
    /usr/bin/python3 -I -c 'import pexpect, serial' 2>/dev/null ||
        fail "Python lacks modules: apt-get install python3-serial python3-pexpect"
}

replace() {
    may_replace
    if [ "$diverter" = uucpair ] && is_ours; then
        say "$place is uucpair's already"
        return
    fi
    dpkg-divert --quiet --package uucpair --no-rename --divert "$theirs" --add "$place"
    [ -e "$theirs" ] || ln "$place" "$theirs"
    ln -sfT "$ours" "$place"
    say "$place is uucpair's now, and Taylor UUCP's is $theirs"
}

undo() {
    if [ "$diverter" != uucpair ] && ! is_ours; then
        say "$place is not uucpair's"
        return
    fi
    # shellcheck disable=SC3013  # Debian's sh has -ef
    if [ "$theirs" -ef "$place" ]; then
        rm "$theirs"
    elif [ -e "$theirs" ]; then
        mv -fT "$theirs" "$place"
    elif is_ours; then
        rm "$place"
        rmdir --ignore-fail-on-non-empty "${place%/*}"
    fi
    dpkg-divert --quiet --no-rename --remove "$place"
    if [ ! -e "$place" ]; then
        say "there is no $place any more, as Taylor UUCP was removed"
        return
    fi
    say "$place is Taylor UUCP's again"
    [ -z "$(find "$received" -type f 2>/dev/null)" ] ||
        say "empty $received when all sessions have ended well: uucico drops files whose names are there" >&2
}

case $* in
'') task=replace ;;
--undo) task=undo ;;
*)
    say "give no word, or --undo" >&2
    exit 2
    ;;
esac
[ "$(id -u)" -eq 0 ] || fail "only root may do this: use sudo"
diverter=$(dpkg-divert --listpackage "$place")
theirs=$place.taylor
[ -z "$diverter" ] || theirs=$(dpkg-divert --truename "$place")
"$task"
