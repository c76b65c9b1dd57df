#!/usr/bin/env bash
# What tools/release.sh makes: two runs make the same bytes, `lintian` finds no error, the archive runs where it is unpacked,
# and the package is installed into a root of its own, used there, and removed without a trace. In both all of packaging/ is
# there, and no link of a document is broken. uucpair-replace-uucico does there what it says, also after a kill.
#
#   tests/release.sh [PROGRAM]
#
# The root has the C library of this machine, the commands that uucpair-replace-uucico runs, and stand-ins for Python and for
# Debian's package uucp. It prints a line for each part, and ends with status 1 where one fails. It needs lintian, and root or a
# kernel that lets a user be root in a namespace.
. "$(dirname "$(readlink -f "$0")")/common.sh"
find_program "${1:-}"
new_passing_work
clean=$work/root
place=/usr/lib/uucp/uucico
python=/usr/bin/python3
# What stands for Python, which has all modules.
# shellcheck disable=SC2016  # the script there expands it
echoes='[ "$2" = -c ] || echo "python3 $*"'
failed=0
as_root=()
[ "$(id -u)" -eq 0 ] || as_root=(unshare -r)

# part NAME COMMAND..: runs a part, and says how it went.
part() {
    local how=well
    if ! "${@:2}" >"$work/out" 2>&1; then
        how=WRONG
        failed=1
    fi
    echo "$1: $how"
    [ "$how" = well ] || cat "$work/out"
}

# The second run is another day, at another place, with other habits.
same_bytes() {
    "$root/tools/release.sh" "$work/one" "$program"
    (umask 077 && cd / && TZ=Asia/Tokyo LC_ALL=C.UTF-8 "$root/tools/release.sh" "$work/two" "$program")
    diff -r "$work/one" "$work/two"
}

no_errors() {
    lintian --allow-root --fail-on error "$package"
}

# plays FOLDER COMMAND..: each example in the folder has its report.
plays() {
    local script
    for script in "$1"/*.script; do
        "${@:2}" play <"$script" | cmp - "${script%.script}.report" || return 1
    done
}

# is_whole FOLDER: the files of packaging/ are in it, and each link of its documents to a file leads to one.
is_whole() {
    local link broken=0
    diff -r "$root/packaging" "$1/packaging" || broken=1
    while read -r link; do
        [ -e "${link%/*:*}/${link#*:](}" ] || {
            echo "$link"
            broken=1
        }
    done < <(find "$1" -name '*.md' -exec grep -Ho ']([^)#]\+' {} + | grep -v '](https\?:')
    [ "$broken" -eq 0 ]
}

archive_runs() {
    tar -C "$work" -xzf "$work"/one/*.tar.gz
    [ "$("$work/$name/uucpair" --version)" = "uucpair $version" ] &&
        [ -z "$(man --warnings -l "$work/$name"/docs/*.[158] 2>&1 >/dev/null)" ] &&
        plays "$work/$name/examples" "$work/$name/uucpair"
}

# put_there FILE..: files of this machine, and the libraries of those that are programs.
put_there() {
    local file
    for file in "$@" $(ldd "$@" | grep -o '/[^ ]*[^: ]'); do
        [ "$file" = "$program" ] || install -D "$file" "$clean$file"
    done
}

# stand_in PATH TEXT: a script there, in the place of a command.
stand_in() {
    printf '#!/bin/sh\n%s\n' "$2" >"$clean$1"
    chmod 755 "$clean$1"
}

# A root that has a dpkg, the C library of this machine, and what uucpair-replace-uucico runs.
make_root() {
    local folder
    mkdir -p "$clean/var/lib/dpkg"/{info,updates} "$clean"/{dev,tmp,usr/{bin,lib,lib64}}
    touch "$clean/var/lib/dpkg"/{status,available} "$clean/dev/null"
    for folder in bin lib lib64; do
        ln -s "usr/$folder" "$clean/$folder"
    done
    put_there "$program" /bin/sh /usr/bin/{dpkg-divert,find,id,readlink} /bin/{ln,mv,rm,rmdir}
    stand_in "$python" "$echoes"
    find "$clean" ! -path '*/var/lib/dpkg*' | sort >"$work/before"
}

# What dpkg does there, with a C library that it does not know of.
dpkg_there() {
    "${as_root[@]}" dpkg --root="$clean" --force-not-root --ignore-depends=libc6 --log=/dev/null "$@"
}

there() {
    "${as_root[@]}" chroot "$clean" "$@"
}

program_there() {
    there /usr/bin/uucpair "$@"
}

is_used() {
    local a=$clean/tmp/a b=$clean/tmp/b
    mkdir -p "$a/send" "$b/got"
    echo hello >"$a/send/x"
    echo "send x y me" >"$a/jobs"
    [ "$(program_there --version)" = "uucpair $version" ] &&
        plays "$clean/usr/share/doc/uucpair/examples" program_there &&
        program_there pair /tmp/line /tmp/a /tmp/b --drop-every 7 &&
        cmp "$a/send/x" "$b/got/y" && [ ! -s "$a/jobs" ]
}

# has_uucico: what takes uucico's place is as it is in packaging/, each may read it, and nothing has replaced uucico yet.
has_uucico() {
    local lib=$clean/usr/lib/uucpair
    cmp "$root/packaging/uucico" "$lib/uucico" && diff -r "$root/packaging/uucp_site" "$lib/uucp_site" &&
        cmp "$root/packaging/replace-uucico.sh" "$clean/usr/sbin/uucpair-replace-uucico" &&
        [ -z "$(find "$lib/uucico" "$clean/usr/sbin/uucpair-replace-uucico" ! -perm 755)" ] &&
        [ -z "$(find "$lib/uucp_site" -type f ! -perm 644)" ] && [ ! -e "$clean$place" ]
}

# make_uucp VERSION: a package like Debian's uucp. Its uucico, which is set-uid, prints the version.
make_uucp() {
    local top=$work/uucp.$1
    mkdir -p "$top"/{DEBIAN,usr/{lib/uucp,sbin}}
    printf '#!/bin/sh\necho taylor %s\n' "$1" >"$top$place"
    chmod 6755 "$top$place"
    ln -s ../lib/uucp/uucico "$top/usr/sbin/uucico"
    printf '%s\n' "Package: uucp" "Version: $1" "Architecture: all" "Maintainer: Nobody <nobody@localhost>" \
        "Description: a stand-in" >"$top/DEBIAN/control"
    dpkg-deb --root-owner-group -b "$top" "$work/uucp.$1.deb" >/dev/null
}

replace() {
    there /usr/sbin/uucpair-replace-uucico "$@"
}

# is_taylors_at PATH VERSION: Taylor UUCP's uucico is there, with its mode.
is_taylors_at() {
    [ "$(there "$1")" = "taylor $2" ] && [ "$(stat -c %a "$clean$1")" = 6755 ]
}

# is_taylors VERSION: uucico is that of the package, and nothing is left of ours.
is_taylors() {
    is_taylors_at "$place" "$1" && [ "$(ls "$clean${place%/*}")" = uucico ] && [ -z "$(dpkg-divert --root="$clean" --list)" ]
}

# is_replaced VERSION: uucico is ours, and that of the package is beside it.
is_replaced() {
    [ "$(there /usr/sbin/uucico --check)" = "python3 -I /usr/sbin/uucico --check" ] &&
        [ "$(readlink "$clean$place")" = /usr/lib/uucpair/uucico ] && is_taylors_at "$place.taylor" "$1" &&
        [ "$(dpkg-divert --root="$clean" --listpackage "$place")" = uucpair ]
}

# refuses WORDS [OPTION]: it says this on standard error, and nothing else anywhere, with status 1.
refuses() {
    local status=0
    replace "${@:2}" >"$work/said" 2>"$work/refused" || status=$?
    [ "$status" -eq 1 ] && [ ! -s "$work/said" ] && [ "$(wc -l <"$work/refused")" -eq 1 ] && grep -F "$1" "$work/refused"
}

# Where it can't be done, it says what to do, and changes nothing.
refusals() {
    local option
    refuses "apt-get install uucp" && [ ! -e "$clean${place%/*}" ] && dpkg_there -i "$work/uucp.1.deb" || return 1
    stand_in "$python" 'exit 1'
    refuses "apt-get install python3-serial python3-pexpect" && is_taylors 1 || return 1
    stand_in "$python" "$echoes"
    cp "$clean$place" "$clean$place.taylor"
    refuses "move it" && rm "$clean$place.taylor" && is_taylors 1 || return 1
    mv "$clean/usr/bin/id" "$work/id"
    stand_in /usr/bin/id 'echo 1000'
    for option in "" --undo; do
        refuses sudo ${option:+"$option"} && is_taylors 1 || return 1
    done
    mv "$work/id" "$clean/usr/bin/id"
    there /usr/bin/dpkg-divert --rename --divert "$place.taylor" "$place" && cp "$clean$place.taylor" "$clean$place" &&
        refuses "rm -r $place" && replace --undo && [ -f "$clean$place" ] && rm "$clean$place" &&
        there /usr/bin/dpkg-divert --rename --remove "$place" && is_taylors 1
}

# says TEXT [OPTION]: it does its work, and says this in one line.
says() {
    replace "${@:2}" >"$work/said" 2>&1 && cat "$work/said" && echo "uucpair-replace-uucico: $place $1" | cmp - "$work/said"
}

there_and_back() {
    local received=$clean/var/spool/uucp/.Received/beta
    says "is not uucpair's" --undo && is_taylors 1 &&
        says "is uucpair's now, and Taylor UUCP's is $place.taylor" && is_replaced 1 &&
        says "is uucpair's already" && is_replaced 1 &&
        says "is Taylor UUCP's again" --undo && is_taylors 1 &&
        says "is not uucpair's" --undo && is_taylors 1 || return 1
    mkdir -p "$received" && touch "$received/D.1" && replace || return 1
    replace --undo 2>&1 >/dev/null | grep 'empty /var/spool/uucp/.Received' && rm -r "$clean/var/spool" && is_taylors 1
}

# An upgrade of either package changes nothing, and what comes back is the newer one.
upgrades() {
    replace && dpkg_there -i "$package" && is_replaced 1 && dpkg_there -i "$work/uucp.2.deb" && is_replaced 2 &&
        replace --undo && is_taylors 2
}

# killed_before STEP [--undo]: a run that is killed before this one of the lines that change something.
killed_before() {
    awk -v step="$1" '/^ *(\[.*\|\| )?(dpkg-divert --quiet|ln|mv|rm|rmdir) / && ++steps == step { print "kill -KILL $$" } { print }' \
        "$clean/usr/sbin/uucpair-replace-uucico" >"$clean/tmp/killed"
    there /bin/sh /tmp/killed "${@:2}"
}

# A run is killed at each step, and completed by the next one, of either kind. Meanwhile there is a uucico.
kills() {
    local step first second killed=0
    for step in {1..9}; do
        for first in "" --undo; do
            for second in "" --undo; do
                if [ -n "$first" ]; then replace; else replace --undo; fi
                killed_before "$step" ${first:+"$first"} || killed=$((killed + 1))
                there /usr/sbin/uucico | grep -x 'taylor 2\|python3 -I /usr/sbin/uucico' && replace ${second:+"$second"} || return 1
                if [ -n "$second" ]; then is_taylors 2; else is_replaced 2; fi || return 1
            done
        done
    done
    echo "$killed were killed"
    [ "$killed" -eq 10 ]
}

# After a kill dpkg puts a newer one beside the place.
upgrade_after_kill() {
    replace --undo
    ! killed_before 2 && dpkg_there -i "$work/uucp.1.deb" && is_taylors_at "$place" 2 && replace && is_replaced 1 &&
        replace --undo && is_taylors 1
}

# put_back: the package is removed, which puts Taylor UUCP's back.
put_back() {
    replace && is_replaced 1 && dpkg_there --remove uucpair && is_taylors 1
}

# Taylor UUCP is removed first.
without_taylor() {
    dpkg_there -i "$package" && replace && dpkg_there --purge uucp && [ -L "$clean$place" ] && refuses "apt-get install uucp" &&
        dpkg_there --purge uucpair && [ ! -e "$clean${place%/*}" ]
}

leaves_no_trace() {
    rm -rf "$clean"/tmp/*
    [ -z "$(dpkg-divert --root="$clean" --list)" ] &&
        find "$clean" ! -path '*/var/lib/dpkg*' | sort | diff "$work/before" -
}

part "two runs make the same bytes" same_bytes
package=$(echo "$work"/one/*.deb)
name=$(basename "$work"/one/*.tar.gz .tar.gz)
version=${name#uucpair-}
version=${version%%-*}
part "lintian" no_errors
part "the archive" archive_runs
part "its documents" is_whole "$work/$name"
make_root
part "installed" dpkg_there -i "$package"
part "its documents there" is_whole "$clean/usr/share/doc/uucpair"
part "used" is_used
part "what takes uucico's place" has_uucico
make_uucp 1
make_uucp 2
part "uucico, refused" refusals
part "uucico, replaced and put back" there_and_back
part "uucico, upgrades" upgrades
part "uucico, kills" kills
part "uucico, an upgrade after a kill" upgrade_after_kill
part "removed, which puts uucico back" put_back
part "removed, after Taylor UUCP" without_taylor
part "nothing is left" leaves_no_trace
[ "$failed" -eq 0 ]
