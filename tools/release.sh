#!/usr/bin/env bash
# Makes what is given to others: uucpair-VERSION-x86_64-linux.tar.gz and a Debian package, each with the program, its man
# pages, and the documents, examples and files of packaging/ where their links look for each other. The package also installs
# what takes uucico's place, and uucpair-replace-uucico, which it undoes before it is removed.
#
#     tools/release.sh FOLDER [PROGRAM]
#
# They come into FOLDER. The program is the proved one, which is built first where that is needed; another PROGRAM is for
# trying. Two runs on one commit make the same bytes: the archive has the program as it was built, and the package has it
# without its symbols, as Debian wants it. The version is that of `uug_cli`. It needs git, and Debian's packages dpkg and
# binutils. MAINTAINER (the author of the commit) stands in the package.
set -eu
export LC_ALL=C
umask 022
root=$(dirname "$(dirname "$(readlink -f "$0")")")
documents=({README,CHANGELOG,CONTRIBUTING}.md docs examples packaging)

fail() {
    echo "release.sh: $*" >&2
    exit 1
}

# of_commit FORMAT: what git says of the commit.
of_commit() {
    git -C "$root" log -1 --format="$1"
}

# The version that the program has, from the constant that it prints.
version_of_sources() {
    sed -n 's/^pub const VERSION: &str = "\(.*\)";$/\1/p' "$root/crates/uug_cli/src/tools.rt"
}

# put_files FOLDER BASE PATH..: these of a folder of the repository, and all below them. Anybody may read them, and run what can
# be run.
put_files() {
    local file mode
    while read -r file; do
        mode=644
        [ ! -x "$2/$file" ] || mode=755
        install -Dm "$mode" "$2/$file" "$1/$file"
    done < <(git -C "$2" ls-files "${@:3}")
}

# as_of_commit FOLDER: everything below it is as old as the commit.
as_of_commit() {
    find "$1" -exec touch -hd "@$SOURCE_DATE_EPOCH" {} +
}

make_archive() {
    local top=$work/$name
    put_files "$top" "$root" "${documents[@]}"
    install -m 755 "$program" "$top/uucpair"
    tar -C "$work" --sort=name --mtime="@$SOURCE_DATE_EPOCH" --owner=0 --group=0 --numeric-owner --format=gnu -c "$name" |
        gzip -9n >"$folder/$name.tar.gz"
}

# The least C library that has all versions of symbols that the program names.
needed_libc() {
    grep -ao 'GLIBC_2\.[0-9]*' "$program" | sort -Vu | tail -n 1 | cut -d _ -f 2
}

write_control() {
    cat <<CONTROL
Package: uucpair
Version: $version
Architecture: amd64
Maintainer: $maintainer
Installed-Size: $(du -sk --apparent-size "$top/usr" | cut -f 1)
Depends: libc6 (>= $(needed_libc))
Suggests: uucp, python3, python3-serial, python3-pexpect
Section: comm
Priority: optional
Description: UUCP's g protocol: transfer, list and play sessions
 uucpair exchanges files with another system by UUCP's 'g' packet protocol
 over a socket or a serial line, queues jobs for that, moves files between
 two folders, lists the packets in a stream of bytes, and plays sessions of
 two ends over a line that corrupts, drops and breaks as a script tells it to.
 .
 The command uucpair-replace-uucico has it take the place of the package uucp's
 uucico, and give it back.
CONTROL
}

# What dpkg runs before it removes the package, or puts a newer one in its place.
write_prerm() {
    cat <<'PRERM'
#!/bin/sh
# No removal leaves a system without a uucico. An upgrade changes nothing.
set -e
[ "$1" != remove ] || uucpair-replace-uucico --undo
PRERM
}

# What Debian wants to know of a version, of the newest part of CHANGELOG.md.
write_debian_changelog() {
    echo "uucpair ($version) unstable; urgency=medium"
    echo
    awk '/^## / { parts++ } parts == 1 && sub(/^- /, "* ")' "$root/CHANGELOG.md" | fold -sw 74 |
        sed -e 's/ *$//' -e 's/^\* /  &/' -e '/^  \* /!s/^/    /'
    echo
    echo " -- $maintainer  $(date -uRd "@$SOURCE_DATE_EPOCH")"
}

write_copyright() {
    cat <<COPYRIGHT
uucpair, UUCP file transfer over the 'g' protocol.

Copyright: $(date -ud "@$SOURCE_DATE_EPOCH" +%Y) ${maintainer%% <*}

The sources name no license: ask the authors before you give copies away.
COPYRIGHT
}

make_package() {
    local top=$work/package
    local shared=$top/usr/share/doc/uucpair manual=$top/usr/share/man page
    put_files "$shared" "$root" "${documents[@]}"
    put_files "$top/usr/lib/uucpair" "$root/packaging" uucico uucp_site
    mkdir -p "$top"/usr/{bin,sbin} "$manual"/man{1,5,8} "$top/DEBIAN"
    install -m 755 "$program" "$top/usr/bin/uucpair"
    strip "$top/usr/bin/uucpair"
    install -m 755 "$root/packaging/replace-uucico.sh" "$top/usr/sbin/uucpair-replace-uucico"
    for page in "$root"/docs/*.[158]; do
        gzip -9n <"$page" >"$manual/man${page##*.}/${page##*/}.gz"
    done
    write_debian_changelog | gzip -9n >"$shared/changelog.gz"
    write_copyright >"$shared/copyright"
    write_control >"$top/DEBIAN/control"
    write_prerm >"$top/DEBIAN/prerm"
    chmod 755 "$top/DEBIAN/prerm"
    (cd "$top" && find usr -type f | sort | xargs md5sum) >"$top/DEBIAN/md5sums"
    as_of_commit "$top"
    dpkg-deb --root-owner-group -Zgzip -z9 -b "$top" "$folder/uucpair_${version}_amd64.deb" >/dev/null
}

[ $# -ge 1 ] || fail "FOLDER is missing"
for command in dpkg-deb strip; do
    command -v "$command" >/dev/null || fail "$command is missing: it is of Debian's packages dpkg and binutils"
done
version=$(version_of_sources)
[ -n "$version" ] || fail "there is no version in crates/uug_cli/src/tools.rt"
if [ $# -ge 2 ]; then
    program=$(readlink -f "$2")
else
    program=$root/crates/uucpair/out/uucpair
    git -C "$root" diff --quiet HEAD || fail "there are changes that are not committed"
    [ "$("$root/uucpair" --version)" = "uucpair $version" ] || fail "the program has another version than the sources"
fi
mkdir -p "$1"
folder=$(readlink -f "$1")
SOURCE_DATE_EPOCH=$(of_commit %ct)
export SOURCE_DATE_EPOCH
maintainer=${MAINTAINER:-$(of_commit '%an <%ae>')}
name=uucpair-$version-x86_64-linux
work=$(mktemp -d)
trap 'rm -rf "$work"' EXIT
make_archive
make_package
echo "$folder/$name.tar.gz"
echo "$folder/uucpair_${version}_amd64.deb"
