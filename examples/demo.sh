#!/usr/bin/env bash
# Shows in a minute what the program does, in a folder that it removes afterwards: `./uucpair demo`, or
# `examples/demo.sh PROGRAM`. Ends with status 1 where something did not go as it should.
set -eu
root=$(dirname "$(dirname "$(readlink -f "$0")")")
program=$(readlink -f "$1")
work=$(mktemp -d)
trap 'rm -rf "$work"' EXIT
cd "$work"

# new_end DIR FILE: a folder with a file of 20,000 bytes, and the job to send it.
new_end() {
    mkdir -p "$1/send" "$1/got"
    head -c 20000 /dev/urandom >"$1/send/$2"
    echo "send $2 $2 me" >"$1/jobs"
}

# arrived FROM FILE TO: whether the file has arrived whole, and its job is gone.
arrived() {
    cmp "$1/send/$2" "$3/got/$2" && [ ! -s "$1/jobs" ]
}

new_end a letter
new_end b answer
echo "Two folders exchange a file of 20,000 bytes each, over a line that loses every seventh packet:"
echo
"$program" pair line a b --drop-every 7 | sed 's/^/    /'
arrived a letter b
arrived b answer a
echo "    (both files arrived whole)"
echo
echo "A line that breaks in the middle of a file. What has come is held, and each session sends only the rest:"
echo
"$program" play --ladder "$root/examples/resumed.script" >ladder
{
    awk '/^event/ { is_on = 1 } is_on && /^session/ { exit } is_on' ladder | tail -n 8
    echo
    grep -E '^(session|caller sent)' ladder | head -n 6
} | sed 's/^/    /'
echo
echo "Proved: if the line repeats and reorders nothing, and no damaged packet passes its checksum, a job that left its queue"
echo "without failing has its file, complete, at the other end. docs/PROOFS.md has what else is proved, and what is not."
