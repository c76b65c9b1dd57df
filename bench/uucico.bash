# Two `uucico` of Taylor UUCP, joined by two pipes or by a Unix socket, for the scripts that measure beside them (Debian's
# package `uucp`, which is to be installed). Of the script that reads this: `bench`, the folder of this one, `work`, the folder
# with the files file0, file1 .. of 1 MiB, and `fail`.
# shellcheck shell=bash disable=SC2154

uucico=$(PATH=$PATH:/usr/sbin:/usr/lib/uucp command -v uucico || true)

# uucico_end ME OTHER SIZE: the files of one end. It runs as a user of its own, so all may write there.
uucico_end() {
    local here=$work/uucp/$1
    mkdir -p "$here"/{spool,public}
    {
        echo "nodename $1"
        echo "spool $here/spool"
        echo "lockdir $here"
        echo "pubdir $here/public"
        echo "logfile $here/log"
        echo "statfile $here/stats"
        echo "debugfile $here/debug"
        echo "sysfile $here/sys"
        echo "portfile $here/port"
    } >"$here/config"
    {
        echo "system $2"
        echo "time any"
        echo "port line"
        echo 'chat ""'
        echo "protocol g"
        echo "protocol-parameter g window 7"
        echo "protocol-parameter g packet-size $3"
        echo "local-send /"
        echo "remote-receive /"
    } >"$here/sys"
    printf 'port line\ntype stdin\n' >"$here/port"
}

# new_uucico SIZE FILES: two ends, of which one has queued so many files for the other; packets of this size, a window of seven.
new_uucico() {
    local i
    rm -rf "$work/uucp"
    mkdir -p "$work/uucp"
    uucico_end a b "$1"
    uucico_end b a "$1"
    mkfifo "$work/uucp/there" "$work/uucp/back"
    chmod -R a+rwX "$work/uucp"
    for ((i = 0; i < $2; i++)); do
        uucp -I "$work/uucp/a/config" -r -C "$work/file$i" "b!$work/uucp/b/public/" || fail "uucp failed"
    done
}

# check_uucico SIZE FILES: that is what was negotiated, and each file came as it is.
check_uucico() {
    grep -q "packet/window $1/7" "$work/uucp/a/log" || fail "other packets: $(cat "$work/uucp/a/log")"
    check_files "$2" "$work/uucp/b/public"
}

# run_uucico SIZE FILES: one end sends the other so many files over two pipes; the time of both is added to uucico.times.
run_uucico() {
    local there=$work/uucp/there back=$work/uucp/back TIMEFORMAT='%R %U %S'
    new_uucico "$1" "$2"
    {
        time {
            "$uucico" -q -D -I "$work/uucp/b/config" <"$there" >"$back" 2>"$work/uucp/errors" &
            "$uucico" -q -D -I "$work/uucp/a/config" -S b >"$there" <"$back" 2>>"$work/uucp/errors" || true
            wait
        }
    } 2>>"$work/uucico.times"
    check_uucico "$1" "$2"
}

# run_uucico_at_socket SIZE FILES: the same over a Unix socket; the time is added to uucico_at_socket.times.
run_uucico_at_socket() {
    new_uucico "$1" "$2"
    python3 "$bench/joined.py" "$uucico" -q -D -I "$work/uucp/b/config" -- \
        "$uucico" -q -D -I "$work/uucp/a/config" -S b >>"$work/uucico_at_socket.times" 2>"$work/uucp/errors"
    check_uucico "$1" "$2"
}

# check_files FILES FOLDER: all are there, as they are.
check_files() {
    local i
    for ((i = 0; i < $1; i++)); do
        cmp "$work/file$i" "$2/file$i" || fail "file$i is another"
    done
}

# median_of COLUMNS FILE: that of the sums, and in brackets the least and the greatest.
median_of() {
    awk -v columns="$1" '{ print columns == "cpu" ? $2 + $3 : $1 }' "$2" | sort -n |
        awk '{ all[NR] = $1 } END { printf "%.3f (%.3f-%.3f)", all[int((NR + 1) / 2)], all[1], all[NR] }'
}
