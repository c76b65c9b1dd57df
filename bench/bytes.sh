#!/usr/bin/env bash
# Computes how many bytes go over a clean line, in both directions, where one end sends a MiB in files of 100 bytes: the
# data packets of each job, and an RR to each of them. `announced` is with each message in a field of the size that the
# other end announced, `smallest` with each in the smallest field that holds it, as the program sends them. Commands and
# answers are filled up with zeros there.
#
# No digests are told (`--no-digest`): one costs 86 bytes of its command.
#
# A second table is of five mails of 1,500 bytes, each a file D. with the mail and a file X. that says what to do with it:
# `filled` with commands and answers filled up (`--fill-commands`), `short` with those that end with their zero byte.
#
#   bench/bytes.sh
set -eu
export LC_ALL=C

awk '
# The smallest field that holds so many bytes.
function smallest(len, field) {
    for (field = 32; field < len; field *= 2) {
    }
    return field
}

# A message, and its answer.
function add(len, size) {
    announced += 6 + size + 6
    smaller += 6 + smallest(len) + 6
}

# A command or an answer: its text and one zero byte, filled up with zeros, or short.
function add_text(len, size, short) {
    for (len += 1; len > 0; len -= size)
        add(short && len < size ? len : size, size)
}

# A file, and the empty message behind it.
function add_file(len, size) {
    for (; len > 0; len -= size)
        add(len < size ? len : size, size)
    add(0, size)
}

# A job that sends a file.
function add_job(command, len, size, short) {
    add_text(length(command), size, short)
    add_text(length("SY"), size, short)
    add_file(len, size)
    add_text(length("CY"), size, short)
}

# Five mails, as bytes on the line.
function mails(size, short) {
    smaller = 0
    add_job("S D.0001 D.oursN0001 uucp - D.0 0644", 1500, size, short)
    add_job("S D.X0001 X.oursN0001 uucp - D.0 0644",
        length("U uucp ours\nF D.oursN0001\nI D.oursN0001\nC rmail bob\n"), size, short)
    return 5 * smaller
}

BEGIN {
    files = int((1024 * 1024 + 99) / 100)
    print " size    announced     smallest"
    for (size = 64; size <= 4096; size *= size < 1024 ? 16 : 4) {
        announced = smaller = 0
        add_job("S x00000 x00000 u - D.0 0644", 100, size, 0)
        printf "%5d %12d %12d\n", size, files * announced, files * smaller
    }
    print "\n size       filled        short"
    for (size = 64; size <= 4096; size *= size < 1024 ? 16 : 4)
        printf "%5d %12d %12d\n", size, mails(size, 0), mails(size, 1)
}'
