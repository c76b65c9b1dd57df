#!/usr/bin/env python3
"""How many changes of one byte of a packet's field its checksum lets pass.

    changes.py [PROGRAM]

For each size of a field, with random bytes and with text, each byte of some fields is changed to each of its 255 other
values, and of more fields the first byte alone. `uucpair scan` lists what is a packet all the same: it checks fields by
`check` of `uug_packet`. Prints how many per cent of the changes of the first byte pass, one of how many of the others,
and so one of how many where any byte of the field is garbled. The fields follow from a seed, so the figures are the
same each time; it takes some minutes.
"""
import os
import random
import subprocess
import sys

ROOT = os.path.dirname(os.path.dirname(os.path.abspath(__file__)))
sys.path.insert(0, os.path.join(ROOT, "interop"))
from relay import checksum  # noqa: E402

SIZES = [32, 64, 128, 256, 512, 1024, 2048, 4096]
# So many fields of a size have each of their bytes changed, and so many the first alone.
FIELDS = {32: 128, 64: 64, 128: 32, 256: 16, 512: 8, 1024: 4, 2048: 2, 4096: 1}
FIRST_FIELDS = 1_024
SEED = 1
WORDS = (
    "the a of to and in that line file call mail from by is it was for on with as at be this have or not had but what "
    "Date: From: To: Subject: Received: which were are you one all there would their we him been has when who will"
).split()


def header(size, field):
    """The header of the data packet with the number 1, which acknowledges none."""
    size_code = size.bit_length() - 5
    control = 0x88
    number = (0xAAAA - (checksum(field) ^ control)) & 0xFFFF
    low, high = number & 0xFF, number >> 8
    return bytes([0x10, size_code, low, high, control, size_code ^ low ^ high ^ control])


def random_field(source, size):
    return source.randbytes(size)


def text_field(source, size):
    text = ""
    while len(text) < size:
        text += source.choice(WORDS) + source.choice([" ", " ", " ", " ", " ", "\n"])
    return text[:size].encode()


def changes(field, place):
    """The field with this byte changed to each other value."""
    front, back = field[:place], field[place + 1 :]
    return [front + bytes([value]) + back for value in range(256) if value != field[place]]


def passing(program, size, fields):
    """How many of these changed fields stand behind a header that takes them for its own."""
    with subprocess.Popen([program, "scan"], stdin=subprocess.PIPE, stdout=subprocess.PIPE) as scan:
        if os.fork() == 0:
            scan.stdout.close()
            for head, changed in fields:
                for field in changed:
                    scan.stdin.write(head + field)
            scan.stdin.close()
            os._exit(0)
        scan.stdin.close()
        listing = scan.stdout.read().decode().splitlines()
        os.wait()
    wanted = f"DATA 1 ACK 0 SIZE {size} VALID {size}"
    return sum(line == wanted for line in listing)


def measure(program, size, make):
    """The changes that pass, and those that were made: of the first byte, and of the others."""
    source = random.Random(SEED)
    fields = [make(source, size) for _ in range(FIRST_FIELDS)]
    heads = [header(size, field) for field in fields]
    sound = passing(program, size, ((head, [field]) for head, field in zip(heads, fields)))
    assert sound == len(fields), f"{sound} of {len(fields)} packets of {size} that nobody changed are packets"
    first = passing(program, size, ((head, changes(field, 0)) for head, field in zip(heads, fields)))
    wholly = list(zip(heads, fields))[: FIELDS[size]]
    others = passing(
        program,
        size,
        ((head, changes(field, place)) for head, field in wholly for place in range(1, size)),
    )
    return first, 255 * len(fields), others, 255 * len(wholly) * (size - 1)


def one_in(rate):
    """One of how many, at this rate."""
    return f"{round(1 / rate):,}" if rate else "none"


def main():
    program = sys.argv[1] if len(sys.argv) > 1 else os.path.join(ROOT, "uucpair")
    kinds = "random", "text"
    print("| Size |" + "".join(f" {kind}: first byte | another, one in | any byte, one in |" for kind in kinds))
    print("|---|" + 6 * "---|")
    for size in SIZES:
        cells = []
        for make in (random_field, text_field):
            first, firsts, others, tried = measure(program, size, make)
            any_byte = (first / firsts + (size - 1) * others / tried) / size
            cells += [f"{100 * first / firsts:.1f}%", one_in(others / tried), one_in(any_byte)]
        print(f"| {size:,} | " + " | ".join(cells) + " |", flush=True)


if __name__ == "__main__":
    main()
