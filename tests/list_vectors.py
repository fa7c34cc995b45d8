#!/usr/bin/env python3
"""Writes tests/list.txt: inputs of the listing program, and what it prints for each, by the number of lines, POSIX's cksum of
the whole output, and the last line. tests/list.sh holds the program to them.

The lists are those of reference.py. Nothing here is taken from the library. Run it from anywhere:

    python3 tests/list_vectors.py
"""
from pathlib import Path
import re

from reference import MOST_POSITIONS, degree_of, listed, unfit_generator, unfit_length, unfit_limit

TARGET = Path(__file__).resolve().parent / "list.txt"

INPUTS = [
    # the example, leading zeros, the longest line
    "53 8 2 3\n",
    "053 08 2 00000003\n",
    "000000053 000000008 000000002 000000003\n",
    # each count of positions, and lists of one pattern at most
    *(f"53 16 {limit} {syndrome}\n" for limit in range(1, MOST_POSITIONS + 1) for syndrome in (0, 1, 30)),
    "9 4 4 0\n",
    # narrow pairs before low ones
    "53 9 2 30\n",
    # many pages, of two, three and four positions
    "21 4096 2 9\n",
    "11 150 3 5\n",
    "53 60 4 7\n",
    # the greatest degree that is listed, and those above it
    "16385 40 1 1\n",
    "16427 200 2 77\n",
    "32769 40 1 1\n",
    "65537 40 1 1\n",
    "69665 40 1 1\n",
    "131073 40 1 1\n",
    "999999999 40 1 1\n",
    # each refusal at its edges, an empty list among them, and the order of the refusals
    *(f"{g} 8 2 3\n" for g in (0, 1, 3, 5, 7, 8, 9, 52)),
    *(f"53 {bits} 1 3\n" for bits in (0, 5, 6, 4096, 4097, 999999999)),
    *(f"53 8 {limit} 3\n" for limit in (0, 1, MOST_POSITIONS, MOST_POSITIONS + 1, 257, 999999999)),
    *(f"53 8 2 {syndrome}\n" for syndrome in (31, 32, 999999999)),
    "8 0 0 99\n",
    f"32769 15 {MOST_POSITIONS + 1} 40000\n",
    "53 0 0 99\n",
    "53 8 0 99\n",
    f"53 8 {MOST_POSITIONS + 1} 32\n",
    # bad lines
    "",
    "\n",
    "53 8 2 3",
    "53 8 2 3\n\n",
    "53 8 2 3 \n",
    "53 8 2 3\r\n",
    " 53 8 2 3\n",
    "53  8 2 3\n",
    "53\t8 2 3\n",
    "53 8 2\n",
    "53 8 2 3 4\n",
    "53,8,2,3\n",
    "0000000053 8 2 3\n",
    "53 8 2 1000000000\n",
    "+53 8 2 3\n",
    "53 8 2 -3\n",
    "35h 8 2 3\n",
    "five 8 2 3\n",
    "53 8 2 3\n53 8 2 3\n",
    "000000053 000000008 000000002 000000003\n5",
    "53 8 2 3\n" + "5" * 55,
    "53 8 2 3\n" + "5" * 200,
    "5" * 64 + "\n",
    "53 8 2 3\0\n",
]

LINE = re.compile(r"([0-9]{1,9}) ([0-9]{1,9}) ([0-9]{1,9}) ([0-9]{1,9})\n\Z")


def printed(text):
    match = LINE.match(text)
    if not match:
        return "bad line\n"
    generator, bits, limit, syndrome = map(int, match.groups())
    if unfit_generator(generator) or degree_of(generator) > 14:
        return "refused 1\n"
    if unfit_length(generator, bits):
        return "refused 2\n"
    if unfit_limit(limit):
        return "refused 3\n"
    if syndrome >= 2 ** degree_of(generator):
        return "refused 4\n"
    lines = [" ".join(map(str, (len(p), *p))) for p in listed(generator, bits, limit, syndrome)]
    return "".join(f"{line}\n" for line in [*lines, f"end {len(lines)}"])


def cksum(data):
    """POSIX's cksum: degree 32, with the length behind the bytes, low byte first."""
    length, tail = len(data), b""
    while length:
        tail += bytes([length % 256])
        length //= 256
    value = 0
    for byte in data + tail:
        value ^= byte << 24
        for _ in range(8):
            value = (value << 1 ^ 0x04C11DB7) & 0xFFFFFFFF if value >> 31 else value << 1
    return value ^ 0xFFFFFFFF


def escaped(text):
    return "".join(c if c.isprintable() and c != "\\" else f"\\0{ord(c):03o}" for c in text)


assert printed("53 8 2 3\n") == "2 0 1\n2 3 7\nend 2\n"
rows = []
for given in INPUTS:
    said = printed(given)
    rows.append(f"{said.count(chr(10))} {cksum(said.encode())} {said.splitlines()[-1]}|{escaped(given)}")
TARGET.write_text("\n".join(rows) + "\n")
print(f"{len(rows)} inputs")
