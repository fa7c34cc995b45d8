#!/usr/bin/env python3
"""Writes the stdout that the program checksum_test is held to.

The sums come from the residue of a packet's whole number modulo FFFFh, and the remainders from long division on
Python's integers. Nothing here is taken from the library. Run it from anywhere:

    python3 tests/checksum_vectors.py
"""
from pathlib import Path

from reference import CCITT, FIVE, divide, filled, unfit_field, unfit_generator, unfit_length, unfit_range

TARGET = Path(__file__).resolve().parent.parent / "crates" / "checksum_test" / "stdout"

PLACES = [0, 1, 2, 3, 4, 5, 6, 7, 2**61, 2**63 - 1, 2**64 - 2, 2**64 - 1]

out = []


def sum_of(data):
    """RFC 1071's sum: 65,536 is 1 modulo FFFFh, so the words may be read as one number."""
    data = bytes(data) + bytes(len(data) % 2)
    value = int.from_bytes(data, "big")
    return value and (value % 0xFFFF or 0xFFFF)


def stamp(generator, a, e, field, packet):
    """The number of the first condition that applies, or 0 with the packet stamped."""
    length = 8 * len(packet)
    if unfit_generator(generator):
        return 1
    if unfit_length(generator, length):
        return 2
    if unfit_range(generator, length, a, e):
        return 9
    if unfit_field(a, e, field):
        return 10
    packet[field : field + 2] = bytes(2)
    computed = 0xFFFF - sum_of(packet[a:e])
    packet[field : field + 2] = (computed or 0xFFFF).to_bytes(2, "big")
    return 0


def show_sum(data):
    out.append(f"{sum_of(data):04x}")


def show_beginnings(data):
    for n in range(len(data) + 1):
        show_sum(data[:n])


def show_stamp(generator, a, e, field, packet):
    answer = stamp(generator, a, e, field, packet)
    out.append(f"{answer:x} {packet.hex()}")


def show_places(generator):
    original = bytes.fromhex("e123abcd9f07")
    for a in PLACES:
        for e in PLACES:
            line = ""
            for field in PLACES:
                packet = bytearray(original)
                line += f"{stamp(generator, a, e, field, packet):x}"
                if packet != original:
                    line += f"[{packet.hex()}]"
            out.append(line)


def show_both(generator, a, e, field, packet):
    answer = stamp(generator, a, e, field, packet)
    value = int.from_bytes(packet, "big")
    packet[:] = (value ^ divide(value, generator)).to_bytes(len(packet), "big")
    rest = divide(int.from_bytes(packet, "big"), generator)
    out.append(f"{answer:x} {rest:x} {sum_of(packet[a:e]):04x}")


# RFC 1071, section 3: the words 0001, f203, f4f5, f6f7 sum to ddf2
assert sum_of(bytes.fromhex("0001f203f4f5f6f7")) == 0xDDF2
show_beginnings(bytes.fromhex("0001f203f4f5f6f7"))
show_beginnings(bytes(5))
show_beginnings(b"\xff" * 5)
show_beginnings(bytes.fromhex("fffe000280007fff01"))
show_sum(bytes(1021))
show_sum(b"\xff" * 1021)
show_sum(b"\xff" * 65536)
show_sum(filled(65535, 8))

none, two = bytearray(), bytearray([1, 2])
show_stamp(8, 3, 2, 9, none)
show_stamp(FIVE, 0, 2, 0, none)
show_stamp(7, 0, 2, 0, two)
show_stamp(131073, 0, 2, 0, two)
show_stamp(0, 0, 2, 0, two)
show_stamp(CCITT, 3, 2, 9, two)
show_stamp(FIVE, 3, 2, 9, two)
out.append(f"{stamp(FIVE, 0, 2, 0, bytearray(513)):x}")

show_places(FIVE)
show_places(CCITT)

for a, e, field, text in (
    (0, 4, 2, "ffff123400"),
    (0, 4, 0, "0000ffff00"),
    (1, 7, 3, "091234ffffedcb00"),
    (0, 5, 2, "feff00000180"),
    (1, 6, 1, "ff123400ffff00"),
):
    show_stamp(FIVE, a, e, field, bytearray.fromhex(text))

most = bytearray(filled(512, 9))
show_both(FIVE, 0, 511, 508, most)
show_both(CCITT, 1, 510, 507, most)
nine = bytearray(filled(9, 10))
show_both(CCITT, 3, 6, 3, nine)
show_both(9, 0, 8, 6, nine)
out.append(nine.hex())

TARGET.write_text("\n".join(out) + "\n")
