#!/usr/bin/env python3
"""Writes the vectors of the program packet_test: crates/packet_test/stdin, and the stdout that it is held to.

The answers come from long division on Python's integers, by docs/RULES.md, and from the published check
values of crc-check-values.tsv beside this file. Nothing here is taken from the library. Run it from anywhere:

    python3 tests/packet_vectors.py
"""
from pathlib import Path

from reference import CCITT, FIVE, degree_of, divide, filled, fnv, remainder_of, unfit_generator, unfit_length, unfit_values

HERE = Path(__file__).resolve().parent
TARGET = HERE.parent / "crates" / "packet_test"

ATM = 0x633  # degree 10


def refusal(generator, initial, final, packet):
    """The first condition that refuses remainder and seal, or 0."""
    if unfit_generator(generator):
        return 1
    if unfit_length(generator, 8 * len(packet)):
        return 2
    return 11 if unfit_values(generator, initial, final) else 0


def mirrored(value, width):
    """The lowest bits of a number in reverse order."""
    return int(format(value, f"0{width}b")[::-1], 2)


def answers(generator, initial, final, packet, published=None):
    """The line that the program prints for a packet; a published remainder stands in for the division's."""
    number = refusal(generator, initial, final, packet)
    if number:
        return f"refused {number} refused {number} {fnv(packet)} refused {number}"
    value = int.from_bytes(packet, "big")
    remainder = remainder_of(packet, generator, initial, final)
    if initial == final == 0:
        assert remainder == divide(value, generator)
    if published is not None:
        assert remainder == published, (generator, packet.hex(), remainder, published)
        remainder = published
    sealed = value ^ remainder
    assert sealed >> (degree_of(generator)) == value >> (degree_of(generator))
    sealed = sealed.to_bytes(len(packet), "big")
    assert remainder_of(sealed, generator, initial, final) == 0
    return f"{remainder} sealed {fnv(sealed)} 0"


cases = []  # pairs of an input line and the expected line


def add(generator, initial, final, length, data, expected):
    numbers = [half for number in (generator, initial, final) for half in divmod(number, 2**32)]
    cases.append((" ".join(map(str, [*numbers, length, *data])), expected))


def explicit(generator, packet, initial=0, final=0, published=None):
    add(generator, initial, final, len(packet), [1, *packet], answers(generator, initial, final, packet, published))


def seeded(generator, length, initial=0, final=0):
    seed = (len(cases) + 1) * 2654435761 % 2**32
    add(generator, initial, final, length, [0, seed], answers(generator, initial, final, filled(length, seed)))


def undone(value, times, generator):
    """What has to be multiplied by x so many times to leave the value."""
    for _ in range(times):
        value = (value ^ generator if value % 2 else value) // 2
    return value


def catalogue():
    """Every published row of degree 3 to 16: message and n zeros leave the check value. Zeros in front fill up the bytes; the
    initial value then stands so many bits too high, which is undone beforehand. Where the row reflects its input, each
    byte's bits are reversed; where it reflects its output, those of the check value and of the final value."""
    used = 0
    for row in (HERE / "crc-check-values.tsv").read_text().splitlines():
        if not row or row.startswith("#"):
            continue
        _, width, *numbers = row.split("\t")
        width = int(width)
        poly, initial, refin, refout, final, check = (int(x, 16) for x in numbers)
        if not 3 <= width <= 16:
            continue
        generator = poly + 2**width
        message = b"123456789"
        if refin:
            message = bytes(mirrored(byte, 8) for byte in message)
        value = int.from_bytes(message, "big") << width
        packet = value.to_bytes((72 + width + 7) // 8, "big")
        if refout:
            check, final = mirrored(check, width), mirrored(final, width)
        explicit(generator, packet, undone(initial, -width % 8, generator), final, check)
        used += 1
    return used


def written_out():
    """Rows worked by hand that are remainders, the bits with zeros in front to whole bytes."""
    explicit(9, bytes([0b1, 0b01110000]), published=3)
    explicit(11, bytes([0b1100010]), published=0)
    explicit(11, bytes([0b1101010]), published=3)
    for initial, final, left in ((31, 0, 25), (0, 31, 31), (31, 31, 6)):
        explicit(FIVE, bytes(1), initial, final, left)


def lengths():
    """Each length, and both edges of condition 2."""
    for generator in (FIVE, CCITT, ATM):
        for length in range(0, 514):
            seeded(generator, length)
    for degree in range(3, 17):
        for length in (0, 1, 2, 3, 511, 512, 513, 600):
            seeded(2**degree + 2 ** (degree - 2) + 1, length)


def generators():
    """Both edges of condition 1, generators that fit only in their low bits, and condition 1 before condition 2."""
    fit = [9, 11, 13, 15, 17, 65535, 65537, 131071]
    small = [0, 1, 2, 3, 5, 7]
    even = [8, 10, 14, 52, 0x11020, 65536, 131070]
    large = [131072, 131073, 2**18 - 1, 2**32, 2**32 + 1, 2**32 + FIVE, 2**63, 2**63 + CCITT, 2**64 - 2, 2**64 - 1]
    for generator in fit + small + even + large:
        for length in (0, 1, 2, 3, 64, 512, 513):
            seeded(generator, length)


def values():
    """Each initial and final value of five in a packet of eight bits, where both stand over two of them; other packets of less
    than 2n bits; longer ones."""
    for initial in range(32):
        for final in range(32):
            explicit(FIVE, bytes([(37 * initial + 101 * final) % 256]), initial, final)
    for degree in range(3, 17):
        generator, ones = 2**degree + 2 ** (degree - 2) + 1, 2**degree - 1
        for length in (degree // 8 + 1, degree // 8 + 2, 64, 512):
            for initial, final in ((ones, 0), (0, ones), (ones, ones), (ones // 3, 1), (2 ** (degree - 1), ones // 5)):
                seeded(generator, length, initial, final)


def unfit():
    """Both edges of condition 11 for each value, values that fit only in their low bits, and 11 after 1 and 2."""
    for generator in (9, FIVE, CCITT, 131071):
        bound = 2 ** degree_of(generator)
        for value in (bound - 1, bound, bound + 1, 2**32, 2**32 + 1, 2**63, 2**64 - 1):
            for initial, final in ((value, 0), (0, value), (value, value)):
                seeded(generator, 3, initial, final)
    for generator in (8, 7, 131073, 2**32 + FIVE, FIVE):
        for length in (0, 3, 513):
            for initial, final in ((2**16, 0), (0, 2**64 - 1), (32, 32)):
                seeded(generator, length, initial, final)


def ccitt():
    """Division by ccitt, which goes by a table, with initial and final values."""
    for length in range(3, 513, 4):
        initial, final = (length * 40503 + 12345) % 2**16, (length * 30011 + 54321) % 2**16
        seeded(CCITT, length, initial, final)


used = catalogue()
written_out()
lengths()
generators()
values()
unfit()
ccitt()
text = "".join(f"{line}\n" for line in [str(len(cases)), *(given for given, _ in cases)])
assert len(text) < 131072, len(text)  # the room that the program has for it
TARGET.joinpath("stdin").write_text(text)
TARGET.joinpath("stdout").write_text("".join(f"{line}\n" for _, line in cases))
print(f"{len(cases)} cases, {used} of them published check values")
