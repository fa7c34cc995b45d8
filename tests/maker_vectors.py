#!/usr/bin/env python3
"""Writes the stdout that the program maker_test is held to, and prints the hashes in bindings/rust/tests/vectors.rs.

The states are those of docs/RULES.md, section 12, and are also taken many steps at once by the closed form of the rule; the
packets are filled, stamped and sealed by the reading of the rules in reference.py. Nothing here is taken from the library. Run it
from anywhere:

    python3 tests/maker_vectors.py
"""
from pathlib import Path

from reference import CCITT, FIVE, checksum, fnv, made, next_state
from reference import unfit_field, unfit_generator, unfit_length, unfit_range, unfit_values

TARGET = Path(__file__).resolve().parent.parent / "crates" / "maker_test" / "stdout"

SEEDS = [0, 1, 65871, 65536, 2**31, 2**32 - 2, 2**32 - 1]  # from 65871 eight bytes come for which zero is computed
GENERATORS = [9, FIVE, CCITT, 131071, 131073]
VALUES = [0, 6, 65535, 65536]
LENGTHS = [0, 3, 8, 64, 512, 513]
HUGE = 2**64 - 1
PLACES = [
    (0, 2, 0),
    (0, 6, 4),
    (1, 6, 3),
    (0, 62, 30),
    (0, 510, 508),
    (2, 2, 2),
    (0, 6, 1),
    (0, 6, 6),
    (4, 6, 2),
    (HUGE - 1, HUGE, HUGE),
]


def states(seed, count):
    """So many states after the seed."""
    out = []
    for _ in range(count):
        seed = next_state(seed)
        out.append(seed)
    return out


def state_after(seed, steps):
    """The state after so many steps: a s + c, then a (a s + c) + c and so on is a^n s + c (a^n - 1) / (a - 1)."""
    power = 1664525**steps
    return (power * seed + 1013904223 * ((power - 1) // 1664524)) % 2**32


def refusal(generator, initial, final, start, end, field, length):
    """The first condition that refuses the maker, or 0."""
    if unfit_generator(generator):
        return 1
    if unfit_length(generator, 8 * length):
        return 2
    if unfit_values(generator, initial, final):
        return 11
    if unfit_range(generator, 8 * length, start, end):
        return 9
    if unfit_field(start, end, field):
        return 10
    return 0


# the first states after 0, written out; docs/DECISIONS.md says where they are from
assert states(0, 11) == [
    0x3C6EF35F, 0x47502932, 0xD1CCF6E9, 0xAAF95334, 0x6252E503, 0x9F2EC686,
    0x57FE6C2D, 0xA3D95FA8, 0x81FDBEE7, 0x94F0AF1A, 0xCBF633B1,
]  # fmt: skip
out = [" ".join(map(str, states(seed, 11))) + " " for seed in SEEDS]

case, mixed, accepted, zeros = 0, 2166136261, 0, 0
for generator in GENERATORS:
    for length in LENGTHS:
        for initial in VALUES:
            line = ""
            for final in VALUES:
                for place in PLACES:
                    seed = SEEDS[case % 7]
                    number = refusal(generator, initial, final, *place, length)
                    if number:
                        line += f"r{number} "
                        packet = b"\xaa" * length
                    else:
                        line += f"s{state_after(seed, length)} "
                        packet = made(generator, initial, final, seed, *place, length)
                        accepted += 1
                        start, end, field = place
                        zeros += checksum(packet[start:field] + bytes(2) + packet[field + 2 : end]) == 0xFFFF
                    mixed = fnv(packet, mixed)
                    case += 1
            out.append(f"{line}{mixed}")

TARGET.write_text("\n".join(out) + "\n")
assert zeros > 0
print(f"{case} calls, {accepted} of them accepted, {zeros} with a computed zero")

for crc in ((CCITT, 0, 0), (CCITT, 0xFFFF, 0), (CCITT, 0xFFFF, 0xFFFF), (FIVE, 31, 9)):
    for seed in (0, 1, 2**32 - 1):
        hashes = [fnv(made(*crc, seed, *place)) for place in ((0, 510, 508, 512), (3, 12, 5, 16))]
        after = [state_after(seed, steps) for steps in (512, 16)]
        print(crc, seed, *(f"{number:08X}" for number in hashes + after))
