#!/usr/bin/env python3
"""Writes the vectors of the program repair_test: crates/repair_test/stdin, and the stdout that it is held to.

The verdicts are found by brute force, by docs/RULES.md: every set of the list, which is that of reference.py for the packet's
remainder, is flipped, and the flipped packet's field and range are looked at. Nothing here is taken from the library. Run it from
anywhere:

    python3 tests/repair_vectors.py
"""
from collections import Counter
from itertools import combinations, product
from pathlib import Path
from random import Random

from reference import CCITT, FIVE, MOST_POSITIONS, checksum, degree_of, filled, flip, fnv, listing, passes, remainder_of, sealed, stamped, verdict
from reference import unfit_check_field, unfit_generator, unfit_length, unfit_limit, unfit_range, unfit_values

TARGET = Path(__file__).resolve().parent.parent / "crates" / "repair_test"
THREE, EIGHT = 11, 0x107  # degrees 3 and 8

random = Random(1071)


def always_summed(packet, a, e, field):
    return a == e or checksum(packet[a:e]) == 0xFFFF


def other_verdicts(generator, check, limit, packet, values):
    """What readings of the rules would say in which the sum always decides, or the received field instead of the flipped one."""
    a, e, field = check
    received = packet[field : field + 2] == bytes(2)
    return {
        "always summed": verdict(generator, check, limit, packet, values, always_summed),
        "received field": verdict(generator, check, limit, packet, values, lambda p, *c: received or always_summed(p, *c)),
    }


class Group:
    """Cases that share tables: built for a generator with `size` entries, one entry changed, the first of each lent."""

    def __init__(self, generator, size=None, change=(0, 0, 0), lent=None):
        self.generator = generator
        self.size = 2 ** degree_of(generator) if size is None else size
        self.change = change
        self.lent = lent or (self.size, self.size)
        self.given = []
        self.expected = []
        groups.append(self)

    def head(self):
        return " ".join(map(str, [0, self.generator, self.size, *self.change, *self.lent, len(self.given)]))

    def refusal(self, generator, values, check, limit, packet, room):
        """The first condition that refuses a repair, or 0."""
        degree = degree_of(generator)
        bits = 8 * len(packet)
        if unfit_generator(generator):
            return 1
        if unfit_length(generator, bits):
            return 2
        if unfit_values(generator, *values):
            return 11
        if unfit_limit(limit):
            return 3
        if self.lent != (2**degree, 2**degree):
            return 5
        if generator != self.generator or (self.change[2] and self.change[1] < self.lent[self.change[0]]):
            return 6
        if room != len(packet):
            return 8
        if unfit_range(generator, bits, *check[:2]):
            return 9
        return 10 if unfit_check_field(*check) else 0

    def line(self, generator, values, check, limit, packet, room):
        """What the program prints for one call."""
        before = filled(room, 1)
        number = self.refusal(generator, values, check, limit, packet, room)
        if number:
            return f"refused {number} {fnv(before)}"
        kind, passing = verdict(generator, check, limit, packet, values)
        kinds[kind] = kinds.get(kind, 0) + 1
        if check[0] == check[1]:
            if kind != "intact":
                counts.add(min(len(passing), 2))
        elif len(packet) <= 6:
            for reading, other in other_verdicts(generator, check, limit, packet, values).items():
                readings[reading] += other != (kind, passing)
        copy = flip(packet, passing[0]) if kind == "repaired" else before
        published = {"intact": packet, "repaired": copy}.get(kind, b"")
        named = "".join(f"{p} " for p in passing[0]) if passing else ""
        if kind == "several":
            named = f"{len(passing)} {named}"
            fewest = [p for p in passing if len(p) == len(passing[0])]
            wrong = {
                "first listed": listing(generator, limit, packet, values)[0],
                "last": passing[-1],
                "last of the fewest positions": fewest[-1],
                "lowest of the fewest positions": min(fewest),
            }
            others.update(choice for choice, pattern in wrong.items() if pattern != passing[0])
        return f"{kind} {named}{fnv(copy)} {len(published)} {fnv(published)}"

    def add(self, a, e, field, limit, packet, first=0, count=0, room=None, generator=None, seed=None, values=(0, 0)):
        """A call, and one with each of `count` positions from `first` on flipped alone."""
        generator = self.generator if generator is None else generator
        room = len(packet) if room is None else room
        given = [x for y in (generator, *values, a, e, field, limit) for x in divmod(y, 2**32)]
        data = [1, *packet] if seed is None else [0, seed]
        self.given.append(" ".join(map(str, [*given, len(packet), *data, room, first, count])))
        for positions in ((), *((p,) for p in range(first, first + count))):
            self.expected.append(self.line(generator, values, (a, e, field), limit, flip(packet, positions), room))


def sent(generator, length, a, e, values=(0, 0)):
    """A field, which is a word of the range, and a packet that passes both checks: random bytes, stamped and then sealed."""
    field = a + 2 * random.randrange((e - a) // 2)
    packet = sealed(stamped(random.randbytes(length), a, e, field), generator, values)
    assert remainder_of(packet, generator, *values) == 0 and checksum(packet[a:e]) == 0xFFFF
    return field, packet


def last_end(generator, length):
    """The largest e that is accepted."""
    return (8 * length - degree_of(generator)) // 8


groups = []
kinds = {}
counts = set()  # how many patterns lists have where there is no checksum: none, one, more
readings = Counter()  # how often, with a checksum, another reading of the rules says something else
others = Counter()  # how often, where several pass, a wrong choice is another pattern than the first that passes


def worked_by_hand():
    """Rows worked by hand about repair, held to their own text first."""
    check = (0, 2, 0)
    assert verdict(FIVE, check, 1, bytes.fromhex("FFFF05"))[0] == "intact"
    assert verdict(FIVE, check, 1, bytes.fromhex("7FFF05")) == ("repaired", [(23,)])
    assert verdict(FIVE, check, 1, bytes.fromhex("FFFF06"))[0] == "none"
    kind, passing = verdict(FIVE, check, 2, bytes.fromhex("FFFF06"))
    assert kind == "several" and passing == [(0, 1), (3, 7)]
    assert verdict(FIVE, check, 1, bytes(3))[0] == "intact"
    assert verdict(FIVE, check, 1, bytes.fromhex("800000")) == ("repaired", [(23,)])
    assert stamped(bytes.fromhex("FFFF123400"), 0, 4, 2) == bytes.fromhex("FFFFFFFF00")
    assert stamped(bytes.fromhex("FFFF123400"), 0, 4, 0) == bytes.fromhex("EDCB123400")
    five = Group(FIVE)
    for text, limits in (("FFFF05", range(1, MOST_POSITIONS + 1)), ("7FFF05", (1,)), ("FFFF06", (1, 2)), ("000000", (1, 2)), ("800000", (1,))):
        for limit in limits:
            five.add(*check, limit, bytes.fromhex(text))
    nine = bytes.fromhex("7FFF02")
    assert listing(9, 2, nine)[0] == (2, 3)
    assert verdict(9, check, 2, nine) == ("several", [(6, 23), (3, 23), (0, 23)])
    Group(9).add(*check, 2, nine)
    rows = {"7FFE05": ("intact", []), "7FFF05": ("several", [(8,), (23,)]), "FFFD05": ("repaired", [(9,)]), "FFFF06": ("none", [])}
    for text, row in rows.items():
        assert verdict(FIVE, (0, 0, 0), 1, bytes.fromhex(text)) == row
        five.add(0, 0, 0, 1, bytes.fromhex(text))


def sent_and_damaged():
    """Sent packets with 0 to N flips: a first one, or a first two, and another at every position."""
    for generator, lengths in ((FIVE, (3, 4, 5, 6)), (CCITT, (4, 5, 6)), (THREE, (3, 4)), (EIGHT, (4, 5))):
        group = Group(generator)
        for length in lengths:
            bits = 8 * length
            end = last_end(generator, length)
            field, packet = sent(generator, length, 0, end)
            for limit in (1, 2, 3):
                group.add(0, end, field, limit, packet, 0, bits)
            every = length <= 4 and generator in (FIVE, CCITT)
            for p in range(bits - 1) if every else random.sample(range(bits), 5):
                group.add(0, end, field, 2, flip(packet, (p,)), p + 1 if every else 0, bits - p - 1 if every else bits)
            group.add(0, end, field, 3, flip(packet, random.sample(range(bits), 2)), 0, bits)
            group.add(0, end, field, 1, flip(packet, random.sample(range(bits), 1)), 0, bits)


def ranges():
    """Every accepted range of at least two bytes, odd starts and odd ends too; those of one byte have no field."""
    for generator, length in ((FIVE, 6), (FIVE, 5), (CCITT, 6), (THREE, 5), (EIGHT, 6)):
        group = Group(generator)
        for a, e in combinations(range(last_end(generator, length) + 1), 2):
            if e - a == 1:
                group.add(a, e, a, 2, random.randbytes(length))
                continue
            field, packet = sent(generator, length, a, e)
            for limit in (1, 2, 3):
                for flips in range(limit + 2):
                    group.add(a, e, field, limit, flip(packet, random.sample(range(8 * length), flips)))


def by_chance():
    """Random packets and ranges, and packets of zeros and ones, whose sums are the two zeros of RFC 1071."""
    for generator in (FIVE, CCITT, THREE, EIGHT):
        group = Group(generator)
        for _ in range(30):
            length = random.randint(4, 6)
            end = last_end(generator, length)
            a = random.randrange(end - 1)
            e = random.randint(a + 2, end)
            seed = random.randrange(2**32)
            group.add(a, e, a + 2 * random.randrange((e - a) // 2), random.randint(1, 3), filled(length, seed), seed=seed)
        for length, byte, limit in product((4, 5), (0, 255), range(1, MOST_POSITIONS + 1)):
            group.add(0, 2, 0, limit, bytes([byte]) * length)


def fours():
    """Patterns of four positions."""
    for generator in (FIVE, CCITT):
        group = Group(generator)
        for length in (4, 5):
            end = last_end(generator, length)
            field, packet = sent(generator, length, 0, end)
            for flips in (0, 1, 2, 3, 4, 4, 4, 5):
                group.add(0, end, field, 4, flip(packet, random.sample(range(8 * length), flips)))


def long_packets():
    """64 and 512 bytes with few errors, at both ends too."""
    ccitt = Group(CCITT)
    for length, limits in ((64, (1, 2, 3)), (512, (1, 2))):
        bits = 8 * length
        whole, odd, tail = (0, length - 2), (1, length // 2 + 1), (length - 6, length - 3)
        for limit, (a, e) in product(limits, (whole, odd, tail) if length == 64 else (whole, odd)):
            field, packet = sent(CCITT, length, a, e)
            damaged = flip(packet, random.sample(range(bits), limit - 1))
            ccitt.add(a, e, field, limit, damaged, random.randrange(bits - 3), 3)
            ccitt.add(a, e, field, limit, damaged, *random.choice(((0, 2), (bits - 2, 2))))
    five = Group(FIVE)
    for length in (64, 512):
        field, packet = sent(FIVE, length, 0, length - 1)
        five.add(0, length - 1, field, 1, packet, random.randrange(8 * length - 3), 3)
        five.add(0, length - 1, field, 1, flip(packet, (0,)), 8 * length - 3, 3)


def with_values():
    """Sent packets of other initial and final values, and the same packets taken for ones of both 0; packets of less than 2n
    bits, which have no room for a checksum."""
    for generator, length in ((THREE, 4), (FIVE, 4), (EIGHT, 5), (CCITT, 5), (CCITT, 6)):
        group = Group(generator)
        bits, end, ones = 8 * length, last_end(generator, length), 2 ** degree_of(generator) - 1
        for values in ((ones, 0), (0, ones), (ones, ones), (random.randint(1, ones), random.randint(1, ones))):
            field, packet = sent(generator, length, 0, end, values)
            group.add(0, end, field, 1, packet, 0, bits, values=values)
            group.add(0, end, field, 2, flip(packet, random.sample(range(bits), 1)), 0, bits, values=values)
            group.add(0, end, field, 3, flip(packet, random.sample(range(bits), 2)), values=values)
            group.add(0, end, field, 2, packet)
    ccitt = Group(CCITT)
    for values in ((0xFFFF, 0), (0xFFFF, 0xFFFF), (1, 0x8000)):
        ccitt.add(1, 1, 1, 2, random.randbytes(3), 0, 24, values=values)


def with_a_zero_field():
    """Fields that are 0, or that one, two or three flips make 0: at the start of the range, at its end and between, in ranges of an
    even and of an odd number of bytes; sealed, and at limits 1 and 2 with each bit flipped, those of the field and those around it
    among them; and packets sealed with a field of 0, of which bits of the field are flipped."""
    for generator, length in ((FIVE, 4), (FIVE, 6), (CCITT, 6), (THREE, 5), (EIGHT, 6)):
        group = Group(generator)
        bits, end = 8 * length, last_end(generator, length)
        for a, e in sorted({(0, end), (1, end), (0, end - 1), (0, 2)}):
            for field in sorted({a, a + (e - a) // 4 * 2, a + (e - a) // 2 * 2 - 2}):
                for ones, limit in ((0, 1), (0, 2), (1, 1), (2, 2), (3, 3)):
                    packet = bytearray(random.randbytes(length))
                    packet[field : field + 2] = sum(1 << p for p in random.sample(range(16), ones)).to_bytes(2, "big")
                    group.add(a, e, field, limit, sealed(packet, generator), 0, bits if limit < 3 else 0)
                    if ones:
                        packet[field : field + 2] = bytes(2)
                        inside = random.sample(range(8 * (length - field - 2), 8 * (length - field)), ones)
                        group.add(a, e, field, limit, flip(sealed(packet, generator), inside))


def without_a_checksum():
    """Packets that carry none, so sealed only: every place for the range, those that reach into the CRC too; and with each bit
    flipped."""
    counts.clear()
    for generator, length in ((FIVE, 3), (FIVE, 6), (CCITT, 4), (CCITT, 6), (THREE, 3), (EIGHT, 4)):
        group = Group(generator)
        bits, end = 8 * length, last_end(generator, length)
        packet = sealed(random.randbytes(length), generator)
        assert not always_summed(packet, 0, end, 0)
        last_word = end // 2 * 2 - 2
        assert not passes(packet, 0, end, last_word)
        fields = (0, last_word, 1, end - 1, length, 2**32, 2**64 - 1)
        for place, flips in product(range(length + 2), range(4)):
            group.add(place, place, random.choice(fields), 2, flip(packet, random.sample(range(bits), flips)))
        for limit in (1, 2, 3):
            group.add(end, end, end, limit, packet, 0, bits)
            group.add(0, 0, 0, limit, flip(packet, random.sample(range(bits), 2)), 0, bits)
        for values in ((3, 0), (0, 5), (7, 7)):
            group.add(1, 1, 2**64 - 2, 2, random.randbytes(length), values=values)
    ccitt = Group(CCITT)
    for length, limit in ((64, 1), (64, 2), (64, 3), (512, 1), (512, 2)):
        packet = sealed(random.randbytes(length), CCITT)
        ccitt.add(length - 2, length - 2, 7, limit, flip(packet, random.sample(range(8 * length), limit - 1)), 40, 3)
        ccitt.add(length - 1, length - 1, 7, limit, packet)
    assert counts == {0, 1, 2}, counts


def refused_in_order():
    """Every choice of the nine conditions: the first of those that apply is the answer."""
    packet = bytes.fromhex("7FFF05")
    for lent, change in product(((32, 32), (31, 32)), ((0, 0, 0), (0, 1, 26))):
        group = Group(FIVE, change=change, lent=lent)
        for one, two, eleven, three, eight, nine, ten in product((False, True), repeat=7):
            data = b"" if two else packet
            group.add(
                0,
                3 if nine else 2,
                1 if ten else 0,
                MOST_POSITIONS + 1 if three else 1,
                data,
                room=len(data) + 1 if eight else len(data),
                generator=52 if one else FIVE,
                values=((32, 0), (0, 2**64 - 1))[three] if eleven else (31, 31),
            )


def refused_at_the_edges():
    packet = bytes.fromhex("7FFF05")
    five = Group(FIVE)
    for generator in (0, 1, 2, 3, 5, 7, 8, 52, 131072, 131073, 2**32 + FIVE, 2**63 + FIVE, 2**64 - 1):
        five.add(0, 2, 0, 1, packet, generator=generator)
    for generator in (37, 61, 47, 9, 67, 65537, 131071):  # fit, but these are not their tables
        five.add(0, 2, 0, 1, packet, generator=generator)
    for length in (0, 1, 2, 3, 511, 512, 513, 600):
        five.add(0, 0, 0, 1, filled(length, length), seed=length)
    for value in (31, 32, 33, 2**16, 2**32, 2**32 + 1, 2**63, 2**64 - 1):
        for values in ((value, 0), (0, value), (value, value)):
            five.add(0, 2, 0, 1, packet, values=values)
    for limit in (*range(MOST_POSITIONS + 2), 256 + 1, 65536 + 2, 2**32 + 1, 2**63 + 1, 2**64 - 1):
        five.add(0, 2, 0, limit, packet)
    for room in (0, 1, 2, 3, 4, 5, 256 + 3, 1024):
        five.add(0, 2, 0, 1, packet, room=room)
    edges = (0, 1, 2, 3, 4, 2**32, 2**32 + 2, 2**61, 2**61 + 2, 2**63 + 2, 2**64 - 1)
    for a, e in product(edges, edges):
        five.add(a, e, a, 1, packet)
    for a, e, field in product(range(4), range(6), (0, 1, 2, 3, 4, 2**63, 2**64 - 2, 2**64 - 1)):
        five.add(a, e, field, 1, bytes.fromhex("7FFF0102FF"))
    ccitt = Group(CCITT)
    for a, e in product(range(5), range(6)):
        ccitt.add(a, e, a, 1, bytes.fromhex("FFFF1D0F"))
    ccitt.add(0, 1, 0, 1, bytes.fromhex("FFFF"))
    for size, lent in ((32, (32, 31)), (32, (33, 32)), (32, (32, 33)), (32, (0, 0)), (32, (64, 64)), (31, (31, 31)), (64, (64, 64))):
        Group(FIVE, size=size, lent=lent).add(0, 2, 0, 1, packet)
    for table, place, by in product((0, 1), (0, 1, 17, 31, 32), (1, 32768)):
        Group(FIVE, change=(table, place, by)).add(0, 2, 0, 1, packet)
    Group(CCITT, change=(0, 65535, 2)).add(0, 2, 0, 1, bytes.fromhex("FFFF1D0F"))
    Group(CCITT, change=(1, 65535, 2)).add(0, 2, 0, 1, bytes.fromhex("FFFF1D0F"))


worked_by_hand()
sent_and_damaged()
ranges()
by_chance()
fours()
long_packets()
with_values()
with_a_zero_field()
refused_in_order()
refused_at_the_edges()
without_a_checksum()

assert len(others) == 4 and min(others.values()) > 100, others
assert len(readings) == 2 and min(readings.values()) > 100, readings
text = "\n".join([str(len(groups)), *(line for group in groups for line in (group.head(), *group.given))]) + "\n"
lines = [line for group in groups for line in group.expected]
assert len(text) < 196608, len(text)  # the room that the program has for it
TARGET.joinpath("stdin").write_text(text)
TARGET.joinpath("stdout").write_text("\n".join(lines) + "\n")
print(f"{len(groups)} groups, {sum(len(group.given) for group in groups)} cases, {len(lines)} calls, {len(text)} bytes of input")
print(f"{kinds}; of several, another than the {dict(others)}; other than by these readings {dict(readings)}")
