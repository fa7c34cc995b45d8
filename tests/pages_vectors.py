#!/usr/bin/env python3
"""Writes the vectors of the program pages_test: crates/pages_test/stdin, and the stdout that it is held to.

The lists are those of reference.py; pages and refusals follow docs/RULES.md. Nothing here is taken from the library. Run it from
anywhere:

    python3 tests/pages_vectors.py
"""
from itertools import combinations, product
from pathlib import Path

from reference import CCITT, FIVE, MOST_POSITIONS, RECORD_BYTES, degree_of, divide, filled, fnv, in_order, listed
from reference import unfit_generator, unfit_length, unfit_limit

TARGET = Path(__file__).resolve().parent.parent / "crates" / "pages_test"

START, ENDED = "start", "ended"
KINDS = {START: MOST_POSITIONS + 1, ENDED: MOST_POSITIONS + 2}  # beside the counts of positions
LONG = 10**6  # more calls than any list here has records


def follows(mark, pattern):
    if mark in (START, ENDED):
        return mark == START
    return in_order(mark) < in_order(pattern)


def listed_after(generator, bits, limit, syndrome, mark):
    return [p for p in listed(generator, bits, limit, syndrome) if follows(mark, p)]


def record(pattern):
    return bytes([len(pattern)]) + b"".join(p.to_bytes(2, "big") for p in pattern)


class Group:
    """Tables of a generator, with a change, of which so many entries are lent."""

    def __init__(self, generator, size=None, change=(0, 0, 0), lent=None):
        self.generator, self.change = generator, change
        self.size = 2 ** degree_of(generator) if size is None else size
        self.lent = (self.size, self.size) if lent is None else lent
        self.cases = []
        groups.append(self)

    def head(self):
        high, low = divmod(self.generator, 2**32)
        return " ".join(map(str, (high, low, self.size, *self.change, *self.lent, len(self.cases))))

    def refusal(self, generator, bits, limit, syndrome, mark, room):
        """The first condition that applies, or 0."""
        degree = degree_of(generator)
        if unfit_generator(generator):
            return 1
        if unfit_length(generator, bits):
            return 2
        if unfit_limit(limit):
            return 3
        if syndrome >= 2**degree:
            return 4
        if self.lent != (2**degree, 2**degree):
            return 5
        if generator != self.generator or (self.change[2] and self.change[1] < self.lent[self.change[0]]):
            return 6
        if isinstance(mark, tuple):
            if len(mark) > limit or any(p >= bits for p in mark) or any(a >= b for a, b in zip(mark, mark[1:])):
                return 7
        return 8 if room < RECORD_BYTES else 0

    def add(self, bits, limit, syndrome, syndromes=1, mark=START, room=64, sizes=1, calls=LONG, generator=None):
        """A case: the line that the program reads, and the one it prints."""
        generator = self.generator if generator is None else generator
        kind = KINDS.get(mark, len(mark))
        positions = [0] * MOST_POSITIONS if isinstance(mark, str) else [*mark, *[0] * (MOST_POSITIONS - len(mark))]
        given = [x for y in (generator, bits, limit, syndrome) for x in divmod(y, 2**32)]
        line = " ".join(map(str, [*given, syndromes, kind, *positions, room, sizes, calls]))
        used = beyond = 2166136261
        records = made = refusals = ended = 0
        for s in range(syndrome, syndrome + syndromes):
            reached = mark
            for i in range(calls):
                size = room + i % sizes
                made += 1
                number = self.refusal(generator, bits, limit, s, reached, size)
                page = b""
                if number:
                    refusals += number
                else:
                    rest = listed_after(generator, bits, limit, s, reached)
                    fit = 0
                    while fit < len(rest) and len(page) + len(record(rest[fit])) <= size:
                        page += record(rest[fit])
                        fit += 1
                    records += fit
                    reached = ENDED if fit == len(rest) else rest[fit - 1]
                used = fnv(page, used)
                beyond = fnv(filled(size, 1)[len(page) :], beyond)
                if reached == ENDED:
                    ended += 1
                    break
        shown = reached if isinstance(reached, str) else "after " + "".join(f"{p} " for p in reached)
        self.cases.append((line, f"{used} {beyond} {records} {made} {refusals} {ended} {shown}"))


groups = []


def worked_by_hand():
    """Facts about lists from docs/RULES.md, held to its own text first."""
    assert listed(11, 5, 1, 6) == [(4,)]
    assert listed(FIVE, 15, 2, 1) == [(0,)] and listed(FIVE, 16, 2, 1) == [(0,), (15,)]
    assert listed(FIVE, 7, 2, 3) == [(0, 1)] and listed(FIVE, 8, 2, 3) == [(0, 1), (3, 7)]
    assert listed(FIVE, 15, 2, 0) == [()] and listed(FIVE, 16, 2, 0) == [(), (0, 15)]
    assert listed(FIVE, 9, 2, 30) == [(5, 7), (3, 8), (0, 6)]
    assert listed_after(FIVE, 9, 2, 30, (1, 2)) == [(5, 7), (3, 8), (0, 6)]
    assert listed(13, 6, 3, 4) == [(2,), (4, 5), (0, 3), (0, 1, 4), (1, 3, 5)]
    received = divide(0x7FFF05, FIVE)
    assert listed(FIVE, 24, 1, received) == [(8,), (23,)]
    Group(11).add(5, 1, 6)
    Group(13).add(6, 3, 4)
    five = Group(FIVE)
    for bits, syndrome in ((15, 1), (16, 1), (7, 3), (8, 3), (15, 0), (16, 0), (9, 30)):
        five.add(bits, 2, syndrome)
    five.add(9, 2, 30, mark=(1, 2))
    five.add(24, 1, received)


def every_small_list():
    """All syndromes: five over every length up to 20, and generators of degree 3 to 8 with an odd and an even number of ones."""
    five = Group(FIVE)
    for bits in range(6, 21):
        for limit in range(1, MOST_POSITIONS + 1):
            five.add(bits, limit, 0, syndromes=32)
    for generator in (9, 11, 13, 15, 19, 23, 31, 37, 47, 51, 67, 73, 99, 131, 137, 189, 285, 263, 257, 297):
        degree = degree_of(generator)
        group = Group(generator)
        for bits, limit in ((degree + 1, 4), (degree + 2, 3), (13, 4), (16, 4), (19, 3), (27, 2), (33, 1)):
            group.add(bits, limit, 0, syndromes=2**degree)


def joined_pages():
    """Whole lists in pages of odd sizes, also of changing ones with refused calls among them, and parts of lists."""
    five = Group(FIVE)
    least = RECORD_BYTES
    near = (*range(least, least + 6), 2 * least - 1, 2 * least, 2 * least + 1, 3 * least - 1, 3 * least, 5 * least)
    for room in (*near, 64, 100, 255, 4096):
        five.add(17, 4, 0, syndromes=32, room=room)
        five.add(20, 4, 30, room=room)
    for room, sizes in ((least - 1, 2), (least - 2, 4), (0, least + 3), (least, 7), (5, 31)):
        five.add(18, 4, 7, syndromes=3, room=room, sizes=sizes)
        five.add(18, 3, 0, room=room, sizes=sizes)
    for calls in range(0, 30):
        five.add(14, 3, 0, room=least, calls=calls)
        five.add(14, 3, 9, room=21, sizes=3, calls=calls)


def every_mark():
    """A page after each pattern, listed or not, at both ends too."""
    five = Group(FIVE)
    for bits, limit, syndrome, room in ((9, 2, 30, 64), (8, 4, 0, 19), (7, 3, 21, RECORD_BYTES)):
        five.add(bits, limit, syndrome, mark=ENDED, room=room)
        for count in range(limit + 1):
            for mark in combinations(range(bits), count):
                five.add(bits, limit, syndrome, mark=mark, room=room, calls=1)
    for mark in ((15, 16, 17, 19), (16, 17, 18, 19), (19,), (18, 19), ()):
        five.add(20, 4, 0, syndromes=32, mark=mark)
    for mark in (START, ENDED, (), (0,), (7,), (15,), (14, 15)):
        five.add(16, 2, 1, mark=mark, room=RECORD_BYTES)


def every_mark_for_every_syndrome():
    """Generators with an even number of ones (9, 15, 17) and with an odd number: a page after each pattern, whatever its count. With
    the former one list has even counts only, or odd ones; with the latter both."""
    for generator, bits in ((9, 7), (11, 7), (13, 6), (15, 6), (17, 6), (19, 6)):
        group = Group(generator)
        for count in range(MOST_POSITIONS + 1):
            for mark in combinations(range(bits), count):
                group.add(bits, MOST_POSITIONS, 0, syndromes=2 ** degree_of(generator), mark=mark, calls=1)
    for syndrome in range(2 ** degree_of(9)):
        assert {len(p) % 2 for p in listed(9, 7, 4, syndrome)} <= {syndrome.bit_count() % 2}
        assert {len(p) % 2 for p in listed(11, 7, 4, syndrome)} == {0, 1}


def marks_of_every_span():
    """Lists across the period and past it, from marks that for most syndromes are not listed: of a smaller span than those of their count
    that follow, of the same, and of the largest. Up to 24 bits with four positions."""
    for generator, lengths in ((11, (7, 8, 15)), (15, (4, 5, 9)), (FIVE, (15, 16, 24)), (73, (9, 10, 22))):
        group = Group(generator)
        for bits in lengths:
            end = bits - 1
            for mark in ((0, 1), (1, end - 1), (end - 1, end), (0, end), (0, 1, 2), (0, end - 1, end), (1, 2, end), (end - 3, end - 2, end - 1, end), (0, 1, 2, end)):
                if mark == tuple(sorted(set(mark))):
                    group.add(bits, 4, 0, syndromes=2 ** degree_of(generator), mark=mark, room=31, calls=2)


def long_packets():
    """The longest packets, and lists of which each last position is looked up in large tables."""
    five = Group(FIVE)
    five.add(4096, 1, 0, syndromes=32, room=1000)
    five.add(4096, 1, 26, room=RECORD_BYTES, calls=40)
    five.add(4096, 1, 26, mark=(4094,), room=RECORD_BYTES)
    five.add(4096, 1, 26, mark=(4095,), room=RECORD_BYTES)
    ccitt = Group(CCITT)
    for syndrome in (0, 1, 3, 0x1021, 0x1189, 0x8000, 0xFFFF, 0x8001, 0x3331):
        ccitt.add(4096, 2, syndrome, room=4096)
        ccitt.add(4096, 2, syndrome, room=101, sizes=3)
    ccitt.add(4096, 2, 0, mark=(4094, 4095))
    for mark in ((4094, 4095), (0, 1), (0, 2047), (2048, 4095), (1, 4095), (0, 4095)):
        ccitt.add(4096, 2, 0x3331, mark=mark, room=202)
    ccitt.add(4096, 2, 0x1189, mark=(4095,), room=333)
    ccitt.add(4096, 2, 0, mark=(0, 4096), calls=1)
    ccitt.add(131, 3, 0, syndromes=40, room=700)
    ccitt.add(131, 3, 0xFFC0, syndromes=64, room=70)
    ccitt.add(41, 4, 0x1021, syndromes=50, room=47)


def refused_in_order():
    """Every choice of the eight conditions: the lowest of those that apply is the answer."""
    for lent, change in product(((32, 32), (32, 31)), ((0, 0, 0), (0, 1, 26))):
        group = Group(FIVE, change=change, lent=lent)
        for one, two, three, four, seven, eight in product((False, True), repeat=6):
            group.add(
                5 if two else 8,
                MOST_POSITIONS + 1 if three else 2,
                32 if four else 3,
                mark=(3, 3) if seven else (3,),
                room=RECORD_BYTES - 1 if eight else RECORD_BYTES,
                calls=1,
                generator=52 if one else FIVE,
            )


def refused_at_the_edges():
    five = Group(FIVE)
    for generator in (0, 1, 2, 3, 5, 7, 8, 52, 131072, 131073, 131123, 2**32 + FIVE, 2**63 + FIVE, 2**64 - 1):
        five.add(8, 2, 3, generator=generator, calls=1)
    for generator in (37, 61, 47, 9, 17, 67, 65537, 131071):  # fit, but these are not their tables
        five.add(20, 2, 3, generator=generator, calls=1)
    for bits in (0, 1, 4, 5, 6, 4095, 4096, 4097, 65536 + 8, 2**32 + 8, 2**63 + 8, 2**64 - 1):
        five.add(bits, 1, 3, calls=1)
    for limit in (*range(MOST_POSITIONS + 2), 256 + 1, 65536 + 2, 2**32 + 1, 2**63 + 1, 2**64 - 1):
        five.add(8, limit, 3, calls=1)
    for syndrome in (0, 31, 32, 63, 65536, 65539, 2**32 + 3, 2**63 + 3, 2**64 - 1):
        five.add(8, 2, syndrome, calls=1)
    for room in range(RECORD_BYTES + 3):
        five.add(8, 4, 3, room=room, calls=1)
        five.add(8, 1, 3, room=room, calls=1)
    for mark in ((3, 3), (4, 3), (7,), (8,), (65535,), (0, 8), (6, 7), (0, 1, 2), (0, 65535), (0, 0, 0), (0, 1, 2, 3), (2, 1, 3)):
        five.add(8, 2, 3, mark=mark, calls=1)
        five.add(8, 4, 3, mark=mark, calls=1)
    for mark in ((7, 6, 5, 4), (4, 5, 6, 6), (4, 5, 6, 8), (4, 5, 6, 7), (0, 5, 5, 7), (1, 1, 5, 7)):
        five.add(8, 4, 3, mark=mark, calls=1)
    for size, lent in ((32, (31, 32)), (32, (33, 32)), (32, (32, 33)), (32, (0, 0)), (32, (64, 64)), (31, (31, 31)), (64, (64, 64))):
        Group(FIVE, size=size, lent=lent).add(8, 2, 3, calls=1)
    for table, place, by in product((0, 1), (0, 1, 2, 3, 17, 31, 32), (1, 32768)):
        group = Group(FIVE, change=(table, place, by))
        group.add(8, 2, 3, calls=1)
    Group(CCITT, change=(1, 65535, 2)).add(17, 2, 3, calls=1)
    Group(CCITT, change=(0, 65535, 2)).add(17, 2, 3, calls=1)


worked_by_hand()
every_small_list()
joined_pages()
every_mark()
every_mark_for_every_syndrome()
marks_of_every_span()
long_packets()
refused_in_order()
refused_at_the_edges()

given = [str(len(groups))]
expected = []
for group in groups:
    given += [group.head(), *(line for line, _ in group.cases)]
    expected += [line for _, line in group.cases]
text = "\n".join(given) + "\n"
assert len(text) < 65536, len(text)
TARGET.joinpath("stdin").write_text(text)
TARGET.joinpath("stdout").write_text("\n".join(expected) + "\n")
print(f"{len(groups)} groups, {sum(len(group.cases) for group in groups)} cases, {len(text)} bytes of input")
