#!/usr/bin/env python3
"""Writes the vectors of the program simulation_test: crates/simulation_test/stdin, and the stdout that it is held to.

Each simulation is run trial by trial, with packets, flips and verdicts by the reading of docs/RULES.md in reference.py. A draw keeps the
positions not yet taken as a list and takes one out. The same simulations are run by wrong readings of the rules too, and each of these
must leave something else in many cases. Nothing here is taken from the library. Run it from anywhere:

    python3 tests/simulation_vectors.py
"""
from collections import Counter
from functools import cache
from itertools import combinations, product
from math import comb
from pathlib import Path
from random import Random

from reference import CCITT, FIVE, MOST_POSITIONS, degree_of, filled, flip, fnv, made, next_state, verdict
from reference import unfit_field, unfit_generator, unfit_length, unfit_limit, unfit_range, unfit_values

TARGET = Path(__file__).resolve().parent.parent / "crates" / "simulation_test"
NINE, THREE, EIGHT, FULL = 9, 11, 0x107, 131071  # degrees 3, 3, 8 and 16
MOST_FLIPS, COUNTS, MOST_TRIALS = 8, 45, 65535
ORDER = [1, 2, 11, 3, 5, 6, 8, 9, 10, 14]
COLUMNS = ["intact", "repaired to the packet made", "repaired otherwise", "several", "none"]
SEEDS = [0, 1, 2, 65871, 2**31, 2**32 - 2, 2**32 - 1]  # from 65871 eight bytes come for which zero is computed
HUGE = 2**64 - 1

random = Random(1664525)
made, verdict = cache(made), cache(verdict)  # the readings share many
below = Counter()  # how many of the positions taken lay below the one that was picked


def draw(bits, flips, state):
    """So many positions and the state after them: draw i is the next state modulo L - i, and picks that place, counted from 0, among the
    positions not yet taken, ascending."""
    left, taken = list(range(bits)), []
    for i in range(flips):
        state = next_state(state)
        place = state % (bits - i)
        taken.append(left.pop(place))
        below[taken[-1] - place] += 1
    return taken, state


# Wrong draws. A position that comes twice flips back.


def with_repetition(bits, flips, state):
    taken = []
    for _ in range(flips):
        state = next_state(state)
        taken.append(state % bits)
    return taken, state


def with_repetition_flipped_once(bits, flips, state):
    taken, state = with_repetition(bits, flips, state)
    return set(taken), state


def fewer_places_of_all(bits, flips, state):
    taken = []
    for i in range(flips):
        state = next_state(state)
        taken.append(state % (bits - i))
    return taken, state


def drawn_again(bits, flips, state):
    taken = []
    while len(taken) < flips:
        state = next_state(state)
        if state % bits not in taken:
            taken.append(state % bits)
    return taken, state


def next_free_one(bits, flips, state):
    taken = []
    for i in range(flips):
        state = next_state(state)
        place = state % (bits - i)
        while place in taken:
            place += 1
        taken.append(place)
    return taken, state


def last_one_moved_in(bits, flips, state):
    left, taken = list(range(bits)), []
    for i in range(flips):
        state = next_state(state)
        place = state % (bits - i)
        taken.append(left[place])
        left[place] = left[-1]
        left.pop()
    return taken, state


def counted_from_1(bits, flips, state):
    left, taken = list(range(bits)), []
    for i in range(flips):
        state = next_state(state)
        taken.append(left.pop(state % (bits - i) - 1))
    return taken, state


def before_the_step(bits, flips, state):
    left, taken = list(range(bits)), []
    for i in range(flips):
        taken.append(left.pop(state % (bits - i)))
        state = next_state(state)
    return taken, state


def from_the_other_end(bits, flips, state):
    left, taken = list(range(bits)), []
    for i in range(flips):
        state = next_state(state)
        taken.append(left.pop(-1 - state % (bits - i)))
    return taken, state


def row_by_row(trials):
    """The number of flips of each trial."""
    return [flips for flips in range(MOST_FLIPS + 1) for _ in range(trials)]


def round_by_round(trials):
    return [flips for _ in range(trials) for flips in range(MOST_FLIPS + 1)]


def made_first(crc, check, length, flips, state, draw):
    """A packet, the positions that flip, and the state after both."""
    sent = made(*crc, state, *check, length)
    for _ in range(length):
        state = next_state(state)
    return sent, *draw(8 * length, flips, state)


def drawn_first(crc, check, length, flips, state, draw):
    taken, state = draw(8 * length, flips, state)
    sent = made(*crc, state, *check, length)
    for _ in range(length):
        state = next_state(state)
    return sent, taken, state


def simulate(crc, check, limit, trials, seed, packet, output, draw=draw, turns=row_by_row, damage=made_first, restarts=(), compared="sent"):
    """The nine rows, the state after the last draw, the packet as last received, and the output as a repair last left it. What follows the
    output is by the rules, unless a wrong reading is asked for."""
    rows = [[0] * len(COLUMNS) for _ in range(MOST_FLIPS + 1)]
    state = seed
    for turn, flips in enumerate(turns(trials)):
        if turn in restarts:
            state = seed
        sent, taken, state = damage(crc, check, len(packet), flips, state, draw)
        packet = flip(sent, taken)
        kind, passing = verdict(crc[0], check, limit, packet, crc[1:])
        if kind == "repaired":
            output = flip(packet, passing[0])
            column = 1 if output == {"sent": sent, "received": packet}[compared] else 2
        else:
            column = {"intact": 0, "several": 3, "none": 4}[kind]
        rows[flips][column] += 1
    return rows, state, packet, output


def patterns_each(generator, length, limit):
    """About how many patterns a list has: each is tried by itself, so that many take long."""
    return comb(8 * length, limit) >> degree_of(generator)


def wrong_readings(trials):
    """How simulations are run by wrong readings of the rules."""
    return {
        "draws with repetition": {"draw": with_repetition},
        "draws with repetition, flipped once": {"draw": with_repetition_flipped_once},
        "a place among all positions": {"draw": fewer_places_of_all},
        "drawn again where taken": {"draw": drawn_again},
        "the next one where taken": {"draw": next_free_one},
        "those left not ascending": {"draw": last_one_moved_in},
        "places counted from 1": {"draw": counted_from_1},
        "draws before the step": {"draw": before_the_step},
        "positions from the other end": {"draw": from_the_other_end},
        "flips drawn first": {"damage": drawn_first},
        "rows inside the trials": {"turns": round_by_round},
        "the state restarted for each row": {"restarts": range(0, (MOST_FLIPS + 1) * trials, trials)},
        "the state restarted for each trial": {"restarts": range((MOST_FLIPS + 1) * trials)},
        "compared with the packet received": {"compared": "received"},
    }


class Group:
    """Cases that share tables: built for a generator with `size` entries, one entry changed, the first of each lent."""

    def __init__(self, generator, size=None, change=(0, 0, 0), lent=None):
        self.generator = generator
        self.size = 2 ** degree_of(generator) if size is None else size
        self.change = change
        self.lent = lent or (self.size, self.size)
        self.given = []
        self.expected = []
        groups.append(self)

    def head(self):
        return " ".join(map(str, [0, self.generator, self.size, *self.change, *self.lent, len(self.given)]))

    def applying(self, generator, values, check, limit, trials, length, room, counts):
        """The conditions that apply, in their order. Tables are right or wrong for a generator that is accepted."""
        entries = 2 ** degree_of(generator)
        table, place, by = self.change
        changed = by and place < self.lent[table]
        applies = {
            1: unfit_generator(generator),
            2: unfit_length(generator, 8 * length),
            11: unfit_values(generator, *values),
            3: unfit_limit(limit),
            5: self.lent != (entries, entries),
            6: changed or not (unfit_generator(generator) or generator == self.generator),
            8: room != length or counts != COUNTS,
            9: unfit_range(generator, 8 * length, *check[:2]),
            10: unfit_field(*check),
            14: not 1 <= trials <= MOST_TRIALS,
        }
        return [number for number in ORDER if applies[number]]

    def add(self, check, limit, trials, length, seed=0, values=(0, 0), generator=None, room=None, counts=COUNTS):
        """A case, and the line that the program prints for it."""
        generator = self.generator if generator is None else generator
        room = length if room is None else room
        before = random.randrange(2**32)
        wide = [x for y in (generator, *values, *check, limit, trials) for x in divmod(y, 2**32)]
        self.given.append(" ".join(map(str, [*wide, seed, length, room, counts, before])))
        packet, output = filled(length, before), filled(room, next_state(before))
        applying = self.applying(generator, values, check, limit, trials, length, room, counts)
        if applying:
            together.add(frozenset(applying))
            held, state = [], before
            for _ in range(counts):
                state = next_state(state)
                held.append(state)
            self.expected.append(f"refused {applying[0]} {fnv(packet)} {fnv(output)} {fnv(held)}")
            return
        setting = ((generator, *values), check, limit, trials, seed, packet, output)
        result = simulate(*setting)
        rows, state, received, left = result
        assert all(sum(row) == trials for row in rows)
        assert rows[0] == [trials, 0, 0, 0, 0]
        assert all(row[2] == row[4] == 0 for row in rows[: limit + 1])
        columns.update(column for column in range(len(COLUMNS)) if any(row[column] for row in rows[1:]))
        accepted["as lent"] += left == output
        accepted["repaired"] += left != output
        if trials <= 20 and length <= 16 and trials * patterns_each(generator, length, limit) <= 200:
            accepted["by wrong readings too"] += 1
            for name, reading in wrong_readings(trials).items():
                other = simulate(*setting, **reading)
                readings[name] += other != result
                by_counts[name] += other[0] != rows
        self.expected.append(f"{state} {fnv(received)} {fnv(left)} " + "".join(f"{count} " for row in rows for count in row))


groups = []
together = set()  # conditions that apply together
columns = Counter()  # in how many cases each column is met, in rows other than that of no flip
accepted = Counter()
readings = Counter()  # how often a wrong reading leaves something else
by_counts = Counter()  # and how often the counts tell it


def places(generator, length):
    """Every accepted range with each of its fields."""
    end = (8 * length - degree_of(generator)) // 8
    return [(a, e, field) for a, e in combinations(range(end + 1), 2) for field in range(a, e - 1, 2)]


def some_values(generator):
    ones = 2 ** degree_of(generator) - 1
    return random.choice([(0, 0), (0, 0), (ones, 0), (0, ones), (ones, ones), (random.randint(0, ones), random.randint(0, ones))])


def some_seed():
    return random.choice([*SEEDS, *(random.randrange(2**32) for _ in SEEDS)])


def worked_by_hand():
    """Draws worked by hand. The states after 0 are 3C6EF35Fh, 47502932h, D1CCF6E9h and AAF95334h; modulo 24, 23, 22 and 21 they are 7, 4, 13
    and 2. Of the positions other than 7 and 4 the one at place 13 is 15."""
    assert draw(24, 4, 0) == ([7, 4, 15, 2], 0xAAF95334)
    assert draw(24, 0, 5) == ([], 5)
    five = Group(FIVE)
    for seed in SEEDS:
        five.add((0, 2, 0), 1, 1, 3, seed)


def short_packets():
    """Lengths up to 5 bytes, where draws often pass over positions taken: every limit, every seed, many ranges and values."""
    for generator, lengths in ((NINE, (3, 4, 5)), (THREE, (3, 4, 5)), (FIVE, (3, 4, 5)), (EIGHT, (3, 4, 5)), (CCITT, (4, 5)), (FULL, (4, 5))):
        group = Group(generator)
        for length, limit in product(lengths, range(1, MOST_POSITIONS + 1)):
            if patterns_each(generator, length, limit) > 2000:
                continue
            for trials in (1, 1, 2, 2, 5):
                group.add(random.choice(places(generator, length)), limit, trials, length, some_seed(), some_values(generator))
            if limit < 3:
                group.add(random.choice(places(generator, length)), limit, 20, length, some_seed(), some_values(generator))


def every_place():
    """Every accepted range and field of a packet of 5 bytes."""
    for generator in (NINE, EIGHT, CCITT):
        group = Group(generator)
        for place in places(generator, 5):
            group.add(place, random.randint(1, 2), random.randint(1, 3), 5, some_seed(), some_values(generator))


def longer_packets():
    """8, 16 and 64 bytes, and the longest."""
    for generator in (NINE, THREE, FIVE, EIGHT, CCITT, FULL):
        group = Group(generator)
        for length, limit, trials in ((8, 1, 20), (8, 1, 2), (8, 2, 1), (8, 2, 5), (8, 3, 1), (16, 1, 5), (16, 2, 2), (64, 1, 2)):
            if patterns_each(generator, length, limit) > 3000:
                continue
            for _ in range(2):
                group.add(random.choice(places(generator, length)), limit, trials, length, some_seed(), some_values(generator))
            group.add((0, 2, 0), limit, trials, length, some_seed(), some_values(generator))
    ccitt = Group(CCITT)
    ccitt.add((0, 14, 12), 3, 2, 16, 2**32 - 1, (0xFFFF, 0))
    ccitt.add((0, 62, 60), 2, 5, 64, 1, (0xFFFF, 0))
    ccitt.add((11, 36, 21), 2, 2, 64, 0)
    ccitt.add((0, 510, 508), 1, 1, 512, 0, (0xFFFF, 0))
    ccitt.add((1, 258, 99), 1, 2, 512, 2**32 - 1)


def many_trials():
    """Some hundred trials."""
    for generator, check, limit, trials, length in (
        (FIVE, (0, 2, 0), 2, 300, 3),
        (EIGHT, (0, 2, 0), 1, 300, 4),
        (EIGHT, (1, 3, 1), 1, 257, 5),
        (CCITT, (0, 2, 0), 2, 300, 8),
        (CCITT, (0, 2, 0), 3, 300, 5),
        (NINE, (0, 2, 0), 1, 300, 3),
    ):
        Group(generator).add(check, limit, trials, length, some_seed(), some_values(generator))


def refused_in_order():
    """Every choice of the ten conditions: the first of those that apply is the answer."""
    for lent, change in product(((32, 32), (31, 32)), ((0, 0, 0), (0, 1, 26))):
        group = Group(FIVE, change=change, lent=lent)
        for one, two, eleven, three, eight, nine, ten, fourteen in product((False, True), repeat=8):
            if not any((one, two, eleven, three, eight, nine, ten, fourteen, lent != (32, 32), change[2])):
                continue
            length = 513 if two else 3
            room, counts = random.choice(((length + 1, COUNTS), (length, 44), (length, 46), (length + 2, 0))) if eight else (length, COUNTS)
            if nine and ten:
                check = random.choice(((0, 513, 1), (513, 513, 513), (2, 1, 0), (HUGE, HUGE, HUGE)))
            elif nine:
                check = random.choice(((0, 514, 0), (0, 514, 2), (511, 513, 511)))
            elif ten:
                check = random.choice(((0, 2, 1), (0, 2, 2), (0, 2, HUGE), (0, 0, 0), (2, 2, 0), (1, 1, HUGE)))
            else:
                check = (0, 2, 0)
            group.add(
                check,
                random.choice((0, MOST_POSITIONS + 1, HUGE)) if three else 1,
                random.choice((0, MOST_TRIALS + 1, HUGE)) if fourteen else 1,
                length,
                some_seed(),
                random.choice(((32, 0), (0, 32), (HUGE, HUGE))) if eleven else (31, 31),
                52 if one else FIVE,
                room,
                counts,
            )


def refused_at_the_edges():
    five = Group(FIVE)
    for generator in (0, 1, 2, 3, 5, 7, 8, 52, 131072, 131073, 2**32 + FIVE, 2**63 + FIVE, HUGE):
        five.add((0, 2, 0), 1, 1, 3, generator=generator)
    for generator in (37, 61, 47, NINE, 67, 65537, FULL):  # fit, but these are not their tables
        five.add((0, 2, 0), 1, 1, 3, generator=generator)
    for length in (0, 1, 2, 3, 513, 600, 1024):
        five.add((0, 2, 0), 1, 1, length, length)
    for value in (31, 32, 33, 2**16, 2**32, 2**32 + 1, 2**63, HUGE):
        for values in ((value, 0), (0, value), (value, value)):
            five.add((0, 2, 0), 1, 1, 3, 9, values)
    for limit in (*range(MOST_POSITIONS + 2), 256 + 1, 65536 + 2, 2**32 + 1, 2**63 + 1, HUGE):
        five.add((0, 2, 0), limit, 1, 3)
    for room in (0, 1, 2, 3, 4, 5, 256 + 3, 1024):
        five.add((0, 2, 0), 1, 1, 3, room=room)
    for counts in (0, 1, 5, 9, 40, 44, 45, 46, 50, 64):
        five.add((0, 2, 0), 1, 1, 3, counts=counts)
    five.add((0, 2, 0), 1, 1, 3, room=COUNTS, counts=3)
    for trials in (0, 1, 255, 256, 65536, 65537, 65538, 2**31, 2**32, 2**32 + 1, 2**32 + 65535, 2**63, 2**63 + 1, HUGE):
        five.add((0, 2, 0), 1, trials, 3)
    edges = (0, 1, 2, 3, 4, 2**32, 2**32 + 2, 2**61, 2**61 + 2, 2**63 + 2, HUGE)
    for a, e in product(edges, edges):
        five.add((a, e, a), 1, 1, 3)
    for a, e, field in product(range(4), range(6), (0, 1, 2, 3, 4, 2**63, HUGE - 1, HUGE)):
        five.add((a, e, field), 1, 1, 5)
    for place in ((2, 2, 2), (0, 6, 1), (0, 6, 6), (4, 6, 2), (HUGE - 1, HUGE, HUGE), (HUGE - 1, HUGE - 1, HUGE - 1)):
        five.add(place, 1, 1, 8)
    for place, trials in product(range(4), (0, 1)):  # an accepted place for no range
        five.add((place, place, place), 1, trials, 4)
    ccitt = Group(CCITT)
    for a, e in product(range(5), range(6)):
        ccitt.add((a, e, a), 1, 1, 4)
    ccitt.add((0, 1, 0), 1, 1, 2)
    ccitt.add((0, 1, 0), 1, 1, 3)
    for size, lent in ((32, (32, 31)), (32, (33, 32)), (32, (32, 33)), (32, (0, 0)), (32, (64, 64)), (31, (31, 31)), (64, (64, 64))):
        Group(FIVE, size=size, lent=lent).add((0, 2, 0), 1, 1, 3)
    for table, place, by in product((0, 1), (0, 1, 17, 31, 32), (1, 32768)):
        Group(FIVE, change=(table, place, by)).add((0, 2, 0), 1, 1, 3)
    Group(CCITT, change=(0, 65535, 2)).add((0, 2, 0), 1, 1, 4)
    Group(CCITT, change=(1, 65535, 2)).add((0, 2, 0), 1, 1, 4)


worked_by_hand()
short_packets()
every_place()
longer_packets()
many_trials()
refused_in_order()
refused_at_the_edges()

assert all(frozenset(some) in together for count in range(1, len(ORDER) + 1) for some in combinations(ORDER, count))
assert len(columns) == len(COLUMNS) and min(columns.values()) >= 20, columns
assert accepted["as lent"] and accepted["repaired"] > 100, accepted
assert set(below) == set(range(MOST_FLIPS)), below
assert set(readings) == set(wrong_readings(1)) and min(readings.values()) > 100 and min(by_counts.values()) > 50, (readings, by_counts)
text = "\n".join([str(len(groups)), *(line for group in groups for line in (group.head(), *group.given))]) + "\n"
lines = [line for group in groups for line in group.expected]
assert len(text) < 196608, len(text)  # the room that the program has for it
TARGET.joinpath("stdin").write_text(text)
TARGET.joinpath("stdout").write_text("\n".join(lines) + "\n")
print(f"{len(groups)} groups, {len(lines)} cases, {len(text)} bytes of input; accepted: {dict(accepted)}")
print("cases with a column:", {COLUMNS[column]: count for column, count in sorted(columns.items())})
print("positions taken below the one picked:", dict(sorted(below.items())))
for name, count in readings.items():
    print(f"other than by a wrong reading, {name}: {count}, the counts {by_counts[name]}")
