"""What the scripts that write test vectors share: a reading of docs/RULES.md on Python's integers, with nothing taken from
the library."""
from functools import cache
from itertools import combinations
from math import comb

FIVE, CCITT = 53, 0x11021
MOST_POSITIONS = 4  # of a pattern
RECORD_BYTES = 1 + 2 * MOST_POSITIONS  # of the longest record, and so of the least output of a page
FEW_SETS = 10**6  # up to so many sets each one is tried


def degree_of(generator):
    return generator.bit_length() - 1


def divide(value, generator):
    """The remainder of a binary polynomial: the generator is taken away below each one that is too high."""
    degree = degree_of(generator)
    for place in range(value.bit_length() - 1, degree - 1, -1):
        if value >> place & 1:
            value ^= generator << (place - degree)
    return value


def as_read(packet, generator, initial, final):
    """The packet's bits as a number, with the initial value XORed into the first of them and the final value into the last."""
    degree = degree_of(generator)
    bits = [byte >> place & 1 for byte in packet for place in range(7, -1, -1)]
    for place in range(degree):
        bits[place] ^= initial >> (degree - 1 - place) & 1
        bits[len(bits) - degree + place] ^= final >> (degree - 1 - place) & 1
    return int("".join(map(str, bits)), 2)


def remainder_of(packet, generator, initial, final):
    return divide(as_read(packet, generator, initial, final), generator)


def unfit_generator(generator):
    """Condition 1."""
    return generator % 2 == 0 or not 3 <= degree_of(generator) <= 16


def unfit_length(generator, bits):
    """Condition 2."""
    return not degree_of(generator) < bits <= 4096


def unfit_limit(limit):
    """Condition 3."""
    return not 1 <= limit <= MOST_POSITIONS


def unfit_values(generator, initial, final):
    """Condition 11."""
    return max(initial, final) >= 2 ** degree_of(generator)


def unfit_range(generator, bits, start, end):
    """Condition 9."""
    return start > end or 8 * end > bits - degree_of(generator)


def unfit_field(start, end, field):
    """Condition 10, as stamp and the packet maker test it."""
    return not start <= field <= end - 2 or (field - start) % 2 == 1


def unfit_check_field(start, end, field):
    """Condition 10, as a repair tests it."""
    return start < end and unfit_field(start, end, field)


def in_order(pattern):
    """The list's order, as a key to sort patterns by: fewer positions first, then the smaller span, from the smallest position to
    the largest, then by the smallest position that differs."""
    return len(pattern), max(pattern, default=0) - min(pattern, default=0), pattern


@cache
def powers(generator, bits):
    """What each power of x leaves."""
    return [divide(1 << p, generator) for p in range(bits)]


@cache
def every_set(generator, bits, limit):
    """Every set of at most so many positions, by its syndrome: what is left of its polynomial. Above 64 bits what the single powers
    leave is added up instead, since there are many sets."""
    power = powers(generator, bits)
    found = {}
    for count in range(limit + 1):
        for positions in combinations(range(bits), count):
            if bits <= 64:
                syndrome = divide(sum(1 << p for p in positions), generator)
            else:
                syndrome = 0
                for p in positions:
                    syndrome ^= power[p]
            found.setdefault(syndrome, []).append(positions)
    return found


def looked_up(generator, bits, limit, syndrome):
    """The sets of one syndrome, each last position from a table of the powers instead of tried."""
    power = powers(generator, bits)
    places = {}
    for p, left in enumerate(power):
        places.setdefault(left, []).append(p)
    found = [()] if syndrome == 0 else []
    for count in range(limit):
        for positions in combinations(range(bits), count):
            left = syndrome
            for p in positions:
                left ^= power[p]
            found += [(*positions, q) for q in places.get(left, []) if not positions or positions[-1] < q]
    return found


assert sorted(looked_up(FIVE, 24, 3, 9)) == sorted(every_set(FIVE, 24, 3)[9])
assert sorted(looked_up(CCITT, 40, 3, 0x1021)) == sorted(every_set(CCITT, 40, 3)[0x1021])


@cache
def listed(generator, bits, limit, syndrome):
    """The list: of all sets of at most so many positions those with the syndrome, in the order."""
    if sum(comb(bits, count) for count in range(limit + 1)) <= FEW_SETS:
        found = every_set(generator, bits, limit).get(syndrome, [])
    else:
        found = looked_up(generator, bits, limit, syndrome)
    return sorted(found, key=in_order)


def checksum(data):
    """RFC 1071: big-endian words, a zero byte at an odd end, the carries folded back."""
    data = bytes(data) + bytes(len(data) % 2)
    total = sum(data[i] * 256 + data[i + 1] for i in range(0, len(data), 2))
    while total > 0xFFFF:
        total = total % 0x10000 + total // 0x10000
    return total


def passes(packet, start, end, field):
    """The second check: there is none where the range begins and ends at one place, and no sum is taken where the field is 0."""
    if start == end or packet[field : field + 2] == bytes(2):
        return True
    return checksum(packet[start:end]) == 0xFFFF


def stamped(packet, start, end, field):
    """The packet whose field makes the sum of the range FFFFh; a computed zero is written as FFFFh."""
    rest = packet[:field] + bytes(2) + packet[field + 2 :]
    computed = checksum(rest[start:end]) ^ 0xFFFF
    return packet[:field] + (computed or 0xFFFF).to_bytes(2, "big") + packet[field + 2 :]


def flip(packet, positions):
    """The packet with the bits at some positions flipped."""
    value = int.from_bytes(packet, "big")
    for p in positions:
        value ^= 1 << p
    return value.to_bytes(len(packet), "big")


def listing(generator, limit, packet, values=(0, 0)):
    """The list for a packet."""
    return listed(generator, 8 * len(packet), limit, remainder_of(packet, generator, *values))


def verdict(generator, check, limit, packet, values=(0, 0), passing=passes):
    """The verdict: its kind, and the patterns that pass, in order. A check is the range's start and end, and the field."""
    if remainder_of(packet, generator, *values) == 0 and passing(packet, *check):
        return "intact", []
    found = [p for p in listing(generator, limit, packet, values) if passing(flip(packet, p), *check)]
    return ("none", "repaired", "several")[min(len(found), 2)], found


def sealed(packet, generator, values=(0, 0)):
    """The packet whose last bits make the remainder 0."""
    return (int.from_bytes(packet, "big") ^ remainder_of(packet, generator, *values)).to_bytes(len(packet), "big")


def next_state(state):
    """The state of the packet maker's stream after this one."""
    return (1664525 * state + 1013904223) % 2**32


@cache
def filled(length, seed):
    """The bytes that the stream yields from a seed on: the top eight bits of each state after it."""
    out = bytearray()
    for _ in range(length):
        seed = next_state(seed)
        out.append(seed >> 24)
    return bytes(out)


def made(generator, initial, final, seed, start, end, field, length):
    """The packet: the bytes yielded, with the field made to fit the range and then the last bits made to leave nothing."""
    packet = sealed(stamped(filled(length, seed), start, end, field), generator, (initial, final))
    assert checksum(packet[start:end]) == 0xFFFF and remainder_of(packet, generator, initial, final) == 0
    return packet


def fnv(data, before=2166136261):
    """The 32-bit FNV-1a hash, carried on from the bytes before."""
    for byte in data:
        before = (before ^ byte) * 16777619 % 2**32
    return before
