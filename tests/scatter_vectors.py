#!/usr/bin/env python3
"""Writes the stdin of the program scatter_test and the stdout that it is held to.

Rows and columns are slices of the bytes here: docs/RULES.md, section 13, says which are written and which are read. Nothing is taken
from the library. Run it from anywhere:

    python3 tests/scatter_vectors.py
"""
from itertools import product
from pathlib import Path

from reference import filled, fnv

TARGET = Path(__file__).resolve().parent.parent / "crates" / "scatter_test"

MOST = 64
SMALL = range(1, 9)
UNFIT = [0, MOST + 1, 2**32, 2**32 + 1, 2**63, 2**64 - 1]


def scattered(rows, columns, data):
    """Row after row is cut off; a column is what every row has at one place."""
    cut = [data[columns * row :][:columns] for row in range(rows)]
    return bytes(row[column] for column in range(columns) for row in cut)


def gathered(rows, columns, data):
    """A row is every so many-th byte of what was read by columns."""
    return b"".join(data[row::rows] for row in range(rows))


def refusal(rows, columns, lengths):
    """The first condition that refuses the call, or 0."""
    if not (1 <= rows <= MOST and 1 <= columns <= MOST):
        return 12
    if any(length != rows * columns for length in lengths):
        return 13
    return 0


def near(count):
    """Both lengths right, and then each of them off by one."""
    return [(count, count), (count - 1, count), (count + 1, count), (count, count - 1), (count, count + 1)]


cases = []
for rows, columns in [*product(SMALL, repeat=2), (1, MOST), (MOST, 1), (MOST, MOST)]:
    cases += [(rows, columns, *lengths) for lengths in near(rows * columns)]
# both lengths wrong in one way, and lengths that fit another shape
for rows, columns in [(3, 5), (5, 3), (2, 8), (MOST, MOST - 1), (MOST - 1, MOST)]:
    count = rows * columns
    cases += [(rows, columns, n, n) for n in (count, 0, count - 1, count + 1, rows, columns, rows * rows, columns * columns)]
# unfit shapes, with lengths that are the product modulo 2^64 where that is small, and with two others
for rows, columns in product(UNFIT + [1, 2, MOST], repeat=2):
    if rows in UNFIT or columns in UNFIT:
        count = rows * columns % 2**64
        cases += [(rows, columns, n, n) for n in [count] if n <= (MOST + 1) ** 2] + [(rows, columns, 7, 8)]
cases = [(*case, seed) for seed, case in enumerate(cases)]

text = [str(len(cases))]
out = []
tally = {}
for rows, columns, taken, given, seed in cases:
    text.append(f"{rows >> 32} {rows % 2**32} {columns >> 32} {columns % 2**32} {taken} {given} {seed}")
    data = filled(taken, seed)
    number = refusal(rows, columns, (taken, given))
    tally[number] = tally.get(number, 0) + 1
    if number:
        left = [filled(given, 1)] * 2
    else:
        left = [scattered(rows, columns, data), gathered(rows, columns, data)]
        assert gathered(rows, columns, left[0]) == data == scattered(rows, columns, left[1])
    out.append("".join(f"{number} {fnv(held)} " for held in left))

(TARGET / "stdin").write_text("\n".join(text) + "\n")
(TARGET / "stdout").write_text("\n".join(out) + "\n")
print(f"{len(cases)} cases; by answer {tally}; {(TARGET / 'stdin').stat().st_size} bytes of input")
