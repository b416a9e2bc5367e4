#!/usr/bin/env python3
"""root_table.py: prints the rows of `arc_at` in crates/roots/src/seed.rt, the same on every run.

A radicand n has 47 or 48 binary digits: n = m * 2^23 or m * 2^24, where m has 24. Row t covers 2^17 numbers m: the first
64 rows those of 47 digits, the others those of 48. It stands at arm t + 64, less 128 past the last: the eight bits of a
pattern before its last 17. Its three entries tell the root along the row, in 256ths: the start at the row's first
number, the slope there, for the whole row, and the bend, by which the end lies below that slope. They are those of the
parabola through the root at the row's start, middle and end, each the nearest whole number; the contract of `arc_at`
holds every row to this rule.
"""
from math import isqrt


def nearest_root(n):
    return (isqrt(4 * n) + 1) // 2


def radicand_at(half):
    """The radicand at a half of a row, times 2^16, counted in halves from the first row's start."""
    return (128 + half + max(0, half - 128)) << 55


def arc(row):
    start, middle, end = (nearest_root(radicand_at(2 * row + half)) for half in range(3))
    bend = 4 * middle - 2 * (start + end)
    return start, end - start + bend, bend


for arm in range(128):
    print("        %d => Arc(%d, %d, %d)," % ((arm,) + arc((arm + 64) % 128)))
