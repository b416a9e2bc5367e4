#!/usr/bin/env python3
"""arc_sine_table.py: writes the table of arc sines, which arc cosine reads for numbers up to 45/64.

    python3 tools/arc_sine_table.py rows      the arms of `entry` in crates/arcs/src/arc_sine_table.rt
    python3 tools/arc_sine_table.py lists     the lists of crates/arc_rows/specs/ArcSine.antt

Row k, from 0 to 90, is a polynomial of the second degree for the arc sine from k / 128 to (k + 1) / 128: 2^30 times its
value at k / 128, 2^23 times its slope there and 2^16 times its bend, each to the nearest whole number. It is the one that
meets the arc sine at 1, 8 and 15 sixteenths of the row, but for row 0, which is the line of slope 1. The checker holds
each arm to the lists, and each row of the lists to S by a computed test (crates/arc_rows/proofs/SineTests.antt).
Whole numbers only: nothing here is rounded by a float."""
import sys
from fractions import Fraction

DIGITS = 80


def arcsine(x):
    """asin(x) as a fraction, nearer than 2^-60: the power series, each term cut to 2^-100."""
    term, total, n = x, x, 0
    while term > Fraction(1, 1 << DIGITS):
        n += 1
        term = term * x * x * (2 * n - 1) ** 2 / (2 * n * (2 * n + 1))
        term = Fraction(int(term * (1 << 100)), 1 << 100)
        total += term
    return total


def nearest(x):
    return (2 * x.numerator + x.denominator) // (2 * x.denominator)


def row(k):
    if k == 0:
        return 0, 1 << 23, 0
    x, y, z = (Fraction(n, 16) for n in (1, 8, 15))
    p, q, r = (arcsine((k + n) / 128) for n in (x, y, z))
    first, second = (q - p) / (y - x), (r - q) / (z - y)
    bend = (second - first) / (z - x)
    slope = first - bend * (x + y)
    value = p - slope * x - bend * x * x
    return nearest(value * 2 ** 30), nearest(slope * 2 ** 7 * 2 ** 23), nearest(bend * 2 ** 14 * 2 ** 16)


ROWS = [row(k) for k in range(91)]


def arms():
    """One arm a line; the last row is the arm of all other numbers."""
    return "".join("        %s => Row(%d, %d, %d),\n" % ("_" if k == 90 else k, *ROWS[k]) for k in range(91))


def lists():
    text = ""
    for place, name in enumerate(("angles", "slopes", "bends")):
        text += "\nunfoldable pub %s : List ℕ\n%s =\n" % (name, name)
        line = "   "
        for r in ROWS:
            part = " %d ∷" % r[place]
            if len(line + part) > 130:
                text, line = text + line + "\n", "   "
            line += part
        text += line + " []\n"
    return text


if __name__ == "__main__":
    if sys.argv[1:] == ["rows"]:
        print(arms(), end="")
    elif sys.argv[1:] == ["lists"]:
        print(lists(), end="")
    else:
        sys.exit(__doc__)
