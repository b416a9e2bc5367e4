#!/usr/bin/env python3
"""arc_table.py: writes the table of the room `arcs`, as the arms of a Rattle `match`.

    python3 tools/arc_table.py rows       the arms of `entry` in crates/arcs/src/table.rt

Row k has 2^30 times the angle of the direction (128, k), to the nearest whole number, and 2^45 over 128^2 + k^2, rounded
down. The checker holds each arm to `arcTangent k` (crates/arc_rows/specs/ArcTangent.antt), that to the
nearest-whole-number rule, and the second number to `lean k` (crates/arcs/specs/How.antt), all by computed tests.
Whole numbers only: nothing here is rounded by a float."""
import sys
from fractions import Fraction


def arctangent(k, digits=60):
    """atan(k / 128) as a fraction, nearer than 2^-digits: Euler's series, whose terms fall by at least a half."""
    x = Fraction(k, 128)
    term = x / (1 + x * x)
    ratio = x * x / (1 + x * x)
    total, i = Fraction(0), 1
    while term > Fraction(1, 1 << (digits + 4)):
        total += term
        term = term * ratio * 2 * i / (2 * i + 1)
        i += 1
    return total


def nearest(x):
    return (2 * x.numerator + x.denominator) // (2 * x.denominator)


def rows():
    return {k: (nearest(arctangent(k) * (1 << 30)), (1 << 45) // (16384 + k * k)) for k in range(129)}


def arms(values):
    """One arm a line; the last row is the arm of all other numbers."""
    last = max(values)
    return "".join("        %s => Row(%d, %d),\n" % ("_" if k == last else k, *values[k]) for k in sorted(values))


if __name__ == "__main__":
    if sys.argv[1:] == ["rows"]:
        print(arms(rows()), end="")
    else:
        sys.exit(__doc__)
