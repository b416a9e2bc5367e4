#!/usr/bin/env python3
"""exact.py [COUNT]
Judges answers of sine, cosine, arc cosine and atan2 with exact fractions against document 01 itself: the sums S and C
of the first 32 terms, and the wedges. Special values, the ends and one ulp past them are among the inputs; COUNT random
ones of each function are added (3000). The last line says how many answers were judged and how many failed."""
import os
import random
import struct
import subprocess
import sys
from fractions import Fraction
from math import factorial

ROOT = os.path.join(os.path.dirname(os.path.abspath(__file__)), "..", "..")
P = Fraction(13176795, 2 ** 22)
E = Fraction(1, 2 ** 18)
BAND = Fraction(1, 2 ** 21)


def number(bits):
    return struct.unpack(">f", struct.pack(">I", bits))[0]


def exact(bits):
    return Fraction(number(bits))


def polynomial(first, x):
    """The sum of 32 terms (-1)^k x^(2k+first) / (2k+first)!"""
    n, d = x.numerator, x.denominator
    top, total = 62 + first, 0
    for k in range(32):
        e = 2 * k + first
        total += (-1) ** k * n ** e * d ** (top - e) * (factorial(top) // factorial(e))
    return Fraction(total, factorial(top) * d ** top)


def S(x):
    return polynomial(1, x)


def C(x):
    return polynomial(0, x)


def finite(bits):
    return bits & 0x7f800000 != 0x7f800000


def refusal(most, *arguments):
    if not all(map(finite, arguments)):
        return 1
    return 0 if all(abs(exact(b)) <= most for b in arguments) else 2


def right(name, arguments, answer):
    most = {"sin": 16, "cos": 16, "acos": 1, "atan2": 128}[name]
    n = refusal(most, *arguments)
    if n:
        return answer == f"R {n}"
    if not answer.startswith("ok "):
        return False
    bits = int(answer[3:], 16)
    value = exact(bits)
    if name == "sin":
        x = exact(arguments[0])
        return bits == arguments[0] if x == 0 else abs(value - S(x)) <= BAND
    if name == "cos":
        x = exact(arguments[0])
        return value == 1 if x == 0 else abs(value - C(x)) <= BAND
    if name == "acos":
        q = exact(arguments[0])
        low = value - E <= 0 or C(value - E) >= q
        high = value + E >= P or C(value + E) <= q
        return 0 <= value <= P and low and high and (q != 1 or bits == 0)
    y, x = map(exact, arguments)
    sign = bits >> 31 == arguments[0] >> 31 and abs(value) <= P
    if x == 0 and y == 0:
        return sign and (value == y if arguments[1] == 0 else abs(value) == P)
    wedge = x * S(value - E) <= y * C(value - E) and y * C(value + E) <= x * S(value + E)
    return sign and wedge and x * C(value) + y * S(value) > 0


def inputs(count):
    draw = random.Random(15)
    ends = {"sin": 0x41800000, "cos": 0x41800000, "acos": 0x3f800000, "atan2": 0x43000000}
    common = [0, 1, 2, 0x7fffff, 0x800000, 0x3f000000, 0x3f7fffff, 0x3f800000, 0x40490fdb, 0x3fc90fdb, 0x7f7fffff, 0x7f800000, 0x7fc00000, 0x7f800001]
    for name, end in ends.items():
        special = [s | b for b in common + [end - 1, end, end + 1] for s in (0, 0x80000000)]
        drawn = [draw.randrange(end) | draw.choice((0, 0x80000000)) if draw.random() < 0.3
                 else struct.unpack(">I", struct.pack(">f", draw.uniform(-1, 1) * number(end)))[0] for _ in range(2 * count)]
        if name == "atan2":
            yield from ((name, (y, x)) for y in special for x in special)
            yield from ((name, (drawn[2 * k], drawn[2 * k + 1])) for k in range(count))
        else:
            yield from ((name, (b,)) for b in special + drawn[:count])


def main():
    count = int(sys.argv[1]) if len(sys.argv) > 1 else 3000
    asked = list(inputs(count))
    text = "".join(f"{name} {' '.join('%08x' % b for b in a)}\n" for name, a in asked)
    done = subprocess.run([os.path.join(ROOT, "tools", "run"), "replay"], input=text, capture_output=True, text=True, check=True)
    failed = 0
    for (name, arguments), answer in zip(asked, done.stdout.splitlines(), strict=True):
        if not right(name, arguments, answer):
            failed += 1
            print("wrong:", name, *("%08x" % b for b in arguments), "->", answer)
    print(f"{len(asked)} answers judged with exact fractions, {failed} failed")
    sys.exit(1 if failed else 0)


main()
