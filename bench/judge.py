#!/usr/bin/env python3
"""judge.py LINES REFERENCE ANSWERS
Holds answers to operation lines (docs/OPERATIONS.md) against reference answers, each as document 01 says: to the bit,
or within its bound; marks exactly. Prints what differs, the largest distances, and last how many lines were judged and how many failed."""
import math
import re
import struct
import sys

LRL = (0, 3, 4)  # left front, right middle, left rear, as places of a row
RLR = (1, 2, 5)
FLOATS, TRIPOD = 2 * 468, 2 * 504  # of a state row, in digits: where its floats end, and its tripod
BANDS = ("step", "tstep", "estep", "plan", "fk")  # a line of theirs with marks has an m more


def number(bits):
    return struct.unpack(">f", bytes.fromhex(bits))[0]


def floats(fields):
    return [number(f) for f in fields]


def patterns(row):
    """The floats of a row of bytes, lowest byte first, as eight hex digits each."""
    return [bytes.fromhex(row[i:i + 8])[::-1].hex() for i in range(0, len(row), 8)]


class Judge:
    def __init__(self):
        self.worst = {}

    def near(self, what, a, b, bound):
        d = abs(a - b)
        if not d <= bound:
            return f"{what}: {a!r} and {b!r} are {d!r} apart, {bound!r} allowed"
        if d > self.worst.get(what, 0.0):
            self.worst[what] = d
        return None

    def row(self, what, got, want, bound):
        if len(got) != len(want):
            return "another number of values"
        for a, b in zip(floats(got), floats(want)):
            bad = self.near(what, a, b, bound)
            if bad:
                return bad
        return None

    def step(self, name, got, want):
        if got[:2] != want[:2] or len(got) != 20:
            return "another kind of answer"
        if got[1] == "N":
            return None if got == want else "last is not as it was"
        for k in range(18):
            if k % 3 != 2 and got[2 + k] != want[2 + k]:
                return "x or y differs"
        return self.row(name + " z", got[4::3], want[4::3], 2.0 ** -19)

    def plan(self, given, got, want):
        if len(got) != 19 or got[0] != "ok":
            return "another kind of answer"
        if got[3::3] != want[3::3]:
            return "a planned z differs"
        start, relaxed = floats(given[1:19]), floats(given[19:37])
        lifted, standing = (LRL, RLR) if given[37] == "0" else (RLR, LRL)
        legs = lifted + standing if turns_well(start, relaxed, standing) else lifted
        for l in legs:
            bad = self.row("planned feet", got[1 + 3 * l:3 + 3 * l], want[1 + 3 * l:3 + 3 * l], 2.0 ** -12)
            if bad:
                return bad
        return None

    def conduct(self, got, want):
        """What a call of this kind sets: z of last, the target, nothing; and the joints. All else is equal to the bit."""
        if got[:2] != want[:2] or [len(f) for f in got] != [len(f) for f in want]:
            return "another kind of answer"
        kind, state, other = got[1], patterns(got[2][:FLOATS]), patterns(want[2][:FLOATS])
        low, high = {"S": (18, 36), "P": (36, 54), "N": (0, 0)}[kind]
        if state[:low] + state[high:] != other[:low] + other[high:] or got[2][FLOATS:] != want[2][FLOATS:]:
            return "something that stays, a mark or the tripod differs"
        bad = None
        if kind == "S":
            bad = self.step("conducted", ["ok", "S"] + state[low:high], ["ok", "S"] + other[low:high])
        if kind == "P":
            planned = ["plan"] + state[:18] + state[54:72] + [got[2][TRIPOD + 1]]
            bad = self.plan(planned, ["ok"] + state[low:high], ["ok"] + other[low:high])
        return bad or self.row("joints", patterns(got[3]), patterns(want[3]), 2.0 ** -16)

    def line(self, line, got, want):
        if got == want:
            return None
        name, g, w = line.split(" ")[0], got.split(), want.split()
        if name in ("ik", "iks") and "leg" in kinds(got, want) and set(kinds(got, want)) <= {"leg", "out", "ok"}:
            return past_limit(line, g) or reached(line, got)
        if not w or w[0] != "ok" or not g or g[0] != "ok":
            return "another refusal"
        given = line.split(" ")
        if name[-1] == "m" and name[:-1] in BANDS:
            if g[-1] != w[-1]:
                return "the marks differ"
            name, g, w = name[:-1], g[:-1], w[:-1]
            given = given[:19] + given[20:38] + given[39:] if name == "plan" else given
        if name in ("sin", "cos"):
            return self.near(name, number(g[1]), number(w[1]), 2.0 ** -21 + 2.0 ** -23)
        if name in ("acos", "atan2"):
            same = math.copysign(1.0, number(g[1])) == math.copysign(1.0, number(w[1]))
            return self.near(name, number(g[1]), number(w[1]), 2.0 ** -18 + 2.0 ** -22) if same else "the sign differs"
        if name in ("step", "tstep", "estep"):
            return self.step(name, g, w)
        if name == "plan":
            return self.plan(given, g, w)
        if name in ("ik", "iks"):
            return self.row("joints", g[1:], w[1:], 2.0 ** -16)
        if name == "conduct":
            return self.conduct(g, w)
        if name == "fk":
            return self.row("forward kinematics", g[1:], w[1:], 2.0 ** -17)
        return "not equal to the bit"


def kinds(*answers):
    """`leg` where one is past its limit, `out` where one is out of reach."""
    kind = lambda a: "leg" if re.fullmatch("R [68] [0-5]", a) else "out" if re.fullmatch("R (9|10) [0-5]", a) else a.split(" ")[0]
    return tuple(kind(a) for a in answers)


def single(x):
    """The f32 nearest to x."""
    return struct.unpack("f", struct.pack("f", x))[0]


def coxa_angles(line):
    """Of the six legs, in f32 but for the arc tangent."""
    f = floats(line.split()[1:])
    feet, legs = f[:18], f[23:]
    for l in range(6):
        x, y = (single(feet[3 * l + k] - legs[6 * l + k]) for k in range(2))
        yield single(math.atan2(y, x) + legs[6 * l + 3])


def past_limit(line, got):
    """Of an answer that names a leg past its limit where the reference has another or none, or names none: no leg before the one that it
    names, or no leg at all, is past its limit by more than 2^-16, and the one that it names is at most that short of its side."""
    angles, right, slack = list(coxa_angles(line)), math.pi / 2, 2.0 ** -16
    number, leg = (int(got[1]), int(got[2])) if got[0] == "R" and got[1] in "68" else (0, 6)
    if any(abs(a) > right + slack for a in angles[:leg]):
        return "a leg before it is past its limit"
    if number == 6 and angles[leg] < right - slack or number == 8 and angles[leg] > slack - right:
        return "the leg that it names is not past its limit there"
    return None


def out_of_reach(line):
    """What the strict solver answers where no leg is past its limit, in f32: the first leg that is out of reach, or `ok`."""
    f = floats(line.split()[1:])
    feet, (coxa, femur, tibia), legs = f[:18], f[18:21], f[23:]
    for l in range(6):
        x, y, z = (single(feet[3 * l + k] - legs[6 * l + k]) for k in range(3))
        sideways = single(single(math.sqrt(single(single(x * x) + single(y * y)))) - coxa)
        far = single(math.sqrt(single(single(sideways * sideways) + single(z * z))))
        if far > single(femur + tibia):
            return f"R 9 {l}"
        if far < abs(single(femur - tibia)):
            return f"R 10 {l}"
    return "ok"


def reached(line, got):
    """Of an answer that names no leg past its limit where the reference does."""
    kind = kinds(got)[0]
    right = kind == "leg" or (out_of_reach(line) if line.startswith("iks ") else "ok") == (got if kind == "out" else "ok")
    return None if right else "how far the feet are says something else"


def turns_well(start, relaxed, standing):
    """Both vectors of each turned pair are at least 2^-10 long, and their angle is at least 2^-12 short of a half turn."""
    cx = sum(start[3 * l] for l in standing) / 3
    cy = sum(start[3 * l + 1] for l in standing) / 3
    for l in standing:
        ax, ay = start[3 * l] - cx, start[3 * l + 1] - cy
        bx, by = relaxed[3 * l], relaxed[3 * l + 1]
        if min(math.hypot(ax, ay), math.hypot(bx, by)) < 2.0 ** -10:
            return False
        if abs(math.atan2(ax * by - ay * bx, ax * bx + ay * by)) > math.pi - 2.0 ** -12:
            return False
    return True


def main():
    if len(sys.argv) != 4:
        sys.exit(__doc__)
    lines, reference, answers = [open(p, encoding="ascii").read().splitlines() for p in sys.argv[1:]]
    judge, failed = Judge(), 0
    if not len(lines) == len(reference) == len(answers):
        sys.exit(f"{len(lines)} lines, {len(reference)} reference answers, {len(answers)} answers")
    for n, (line, want, got) in enumerate(zip(lines, reference, answers), 1):
        bad = judge.line(line, got, want)
        if bad:
            failed += 1
            if failed <= 20:
                print(f"line {n}: {bad}\n  {line[:120]}\n  want {want[:120]}\n  got  {got[:120]}")
    for what, d in sorted(judge.worst.items()):
        print(f"{what:20} largest distance 2^{math.log2(d):.2f}")
    print(f"{len(lines)} lines judged, {failed} failed")
    sys.exit(1 if failed else 0)


if __name__ == "__main__":
    main()
