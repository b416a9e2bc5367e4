#!/usr/bin/env python3
"""board.py TITLE PROGRAM
Runs the program of board.c in the emulator qemu-arm: every progress once, heights and courses at random, each
step in whole numbers and in f32; some that are done, some that are refused. Every answer is judged: the whole step by its formulas, the
f32 step by the whole one, from which it is between -0.1 and 1.1 units away. Prints the instructions of both, from the entry to the return:
mean, fewest and most, the ratio of the means, and the largest ratio of one step. Status 1 where the ratio is above the goal."""
import math
import os
import random
import struct
import sys

sys.path.append(os.path.dirname(os.path.dirname(os.path.abspath(__file__))))
import emulated

ROOM = 1 << 13  # calls, as in board.c
GOAL = 0.10
DONE = 2048
P = 13176795 / 2**22
WHOLE, REAL = struct.Struct("<I11iI3i"), struct.Struct("<I11fI3f")
NAMES = ["hopper_leg_step", "probe_leg_step"]


def permitted(start, target, height, progress):
    return all(abs(c) <= 40000 for c in start + target) and 0 <= height <= 1000 and 0 <= progress <= DONE


def whole_step(start, target, height, progress):
    """The formulas. No entry of the table is near a tie, so that f64's sine will do."""
    if progress == DONE:
        return list(target)
    entry = round(16384 * math.sin(min(progress, DONE - progress) * P / DONE))
    sideways = [s + (t - s) * progress // DONE for s, t in zip(start[:2], target[:2])]
    return sideways + [start[2] + height * entry // 16384]


def made_steps():
    """Start, target, height, progress."""
    pick = random.Random(1)

    def point():
        return [pick.randint(-40000, 40000) for _ in range(3)]

    steps = [(point(), point(), pick.randint(0, 1000), progress) for progress in range(DONE)]
    steps += [(point(), point(), pick.randint(0, 1000), DONE) for _ in range(32)]
    return steps + [([40001, 0, 0], point(), 0, 0), (point(), [0, 0, -40001], 0, 0)]


def packed(start, target, height, progress):
    """Both calls of a step. The f32 step's last foot is no target here."""
    whole = WHOLE.pack(1, *start, *target, height, progress, 0, 0, 0, 9, 7, 7, 7)
    last = [4.0 if target[0] < 0 else -4.0] * 3
    metres = [c / 10000 for c in start] + last + [c / 10000 for c in target] + [height / 10000]
    return whole + REAL.pack(2, *metres, progress / DONE, 9, 7, 7, 7)


def judge(step, whole, real):
    """Two calls that came back."""
    n, *point, m, x, y, z = whole[-4:] + real[-4:]
    expected = whole_step(*step) if permitted(*step) else [7, 7, 7]
    near = all(-0.1 < 10000 * c - e < 1.1 for c, e in zip((x, y, z), expected)) if permitted(*step) else (x, y, z) == (7, 7, 7)
    if (n, m) != ((0, 0) if permitted(*step) else (2, 2)) or point != expected or not near:
        sys.exit(f"board: {step}: {n} {point}, {m} {(x, y, z)}, expected {expected}")


def line(what, counts):
    """Prints what steps took, pairs of counts; the ratio of their means."""
    whole, real = zip(*counts)
    ratio = sum(whole) / sum(real)
    worst = max(w / r for w, r in counts)
    ends = f"{min(whole)}..{max(whole)}, {min(real)}..{max(real)}"
    print(f"  {what:34} {sum(whole) / len(counts):7.1f} {sum(real) / len(counts):7.1f} {ratio:6.3f} {worst:6.3f}  {ends}")
    return ratio


def main():
    if len(sys.argv) != 3:
        sys.exit(__doc__)
    steps = made_steps()
    given = b"".join(packed(*step) for step in steps)
    back, counts = emulated.run(sys.argv[2], given.ljust(ROOM * WHOLE.size, b"\0"), NAMES)
    pairs = list(zip(counts[::2], counts[1::2]))
    if len(pairs) != len(steps):
        sys.exit(f"board: {len(counts)} calls for {len(steps)} steps")
    for i, step in enumerate(steps):
        at = 2 * i * WHOLE.size
        judge(step, WHOLE.unpack_from(back, at), REAL.unpack_from(back, at + WHOLE.size))
    print(f"{sys.argv[1]:36} {'whole':>7} {'f32':>7} {'ratio':>6} {'worst':>6}  whole, f32: fewest..most")
    ratio = line("on its way, progress 0 to 2047", pairs[:DONE])
    line("done, progress 2048", pairs[DONE:-2])
    line("refused", pairs[-2:])
    print(f"ratio {ratio:.3f}, goal {GOAL:.2f}: {'met' if ratio <= GOAL else 'missed'}")
    sys.exit(0 if ratio <= GOAL else 1)


main()
