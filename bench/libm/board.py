#!/usr/bin/env python3
"""board.py TITLE PROGRAM [TITLE PROGRAM...]
Runs programs made by bench/libm/board in the emulator qemu-arm on 300 inputs a function from the
whole permitted range, and judges every answer. A line a function: the mean instructions executed by ours and by libm's, from
the entry to the return, the ratio, the fewest and the most of either. The last line counts the ratios above 1."""
import collections
import math
import os
import random
import struct
import sys

sys.path.append(os.path.dirname(os.path.dirname(os.path.abspath(__file__))))
import emulated

INPUTS = 300
CLOSE = 2.0**-20
ROOM = 1 << 14  # calls, as in board.rs
CALL = struct.Struct("<IffIf")
# name, from, to, what the answer is held against: the same function in f64
FUNCTIONS = [
    ("square_root", 0, 65536, lambda x, _: math.sqrt(x)),
    ("sine", -16, 16, lambda x, _: math.sin(x)),
    ("cosine", -16, 16, lambda x, _: math.cos(x)),
    ("arc_cosine", -1, 1, lambda x, _: math.acos(x)),
    ("atan2", -128, 128, math.atan2),
]
SIDES = ["probe", "libm"]


def f32(x):
    return struct.unpack("<f", struct.pack("<f", x))[0]


def made_calls():
    """Number of the function, first argument, second argument, refusal expected."""
    pick, calls = random.Random(1), []
    for i, (_, low, high, _) in enumerate(FUNCTIONS):
        inputs = [(f32(pick.uniform(low, high)), f32(pick.uniform(low, high)), 0) for _ in range(INPUTS)]
        inputs += [(math.nan, 0.0, 1), (math.inf, 0.0, 1), (high + 1.0, 0.0, 2), (low - 1.0, 0.0, 2)]
        calls += [(2 * i + 1 + side, *input) for input in inputs for side in range(2)]
    assert len(calls) < ROOM
    return calls


def run(program, calls):
    """The calls as they come back, and for each the instructions that it takes."""
    given = b"".join(CALL.pack(k, x, y, 9, 0.0) for k, x, y, _ in calls).ljust(ROOM * CALL.size, b"\0")
    back, counts = emulated.run(program, given, [f"{side}_{name}" for name, *_ in FUNCTIONS for side in SIDES])
    if len(counts) != len(calls):
        sys.exit(f"board: {program} made {len(counts)} of {len(calls)} calls")
    return list(CALL.iter_unpack(back[:len(calls) * CALL.size])), counts


def judge(calls, answered):
    for (k, x, y, refusal), (*_, refused, answer) in zip(calls, answered):
        name, _, _, true = FUNCTIONS[(k - 1) // 2]
        if refused != refusal or refusal == 0 and not abs(answer - true(x, y)) <= CLOSE * max(1, abs(true(x, y))):
            sys.exit(f"board: {SIDES[(k - 1) % 2]}_{name} of {x!r}, {y!r}: refused {refused}, answer {answer!r}")


def table(title, program):
    """Prints the lines of one program; the number of ratios above 1."""
    if ".f64" in emulated.tool("objdump", "-d", program):
        sys.exit(f"board: {program} has instructions of f64, which neither board has")
    calls = made_calls()
    answered, counts = run(program, calls)
    judge(calls, answered)
    spent = collections.defaultdict(list)
    for (k, _, _, refusal), count in zip(calls, counts):
        if refusal == 0:
            spent[k].append(count)
    print(f"{title:44} {'ours':>7} {'libm':>7} {'ratio':>6}  {'ours, libm: fewest..most':>26}")
    behind = 0
    for i, (name, *_) in enumerate(FUNCTIONS):
        ours, theirs = spent[2 * i + 1], spent[2 * i + 2]
        ratio = sum(ours) / sum(theirs)
        behind += ratio > 1
        ends = f"{min(ours)}..{max(ours)}, {min(theirs)}..{max(theirs)}"
        print(f"  {name:42} {sum(ours) / INPUTS:7.1f} {sum(theirs) / INPUTS:7.1f} {ratio:6.2f}  {ends:>26}", flush=True)
    return behind


def main():
    words = sys.argv[1:]
    if not words or len(words) % 2:
        sys.exit(__doc__)
    behind = sum(table(title, program) for title, program in zip(words[::2], words[1::2]))
    print(f"behind libm: {behind}")


main()
