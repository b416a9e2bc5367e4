#!/usr/bin/env python3
"""instructions.py FOLDER [OPERATION ..]: instructions a call of every operation of FOLDER's `side_by_side`, `poses` and `taught`, or of
those named, ours and the plain Rust reading's; of a walk the whole walk, of taught poses without what puts the room back. Callgrind counts
the program with one operation and one side over 1 round and over 3: what they differ by is that of two rounds. It is not asked who called
whom, which it gets wrong on Arm. The last line has the sums of both sides, and their ratio."""
import re
import subprocess
import sys

# With the words between the rounds and the operation.
PROGRAMS = {sys.argv[1] + "/side_by_side": [], sys.argv[1] + "/poses": ["0"], sys.argv[1] + "/taught": ["0"]}
# A third side of its operations is taken off the other two.
TAKEN_OFF = {sys.argv[1] + "/taught": "back"}
INPUTS = 1024  # calls in a round, as in side_by_side.rs
ROUNDS = (1, 3)
# One call a round.
LEFT_OUT = ["the longest walk, each step"]


def run(*words):
    return subprocess.run(words, check=True, capture_output=True, text=True)


def operations():
    """As the programs list them, a name of 27 places, then numbers; each with its program."""
    found = [(line[:27].strip(), p) for p, words in PROGRAMS.items() for line in run(p, "1", *words).stdout.splitlines()[1:]]
    return {name: program for name, program in found if name not in LEFT_OUT}


def count(program, rounds, *words):
    every = [program, str(rounds), *PROGRAMS[program], *words]
    said = run("valgrind", "--tool=callgrind", "--callgrind-out-file=/dev/null", *every).stderr
    return int(re.search(r"Collected : (\d+)", said).group(1))


def a_call(name, side):
    less, more = (count(known[name], rounds, name, side) for rounds in ROUNDS)
    return (more - less) / (ROUNDS[1] - ROUNDS[0]) / INPUTS


def both_sides(name):
    off = TAKEN_OFF.get(known[name])
    back = a_call(name, off) if off else 0
    return [a_call(name, side) - back for side in ("ours", "Rust")]


known = operations()
for name in sys.argv[2:]:
    if name not in known:
        sys.exit(f"instructions: there is no operation '{name}'; there are: {'; '.join(known)}")
print(f"{'operation':27} {'ours':>9} {'Rust':>9} {'ratio':>6}")
sums = [0, 0]
for name in sys.argv[2:] or known:
    pair = both_sides(name)
    sums = [s + c for s, c in zip(sums, pair)]
    print(f"{name:27} {pair[0]:9.1f} {pair[1]:9.1f} {pair[0] / pair[1]:6.2f}", flush=True)
print(f"instructions of one call each: {sums[0]:.0f} ours, {sums[1]:.0f} Rust's, ratio {sums[0] / sums[1]:.2f}")
