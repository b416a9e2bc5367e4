#!/usr/bin/env python3
"""board.py LEVEL ENTRY NAME FOLDER WORDS [NAME FOLDER WORDS ..]
Whole entries on a board, ours and the plain Rust reading's, from what bench/entries/board made in FOLDER. The program runs in the emulator
qemu-arm, on inputs of the permitted range as bench/rust/side_by_side.rs draws them; every answer of ours is
judged by Rust's, as document 01 says (bench/judge.py). A line an entry: the mean instructions from the entry to the return, of a walk those
of one of its steps, the ratio, its goal. Then each entry linked alone: bytes of code and tables, of those what the libraries of the
compiler gave, and the deepest stack; and what of ours works on f64. The last line counts the goals missed. Status 1 where an answer is wrong
or ours has f64. WORDS are the compiler's, for linking. Where ENTRY is not empty, only the entry of that title or name, with
the instructions of each function and the frames of the deepest stack, of both sides."""
import bisect
import collections
import math
import os
import random
import struct
import sys
import tempfile

sys.path.append(os.path.dirname(os.path.dirname(os.path.abspath(__file__))))
import emulated
import judge
import linked

INPUTS = 64
WALKS = 6  # each is many steps
ROOM = 1 << 22  # bytes, as in board.rs
CALL = struct.Struct("<8IQ2I2Q")
PERIOD = 600_000_000
STACK = 2048
# By board: at most this part of Rust's instructions.
MOVES = {"Cortex-M4": 1.0, "Cortex-M0": 1.0}
ANGLES = {"Cortex-M4": 0.8, "Cortex-M0": 0.6}
NONE = {}
AROUND = [(0.2, 0.16), (0.2, -0.16), (0.0, 0.2), (0.0, -0.2), (-0.2, 0.16), (-0.2, -0.16)]
NAMES = ["left_front", "left_middle", "left_rear", "right_front", "right_middle", "right_rear"]
FILL = b"\xee"


def f32(x):
    return struct.unpack("<f", struct.pack("<f", x))[0]


def packed(numbers):
    return struct.pack(f"<{len(numbers)}f", *numbers)


def fields(row):
    """The floats of bytes, as judge.py has them."""
    return judge.patterns(row.hex())


def hexed(numbers):
    return fields(packed(numbers))


class Given:
    """One input of an entry. `n` and `m` are the lengths lent."""

    def __init__(self, row, made, n=None, m=None, marks=0, tripod=0, nanoseconds=0):
        self.row, self.made, self.marks, self.tripod, self.nanoseconds = row, made, marks, tripod, nanoseconds
        self.n = len(row) // 4 if n is None else n
        self.m = len(made) // 4 if m is None else m

    def call(self, function):
        row, made = (b + b"\0" * (-len(b) % 8) for b in (self.row, self.made))
        head = CALL.pack(function, len(row), len(made), self.n, self.m, self.marks, self.tripod, self.nanoseconds, 0, PERIOD, 77, 99, 0)
        return head + row + made


class Told:
    """One answer: the numbers and both rows as they came back."""

    def __init__(self, back, at):
        _, given, made, _, _, _, _, _, _, _, self.lifted, self.result, self.len = CALL.unpack_from(back, at)
        at += CALL.size
        self.row = back[at:at + given]
        self.made = back[at + given:at + given + made]

    def same(self, other):
        return vars(self) == vars(other)

    def numbers(self, other):
        """The same but for the row that is made."""
        return (self.lifted, self.result, self.len, self.row) == (other.lifted, other.result, other.len, other.row)


# ---- what an answer of ours is held to: None, or what is wrong

def equal(_, ours, rust, result):
    return None if ours.same(rust) and ours.result == result else "not equal to the bit"


def counted(_, ours, rust, result):
    return None if ours.same(rust) and 0 < ours.len < 1000 else "another count"


def stepped(_, ours, rust, result):
    if not ours.numbers(rust) or ours.result != result:
        return "another kind of answer"
    return judged.step("step", *(["ok", "S"] + fields(t.made) for t in (ours, rust)))


def planned(given, ours, rust, result):
    if not ours.numbers(rust) or ours.result != result:
        return "another kind of answer"
    line = ["plan"] + fields(given.row[:144]) + [str(given.tripod)]
    return judged.plan(line, *(["ok"] + fields(t.made) for t in (ours, rust)))


def near(bound):
    def held(_, ours, rust, result):
        if not ours.numbers(rust) or ours.result != result:
            return "another kind of answer"
        return judged.row("row", fields(ours.made), fields(rust.made), bound)
    return held


def conducted(_, ours, rust, result):
    if (ours.result, rust.result) != (result, result):
        return "another kind of answer"
    kind = "SPN"[result // 256]
    return judged.conduct(*(["ok", kind, t.row[:506].hex(), t.made.hex()] for t in (ours, rust)))


# ---- inputs

pick = random.Random(1)
judged = judge.Judge()


def floats(n, low, high):
    return [f32(pick.uniform(low, high)) for _ in range(n)]


def marks():
    return pick.getrandbits(18)


def stance(spread):
    return [c for x, y in AROUND for c in (*(f32(a + pick.uniform(-spread, spread)) for a in (x, y)), f32(-0.12))]


def configuration():
    legs = [[x * 0.4, y * 0.4, 0.0, -math.atan2(y, x), 2.6, 2.1] for x, y in AROUND]
    return [f32(c) for c in [0.052, 0.066, 0.135, 0.6, -0.4] + sum(legs, [])]


def row_of(numbers, made=18, **more):
    return Given(packed(numbers), FILL * (4 * made), **more)


def move():
    return row_of(floats(6, -0.4, 0.4) + floats(1, 0.001, 0.1), made=4, m=3)


def six_moves():
    return row_of(floats(36, -0.4, 0.4) + floats(1, 0.001, 0.1), marks=marks())


def walk():
    return row_of(floats(6, -0.4, 0.4) + [f32(0.01)], made=0)


def six_walks():
    return row_of(floats(36, -0.4, 0.4) + [f32(0.01)], made=0, marks=marks())


def step():
    numbers = floats(54, -0.4, 0.4) + floats(1, 0.001, 0.02) + floats(1, 0.01, 0.05)
    return row_of(numbers, marks=marks(), tripod=pick.getrandbits(1), nanoseconds=pick.randrange(350_000_000))


def plan():
    numbers = stance(0.03) + stance(0.005) + floats(2, -0.05, 0.05) + floats(1, -0.5, 0.5) + [f32(0.03)]
    return row_of(numbers, marks=marks(), tripod=pick.getrandbits(1))


def inverse():
    return row_of(stance(0.03) + configuration(), marks=marks())


def forward():
    joints = [c for _ in range(6) for c in floats(1, 2.2, 3.0) + floats(1, 4.0, 5.5) + floats(1, 2.5, 4.0)]
    return row_of(joints + configuration())


def conduct(moves, done):
    """A state's row and an elapsed time: a step under way, or one that is done, under a command that moves or not."""
    start, relaxed = stance(0.03), stance(0.005)
    target = start if done else stance(0.03)
    part = pick.uniform(0.05, 0.8)
    last = [f32(a + (b - a) * part) for a, b in zip(start, target)] if not done else start
    command = floats(2, -0.04, 0.04) + floats(1, -0.3, 0.3) if moves else [0.0] * 3
    state = packed(start + last + target + relaxed + command + [f32(0.03)] + configuration())
    state += struct.pack("<IQ", PERIOD, 0) + bytes(pick.getrandbits(1) for _ in range(25)) + b"\0"
    return Given(state, FILL * 72, n=506, m=72, nanoseconds=pick.randrange(int(PERIOD * part), PERIOD))


def text():
    legs = [f'"{name}":[{",".join(f"{c:.8f}" for c in floats(3, -1, 1))}]' for name in NAMES]
    row = ("{" + ",".join(legs) + "}").encode()
    return Given(row, FILL * 72, n=len(row), m=18)


def pose():
    return Given(packed(floats(18, -1, 1)), FILL * 512, m=512, marks=0x555)


def half_full():
    """32 poses of the 64 that a room has places for, ids 2 to 64."""
    places = [struct.pack("<H", 2 * k + 2) + bytes(pick.getrandbits(1) for _ in range(6)) + packed(floats(18, -1, 1)) for k in range(32)]
    return b"".join(places).ljust(5120, b"\0")


def put():
    return Given(packed(floats(18, -1, 1)), half_full(), m=5120, marks=marks() & 63, tripod=2 * pick.randrange(33) + 1)


def get():
    return Given(half_full(), FILL * 72, n=5120, tripod=2 * pick.randrange(32) + 2)


class Entry:
    """`name` is its function's without the side, `make` makes an input, `held` judges an answer, `result` is what a call tells."""

    def __init__(self, title, name, make, held, goal, result=0, inputs=INPUTS):
        self.title, self.name, self.make, self.held, self.goal, self.result, self.inputs = title, name, make, held, goal, result, inputs


# In the order of the numbers in board.rs.
FUNCTIONS = ["move", "move_feet", "walk", "walk_feet", "step", "timed_step", "even_step", "plan", "ik", "ik_strict", "fk", "conduct",
             "from_json", "to_json", "taught_put", "taught_get"]
ENTRIES = [
    Entry("one move", "move", move, equal, MOVES, 256),
    Entry("six moves", "move_feet", six_moves, equal, MOVES, 256),
    Entry("a walk, each step", "walk", walk, counted, MOVES, inputs=WALKS),
    Entry("six walks, each step", "walk_feet", six_walks, counted, MOVES, inputs=WALKS),
    Entry("step by distance", "step", step, stepped, ANGLES, 256),
    Entry("timed step", "timed_step", step, stepped, ANGLES, 256),
    Entry("even step", "even_step", step, stepped, ANGLES, 256),
    Entry("planner", "plan", plan, planned, ANGLES),
    Entry("inverse kinematics", "ik", inverse, near(2.0 ** -16), ANGLES),
    Entry("strict inverse kinematics", "ik_strict", inverse, near(2.0 ** -16), ANGLES),
    Entry("forward kinematics", "fk", forward, near(2.0 ** -17), ANGLES),
    Entry("conductor, a step", "conduct", lambda: conduct(True, False), conducted, ANGLES),
    Entry("conductor, a plan", "conduct", lambda: conduct(True, True), conducted, ANGLES, 256),
    Entry("conductor, at rest", "conduct", lambda: conduct(False, True), conducted, ANGLES, 512),
    Entry("a pose read", "from_json", text, equal, NONE),
    Entry("a pose written", "to_json", pose, equal, NONE),
    Entry("a taught pose put", "taught_put", put, equal, NONE),
    Entry("a taught pose got", "taught_get", get, equal, NONE),
]
SIDES = ["ours", "Rust"]


def symbol(name, side):
    if side == "Rust":
        return "rust_" + name
    return "hopper_conduct" if name == "conduct" else "probe_" + name


def archive(folder, name, side):
    return os.path.join(folder, "board.a" if side == "Rust" else "c_host.a" if name == "conduct" else "probe.a")


def called(program, made, by_block=None):
    """For each input of an entry the answers of both sides and their instructions."""
    calls = [given.call(2 * FUNCTIONS.index(e.name) + 1 + side) for e, given in made for side in range(2)]
    names = [symbol(name, side) for name in FUNCTIONS for side in SIDES]
    assert sum(map(len, calls)) < ROOM - CALL.size
    back, counts = emulated.run(program, b"".join(calls).ljust(ROOM, b"\0"), names, by_block)
    if len(counts) != len(calls):
        sys.exit(f"board: {program} made {len(counts)} of {len(calls)} calls")
    told, at = [], 0
    for call in calls:
        told.append(Told(back, at))
        at += len(call)
    return zip(told[::2], told[1::2], counts[::2], counts[1::2])


def measured(e, program, made, by_block=None):
    """The instructions of one call of an entry, or of a step of its walks, on both sides; every answer is judged."""
    spent, steps = [0, 0], 0
    for given, (ours, rust, *counts) in zip(made, called(program, [(e, given) for given in made], by_block)):
        wrong = e.held(given, ours, rust, e.result)
        if wrong:
            sys.exit(f"board: {program}: {e.title}, input {given.row.hex()}: {wrong}; results {ours.result}, {rust.result}")
        spent = [a + b for a, b in zip(spent, counts)]
        steps += ours.len if e.held is counted else 1
    return [n / steps for n in spent], steps


def by_function(program, by_block, steps):
    """Instructions of each function, the most first."""
    functions, spent = emulated.functions(program), collections.Counter()
    starts = [at for at, _ in functions]
    for pc, count in by_block.items():
        spent[functions[bisect.bisect(starts, pc) - 1][1]] += count
    return ", ".join(f"{name} {count / steps:.0f}" for name, count in spent.most_common() if count >= steps)


def instructions(board, program, entries, each):
    """Prints a line an entry, with `each` the functions of both sides; the number of goals missed."""
    missed, at = 0, emulated.symbols(program)
    print(f"{board:27} {'ours':>9} {'Rust':>9} {'ratio':>6} {'goal':>5}")
    for e in entries:
        pick.seed(e.title)
        by_block = collections.defaultdict(collections.Counter) if each else None
        (ours, rust), steps = measured(e, program, [e.make() for _ in range(e.inputs)], by_block)
        goal = e.goal.get(board)
        late = goal is not None and ours > goal * rust
        missed += late
        said = f" {goal:5.1f}  {'missed' if late else 'met'}" if goal else ""
        print(f"{e.title:27} {ours:9.1f} {rust:9.1f} {ours / rust:6.2f}{said}", flush=True)
        for side in SIDES if each else []:
            print(f"  {side}: " + by_function(program, by_block[at[symbol(e.name, side)][0]], steps))
    return missed


def alone(folder, name, side, words):
    """An entry linked alone: code, tables, bytes from outside, the frames of its deepest stack, what works on f64."""
    root, library = symbol(name, side), archive(folder, name, side)
    with tempfile.TemporaryDirectory() as scratch:
        elf = linked.link(words, library, os.path.join(scratch, root), [root], ["-lc", "-lgcc"])
        outside = sum(linked.from_outside(elf, library).values())
        chain = [(linked.tool("c++filt", "-i", name).strip(), size) for name, size in linked.stacks(elf, [root])[root]]
        return *linked.bytes_of(elf), outside, chain, sum(linked.doubles(elf), [])


def sizes(board, folder, words, names, each):
    """Prints each entry linked alone, with `each` the frames of both sides; the number of goals missed, and whether ours has f64."""
    missed, found = 0, []
    print(f"{board + ', linked alone':27}" + 2 * f" {'code':>8} {'tables':>7} {'outside':>8} {'stack':>6}")
    for name in names:
        line, frames = f"{name:27}", []
        for side in SIDES:
            code, tables, outside, chain, doubles = alone(folder, name, side, words)
            depth = sum(size for _, size in chain)
            line += f" {code:8} {tables:7} {outside:8} {depth:6}"
            late = side == "ours" and depth > STACK
            missed += late
            found += [f"{name}: {what}" for what in doubles if side == "ours"]
            if late or each:
                frames.append(f"  {side}, {depth} bytes of stack{', goal missed' * late}: " + ", ".join(f"{f} {n}" for f, n in chain))
        print("\n".join([line] + frames), flush=True)
    print(f"f64 in ours: {'; '.join(found) or 'none'}")
    return missed, bool(found)


def main():
    words = sys.argv[1:]
    if len(words) < 5 or len(words) % 3 != 2:
        sys.exit(__doc__)
    level, chosen, *boards = words
    entries = [e for e in ENTRIES if chosen in (e.title, e.name, "")]
    if not entries:
        sys.exit(f"board: there is no entry '{chosen}'; there are: {'; '.join(e.title for e in ENTRIES)}")
    names, missed, doubles = [name for name in FUNCTIONS if name in [e.name for e in entries]], 0, False
    print(f"instructions, bytes and stack at {level}, ours and Rust's; goals: of Rust's instructions, and {STACK} bytes of stack")
    for board, folder, compiler in zip(boards[::3], boards[1::3], boards[2::3]):
        missed += instructions(board, os.path.join(folder, "program"), entries, chosen)
        late, found = sizes(board, folder, compiler, names, chosen)
        missed += late
        doubles |= found
    print(f"goals missed: {missed}")
    sys.exit("board: f64 in ours" if doubles else 0)


if __name__ == "__main__":
    main()
