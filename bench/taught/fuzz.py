#!/usr/bin/env python3
"""fuzz.py [SEED]: taught poses, by operation lines through the program `replay`, held to a dictionary: runs of calls that fill the store,
hold it full, drop and use again what was freed; every refusal and their order; edge floats and edge ids; rooms of other lengths; rooms that
a hand has changed; lines that do not parse. After each call every byte of the room is looked at. The bytes are read and written here by the
request's table, nothing is taken from the proved code. REPLAY in the environment is a command to run in its place. The last line is the
figure. Exit 1 on a failure."""
import os, random, re, shlex, struct, subprocess, sys
from collections import Counter

ROOT = os.path.dirname(os.path.dirname(os.path.dirname(os.path.abspath(__file__))))
RUN = shlex.split(os.environ.get("REPLAY", "")) or [os.path.join(ROOT, "tools", "run"), "replay"]
ROOM, PLACE, MOST = 5120, 80, 64
HELD = 5200  # bytes that the program holds
PEEK = 128  # bytes that a line shows at most


# ---- bytes and dictionaries. A pose is six marks and eighteen patterns of floats.
def number(pattern):
    return struct.unpack("<f", struct.pack("<I", pattern))[0]


def refused_pose(patterns):
    """1 where a coordinate is NaN or infinite, 2 where one is outside -4 to 4, else 0."""
    numbers = [number(p) for p in patterns]
    if any(x != x or x in (float("inf"), float("-inf")) for x in numbers):
        return 1
    return 0 if all(-4 <= x <= 4 for x in numbers) else 2


def place_of(id, pose):
    marks, patterns = pose
    return struct.pack("<H6B18I", id, *marks, *patterns)


def room_of(poses):
    """The one room of a dictionary: ids rising, then zeros."""
    return b"".join(place_of(id, poses[id]) for id in sorted(poses)).ljust(ROOM, b"\0")


def poses_of(room):
    """The dictionary of a room, None where no run of calls can have left it."""
    if len(room) != ROOM:
        return None
    poses = {}
    last = 0
    for at in range(0, ROOM, PLACE):
        id, *rest = struct.unpack("<H6B18I", room[at : at + PLACE])
        if id == 0:
            break
        marks, patterns = tuple(rest[:6]), tuple(rest[6:])
        if id <= last or max(marks) > 1 or refused_pose(patterns):
            return None
        poses[id] = marks, patterns
        last = id
    unused = room[PLACE * len(poses) :]
    return poses if unused == bytes(len(unused)) else None


# ---- lines
def pose_text(pose):
    marks, patterns = pose
    return " ".join("%08x" % p for p in patterns) + " " + "".join(map(str, marks))


def tput(id, pose):
    return "tput %x %s" % (id, pose_text(pose))


NUMBER = re.compile("[0-9a-f]{1,8}")


def numbers_of(fields, *limits):
    """Hex numbers, each at most its limit; None where there is another, or another count."""
    if len(fields) != len(limits) or not all(NUMBER.fullmatch(f) for f in fields):
        return None
    found = [int(f, 16) for f in fields]
    return found if all(n <= limit for n, limit in zip(found, limits)) else None


def pose_in(fields):
    """The pose of the fields of a row and marks, or None."""
    if len(fields) != 19 or not all(re.fullmatch("[0-9a-f]{8}", f) for f in fields[:18]) or not re.fullmatch("[01]{6}", fields[18]):
        return None
    return tuple(map(int, fields[18])), tuple(int(f, 16) for f in fields[:18])


class Host:
    """What the program holds: bytes, of which the first are lent; and what every line answers."""

    def __init__(self):
        self.bytes = bytearray(b"\xff" * HELD)
        self.lent = ROOM
        self.kept = None  # the dictionary, known while no hand comes in

    def poses(self):
        if self.kept is None:
            self.kept = poses_of(bytes(self.bytes[: self.lent]))
        return self.kept

    def keep(self, poses):
        self.bytes[:ROOM] = room_of(poses)
        self.kept = poses

    def answer(self, line):
        name, *fields = line.split(" ")
        call = getattr(self, name, None) if name in NAMES else None
        return call(fields) if call else "E"

    def tfresh(self, fields):
        if fields:
            return "E"
        if self.lent != ROOM:
            return "R 17"
        self.keep({})
        return "ok"

    def tput(self, fields):
        ids, pose = numbers_of(fields[:1], 0xFFFF), pose_in(fields[1:])
        if ids is None or pose is None:
            return "E"
        poses, id, bad = self.poses(), ids[0], refused_pose(pose[1])
        if poses is None:
            return "R 17"
        if bad:
            return "R %d" % bad
        if id == 0:
            return "R 15"
        if id not in poses and len(poses) == MOST:
            return "R 11"
        self.keep({**poses, id: pose})
        return "ok"

    def found(self, fields):
        """The number of the refusal or 0, with the id; None where the line does not parse."""
        ids = numbers_of(fields, 0xFFFF)
        if ids is None:
            return None
        poses, id = self.poses(), ids[0]
        return (17 if poses is None else 15 if id == 0 else 12 if id not in poses else 0), id

    def tget(self, fields):
        found = self.found(fields)
        if found is None:
            return "E"
        return "R %d" % found[0] if found[0] else "ok " + pose_text(self.poses()[found[1]])

    def tdrop(self, fields):
        found = self.found(fields)
        if found is None:
            return "E"
        if found[0]:
            return "R %d" % found[0]
        self.keep({id: pose for id, pose in self.poses().items() if id != found[1]})
        return "ok"

    def tlist(self, fields):
        if fields:
            return "E"
        poses = self.poses()
        return "R 17" if poses is None else " ".join(["ok %d" % len(poses)] + ["%04x" % id for id in sorted(poses)])

    def tlend(self, fields):
        numbers = numbers_of(fields, HELD)
        if numbers is None:
            return "E"
        self.lent, self.kept = numbers[0], None
        return "ok"

    def tpoke(self, fields):
        numbers = numbers_of(fields, HELD - 1, 0xFF)
        if numbers is None:
            return "E"
        self.bytes[numbers[0]], self.kept = numbers[1], None
        return "ok"

    def tpeek(self, fields):
        numbers = numbers_of(fields, HELD, PEEK)
        if numbers is None or numbers[1] == 0 or sum(numbers) > HELD:
            return "E"
        at, n = numbers
        return "ok " + self.bytes[at : at + n].hex()


CALLS = ("tfresh", "tput", "tget", "tdrop", "tlist")
NAMES = (*CALLS, "tlend", "tpoke", "tpeek")
LOOKS = ["tpeek %x %x" % (at, min(PEEK, HELD - at)) for at in range(0, HELD, PEEK)]


# ---- poses
EDGES = [sign | p for sign in (0, 1 << 31) for p in (0, 1, 0x007FFFFF, 0x00800000, 0x3F800000, 0x407FFFFF, 0x40800000)]
OUTSIDE = [0x40800001, 0xC0800001, 0x40800002, 0x40A00000, 0xC1000000, 0x7F7FFFFF, 0xFF7FFFFF]
NO_NUMBERS = [0x7F800000, 0xFF800000, 0x7F800001, 0xFF800001, 0x7FC00000, 0xFFC00000, 0x7FFFFFFF, 0xFFFFFFFF]


def pattern(r):
    """Of a number from -4 to 4."""
    return r.choice(EDGES) if r.random() < 0.3 else r.randrange(0x40800001) | r.getrandbits(1) << 31


def good_pose(r):
    return tuple(r.getrandbits(1) for _ in range(6)), tuple(pattern(r) for _ in range(18))


def with_fault(r, pose, faults):
    """With each of these patterns at a place of its own."""
    marks, patterns = pose
    patterns = list(patterns)
    for at, p in zip(r.sample(range(18), len(faults)), faults):
        patterns[at] = p
    return marks, tuple(patterns)


def bad_pose(r, kind):
    """Refused 1 or 2; 1 with coordinates outside beside it, too."""
    outside = [r.choice(OUTSIDE) for _ in range(r.randrange(1, 4))]
    no_numbers = [r.choice(NO_NUMBERS) for _ in range(r.randrange(1, 4))]
    return with_fault(r, good_pose(r), outside if kind == 2 else no_numbers + outside * r.getrandbits(1))


def any_pose(r):
    return good_pose(r) if r.random() < 0.8 else bad_pose(r, r.randrange(1, 3))


# ---- runs
EDGE_IDS = [0, 1, 2, 255, 256, 257, 0x7FFF, 0x8000, 0xFF00, 0xFFFE, 0xFFFF]


def example(r):
    """The request's own, in its order."""
    pose, nan, outside = good_pose(r), bad_pose(r, 1), with_fault(r, good_pose(r), [0x40800001])
    every = ["tlist", "tget 1", "tget 0", "tput 0 " + pose_text(nan), tput(1, pose), "tdrop 1", "tdrop 0"]
    yield from ["tlist", "tfresh", "tlist", tput(2, pose), tput(1, good_pose(r)), "tlist", "tpeek 0 2", "tpeek 50 2", "tget 3", "tget 0"]
    yield from [tput(0, nan), tput(0, outside), tput(0, pose)]
    for at, b, before in ((5119, 1, 0), (80, 1, 2)):
        yield from ["tpoke %x %x" % (at, b), *every, "tpoke %x %x" % (at, before), "tlist", "tget 1", "tget 2"]
    for at in (2, 7, 82, 87):
        yield from ["tpeek %x 1" % at, "tpoke %x 2" % at, *every, "tfresh", tput(2, pose), tput(1, pose)]
    for n in (5119, 5121, 0, 1, 79, 80, 2560, 5040, 5200):
        yield from ["tlend %x" % n, *every, "tfresh", "tlend 1400", "tlist"]
    yield from ["tfresh"] + [tput(k, good_pose(r)) for k in range(1, 65)]
    yield from [tput(65, pose), tput(64, pose), "tdrop 7", tput(65, pose), "tlist", "tget 7", "tget 41", "tfresh", "tlist"]


def fill(r):
    """Filled in rising, falling and mixed order, full, then emptied in these orders."""
    orders = [sorted, lambda ids: sorted(ids, reverse=True), lambda ids: r.sample(ids, len(ids))]
    for order in orders:
        ids = r.sample(range(1, 65536), MOST - 2) + [1, 65535]
        yield from ["tfresh"] + [tput(id, good_pose(r)) for id in order(ids)]
        new = [id for id in r.sample(range(1, 65536), 6) if id not in ids]
        yield from [tput(id, good_pose(r)) for id in new] + ["tlist"]
        yield from [tput(id, good_pose(r)) for id in r.sample(ids, 8)]
        yield from ["tput 0 " + pose_text(good_pose(r))] + [tput(id, bad_pose(r, kind)) for id in (ids[0], new[0], 0) for kind in (1, 2)]
        for id in r.sample(ids, 10):  # freed, used again
            other = r.choice(new)
            yield from ["tdrop %x" % id, tput(other, good_pose(r)), tput(id, good_pose(r)), "tget %x" % other, "tdrop %x" % other]
            yield tput(id, good_pose(r))
        yield from ["tdrop %x" % id for id in r.choice(orders)(ids)]
        yield from ["tlist", "tdrop %x" % ids[0]]


def mixed(r):
    """Calls at random over a few ids, in stores that grow, shrink, or stand about full."""
    for puts, count, ids in ((5, 200, 90), (2, 120, 20), (9, 300, 70), (20, 300, 90), (1, 60, 3)):
        pool = r.sample(range(1, 65536), ids) + EDGE_IDS
        yield "tfresh"
        for _ in range(count):
            id = r.choice(pool)
            calls = [tput(id, any_pose(r))] * puts + ["tdrop %x" % id, "tget %x" % id, "tlist", "tget %x" % r.choice(pool)]
            yield "tfresh" if r.random() < 0.002 else r.choice(calls)


def refusals(r):
    """Every set of faults: a room refused, a pose refused 1 or 2, id 0, new or there, a full store or not."""
    for full in (False, True):
        ids = [1, 65535] + r.sample(range(2, 65535), MOST - 2 if full else 20)
        new = next(id for id in range(2, 65535) if id not in ids)
        yield from ["tfresh"] + [tput(id, good_pose(r)) for id in ids]
        for damage in (None, (4, 0x40), (2, 2), (3, 255), (0, 0)):
            before = None
            if damage:
                before = yield ("byte", damage[0])
                yield "tpoke %x %x" % damage
            for id in (0, new, ids[0], 65535):
                for pose in (good_pose(r), bad_pose(r, 1), bad_pose(r, 2), with_fault(r, good_pose(r), [0x40800001, 0x7FC00000])):
                    yield tput(id, pose)
                    if not full and id == new:
                        yield "tdrop %x" % new
                yield from ["tget %x" % id, "tdrop %x" % id, tput(id, good_pose(r))]
            yield "tlist"
            if damage:
                yield "tpoke %x %x" % (damage[0], before)


def coordinates(r):
    """Each edge at each place, put and got; and in the room by a hand."""
    for p in EDGES + OUTSIDE + NO_NUMBERS:
        for at in r.sample(range(18), 3):
            marks, patterns = good_pose(r)
            pose = marks, patterns[:at] + (p,) + patterns[at + 1 :]
            yield from ["tfresh", tput(9, pose), "tget 9"]
    yield from ["tfresh", tput(5, good_pose(r)), tput(7, good_pose(r))]
    for p in EDGES + OUTSIDE + NO_NUMBERS:
        at = r.randrange(2) * PLACE + 8 + 4 * r.randrange(18)
        old = []
        for k, b in enumerate(struct.pack("<I", p)):
            old.append((at + k, (yield ("byte", at + k))))
            yield "tpoke %x %x" % (at + k, b)
        yield from ["tlist", "tget 5", "tget 7", tput(6, good_pose(r)), "tdrop 6"]
        yield from ["tpoke %x %x" % (a, b) for a, b in old]


def hands(r):
    """A byte of a room is another, with calls, and is put back."""
    for n in (0, 1, 2, 33, 63, 64):
        ids = sorted(r.sample(range(1, 65536), n))
        yield from ["tfresh"] + [tput(id, good_pose(r)) for id in ids]
        sure = [PLACE * n, PLACE * n + 1, PLACE * n + 79, ROOM - 1, ROOM]
        for k in range(60):
            head = r.randrange(MOST) * PLACE + r.randrange(8)
            at = r.choice([r.randrange(HELD), r.randrange(PLACE * n + 1), head, PLACE * n + r.randrange(PLACE)])
            at = sure[k] if k < len(sure) else at
            before = yield ("byte", at)
            id = r.choice(ids + EDGE_IDS)
            yield "tpoke %x %x" % (at, r.choice([0, 1, 2, 255, r.randrange(256), before ^ 1 << r.randrange(8)]))
            yield from r.sample(["tlist", "tget %x" % id, tput(id, any_pose(r)), "tdrop %x" % id], 2)
            if r.random() < 0.7:
                yield "tpoke %x %x" % (at, before)
            if r.random() < 0.1:
                yield from ["tfresh"] + [tput(id, good_pose(r)) for id in ids]


def lengths(r):
    """Rows of other lengths, in the room of a good store, and zeros behind it."""
    yield from ["tfresh"] + [tput(id, good_pose(r)) for id in (1, 9, 65535)] + ["tpoke %x 0" % at for at in range(ROOM, HELD)]
    for n in [0, 1, 2, 79, 80, 81, 160, 240, 5039, 5040, 5041, 5118, 5119, 5121, 5122, 5199, 5200] + [r.randrange(5201) for _ in range(10)]:
        yield from ["tlend %x" % n, "tlist", "tget 9", "tget 0", tput(9, good_pose(r)), tput(0, bad_pose(r, 1)), tput(8, bad_pose(r, 2))]
        yield from ["tdrop 9", "tfresh", "tlend 1400", "tlist", "tget 9"]


NO_FIELDS = ["", " ", "  1", " 1 ", " 1 1", " 1 1 1", " g", " A", " 0x1", " -1", " 10000", " ffff", " 0001", " 00000001", " 000000001",
             " ffffffff", "s 1", "1"]


def no_lines(r):
    """Lines that do not parse, and some that hardly do; a good call after each."""
    pose = pose_text(good_pose(r))
    yield from ["tfresh", "tput 1 " + pose]
    for fields in NO_FIELDS:
        yield from (name + fields for name in NAMES)
    for id in ("10000", "10001", "00000001", "000000001", "ffff", "", " 2", "g"):
        yield "tput %s %s" % (id, pose)
    for other in (pose + " ", pose + " 0", pose[:-1], pose + "0", pose[:-1] + "2", pose[9:], "00000000 " + pose, pose[1:], "F" + pose[1:]):
        yield "tput 2 " + other
    yield from ["tlend %s" % n for n in ("1451", "1450", "00001400", "ffffffff", "1400 1", "1400")]
    yield from ["tpoke %s" % n for n in ("1450 0", "144f 7", "144f 100", "0 00000001", "0 1 1", "0 0ff", "0 1", "ffffffff 0")]
    yield from ["tpeek %s" % n for n in ("0 0", "0 80", "0 81", "1450 1", "1450 0", "144f 1", "144f 2", "13d0 80", "13d1 80", "ffffffff 1")]
    yield from ["tpeek %s" % n for n in ("ffffffff ffffffff", "0 ffffffff", "0 1 1", "0 00000001")]
    line = "tput a " + pose
    for i in range(0, len(line), 3):
        yield line[:i] + r.choice(" -0gF\t") + line[i + 1 :]
        yield line[: i + 1]


RUNS = [(example, 1), (fill, 2), (mixed, 3), (refusals, 1), (coordinates, 1), (hands, 2), (lengths, 1), (no_lines, 1)]


def lines_of(run, r, host):
    """The lines of a run with their answers; after each that is no look all looks. A run may ask what a byte is now."""
    lines, said, steps = [], None, run(r)
    while True:
        try:
            line = steps.send(said)
        except StopIteration:
            return lines
        said = host.bytes[line[1]] if isinstance(line, tuple) else None
        if isinstance(line, tuple) or not line:
            continue
        lines.append((line, host.answer(line)))
        if not line.startswith("tpeek"):
            lines += [(look, host.answer(look)) for look in LOOKS]


def calls_in(lines):
    """How many of the five calls there are, by what they answer."""
    calls = [answer.split(" ") for line, answer in lines if line.split(" ")[0] in CALLS and answer != "E"]
    return Counter(words[0] if words[0] == "ok" else " ".join(words) for words in calls)


def judged(name, lines):
    """How many answers are wrong. The first wrong ones are shown."""
    text = "".join(line + "\n" for line, _ in lines).encode()
    given = subprocess.run(RUN, input=text, stdout=subprocess.PIPE).stdout.decode("latin-1").split("\n")[:-1]
    wrong = [k for k, ((_, want), got) in enumerate(zip(lines, given)) if want != got]
    for k in wrong[:3]:
        before = next(line for line, _ in lines[k::-1] if not line.startswith("tpeek"))
        print("failure: %s (after %s)\n  wanted %s\n  got    %s" % (lines[k][0][:300], before[:40], lines[k][1], given[k]))
    failed = len(wrong) + abs(len(given) - len(lines))
    calls = calls_in(lines)
    kinds = ", ".join("%s %d" % pair for pair in sorted(calls.items()))
    print("%-12s %5d calls, %6d lines, %d failed; %s" % (name, sum(calls.values()), len(lines), failed, kinds), flush=True)
    return failed


def main():
    seed = int(sys.argv[1]) if len(sys.argv) > 1 else 7
    calls = count = failures = 0
    for run, times in RUNS:
        for k in range(times):
            lines = lines_of(run, random.Random("%d %s %d" % (seed, run.__name__, k)), Host())
            calls += sum(calls_in(lines).values())
            count += len(lines)
            failures += judged(run.__name__, lines)
    print("seed %d: %d calls, %d lines with the looks at every byte, %d failed" % (seed, calls, count, failures))
    return 1 if failures else 0


if __name__ == "__main__":
    sys.exit(main())
