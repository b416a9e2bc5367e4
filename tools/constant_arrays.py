#!/usr/bin/env python3
"""constant_arrays.py IN.ll OUT.ll
A stage of tools/native-lib, over a module in LLVM's text. There a constant array is written out element by element at each place that reads
it: one read of a table of a thousand entries takes a thousand stores. Where such stores fill an array on a function's stack from its first
byte to its last, one copy from read-only memory takes their place. The compiler then finds the copy only read, and reads that memory.
An array is moved only where
- its stores stand in order and next to each other, with nothing between them but the place of the next, and have one type;
- they fill it to the byte, and it is no shorter than SHORTEST;
- nothing names it before them, and nothing but its store names a place;
so that the copy writes the bytes that the stores wrote, where they did. Everything else stays as it was; without such an array that is the
whole module. Equal arrays share a constant. Prints the arrays with their functions, and how many they are. tools/constant_arrays_test tries
this script."""
import collections
import re
import sys

# In bytes. What is shorter is most often a record, which the compiler keeps in registers.
SHORTEST = 64
BYTES = {"i8": 1, "i16": 2, "i32": 4, "i64": 8, "float": 4}
FUNCTION = re.compile(r'define .*?@(?:"([^"]*)"|([\w.$-]+))\(.*\{')
ARRAY = re.compile(r"  (%[\w.]+) = alloca \[(\d+) x i8\], align (\d+)")
STORE = re.compile(r"  store (i8|i16|i32|i64|float) (-?\d[\w.+-]*), ptr (%[\w.]+), align \d+")
PLACE = re.compile(r"  (%[\w.]+) = getelementptr (?:inbounds |nuw )*i8, ptr (%[\w.]+), i64 (\d+)")
NAME = re.compile(r"%[\w.]+")
COPY = "llvm.memcpy.p0.p0.i64"

Array = collections.namedtuple("Array", "bytes align")


class Run:
    """Stores into one array from its first byte on: their type and values, the names of their places, and how many lines they take."""

    def __init__(self, function, at):
        first = STORE.fullmatch(function[at])
        self.array, self.type, self.values, self.places, self.lines = first[3], first[1], [first[2]], [], 1
        while self.takes(*function[at + self.lines:at + self.lines + 2]):
            self.lines += 2

    def takes(self, place, store):
        """Whether two lines are the next place and its store. If so, they now belong to the run."""
        to, value = PLACE.fullmatch(place), STORE.fullmatch(store)
        if not to or not value or (to[2], int(to[3])) != (self.array, self.bytes()) or (value[1], value[3]) != (self.type, to[1]):
            return False
        self.values.append(value[2])
        self.places.append(to[1])
        return True

    def bytes(self):
        return len(self.values) * BYTES[self.type]

    def constant(self):
        return f"[{len(self.values)} x {self.type}] [{', '.join(f'{self.type} {value}' for value in self.values)}]"


class Module:
    """What is written, the constants with their names and alignments, and what was moved."""

    def __init__(self):
        self.lines, self.constants, self.moved = [], {}, []

    def copy(self, run, align, function):
        """Writes the copy that takes a run's place. A constant has its number and the first function that reads it in its name."""
        name, widest = self.constants.get(run.constant(), (f'@"{function}.array.{len(self.constants)}"', 1))
        self.constants[run.constant()] = name, max(align, widest)
        self.lines.append(f"  call void @{COPY}(ptr align {align} {run.array}, ptr align {align} {name}, i64 {run.bytes()}, i1 false)")

    def function(self, name, lines):
        uses = collections.Counter(used for line in lines for used in NAME.findall(line))
        arrays, touched, at = {}, set(), 0
        while at < len(lines):
            array, store = ARRAY.fullmatch(lines[at]), STORE.fullmatch(lines[at])
            run = Run(lines, at) if store and store[3] in arrays and store[3] not in touched else None
            if run and SHORTEST <= run.bytes() == arrays[run.array].bytes and all(uses[place] == 2 for place in run.places):
                self.copy(run, arrays[run.array].align, name)
                self.moved.append(f"{name}: {len(run.values)} x {run.type}")
                touched.add(run.array)
                at += run.lines
                continue
            if array:
                arrays[array[1]] = Array(int(array[2]), int(array[3]))
            else:
                touched.update(NAME.findall(lines[at]))
            self.lines.append(lines[at])
            at += 1

    def end(self, is_declared):
        self.lines += [f"{name} = private unnamed_addr constant {what}, align {align}" for what, (name, align) in self.constants.items()]
        if self.constants and not is_declared:
            self.lines.append(f"declare void @{COPY}(ptr, ptr, i64, i1)")


def staged(lines):
    module, at = Module(), 0
    while at < len(lines):
        head = FUNCTION.match(lines[at])
        end = lines.index("}", at) + 1 if head else at + 1
        if head:
            module.function(head[1] or head[2], lines[at:end])
        else:
            module.lines.append(lines[at])
        at = end
    module.end(any(line.startswith("declare ") and f"@{COPY}(" in line for line in lines))
    return module


def main():
    if len(sys.argv) != 3:
        sys.exit(__doc__)
    with open(sys.argv[1], encoding="utf-8") as f:
        module = staged(f.read().splitlines())
    with open(sys.argv[2], "w", encoding="utf-8") as f:
        f.write("\n".join(module.lines) + "\n")
    for moved in module.moved:
        print("constant_arrays:", moved)
    print(f"constant_arrays: arrays moved: {len(module.moved)}, to constants: {len(module.constants)}")


main()
