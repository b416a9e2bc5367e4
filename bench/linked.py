"""What a linked image of a board holds and needs: bytes, what came from outside, f64, the deepest stack. bench/board/board.py and
bench/entries/board.py share it. Needs the binutils and the libraries of gcc-arm-none-eabi."""
import collections
import os
import re
import subprocess
import sys
import tempfile

# A routine on f64 by its name: __aeabi_dadd, __aeabi_cdcmple, __aeabi_d2f, __aeabi_f2d, __adddf3, __truncdfsf2.
DOUBLE = re.compile(r"__aeabi_(c?d|[a-z]+2d)|__\w*df")
# An instruction on f64. Loads and copies of a double register have none of these names: a unit for f32 alone has them too.
DOUBLE_INSTRUCTION = re.compile(r"\tv\S*\.f64\b")
# A part of a linker's map: section, address, bytes, archive and member.
MAPPED = re.compile(r"^ (\.\S+)\s+0x[0-9a-f]+\s+0x([0-9a-f]+) (\S+\.a)\((\S+)\.o\)$", re.M)


def tool(name, *words):
    return subprocess.run(["arm-none-eabi-" + name, *words], capture_output=True, text=True, check=True).stdout


def sections(path):
    """Name, bytes and whether it is code, of each section that a board's flash would hold."""
    lines = tool("objdump", "-h", "-w", path).splitlines()
    for line in lines:
        f = line.split()
        if len(f) > 7 and f[0].isdigit() and "ALLOC" in line and "CONTENTS" in line and not f[1].startswith(".ARM."):
            yield f[1], int(f[2], 16), "CODE" in line


def link(words, path, out, keep, libraries):
    """An image of these entries and what they call. OUT.map says what came from where."""
    roots = [f"-Wl,-u,{k}" for k in keep]
    subprocess.run(["arm-none-eabi-gcc", *words.split(), "-nostdlib", "-nostartfiles", "-Wl,--gc-sections", "-Wl,-e," + keep[0],
                    "-Wl,--no-warn-rwx-segments,-z,noexecstack", f"-Wl,-Map,{out}.map", *roots, path, *libraries, "-o", out], check=True)
    return out


def bytes_of(elf):
    """Code and tables."""
    return [sum(size for _, size, is_code in sections(elf) if is_code == code) for code in (True, False)]


def from_outside(elf, library):
    """Bytes in flash of each member of another archive than the library's."""
    with open(elf + ".map") as f:
        placed = f.read().partition("Linker script and memory map")[2]
    found = collections.Counter()
    for section, size, archive, member in MAPPED.findall(placed):
        if re.match(r"\.(text|rodata|data)\b", section) and not os.path.samefile(archive, library) and int(size, 16):
            found[member.replace("lib_a-", "")] += int(size, 16)
    return found


def doubles(elf):
    """F64 routines with their bytes, one name for each, and the functions that have f64 instructions with how many."""
    named = {}
    for line in tool("nm", "-S", "--defined-only", elf).splitlines():
        f = line.split()
        if DOUBLE.match(f[-1]):
            size = int(f[1], 16) if len(f) == 4 else 0
            named.setdefault(f[0], []).append((-size, not f[-1].startswith("__aeabi"), f[-1]))
    routines = sorted(min(names)[::2] for names in named.values())
    instructions, here = collections.Counter(), ""
    for line in tool("objdump", "-d", "-w", elf).splitlines():
        head = re.match(r"[0-9a-f]+ <(.*)>:$", line)
        here = head[1] if head else here
        instructions[here] += bool(DOUBLE_INSTRUCTION.search(line))
    return [f"{name} {-size}" for size, name in routines], [f"{name} {count}" for name, count in instructions.items() if count]


def uleb(data, at):
    value = shift = 0
    while True:
        b = data[at]
        value |= (b & 127) << shift
        at, shift = at + 1, shift + 7
        if b < 128:
            return value, at


def told_frames(elf):
    """The frames that the compiler wrote down, by address."""
    with tempfile.NamedTemporaryFile() as dump:
        tool("objcopy", "-O", "binary", "--only-section=.stack_sizes", "--set-section-flags", ".stack_sizes=alloc", elf, dump.name)
        data, at, frames = open(dump.name, "rb").read(), 0, {}
    while at < len(data):
        address = int.from_bytes(data[at:at + 4], "little") & ~1
        frames[address], at = uleb(data, at + 4)
    return frames


def pushed(text):
    """Bytes that one instruction of a routine from outside takes from the stack."""
    m = re.search(r"\t(push|stmdb\tsp!,)\s*\{(.*)\}", text)
    if m:
        count = 0
        for part in m.group(2).split(","):
            ends = re.findall(r"r(\d+)", part)
            count += int(ends[1]) - int(ends[0]) + 1 if len(ends) == 2 else 1
        return 4 * count
    m = re.search(r"\tsub(?:\.w|w)?\tsp, (?:sp, )?#(\d+)", text)
    return int(m.group(1)) if m else 0


def stacks(elf, entries):
    """For each of these entries the frames of its deepest chain of calls, names with bytes; indirect calls are said."""
    frames, calls, name_at, here = {}, collections.defaultdict(set), {}, None
    told = told_frames(elf)
    for line in tool("objdump", "-d", "-w", elf).splitlines():
        head = re.match(r"([0-9a-f]+) <(.*)>:$", line)
        if head:
            here = int(head.group(1), 16)
            name_at[here] = head.group(2)
            frames[here] = told.get(here, 0)
            continue
        if here is None:
            continue
        if here not in told:
            frames[here] += pushed(line)
        # To whatever name, of which some have a `+`; only a function's first address counts below.
        to = re.search(r"\t(?:bl|blx|b|b\.n|b\.w)\t([0-9a-f]+) <", line)
        if to and int(to.group(1), 16) != here:
            calls[here].add(int(to.group(1), 16))
        if re.search(r"\tblx?\tr\d", line):
            print("  an indirect call in", name_at[here])
    deep, path = {}, {}

    def depth(f, above=()):
        if f in above:
            sys.exit("board: a call leads back to itself: " + name_at[f])
        if f not in deep:
            below = max(((depth(g, above + (f,)), g) for g in calls[f] if g in frames), default=(0, None))
            deep[f], path[f] = frames[f] + below[0], below[1]
        return deep[f]

    chains = {}
    for f, name in name_at.items():
        if name in entries:
            depth(f)
            chain = []
            while f is not None:
                chain.append((name_at[f], frames[f]))
                f = path[f]
            chains[name] = chain
    return chains
