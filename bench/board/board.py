#!/usr/bin/env python3
"""board.py NAME LIBRARY WORDS
What a library compiled for a board takes there: bytes by room, what it wants from outside, the deepest stack, the bytes of the
four angle functions and the root; and what a board's flash would hold, linked with the compiler's routines: bytes, what of them
comes from outside, f64 routines and f64 instructions. Ends with status 1 where there is f64. Of the library of `leg_board`, which has
one entry, bytes, wants, stack and flash against its goals, and status 1 where one is missed; of that of `c_host`, which has three, the
same without goals, and status 1 where there is f64. WORDS are the compiler's, for linking.
Needs the binutils and the libraries of gcc-arm-none-eabi."""
import collections
import functools
import os
import re
import sys
import tempfile

sys.path.append(os.path.dirname(os.path.dirname(os.path.abspath(__file__))))
from linked import bytes_of, doubles, from_outside, link, sections, stacks, tool

# An entry's own code counts with its room; what it calls has the room's name in its symbol.
ROOM = {
    "absolute": "numbers", "min": "numbers", "max": "numbers", "pattern": "numbers", "square_root": "roots",
    "sine": "sines", "cosine": "sines", "arc_cosine": "arcs", "atan2": "arcs", "merge": "legs", "select": "legs",
    "as_legs": "legs", "from_legs": "legs",
    "update": "rows", "move": "moves", "move_feet": "moves", "point_iter": "moves",
    "next_point": "moves", "feet_iter": "moves", "next_feet": "moves", "longest_distance": "moves", "walk": "walks",
    "walk_feet": "walks", "invert": "commands", "flag": "commands", "default": "commands", "new": "commands",
    "command": "commands", "should_move": "commands", "plan": "planner", "ik": "joints", "ik_strict": "joints", "fk": "joints",
    "from_json": "poses", "to_json": "poses",
    "taught_fresh": "taught", "taught_put": "taught", "taught_get": "taught", "taught_drop": "taught", "taught_list": "taught",
    "whole_step": "wholes",
}
# Entries once more, with the state after a step: for bench/every alone, counted nowhere.
ONCE_MORE = ["probe_next_step", "probe_next_timed", "probe_next_even"]
FIVE = ["probe_sine", "probe_cosine", "probe_arc_cosine", "probe_atan2", "probe_square_root"]
GOAL = 6 * 1024
# The leg board's entry, and its goals in bytes.
LEG = "hopper_leg_step"
LEG_FLASH = 3 * 1024
LEG_STACK = 128
# The conductor's entries.
C_HOST = ["hopper_stand", "hopper_command", "hopper_conduct"]
# A routine on floats of either width by its name: __aeabi_fadd, __aeabi_cfcmple, __aeabi_i2f, __aeabi_f2iz, __addsf3, __floatsisf.
FLOAT = re.compile(r"__aeabi_(c?[fd]|[a-z]+2[fd])|__\w*[sd]f")
HEAP = re.compile(r"alloc|free|sbrk")


def room(name):
    if name == LEG:
        return "leg_board"
    if name in C_HOST:
        return "c_host"
    if name.startswith("probe_"):
        return ROOM.get(name[6:].split(".")[0], "steps")
    return name.split("::")[0] if "::" in name else "shared constants"


def own_sections(path):
    """Those of the library, less the entries that are counted nowhere."""
    return ((name, size, is_code) for name, size, is_code in sections(path) if owner(name) not in ONCE_MORE)


def owner(section):
    return re.sub(r"^\.(text|rodata)\.(\.L(switch\.table\.)?)?(str[0-9.]*|cst[0-9.]*)?", "", section)


def largest(path):
    most = sorted(((size, name) for name, size, _ in own_sections(path)), reverse=True)[:6]
    print("  largest: " + ", ".join(f"{owner(name)} {size}" for size, name in most))


def by_room(path):
    code, table = collections.Counter(), collections.Counter()
    for name, size, is_code in own_sections(path):
        if size:
            (code if is_code else table)[room(owner(name))] += size
    print(f"  {'room':18} {'code':>7} {'tables':>7}")
    for r in sorted(set(code) | set(table), key=lambda r: -code[r] - table[r]):
        print(f"  {r:18} {code[r]:7} {table[r]:7}")
    print(f"  {'all':18} {sum(code.values()):7} {sum(table.values()):7}")


def wanted(path):
    names = sorted({line.split()[-1] for line in tool("nm", "-u", path).splitlines() if " U " in line})
    print("  wanted from outside:", ", ".join(names) or "nothing")
    print("  heap among them:", ", ".join(n for n in names if HEAP.search(n)) or "none")
    return names


def image(title, elf, library):
    """A line on a linked image. Whether it has f64."""
    routines, instructions = doubles(elf)
    outside = from_outside(elf, library)
    print(f"  {title:18} {sum(bytes_of(elf)):7} {sum(outside.values()):8}   {', '.join(routines) or 'none'}")
    if instructions:
        print("    f64 instructions:", ", ".join(instructions))
    return bool(routines or instructions)


def deepest(elf):
    """Prints the deepest stack of each entry and the frames of the deepest; its bytes."""
    named = re.findall(r" T (probe_\w+)", tool("nm", elf))
    chains = stacks(elf, {*named, LEG, *C_HOST})
    depths = sorted(((sum(size for _, size in chain), name) for name, chain in chains.items()), reverse=True)
    print("  stack by entry: " + ", ".join(f"{name.removeprefix('probe_')} {d}" for d, name in depths))
    most, top = depths[0]
    print(f"  deepest stack: {most} bytes: " + ", ".join(f"{name} {size}" for name, size in chains[top]))
    return most


def leg_board(name, path, words):
    """The board that links one entry. Whether its goals are met."""
    print(f"{name}, leg_board, -Os ({words})")
    by_room(path)
    floats = [n for n in wanted(path) if FLOAT.match(n)]
    print("  routines on floats among them:", ", ".join(floats) or "none")
    with tempfile.TemporaryDirectory() as scratch:
        elf = link(words, path, os.path.join(scratch, "leg"), [LEG], ["-lc", "-lgcc"])
        flash, outside = sum(bytes_of(elf)), sum(from_outside(elf, path).values())
        stack = deepest(elf)
    print(f"  linked image: {flash} bytes, of which {outside} from outside")
    goals = [(flash <= LEG_FLASH, f"{flash} bytes of code and table, goal {LEG_FLASH}"),
             (stack <= LEG_STACK, f"{stack} bytes of stack, goal {LEG_STACK}"),
             (not floats, f"{len(floats)} routines on floats, goal 0")]
    print(f"{name}, leg_board: " + ", ".join(f"{what}: {'met' if met else 'missed'}" for met, what in goals))
    return all(met for met, _ in goals)


def c_host(name, path, words):
    """The board that links the conductor. Whether it is without f64."""
    print(f"{name}, c_host, -Os ({words})")
    by_room(path)
    largest(path)
    wanted(path)
    with tempfile.TemporaryDirectory() as scratch:
        elf = link(words, path, os.path.join(scratch, "conductor"), C_HOST, ["-lc", "-lgcc"])
        stack = deepest(elf)
        outside = sum(from_outside(elf, path).values())
        code, tables = bytes_of(elf)
        print(f"  {'linked image':18} {'flash':>7} {'outside':>8}   f64 routines")
        found = image("three entries", elf, path)
    own = sum(size for _, size, _ in own_sections(path))
    print(f"{name}, c_host: {own} bytes of its own, linked {code + tables} ({outside} from outside), {stack} bytes of stack,"
          f" f64: {'some' if found else 'none'}")
    return not found


def main():
    if len(sys.argv) != 4:
        sys.exit(__doc__)
    name, path, words = sys.argv[1:]
    for entry, board in ((LEG, leg_board), (C_HOST[0], c_host)):
        if f" T {entry}\n" in tool("nm", path):
            sys.exit(0 if board(name, path, words) else 1)
    print(f"{name}, -Os ({words})")
    by_room(path)
    largest(path)
    wanted(path)
    entries = sorted(set(re.findall(r" T (probe_\w+)", tool("nm", path))) - set(ONCE_MORE))
    with tempfile.TemporaryDirectory() as scratch:
        at = functools.partial(os.path.join, scratch)
        board = ["-lc", "-lgcc"]
        whole = link(words, path, at("whole"), entries, board)
        outside = from_outside(whole, path)
        print(f"  linked in from outside: {sum(outside.values())} bytes:", ", ".join(f"{m} {size}" for m, size in outside.most_common()))
        deepest(whole)
        print(f"  {'linked image':18} {'flash':>7} {'outside':>8}   f64 routines")
        found = [image("every entry", whole, path)]
        found += [image(one[6:], link(words, path, at(one), [one], board), path) for one in FIVE]
        code, tables = bytes_of(link(words, path, at("five"), FIVE, ["-Wl,--unresolved-symbols=ignore-all"]))
    total = code + tables
    print(f"{name}: the four angle functions and the root: {code} code + {tables} tables = {total} bytes,"
          f" {total / 1024:.2f} KiB" + (f", goal {GOAL}: {'met' if total < GOAL else 'missed by ' + str(total - GOAL)}" if "M4" in name else ""))
    sys.exit(f"{name}: f64 in the linked image" if any(found) else 0)


main()
