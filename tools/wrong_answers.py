#!/usr/bin/env python3
"""wrong_answers.py [--check]
Writes docs/WRONG_ANSWERS.md: the wrong answers that the contracts rule out, from every room's must-fail/. An edit file says
whose answers it changes (`entry: NAME NAME ..`), and which of document 01's wrong answers it is (`named: ..`), if one. Fails,
and names it, where an entry of the face has fewer than two edits. With --check it writes nothing, and also fails where the
page is not what it would write."""
import os
import sys
from collections import namedtuple

import rooms

PAGE = "docs/WRONG_ANSWERS.md"

# Besides the face's functions: the programs that read text, by their names.
PROGRAMS = {"hopper-walk": "the walk printer", "hopper-compare": "the comparison of two listings"}

# Functions without parameters are numbers that the face shows; those of one kind are one entry.
NUMBERS = {"default_step_time": "defaults", "default_step_height": "defaults", "default_step_distance": "defaults"}

# Generic methods whose types leave no second answer: the place that a step has is the only one at hand.
ALONE = ["Step::place"]

# Document 01, "How tight each promise is".
NAMED = [
    "a build that only refuses",
    "one constant foot",
    "a foot left standing and called moved",
    "a walk that repeats its first step",
    "an invented count",
]

# Document 01, "Slips that look right": the slip, the name of what is tried, and a remark.
SLIPS = [
    ("dividing by the period once in the old mode", "dividing by the period once", ""),
    ("testing arrival by bits, so that -0 and +0 differ", "arrival by bits", ""),
    (
        "aggressive height at progress exactly 0.5: the sine applies there",
        "aggressive height up to another progress",
        "No edit can show this one: our sine of P / 2 is exactly 1, so that both readings give the same floats there. Tried in its place: ",
    ),
    ("centring the relaxed vectors too", "centring the relaxed vectors", ""),
    ("clamping with comparisons that let NaN through", "a clamp that lets NaN through", ""),
]

# An edit file: where it stands, whose answers it changes, what it is named, and its changes, each a file, a text and what stands for it.
Edit = namedtuple("Edit", "room label entries names changes")


def edits():
    for room in sorted(os.listdir(rooms.CRATES)):
        for path in rooms.files(room, "must-fail"):
            yield edit(room, path)


def edit(room, path):
    entries, names, changes, file, old = [], [], [], "", ""
    for line in rooms.read(room, path).split("\n"):
        key, _, text = line.partition(":")
        text = text.strip()
        if key == "entry":
            entries += [NUMBERS.get(name, name) for name in text.split()]
        elif key == "named":
            names.append(text)
        elif key == "file":
            file = text
        elif key == "old":
            old = text
        elif key == "new":
            changes.append((file, old, text))
    return Edit(room, os.path.basename(path).removesuffix(".edit"), entries, names, changes)


def own(room):
    """The public functions of a room; a program has none."""
    for module in rooms.public_modules(room) if "src/lib.rt" in rooms.files(room, "src") else []:
        for function in rooms.functions(rooms.source(room, module)):
            if function.public:
                yield f"{function.owner}::{function.name}" if function.owner else function.name


def faults(entries, every):
    for e in every:
        for name in e.entries:
            if name not in entries and name not in own(e.room):
                yield f"{e.room}/{e.label}: there is no entry {name}"
        for name in e.names:
            if name not in NAMED and name not in [tried for _, tried, _ in SLIPS]:
                yield f"{e.room}/{e.label}: document 01 names no {name}"
        if not e.entries:
            yield f"{e.room}/{e.label}: it does not say whose answers it changes"
    for name in entries:
        found = sum(name in e.entries for e in every)
        if found < 2 and name not in ALONE:
            yield f"{name}: fewer than two wrong answers ({found})"
    for name in NAMED + [tried for _, tried, _ in SLIPS]:
        if not any(name in e.names for e in every):
            yield f"{name}: no edit is named so"


def code(text):
    return "`" + text.replace("|", "\\|") + "`" if text else "(nothing)"


def spoken(found):
    return "; ".join(f"{e.label.replace('_', ' ')} ({e.room})" for e in found)


def table(*heads):
    return f"| {' | '.join(heads)} |\n|{'---|' * len(heads)}"


def page(entries, every):
    yield f"""# Wrong answers

What the contracts rule out: each row is an edit of a room's code or of its definitions that `rt ci` tries and that the prover must refuse.
Made by tools/wrong_answers.py from `crates/*/must-fail`, where each edit says whose answers it changes.

## The five that document 01 names

{table("wrong answer", "edits")}"""
    for name in NAMED:
        yield f"| {name} | {spoken(e for e in every if name in e.names)} |"
    yield f"\n## Slips that look right\n\n{table('slip', 'edits')}"
    for slip, tried, remark in SLIPS:
        yield f"| {slip} | {remark}{spoken(e for e in every if tried in e.names)} |"
    yield f"""
## By entry

Each entry with edits that change its answer, in its own text or in what it calls. `flags` are the fourteen flags of legs and
`flags::named`, `defaults` the default step time, height and distance; {" and ".join(f"`{name}` is {what}" for name, what in PROGRAMS.items())}.

{table("entry", "edits")}"""
    for name in entries:
        yield f"| `{name}` | {spoken(e for e in every if name in e.entries)} |"
    for room in sorted({e.room for e in every}):
        yield f"\n## {room}\n\n{table('wrong answer', 'where', 'instead of', 'this')}"
        for e in every:
            for file, old, new in e.changes if e.room == room else []:
                yield f"| {e.label.replace('_', ' ')} | {file} | {code(old)} | {code(new)} |"


if __name__ == "__main__":
    entries = list(dict.fromkeys(NUMBERS.get(entry.name, entry.name) for entry in rooms.face())) + list(PROGRAMS)
    every = list(edits())
    wrong = list(faults(entries, every))
    for fault in wrong:
        print(f"wrong_answers.py: {fault}", file=sys.stderr)
    rooms.keep(PAGE, "\n".join(page(entries, every)) + "\n")
    sys.exit(1 if wrong else 0)
