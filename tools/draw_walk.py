#!/usr/bin/env python3
"""draw_walk.py docs/pictures/walk.records > docs/pictures/walk.svg
Draws the walks of a file of records as ./hopper-walk prints them: each walk's points from above and from the side, at one scale.
A walk's start is in its record, its steps are in the listing. A refusal is named in the legend."""
import os
import struct
import subprocess
import sys

from draw_panel import COLOURS, Panel, legend, picture, tick


PRINTER = os.path.join(os.path.dirname(os.path.abspath(__file__)), "..", "hopper-walk")


def floats(fields):
    return struct.unpack(f">{len(fields)}f", bytes.fromhex("".join(fields)))


def read(records):
    """The walks of the records: their points, the start first, and how each ended."""
    with open(records, "rb") as given:
        printed = subprocess.run([PRINTER], stdin=given, capture_output=True, text=True, check=True).stdout.splitlines()[1:]
    with open(records, encoding="ascii") as given:
        starts = [line.rstrip("\n").split("\t")[2:5] for line in given]
    walks, points = [], []
    for line in printed:
        fields = line.split("\t")
        if fields[0] == "M":
            points.append(floats(fields[2:]))
            continue
        if fields[0] == "A":
            points.insert(0, floats(starts[len(walks)]))
        steps = "1 step" if fields[1] == "1" else f"{fields[1]} steps"
        walks.append((points, steps if fields[0] == "A" else f"refusal {fields[1]}"))
        points = []
    return walks


def room(numbers):
    """From the least to the greatest, with a margin."""
    low, high = min(numbers), max(numbers)
    margin = max((high - low) * 0.06, 0.01)
    return low - margin, high + margin


def main():
    walks = read(sys.argv[1])
    points = [p for walk, _ in walks for p in walk]
    if not points:
        sys.exit("draw_walk: none of the walks moves")
    x, y, z = (room([p[k] for p in points]) for k in range(3))
    scale = min(600 / (x[1] - x[0]), 420 / (y[1] - y[0]), 300 / (z[1] - z[0]))
    width = scale * (x[1] - x[0])
    above = Panel(80, 40, width, scale * (y[1] - y[0]), x, y)
    side = Panel(80, above.top + above.height + 90, width, scale * (z[1] - z[0]), x, z)
    step = tick(x[1] - x[0], width / 45)
    above.axes("From above", "x, metres", "y, metres", step, step)
    side.axes("From the side", "x, metres", "z, metres", step, step)
    for k, (walk, _) in enumerate(walks):
        colour = COLOURS[k % len(COLOURS)]
        for panel, other in ((above, 1), (side, 2)):
            places = [(p[0], p[other]) for p in walk]
            if not places:
                continue
            panel.line(places, colour, 'stroke-width="1"')
            for place in places[1:]:
                panel.dot(*place, colour, 2)
            x, y = panel.at(*places[0])
            panel.out.append(f'<rect x="{x - 5:.1f}" y="{y - 5:.1f}" width="10" height="10" fill="{colour}"/>')
            panel.dot(*places[-1], "none", 6, f'stroke="{colour}" stroke-width="2"')
    names = [f"walk {k + 1}: {how}" for k, (_, how) in enumerate(walks)]
    more = ["square: the start", "dot: a step's end", "ring: the target"]
    right = 80 + width + 30
    picture(right + 160, side.top + side.height + 50, above.out + side.out + legend(right, 54, names, more))


main()
