#!/usr/bin/env python3
"""examples/crawl | draw_conducted.py > docs/pictures/conducted.svg
Draws what the gait conductor told a C host. Above: the six foot paths seen from above, a stride on the ground as a line, a return
through the air as an arc. Below, over time: the heights of the feet, then the joints of the left front leg. A thin line is a call
that planned a step; grey is where the crawler rests."""
import itertools
import math
import struct
import sys

from draw_panel import COLOURS, Panel, legend, picture

NAMES = ["left front", "right front", "left middle", "right middle", "left rear", "right rear"]
JOINTS = ["coxa", "femur", "tibia"]
# What examples/crawl.c asks for, and from which second on.
WISHES = [(1.0, "walks ahead"), (4.5, "turns while it walks"), (8.0, "stands still")]
LIFT = 0.001  # metres over the ground from which on a foot is drawn in the air
SEEN = 0.15  # pixels by which a point is beside a line


class Call:
    """One line: seconds, what was told, six feet, six legs' joints."""

    def __init__(self, line):
        fields = line.split("\t")
        numbers = struct.unpack(">36f", bytes.fromhex("".join(fields[2:])))
        points = [numbers[3 * k:3 * k + 3] for k in range(12)]
        self.seconds, self.told, self.feet, self.joints = int(fields[0]) / 1000, fields[1], points[:6], points[6:]


def beside(place, start, end):
    """How far a place is from the line between two others, or from both where they are one."""
    (x, y), (x0, y0), (x1, y1) = place, start, end
    length = math.hypot(x1 - x0, y1 - y0)
    return abs((x - x0) * (y1 - y0) - (y - y0) * (x1 - x0)) / length if length else math.hypot(x - x0, y - y0)


def thinned(panel, points):
    """The points without those that lie on a line between others, as far as one can see."""
    places = [panel.at(*p) for p in points]
    off = [beside(place, places[0], places[-1]) for place in places]
    k = max(range(len(points)), key=off.__getitem__)
    if off[k] < SEEN:
        return [points[0], points[-1]]
    return thinned(panel, points[:k + 1]) + thinned(panel, points[k:])[1:]


def parts(calls, leg, ground):
    """A foot's path, parted where it is lifted and where it is put down: each part's points, and whether they are in the air."""
    made, before = [], None
    for call in calls:
        x, y, z = call.feet[leg]
        up = z - ground > LIFT
        # a lifted foot is drawn as far outwards as it is high
        place = (x, y + (z - ground if y > 0 else ground - z))
        if not made or made[-1][1] != up:
            made.append(([before] if before else [], up))
        made[-1][0].append(place)
        before = place
    return made


def from_above(calls, ground):
    panel = Panel(80, 40, 600, 580, (-0.26, 0.26), (-0.2514, 0.2514))
    panel.axes("The six feet from above, as the crawler sees them; it faces right", "x, metres", "y, metres", 0.05, 0.05)
    for leg, name in enumerate(NAMES):
        for path, up in parts(calls, leg, ground):
            panel.line(thinned(panel, path), COLOURS[leg], 'stroke-width="1.2" stroke-dasharray="2 3"' if up else 'stroke-width="2"')
        x, y, _ = calls[0].feet[leg]
        panel.dot(x, y, COLOURS[leg], 4, 'stroke="white"')
        x, y = panel.at(x, y)
        panel.text(x, y + (56 if leg % 2 else -48), name, f'text-anchor="middle" fill="{COLOURS[leg]}"')
    return panel


def over_time(calls, top, height, y, title, y_title, y_step):
    """A panel with what every curve over time has behind it."""
    panel = Panel(80, top, 820, height, (0, calls[-1].seconds), y)
    for told, run in itertools.groupby(calls, key=lambda call: call.told):
        seconds = [call.seconds for call in run]
        if told == "N":
            left, right = (panel.at(at, 0)[0] for at in (seconds[0], seconds[-1]))
            panel.out.append(f'<rect x="{left:.1f}" y="{top}" width="{right - left:.1f}" height="{height}" fill="#eee"/>')
    panel.axes(title, "time, seconds", y_title, 1, y_step)
    for call in calls:
        if call.told == "P":
            left = panel.at(call.seconds, 0)[0]
            panel.out.append(f'<path d="M{left:.1f} {top}V{top + height}" stroke="#aaa" stroke-width="0.7"/>')
    for second, words in WISHES:
        left = panel.at(second, 0)[0]
        panel.out.append(f'<path d="M{left:.1f} {top}V{top + height}" stroke="#222" stroke-dasharray="4 3"/>')
        panel.text(left + 4, top + 13, words, 'fill="#222"')
    return panel


def main():
    calls = [Call(line) for line in sys.stdin.read().splitlines()]
    ground = calls[0].feet[0][2]
    above = from_above(calls, ground)
    heights = over_time(calls, 710, 150, (-0.2, 4), "Height of each foot over the ground", "centimetres", 1)
    for leg in range(6):
        # the other two of a tripod lie on the first: dashed, so that all six show
        dash = "" if leg in (0, 1) else f'stroke-dasharray="6 12" stroke-dashoffset="{6 * (leg // 2)}"'
        curve = [(call.seconds, 100 * (call.feet[leg][2] - ground)) for call in calls]
        heights.line(thinned(heights, curve), COLOURS[leg], f'stroke-width="1.8" {dash}')
    angles = [a for call in calls for a in call.joints[0]]
    joints = over_time(calls, 950, 190, (min(angles) - 0.2, max(angles) + 0.6), "Joints of the left front leg", "radians", 0.5)
    for k, name in enumerate(JOINTS):
        curve = [(call.seconds, call.joints[0][k]) for call in calls]
        joints.line(thinned(joints, curve), COLOURS[k], 'stroke-width="1.8"')
        x, y = joints.at(0, calls[0].joints[0][k])
        joints.text(x + 6, y - 6, name, f'fill="{COLOURS[k]}"')
    planned = sum(call.told == "P" for call in calls)
    more = [f"{len(calls)} calls, one every 20 ms,", f"{planned} steps planned", "", "dot: where a foot stood first",
            "line: a stride, on the ground", "dotted arc: the return, as far", "outwards as the foot is high", "", "below:",
            "grey: the crawler rests", "thin line: a step is planned", "dashed: the driver's command", "three feet rise together:",
            "their curves are one"]
    picture(930, 1190, above.out + heights.out + joints.out + legend(710, 54, NAMES, more))


main()
