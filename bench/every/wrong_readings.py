#!/usr/bin/env python3
"""wrong_readings.py FOLDER: shows that `bench/run every` can fail. Puts one wrong reading after the other into a copy of the judge
and runs it on the library that it built in FOLDER. The last line counts those that the answers tell apart."""
import os
import subprocess
import sys
import tempfile

HERE = os.path.dirname(os.path.abspath(__file__))
LIBRARY = sys.argv[1]
STATE = "a.is_state(i, pace, [&i.f[..18], ours.as_flattened(), &i.f[36..54]], &i.f[54..56])"
SIDES = "6\n    } else if angle <= (-90f32).to_radians() {\n        8"
ENDS = "9\n    } else if far < (femur - tibia).abs() {\n        10"
FIRST = "(0..6).find(|&l| refusals[l] != 0)"
LEVEL = "if source && horizontal(c.start, c.target) == 0.0"
SWINGS = "is_lifted(tripod, l) && c.last[l] != c.target[l]"
LANDED = "if swings { (feet[l] != c.target[l]) as u32 } else { last >> l }"
KEPT = "let [_start, last, _target] = c.marks;"
AFTER = "rows_of(&[new, c.marks[0], new, c.marks[2]])"
MOVED = "let marks = lifted == rows_of(&[i.marks(0), i.marks(0), i.marks(1)]);"
SET_OUT = "&i.f[36..38]) && a.lifted == rows_of(&[i.marks(0), i.marks(0), i.marks(1)]);"
WAYS = "if want == 0 { feet_towards(i.feet(0), i.feet(18), i.f[36]) } else { (i.feet(0), false) };"
# what is read wrongly, where, the right words, the wrong ones
WRONG = [
    ("a foot one ulp past its end", "judge.rs", "FOOT: Row = Row(-4.0, 4.0)", "FOOT: Row = Row(-4.0, 4.0000005)"),
    ("of equal numbers the second", "entries.rs", "(y as f64) > x as f64", "(y as f64) >= x as f64"),
    ("a period of 60 s and 1 ns", "judge.rs", "<= 60_000_000_000", "<= 60_000_000_001"),
    ("a period in 64 bits", "judge.rs", "t.s as u128 * 1_000_000_000 + t.ns as u128", "t.s.wrapping_mul(1_000_000_000).wrapping_add(t.ns as u64) as u128"),
    ("elapsed of 3601 s", "judge.rs", "t.s < 3601", "t.s < 3602"),
    ("mask 64", "entries.rs", "t.mask && i.mask > 63", "t.mask && i.mask > 64"),
    ("arrival only below max move", "judge.rs", "if d <= max_move", "if d < max_move"),
    ("arrival by bits", "judge.rs", "last[k] == target[k])", "last[k].to_bits() == target[k].to_bits())"),
    ("squares summed backwards", "judge.rs", "(d[0] * d[0] + d[1] * d[1] + d[2] * d[2]).sqrt()", "(d[2] * d[2] + d[1] * d[1] + d[0] * d[0]).sqrt()"),
    ("a vector goes the other way", "judge.rs", "moved_by(distance(target, last), last, target", "moved_by(distance(target, last), target, last"),
    ("EPSILON itself is no move", "entries.rs", "x.abs() >= f32::EPSILON", "x.abs() > f32::EPSILON"),
    ("the period divided once", "judge.rs", "seconds(elapsed) / seconds(period) / seconds(period)", "seconds(elapsed) / seconds(period)"),
    ("a step where nothing moves ahead", "judge.rs", LEVEL, "if false"),
    ("even pace ends where nothing does", "judge.rs", LEVEL, LEVEL.replace("source && ", "")),
    ("straight down in no time", "judge.rs", LEVEL, "let progress = if horizontal(c.start, c.target) == 0.0 { 1.0 } else { progress };\n    " + LEVEL),
    ("even pace ends with its first foot", "judge.rs", "moved.then_some(feet)", "(moved && (source || (0..6).all(|l| c.last[l] != c.target[l]))).then_some(feet)"),
    ("a foot is there in x and y alone", "judge.rs", "if last == target {", "if last[..2] == target[..2] {"),
    ("aggressive at progress 1/2", "judge.rs", "progress < 0.5 {", "progress <= 0.5 {"),
    ("the centre in row order", "judge.rs", "([0, 3, 4], [0, 4, 3])", "([0, 3, 4], [0, 3, 4])"),
    ("relaxed vectors centred too", "judge.rs", "(relaxed[l][0], relaxed[l][1]);\n        if", "(relaxed[l][0] - from[0], relaxed[l][1] - from[1]);\n        if"),
    ("an angle of a zero vector", "judge.rs", "if (x1 == 0.0 && y1 == 0.0) || (x2 == 0.0 && y2 == 0.0) { 0.0 } else", "if false { 0.0 } else"),
    ("-s for 0 - s", "judge.rs", "[c, 0.0 - s, 0.0]", "[c, -s, 0.0]"),
    ("a lifted z copied", "judge.rs", "p[1] + dy, p[2] + 0.0]", "p[1] + dy, p[2]]"),
    ("a NaN quotient is -1", "judge.rs", "if q.is_nan() || q > 1.0 { 1.0 }", "if q.is_nan() { -1.0 } else if q > 1.0 { 1.0 }"),
    ("90 degrees permitted", "judge.rs", "if angle >= 90f32", "if angle > 90f32"),
    ("-90 degrees permitted", "judge.rs", "if angle <= (-90f32)", "if angle < (-90f32)"),
    ("6 and 8 exchanged", "judge.rs", SIDES, SIDES.replace("6", "x").replace("8", "6").replace("x", "8")),
    ("6 on both sides", "judge.rs", SIDES, SIDES.replace("8", "6")),
    ("the last leg past its limit", "judge.rs", FIRST, FIRST.replace(".find", ".rev().find")),
    ("a 6 before any 8", "judge.rs", FIRST, "(0..6).find(|&l| refusals[l] == 6).or(" + FIRST + ")"),
    ("at the sum is too far", "judge.rs", "far > femur + tibia", "far >= femur + tibia"),
    ("the exact sum", "judge.rs", "far > femur + tibia", "far as f64 > femur as f64 + tibia as f64"),
    ("at the difference is too near", "judge.rs", "far < (femur - tibia).abs()", "far <= (femur - tibia).abs()"),
    ("the difference with its sign", "judge.rs", "far < (femur - tibia).abs()", "far < femur - tibia"),
    ("9 and 10 exchanged", "judge.rs", ENDS, ENDS.replace("10", "x").replace("9", "10").replace("x", "9")),
    ("how far from the coxa's place", "judge.rs", "- coxa;\n    let far", ";\n    let far"),
    ("how far sideways alone", "judge.rs", "let far = (sideways * sideways + v[2] * v[2]).sqrt()", "let far = sideways.abs()"),
    ("reach before sides", "entries.rs", "if past != 0 { past } else { out_of_reach }", "if out_of_reach != 0 { out_of_reach } else { past }"),
    ("a 9 before any 10", "judge.rs", FIRST, "(0..6).find(|&l| refusals[l] == 9).or(" + FIRST + ")"),
    ("legs counted in field order", "judge.rs", "256 * l as u32", "256 * [0, 3, 1, 4, 2, 5][l]"),
    ("legs counted from the rear", "judge.rs", "256 * l as u32", "256 * (5 - l as u32)"),
    ("the coxa's z without 0.0 *", "judge.rs", "leg[2] + 0.0 * coxa_length + femur_x", "leg[2] + femur_x"),
    # the state after a call, and a second call on it
    ("a step leaves its last feet", "entries.rs", STATE, STATE.replace("ours.as_flattened()", "&i.f[18..36]")),
    ("a step starts anew", "entries.rs", STATE, STATE.replace("&i.f[..18]", "ours.as_flattened()")),
    ("a step leaves start for target", "entries.rs", STATE, STATE.replace("&i.f[36..54]", "&i.f[..18]")),
    ("height and descent exchanged", "entries.rs", STATE, STATE.replace("&i.f[54..56]", "&[i.f[55], i.f[54]]")),
    ("the tripod inverted by a step", "entries.rs", "256 * i.tripod + 512 * i.aggressive;", "256 * (1 - i.tripod) + 512 * i.aggressive;"),
    ("the lift forgotten by a step", "entries.rs", "256 * i.tripod + 512 * i.aggressive;", "256 * i.tripod;"),
    ("the period forgotten by a step", "entries.rs", "{ NO_TIME } else { i.period }", "{ NO_TIME } else { i.elapsed }"),
    ("a foot past its end may step on", "entries.rs", "let first = floats(&step_rows(pace), &i.f);", "let first = 0;"),
    ("a step that set out has gone", "entries.rs", "[&i.f[..18], &i.f[..18], &i.f[18..36]]", "[&i.f[..18], &i.f[18..36], &i.f[18..36]]"),
    ("a moving point stays", "entries.rs", "same(&out[..3], &p)", "same(&out[..3], &i.f[..3])"),
    ("a moving point is its target", "entries.rs", "same(&out[3..], &i.f[3..6])", "same(&out[3..], &p)"),
    ("moving feet stay", "entries.rs", "is_at(&last, &feet)", "same(&last, &i.f[..18])"),
    ("moving feet lose their target", "entries.rs", "is_at(&last, &feet) && same(&target, &i.f[18..36])", "is_at(&last, &feet) && is_at(&target, &feet)"),
    # marks
    ("a merge takes the point alone", "judge.rs", "{ b >> l } else { a >> l }", "{ a >> l } else { a >> l }"),
    ("a merge takes all marks", "judge.rs", "{ b >> l } else { a >> l }", "{ b >> l } else { b >> l }"),
    ("a selected mark stays in its place", "judge.rs", "of.get(at).copied().unwrap_or(0)", "if mask & FLAG[at] != 0 { marks >> at } else { 0 }"),
    ("an unused place keeps its mark", "judge.rs", "unwrap_or(0)", "unwrap_or(marks >> at)"),
    ("a refused selection clears marks", "entries.rs", "len == 77 && lifted == NO_MARKS", "len == 77 && lifted == 0"),
    ("an update keeps the old mark", "judge.rs", "{ given.next().unwrap() } else { marks >> l }", "{ marks >> l } else { marks >> l }"),
    ("an update clears the mark", "judge.rs", "{ given.next().unwrap() } else { marks >> l }", "{ 0 } else { marks >> l }"),
    ("a lent mark by its leg", "judge.rs", "{ given.next().unwrap() } else", "{ (lent >> l) as u32 } else"),
    ("left marks, then right ones", "entries.rs", "lifted == i.marks(0) && (0..18)", "(0..6).all(|l| lifted >> l & 1 == i.marks(0) >> [0, 2, 4, 1, 3, 5][l] & 1) && (0..18)"),
    ("a move takes its target's mark", "entries.rs", "is_at(&out, &feet) && lifted == i.marks(0)", "is_at(&out, &feet) && lifted == i.marks(1)"),
    ("an arrival takes its target's mark", "entries.rs", "is_at(&out, &feet) && lifted == i.marks(0)", "is_at(&out, &feet) && lifted == i.marks(1 - moved as usize)"),
    ("moving feet take their target's", "entries.rs", MOVED, MOVED.replace("i.marks(0)", "i.marks(1)")),
    ("moving feet change their target's", "entries.rs", MOVED, MOVED.replace("i.marks(1)", "i.marks(0)")),
    ("moving feet go on for a mark", "entries.rs", WAYS, WAYS + "\n    let moved = moved || (want == 0 && i.marks(0) != i.marks(1));"),
    ("a walk goes on for a mark", "entries.rs", "walk(i.f[36], start[l], target[l])", "walk(i.f[36], start[l], target[l]) + ((i.marks(0) ^ i.marks(1)) >> l & 1) as u64"),
    ("a lifted foot is at no distance", "entries.rs", "longest(i.feet(0), i.feet(18))", "longest(i.feet(0), std::array::from_fn(|l| i.feet(18 * (1 - (i.marks(0) >> l & 1) as usize))[l]))"),
    ("a lifted foot is in reach", "entries.rs", "if strict { reach(", "if strict && i.marks(0) >> l & 1 == 0 { reach("),
    ("a step that set out stands", "entries.rs", SET_OUT, SET_OUT.replace("[i.marks(0), i.marks(0)", "[i.marks(0), 0")),
    ("a step sets out with its target's", "entries.rs", SET_OUT, SET_OUT.replace("[i.marks(0), i.marks(0)", "[i.marks(0), i.marks(1)")),
    ("a leg at its target is lifted", "judge.rs", LANDED, LANDED.replace("{ last >> l }", "{ last >> l | is_lifted(tripod, l) as u32 }")),
    ("the standing legs are cleared", "judge.rs", LANDED, LANDED.replace("{ last >> l }", "{ last >> l & is_lifted(tripod, l) as u32 }")),
    ("a step never clears a mark", "judge.rs", LANDED, LANDED.replace("(feet[l] != c.target[l]) as u32", "1")),
    ("a landed leg keeps last's mark", "judge.rs", LANDED, LANDED.replace("if swings", "if swings && feet[l] != c.target[l]")),
    ("progress for the point", "entries.rs", "step_marks(&c, i.tripod, &ours)", "step_marks(&c, i.tripod, &if progress >= 1.0 { c.target } else { [[9.0; 3]; 6] })"),
    ("a leg that did not move is cleared", "judge.rs", SWINGS, "is_lifted(tripod, l)"),
    ("both tripods are lifted", "judge.rs", SWINGS, "c.last[l] != c.target[l]"),
    ("the other tripod is lifted", "judge.rs", SWINGS, "!" + SWINGS),
    ("moved by bits", "judge.rs", SWINGS, "is_lifted(tripod, l) && c.last[l].map(f32::to_bits) != c.target[l].map(f32::to_bits)"),
    ("landed by bits", "judge.rs", LANDED, LANDED.replace("feet[l] != c.target[l]", "feet[l].map(f32::to_bits) != c.target[l].map(f32::to_bits)")),
    ("landed in x and y alone", "judge.rs", LANDED, LANDED.replace("feet[l] != c.target[l]", "feet[l][..2] != c.target[l][..2]")),
    ("landed at the target's height", "judge.rs", LANDED, LANDED.replace("feet[l] != c.target[l]", "feet[l][2] != c.target[l][2]")),
    ("a step keeps start's mark", "judge.rs", KEPT, KEPT.replace("_start, last", "last, _last")),
    ("a step keeps its target's mark", "judge.rs", KEPT, KEPT.replace("last, _target", "_last, last")),
    ("a step leaves its last marks", "entries.rs", AFTER, AFTER.replace("new, c.marks[2]", "c.marks[1], c.marks[2]")),
    ("a step answers its last marks", "entries.rs", AFTER, AFTER.replace("&[new", "&[c.marks[1]")),
    ("a step changes start's marks", "entries.rs", AFTER, AFTER.replace("c.marks[0]", "new")),
    ("a step changes its target's marks", "entries.rs", AFTER, AFTER.replace("c.marks[2]", "0")),
    ("no step clears marks", "entries.rs", "self.mark == NO_MARK && self.lifted == NO_MARKS", "self.mark == NO_MARK && self.lifted == 0"),
    ("even pace goes on for a mark", "judge.rs", "if last == target {", "if last == target && (source || (c.marks[1] ^ c.marks[2]) >> l & 1 == 0) {"),
    ("a planned foot has relaxed's mark", "entries.rs", "let planned_marks = i.marks(0);", "let planned_marks = (0..6).map(|l| i.marks(is_lifted(i.tripod, l) as usize) & 1 << l).sum::<u32>();"),
    ("a planned foot is lifted", "entries.rs", "let planned_marks = i.marks(0);", "let planned_marks = (0..6).map(|l| (is_lifted(i.tripod, l) as u32) << l).sum::<u32>();"),
    ("forward kinematics lifts feet", "entries.rs", "is_at(&out, &ours) && lifted == 0", "is_at(&out, &ours) && lifted == 63"),
    # lent rows
    ("surplus points not looked at", "entries.rs", "18 + 3 * i.count.min(64)", "18 + 3 * i.count.min(6)"),
    ("the last of 64 points left out", "entries.rs", "18 + 3 * i.count.min(64)", "18 + 3 * i.count.min(63)"),
    ("any number of points for a mask", "entries.rs", "i.count.min(64) as u32 != i.mask.count_ones()", "(i.count.min(64) as u32) < i.mask.count_ones()"),
    ("left legs, then right ones", "entries.rs", "out[k].to_bits() == i.f[k].to_bits()", "out[k].to_bits() == i.f[[0, 6, 12, 3, 9, 15][k / 3] + k % 3].to_bits()"),
]


def failures(folder, where, right, wrong):
    for name in ("judge.rs", "entries.rs", "every.rs"):
        text = open(os.path.join(HERE, name), encoding="utf-8").read()
        if name == where:
            if text.count(right) != 1:
                sys.exit(f"wrong_readings: not once in {name}: {right}")
            text = text.replace(right, wrong)
        with open(os.path.join(folder, name), "w", encoding="utf-8") as out:
            out.write(text)
    program = os.path.join(folder, "every")
    subprocess.run(["rustc", "-O", "--edition", "2021", os.path.join(folder, "every.rs"), "-L", LIBRARY, "-l", "static=probe", "-o", program],
                   check=True, capture_output=True)
    said = subprocess.run([program, "100000", "60000"], capture_output=True, text=True, check=False).stdout
    return int(said.split()[-2])


def main():
    told = 0
    with tempfile.TemporaryDirectory() as folder:
        if failures(folder, "", "", ""):
            sys.exit("wrong_readings: the right reading fails")
        for what, where, right, wrong in WRONG:
            n = failures(folder, where, right, wrong)
            told += n > 0
            print(f"{what:34} {n} failures", flush=True)
    print(f"{len(WRONG)} wrong readings, {told} told apart")


main()
