// Document 01 read anew, in Rust, for judging: the table, the refusals, and what each entry answers. Nothing is taken from
// the proved code. Whatever is made from the four angle functions takes them as a parameter: with the library's own
// the answer must be equal to the bit, with Rust's it must be within document 01's bounds.

pub type Point = [f32; 3];
/// Left front, right front, left middle, right middle, left rear, right rear.
pub type Feet = [Point; 6];

/// Each leg's bit: left front 1, middle 2, rear 4; right front 8, middle 16, rear 32.
pub const FLAG: [u32; 6] = [1, 8, 2, 16, 4, 32];
pub const P: f32 = 13176795.0 / 4194304.0;

// ---- permitted numbers: the rows of the table

#[derive(Clone, Copy, PartialEq)]
pub struct Row(pub f32, pub f32);

pub const FINITE: Row = Row(f32::MIN, f32::MAX);
pub const FOOT: Row = Row(-4.0, 4.0);
pub const WALK: Row = Row(-3.0, 3.0);
pub const DIRECTION: Row = Row(-1.0, 1.0);
pub const ROTATION: Row = Row(-4.0, 4.0);
pub const CORRECTION: Row = Row(-6.0, 6.0);
pub const OFFSET: Row = Row(-2.0, 2.0);
pub const LENGTH: Row = Row(0.00390625, 1.0);
pub const MOTOR: Row = Row(0.0, 8.0);
pub const MAX_MOVE: Row = Row(0.0, 1.0);
pub const WALK_MOVE: Row = Row(0.000244140625, 1.0);
pub const ATAN2: Row = Row(-128.0, 128.0);

#[derive(Clone, Copy, Debug, PartialEq)]
pub struct Time {
    pub s: u64,
    pub ns: u32,
}

/// 1, 2 or 0 for a row of floats.
pub fn floats(rows: &[Row], f: &[f32]) -> u32 {
    let (mut infinite, mut outside) = (false, false);
    for (row, x) in rows.iter().zip(f) {
        infinite |= x.to_bits() & 0x7f80_0000 == 0x7f80_0000;
        // in double precision, where a NaN is outside too
        let x = *x as f64;
        outside |= !(x >= row.0 as f64 && x <= row.1 as f64);
    }
    if infinite {
        1
    } else if outside {
        2
    } else {
        0
    }
}

pub fn elapsed_fits(t: Time) -> bool {
    t.s < 3601 && t.ns < 1_000_000_000
}

pub fn period_fits(t: Time) -> bool {
    let all = t.s as u128 * 1_000_000_000 + t.ns as u128;
    t.ns < 1_000_000_000 && all >= 1_000_000 && all <= 60_000_000_000
}

// ---- the four angle functions

pub trait Angles {
    fn sine(x: f32) -> f32;
    fn cosine(x: f32) -> f32;
    fn arc_cosine(x: f32) -> f32;
    fn atan2(y: f32, x: f32) -> f32;
}

pub struct Rust;

impl Angles for Rust {
    fn sine(x: f32) -> f32 {
        x.sin()
    }
    fn cosine(x: f32) -> f32 {
        x.cos()
    }
    fn arc_cosine(x: f32) -> f32 {
        x.acos()
    }
    fn atan2(y: f32, x: f32) -> f32 {
        y.atan2(x)
    }
}

// ---- moving towards

/// The length of the way from a to b.
pub fn distance(a: Point, b: Point) -> f32 {
    let d = [b[0] - a[0], b[1] - a[1], b[2] - a[2]];
    (d[0] * d[0] + d[1] * d[1] + d[2] * d[2]).sqrt()
}

/// The new point, and whether it moved. d tells arrival; the way there is made as long as the move.
fn moved_by(d: f32, last: Point, target: Point, max_move: f32) -> (Point, bool) {
    if (0..3).all(|k| last[k] == target[k]) {
        return (target, false);
    }
    if d <= max_move {
        (target, true)
    } else {
        let length = distance(last, target);
        (std::array::from_fn(|k| last[k] + ((target[k] - last[k]) / length) * max_move), true)
    }
}

pub fn towards(last: Point, target: Point, max_move: f32) -> (Point, bool) {
    moved_by(distance(last, target), last, target, max_move)
}

/// The source's move of a vector: arrival is told by the way back.
pub fn vector_towards(last: Point, target: Point, max_move: f32) -> (Point, bool) {
    moved_by(distance(target, last), last, target, max_move)
}

pub fn feet_towards(last: Feet, target: Feet, max_move: f32) -> (Feet, bool) {
    let each: [(Point, bool); 6] = std::array::from_fn(|l| towards(last[l], target[l], max_move));
    (each.map(|e| e.0), each.iter().any(|e| e.1))
}

pub fn longest(a: Feet, b: Feet) -> f32 {
    (0..6).map(|l| distance(a[l], b[l])).fold(0.0, f32::max)
}

/// The steps that move, each answer fed back.
pub fn walk(max_move: f32, start: Point, target: Point) -> u64 {
    let (mut at, mut count) = (start, 0);
    loop {
        let (next, moved) = towards(at, target, max_move);
        if !moved {
            return count;
        }
        at = next;
        count += 1;
    }
}

// ---- feet and masks

pub fn merged(a: Feet, b: Feet, mask: u32) -> Feet {
    std::array::from_fn(|l| if mask & FLAG[l] == FLAG[l] { b[l] } else { a[l] })
}

pub fn selected(feet: Feet, mask: u32) -> Vec<Point> {
    (0..6).filter(|&l| mask & FLAG[l] != 0).map(|l| feet[l]).collect()
}

pub fn updated(feet: Feet, values: &[Point], mask: u32) -> Feet {
    let mut given = values.iter();
    std::array::from_fn(|l| if mask & FLAG[l] != 0 { *given.next().unwrap() } else { feet[l] })
}

// ---- marks (request K12): six bits, bit l for leg l of the row, 1 where its foot is lifted. No count and no refusal looks at them.

pub type Marks = u32;

fn marked(mut mark: impl FnMut(usize) -> u32) -> Marks {
    (0..6).map(|l| (mark(l) & 1) << l).sum()
}

/// Flagged legs take the second's point and mark.
pub fn merged_marks(a: Marks, b: Marks, mask: u32) -> Marks {
    marked(|l| if mask & FLAG[l] != 0 { b >> l } else { a >> l })
}

/// In the order of the selected feet; an unused place stands.
pub fn selected_marks(marks: Marks, mask: u32) -> Marks {
    let of: Vec<u32> = (0..6).filter(|&l| mask & FLAG[l] != 0).map(|l| marks >> l).collect();
    marked(|at| of.get(at).copied().unwrap_or(0))
}

/// Bit i of the lent ones is that of value i.
pub fn updated_marks(marks: Marks, lent: u64, mask: u32) -> Marks {
    let mut given = (0..64).map(|i| (lent >> i) as u32);
    marked(|l| if mask & FLAG[l] != 0 { given.next().unwrap() } else { marks >> l })
}

/// After a step to these feet: a leg of the lifted tripod that moved is lifted, or stands where its new point is its target; every other leg
/// keeps last's mark.
pub fn step_marks(c: &Course, tripod: u32, feet: &Feet) -> Marks {
    let [_start, last, _target] = c.marks;
    marked(|l| {
        let swings = is_lifted(tripod, l) && c.last[l] != c.target[l];
        if swings { (feet[l] != c.target[l]) as u32 } else { last >> l }
    })
}

// ---- steps

pub fn seconds(t: Time) -> f32 {
    t.s as f32 + t.ns as f32 / 1e9
}

pub fn timed_progress(elapsed: Time, period: Time) -> f32 {
    seconds(elapsed) / seconds(period) / seconds(period)
}

pub fn even_progress(elapsed: Time, period: Time) -> f32 {
    seconds(elapsed) / seconds(period)
}

pub fn horizontal(a: Feet, b: Feet) -> f32 {
    (0..6)
        .map(|l| {
            let (x, y) = (a[l][0] - b[l][0], a[l][1] - b[l][1]);
            (x * x + y * y).sqrt()
        })
        .fold(0.0, f32::max)
}

#[derive(Clone, Copy)]
pub struct Course {
    pub start: Feet,
    pub last: Feet,
    pub target: Feet,
    /// Start's, last's, target's.
    pub marks: [Marks; 3],
}

#[derive(Clone, Copy)]
pub struct Lift {
    pub height: f32,
    pub descent: f32,
    pub tripod: u32,
    pub aggressive: bool,
}

/// The legs that are lifted: LRL is left front, right middle, left rear.
pub fn is_lifted(tripod: u32, leg: usize) -> bool {
    [0, 3, 4].contains(&leg) == (tripod == 0)
}

/// The feet of a step, or none. The source's two iterators also end where nothing moves sideways, even pace does not (request K5).
pub fn step<A: Angles>(c: &Course, lift: &Lift, progress: f32, source: bool) -> Option<Feet> {
    if source && horizontal(c.start, c.target) == 0.0 {
        return None;
    }
    let mut feet = c.target;
    let mut moved = false;
    for l in 0..6 {
        let (start, last, target) = (c.start[l], c.last[l], c.target[l]);
        if last == target {
            continue;
        }
        moved = true;
        if progress >= 1.0 {
            continue;
        }
        let height = if is_lifted(lift.tripod, l) { lift.height } else { lift.descent };
        let z = if lift.aggressive && progress < 0.5 { height + start[2] } else { A::sine(progress * P) * height + start[2] };
        feet[l] = [start[0] + (target[0] - start[0]) * progress, start[1] + (target[1] - start[1]) * progress, z];
    }
    moved.then_some(feet)
}

pub fn progress_by_distance(c: &Course, max_move: f32) -> f32 {
    let full = horizontal(c.start, c.target);
    let gone = horizontal(c.last, c.start) + max_move;
    (if gone < full { gone } else { full }) / full
}

// ---- the planner

fn turn<A: Angles>(angle: f32, p: Point) -> Point {
    let (s, c) = (A::sine(angle), A::cosine(angle));
    let rows = [[c, 0.0 - s, 0.0], [s, c, 0.0], [0.0, 0.0, 1.0]];
    rows.map(|r| r[0] * p[0] + r[1] * p[1] + r[2] * p[2])
}

/// The standing legs of a tripod in row order, and in the order in which the source sums their centre.
pub fn standing(tripod: u32) -> ([usize; 3], [usize; 3]) {
    if tripod == 0 { ([1, 2, 5], [2, 1, 5]) } else { ([0, 3, 4], [0, 4, 3]) }
}

/// Direction x, y and rotation.
pub fn plan<A: Angles>(start: Feet, relaxed: Feet, tripod: u32, command: [f32; 3]) -> Feet {
    let [dx, dy, rotation] = command;
    let (legs, order) = standing(tripod);
    let centre = |f: &Feet, k: usize| (f[order[0]][k] + f[order[1]][k] + f[order[2]][k]) / 3.0;
    let from = [centre(&start, 0), centre(&start, 1)];
    let shift = [centre(&relaxed, 0) - from[0], centre(&relaxed, 1) - from[1]];
    let angle = |l: usize| {
        let (x1, y1) = (start[l][0] - from[0], start[l][1] - from[1]);
        let (x2, y2) = (relaxed[l][0], relaxed[l][1]);
        if (x1 == 0.0 && y1 == 0.0) || (x2 == 0.0 && y2 == 0.0) { 0.0 } else { A::atan2(x1 * y2 - y1 * x2, x1 * x2 + y1 * y2) }
    };
    let average = (angle(legs[0]) + angle(legs[1]) + angle(legs[2])) / 3.0;
    std::array::from_fn(|l| {
        if is_lifted(tripod, l) {
            let p = relaxed[l];
            turn::<A>(rotation / 2.0, [p[0] + dx, p[1] + dy, p[2] + 0.0])
        } else {
            let p = start[l];
            turn::<A>(average + -rotation / 2.0, [p[0] + shift[0] - dx, p[1] + shift[1] - dy, p[2] + 0.0 - 0.0])
        }
    })
}

/// Both vectors of each turned pair are at least 2^-10 long, and their angle at least 2^-12 short of a half turn.
pub fn turns_well(start: Feet, relaxed: Feet, tripod: u32) -> bool {
    let (legs, _) = standing(tripod);
    let centre: [f64; 2] = std::array::from_fn(|k| legs.iter().map(|&l| start[l][k] as f64).sum::<f64>() / 3.0);
    legs.iter().all(|&l| {
        let (x1, y1) = (start[l][0] as f64 - centre[0], start[l][1] as f64 - centre[1]);
        let (x2, y2) = (relaxed[l][0] as f64, relaxed[l][1] as f64);
        let angle = (x1 * y2 - y1 * x2).atan2(x1 * x2 + y1 * y2).abs();
        x1.hypot(y1) >= 0.0009765625 && x2.hypot(y2) >= 0.0009765625 && angle <= std::f64::consts::PI - 0.000244140625
    })
}

// ---- joints

/// Five floats of the body: coxa, femur, tibia length, femur and tibia offset.
pub type Body = [f32; 5];
/// Six of a leg: coxa position, angle offset, femur and tibia correction.
pub type Leg = [f32; 6];

fn alpha<A: Angles>(a: f32, b: f32, c: f32) -> f32 {
    let q = (b * b + c * c - a * a) / (2.0 * b * c);
    let q = if q.is_nan() || q > 1.0 { 1.0 } else { q };
    A::arc_cosine(if q < -1.0 { -1.0 } else { q })
}

/// The coxa angle as computed, and the three joints.
pub fn inverse<A: Angles>(foot: Point, body: &Body, leg: &Leg) -> (f32, Point) {
    let [coxa, femur, tibia, femur_offset, tibia_offset] = *body;
    let v = [foot[0] - leg[0], foot[1] - leg[1], foot[2] - leg[2]];
    let angle = A::atan2(v[1], v[0]) + leg[3];
    let ahead = (v[0] * v[0] + v[1] * v[1]).sqrt() - coxa;
    let reach = (ahead * ahead + v[2] * v[2]).sqrt();
    let by_tibia = alpha::<A>(reach, femur, tibia);
    let by_femur = alpha::<A>(tibia, femur, reach);
    let ground = A::atan2(ahead, -v[2]);
    let joints = [
        150f32.to_radians() + angle,
        (leg[4] + femur_offset + (by_femur + ground)).abs(),
        (leg[5] + tibia_offset + by_tibia).abs(),
    ];
    (angle, joints)
}

/// A leg's refusal by its coxa's angle: 6 at 90 degrees or more, 8 at -90 degrees or less, else 0.
pub fn side(angle: f32) -> u32 {
    if angle >= 90f32.to_radians() {
        6
    } else if angle <= (-90f32).to_radians() {
        8
    } else {
        0
    }
}

/// The first leg in row order that is refused: its refusal and 256 times the leg, or 0.
pub fn first_refused(refusals: [u32; 6]) -> u32 {
    (0..6).find(|&l| refusals[l] != 0).map_or(0, |l| refusals[l] + 256 * l as u32)
}

/// A leg's refusal by how far its foot is from its coxa's end: 9 above the f32 sum of femur and tibia, 10 below their f32 difference, else 0.
pub fn reach(foot: Point, body: &Body, leg: &Leg) -> u32 {
    let [coxa, femur, tibia, ..] = *body;
    let v = [foot[0] - leg[0], foot[1] - leg[1], foot[2] - leg[2]];
    let sideways = (v[0] * v[0] + v[1] * v[1]).sqrt() - coxa;
    let far = (sideways * sideways + v[2] * v[2]).sqrt();
    if far > femur + tibia {
        9
    } else if far < (femur - tibia).abs() {
        10
    } else {
        0
    }
}

/// Whether this answer is right for angles that are known to within 2^-16: no leg before the one that it names, or no leg at all, is past
/// its limit by more than that, and the one that it names is at most that short of its side.
pub fn right_within(answer: u32, angles: [f32; 6]) -> bool {
    let (right, slack) = (std::f64::consts::FRAC_PI_2, 1.0 / 65536.0);
    let (number, leg) = (answer % 256, (answer / 256) as usize);
    let before = if number == 0 { 6 } else { leg };
    let well_past = |l: usize| (angles[l] as f64).abs() > right + slack;
    let named = match number {
        0 => answer == 0,
        6 => leg < 6 && angles[leg] as f64 >= right - slack,
        8 => leg < 6 && angles[leg] as f64 <= slack - right,
        _ => false,
    };
    named && !(0..before).any(well_past)
}

pub fn forward<A: Angles>(joints: Point, body: &Body, leg: &Leg) -> Point {
    let [coxa_length, femur_length, tibia_length, femur_offset, tibia_offset] = *body;
    let right = 90f32.to_radians();
    let femur = (joints[1] - (leg[4] + femur_offset).abs()).abs();
    let tibia = (joints[2] - (leg[5] + tibia_offset).abs()).abs();
    let coxa = joints[0] - 150f32.to_radians() - leg[3];
    let base = [A::cosine(coxa), A::sine(coxa)];
    let femur_x = A::sine(femur - right) * femur_length;
    let femur_y = A::cosine(femur - right) * femur_length;
    let hanging = tibia - (right - (femur - right));
    let tibia_x = A::sine(hanging) * tibia_length;
    let tibia_y = A::cosine(hanging) * tibia_length;
    let flat = |k: usize| leg[k] + base[k] * coxa_length + base[k] * femur_y + base[k] * tibia_x;
    [flat(0), flat(1), leg[2] + 0.0 * coxa_length + femur_x + -tibia_y]
}
