// A plain Rust reading of the scope document and the source, with the same checks at the door.
// Plain structs stand in for nalgebra's points and vectors; sine, cosine, arc cosine, atan2 and the
// square root are Rust's own. It is the yardstick of the timings and the judge of the runs.
#![allow(dead_code)]

pub type Refusal = u32;

#[derive(Clone, Copy, Debug, PartialEq)]
pub struct Point {
    pub x: f32,
    pub y: f32,
    pub z: f32,
}

/// Where a foot is, and whether it is lifted; one that is not stands (request K12).
#[derive(Clone, Copy, Debug, PartialEq)]
pub struct Foot {
    pub point: Point,
    pub lifted: bool,
}

/// Six feet: left front, right front, left middle, right middle, left rear, right rear.
pub type Row = [Foot; 6];

pub const ORIGIN: Point = Point { x: 0.0, y: 0.0, z: 0.0 };
/// A place of a row in which there is no foot.
pub const UNUSED: Foot = Foot { point: ORIGIN, lifted: false };
/// The bit of each leg of the row.
pub const WEIGHT: [u32; 6] = [1, 8, 2, 16, 4, 32];
pub const LRL: u32 = 21;
pub const RLR: u32 = 42;

// ---- the door

pub struct Limit(pub f32, pub f32);

pub const FOOT: Limit = Limit(-4.0, 4.0);
pub const WALK_FOOT: Limit = Limit(-3.0, 3.0);
pub const DIRECTION: Limit = Limit(-1.0, 1.0);
pub const ROTATION: Limit = Limit(-4.0, 4.0);
pub const CORRECTION: Limit = Limit(-6.0, 6.0);
pub const OFFSET: Limit = Limit(-2.0, 2.0);
pub const LEG_LENGTH: Limit = Limit(1.0 / 256.0, 1.0);
pub const MOTOR_ANGLE: Limit = Limit(0.0, 8.0);
pub const MAX_MOVE: Limit = Limit(0.0, 1.0);
pub const WALK_MOVE: Limit = Limit(1.0 / 4096.0, 1.0);
pub const SINE_ARGUMENT: Limit = Limit(-16.0, 16.0);
pub const ROOT_ARGUMENT: Limit = Limit(0.0, 65536.0);
pub const ARC_COSINE_ARGUMENT: Limit = Limit(-1.0, 1.0);
pub const ATAN2_ARGUMENT: Limit = Limit(-128.0, 128.0);

/// What is wrong with the floats seen so far.
#[derive(Clone, Copy)]
pub struct Door {
    finite: bool,
    within: bool,
}

impl Door {
    pub fn new() -> Door {
        Door { finite: true, within: true }
    }
    #[inline(always)]
    pub fn float(&mut self, limit: &Limit, x: f32) {
        self.finite &= x.is_finite();
        self.within &= limit.0 <= x && x <= limit.1;
    }
    #[inline(always)]
    pub fn point(&mut self, limit: &Limit, p: &Point) {
        self.float(limit, p.x);
        self.float(limit, p.y);
        self.float(limit, p.z);
    }
    #[inline(always)]
    pub fn row(&mut self, limit: &Limit, r: &Row) {
        for f in r {
            self.point(limit, &f.point);
        }
    }
    #[inline(always)]
    pub fn open(&self) -> Result<(), Refusal> {
        if !self.finite {
            Err(1)
        } else if !self.within {
            Err(2)
        } else {
            Ok(())
        }
    }
}

fn one(limit: &Limit, x: f32) -> Result<(), Refusal> {
    let mut d = Door::new();
    d.float(limit, x);
    d.open()
}

// ---- numbers

pub fn absolute(x: f32) -> Result<f32, Refusal> {
    if x.is_finite() { Ok(x.abs()) } else { Err(1) }
}

pub fn min(x: f32, y: f32) -> Result<f32, Refusal> {
    if x.is_finite() && y.is_finite() { Ok(if y < x { y } else { x }) } else { Err(1) }
}

pub fn max(x: f32, y: f32) -> Result<f32, Refusal> {
    if x.is_finite() && y.is_finite() { Ok(if x < y { y } else { x }) } else { Err(1) }
}

pub fn square_root(x: f32) -> Result<f32, Refusal> {
    one(&ROOT_ARGUMENT, x)?;
    Ok(x.sqrt())
}

pub fn sine(x: f32) -> Result<f32, Refusal> {
    one(&SINE_ARGUMENT, x)?;
    Ok(x.sin())
}

pub fn cosine(x: f32) -> Result<f32, Refusal> {
    one(&SINE_ARGUMENT, x)?;
    Ok(x.cos())
}

pub fn arc_cosine(q: f32) -> Result<f32, Refusal> {
    one(&ARC_COSINE_ARGUMENT, q)?;
    Ok(q.acos())
}

pub fn atan2(y: f32, x: f32) -> Result<f32, Refusal> {
    let mut d = Door::new();
    d.float(&ATAN2_ARGUMENT, y);
    d.float(&ATAN2_ARGUMENT, x);
    d.open()?;
    Ok(y.atan2(x))
}

// ---- legs

pub fn merge_with(a: &Row, b: &Row, mask: u32) -> Result<Row, Refusal> {
    let mut d = Door::new();
    d.row(&FOOT, a);
    d.row(&FOOT, b);
    d.open()?;
    if mask > 63 {
        return Err(4);
    }
    let mut r = *a;
    for l in 0..6 {
        if mask & WEIGHT[l] != 0 {
            r[l] = b[l];
        }
    }
    Ok(r)
}

pub fn selected_legs(feet: &Row, mask: u32) -> Result<(usize, Row), Refusal> {
    let mut d = Door::new();
    d.row(&FOOT, feet);
    d.open()?;
    if mask > 63 {
        return Err(4);
    }
    let mut r = [UNUSED; 6];
    let mut n = 0;
    for l in 0..6 {
        if mask & WEIGHT[l] != 0 {
            r[n] = feet[l];
            n += 1;
        }
    }
    Ok((n, r))
}

pub fn updated_from_selected_legs(feet: &Row, values: &[Foot], mask: u32) -> Result<Row, Refusal> {
    let mut d = Door::new();
    d.row(&FOOT, feet);
    for f in values {
        d.point(&FOOT, &f.point);
    }
    d.open()?;
    if mask > 63 {
        return Err(4);
    }
    if values.len() != mask.count_ones() as usize {
        return Err(5);
    }
    let mut r = *feet;
    let mut next = values.iter();
    for l in 0..6 {
        if mask & WEIGHT[l] != 0 {
            r[l] = *next.next().unwrap();
        }
    }
    Ok(r)
}

// ---- foot moves

#[inline(always)]
pub fn distance(a: &Point, b: &Point) -> f32 {
    let (x, y, z) = (b.x - a.x, b.y - a.y, b.z - a.z);
    (x * x + y * y + z * z).sqrt()
}

#[inline(always)]
fn horizontal(a: &Point, b: &Point) -> f32 {
    let (x, y) = (b.x - a.x, b.y - a.y);
    (x * x + y * y).sqrt()
}

/// The new point, and whether it moved.
#[inline(always)]
pub fn towards(last: &Point, target: &Point, max_move: f32) -> (Point, bool) {
    if last == target {
        return (*target, false);
    }
    let d = distance(last, target);
    if d <= max_move {
        return (*target, true);
    }
    let step = |l: f32, t: f32| l + ((t - l) / d) * max_move;
    (Point { x: step(last.x, target.x), y: step(last.y, target.y), z: step(last.z, target.z) }, true)
}

pub fn move_towards(last: &Point, target: &Point, max_move: f32) -> Result<(Point, bool), Refusal> {
    let mut d = Door::new();
    d.point(&FOOT, last);
    d.point(&FOOT, target);
    d.float(&MAX_MOVE, max_move);
    d.open()?;
    Ok(towards(last, target, max_move))
}

/// The feet keep the marks that they had last.
fn row_towards(last: &Row, target: &Row, max_move: f32) -> (Row, bool) {
    let mut r = *last;
    let mut moved = false;
    for l in 0..6 {
        let (p, m) = towards(&last[l].point, &target[l].point, max_move);
        r[l].point = p;
        moved |= m;
    }
    (r, moved)
}

pub fn move_feet_towards(last: &Row, target: &Row, max_move: f32) -> Result<(Row, bool), Refusal> {
    let mut d = Door::new();
    d.row(&FOOT, last);
    d.row(&FOOT, target);
    d.float(&MAX_MOVE, max_move);
    d.open()?;
    Ok(row_towards(last, target, max_move))
}

pub fn longest_distance(a: &Row, b: &Row) -> Result<f32, Refusal> {
    let mut d = Door::new();
    d.row(&FOOT, a);
    d.row(&FOOT, b);
    d.open()?;
    Ok((0..6).map(|l| distance(&a[l].point, &b[l].point)).fold(f32::NAN, f32::max))
}

fn walked(max_move: f32, start: &Point, target: &Point) -> (u32, Point) {
    let mut last = *start;
    let mut count = 0;
    loop {
        let (p, moved) = towards(&last, target, max_move);
        last = p;
        if !moved {
            return (count, last);
        }
        count += 1;
    }
}

pub fn walk(max_move: f32, start: &Point, target: &Point) -> Result<(u32, Point), Refusal> {
    let mut d = Door::new();
    d.point(&WALK_FOOT, start);
    d.point(&WALK_FOOT, target);
    d.float(&WALK_MOVE, max_move);
    d.open()?;
    Ok(walked(max_move, start, target))
}

pub fn walk_feet(max_move: f32, start: &Row, target: &Row) -> Result<(u32, Row), Refusal> {
    let mut d = Door::new();
    d.row(&WALK_FOOT, start);
    d.row(&WALK_FOOT, target);
    d.float(&WALK_MOVE, max_move);
    d.open()?;
    let mut last = *start;
    let mut count = 0;
    loop {
        let (r, moved) = row_towards(&last, target, max_move);
        last = r;
        if !moved {
            return Ok((count, last));
        }
        count += 1;
    }
}

// ---- steps

#[derive(Clone, Copy, Debug)]
pub struct Time {
    pub seconds: u64,
    pub nanoseconds: u32,
}

const BILLION: u32 = 1_000_000_000;

impl Time {
    fn as_secs_f32(&self) -> f32 {
        self.seconds as f32 + (self.nanoseconds as f32) / (BILLION as f32)
    }
    fn is_elapsed(&self) -> bool {
        self.seconds <= 3600 && self.nanoseconds < BILLION
    }
    fn is_period(&self) -> bool {
        // more than 60 seconds are too many, whatever comes with them
        let total = || self.seconds * BILLION as u64 + self.nanoseconds as u64;
        self.nanoseconds < BILLION && self.seconds <= 60 && (1_000_000..=60_000_000_000).contains(&total())
    }
}

#[derive(Clone, Copy, Debug)]
pub struct Command {
    pub x: f32,
    pub y: f32,
    pub rotation: f32,
    pub step_time: Time,
    pub height: f32,
    pub aggressive: bool,
}

impl Command {
    #[inline(always)]
    fn seen(&self, d: &mut Door) {
        d.float(&DIRECTION, self.x);
        d.float(&DIRECTION, self.y);
        d.float(&ROTATION, self.rotation);
        d.float(&DIRECTION, self.height);
    }
}

pub fn should_move(c: &Command) -> Result<bool, Refusal> {
    let mut d = Door::new();
    c.seen(&mut d);
    d.open()?;
    if !c.step_time.is_period() {
        return Err(3);
    }
    Ok(!(c.rotation.abs() < f32::EPSILON && c.x.abs() < f32::EPSILON && c.y.abs() < f32::EPSILON))
}

pub fn timed_progress(elapsed: &Time, period: &Time) -> Result<f32, Refusal> {
    if !elapsed.is_elapsed() || !period.is_period() {
        return Err(3);
    }
    let portion = elapsed.as_secs_f32() / period.as_secs_f32();
    Ok(portion / period.as_secs_f32())
}

pub fn even_progress(elapsed: &Time, period: &Time) -> Result<f32, Refusal> {
    if !elapsed.is_elapsed() || !period.is_period() {
        return Err(3);
    }
    Ok(elapsed.as_secs_f32() / period.as_secs_f32())
}

#[inline(always)]
fn longest_horizontal(a: &Row, b: &Row) -> f32 {
    (0..6).map(|l| horizontal(&a[l].point, &b[l].point)).max_by(|a, b| a.partial_cmp(b).unwrap()).unwrap_or_default()
}

#[inline(always)]
fn step_lifted_leg(start: &Point, last: &Point, target: &Point, height: f32, progress: f32, aggressive: bool) -> (Point, bool) {
    if last == target {
        return (*target, false);
    }
    if progress >= 1.0 {
        return (*target, true);
    }
    let z = if aggressive && progress < 0.5 {
        height + start.z
    } else {
        (progress * std::f32::consts::PI).sin() * height + start.z
    };
    (
        Point { x: start.x + (target.x - start.x) * progress, y: start.y + (target.y - start.y) * progress, z },
        true,
    )
}

/// A leg of the lifted tripod that moved is lifted, unless it came to its target; every other keeps its mark.
fn shift_legs(start: &Row, last: &Row, target: &Row, height: f32, descent: f32, lifted: u32, progress: f32, aggressive: bool) -> (Row, bool) {
    let mut r = *last;
    let mut moved = false;
    for l in 0..6 {
        let in_tripod = lifted & WEIGHT[l] != 0;
        let h = if in_tripod { height } else { descent };
        let (p, m) = step_lifted_leg(&start[l].point, &last[l].point, &target[l].point, h, progress, aggressive);
        r[l].point = p;
        if in_tripod && m {
            r[l].lifted = p != target[l].point;
        }
        moved |= m;
    }
    (r, moved)
}

fn rows_seen(d: &mut Door, start: &Row, last: &Row, target: &Row) {
    d.row(&FOOT, start);
    d.row(&FOOT, last);
    d.row(&FOOT, target);
}

fn stepped(last: &Row, shifted: (Row, bool)) -> (Row, bool) {
    if shifted.1 { shifted } else { (*last, false) }
}

/// The new feet and true, or last as it was and false.
pub fn step(start: &Row, last: &Row, target: &Row, max_move: f32, height: f32, lifted: u32, aggressive: bool) -> Result<(Row, bool), Refusal> {
    let mut d = Door::new();
    rows_seen(&mut d, start, last, target);
    d.float(&MAX_MOVE, max_move);
    d.float(&DIRECTION, height);
    d.open()?;
    let full = longest_horizontal(start, target);
    if full == 0.0 {
        return Ok((*last, false));
    }
    let progress = (longest_horizontal(last, start) + max_move).min(full) / full;
    Ok(stepped(last, shift_legs(start, last, target, height, 0.0, lifted, progress, aggressive)))
}

#[derive(Clone, Copy)]
pub struct Lift {
    pub height: f32,
    pub descent: f32,
    pub lifted: u32,
    pub aggressive: bool,
}

fn lift_seen(start: &Row, last: &Row, target: &Row, lift: &Lift) -> Result<(), Refusal> {
    let mut d = Door::new();
    rows_seen(&mut d, start, last, target);
    d.float(&DIRECTION, lift.height);
    d.float(&DIRECTION, lift.descent);
    d.open()
}

fn by_time(start: &Row, last: &Row, target: &Row, lift: &Lift, progress: f32) -> (Row, bool) {
    stepped(last, shift_legs(start, last, target, lift.height, lift.descent, lift.lifted, progress, lift.aggressive))
}

pub fn timed_step(start: &Row, last: &Row, target: &Row, lift: &Lift, elapsed: &Time, period: &Time) -> Result<(Row, bool), Refusal> {
    lift_seen(start, last, target, lift)?;
    let progress = timed_progress(elapsed, period)?;
    if longest_horizontal(start, target) <= 0.0 {
        return Ok((*last, false));
    }
    Ok(by_time(start, last, target, lift, progress))
}

/// Ends only where every last point equals its target (request K5).
pub fn even_step(start: &Row, last: &Row, target: &Row, lift: &Lift, elapsed: &Time, period: &Time) -> Result<(Row, bool), Refusal> {
    lift_seen(start, last, target, lift)?;
    let progress = even_progress(elapsed, period)?;
    Ok(by_time(start, last, target, lift, progress))
}

// ---- the planner

type Matrix = [[f32; 3]; 3];

fn about_z(angle: f32) -> Matrix {
    let (s, c) = (angle.sin(), angle.cos());
    [[c, 0.0 - s, 0.0], [s, c, 0.0], [0.0, 0.0, 1.0]]
}

fn turned(m: &Matrix, p: &Point) -> Point {
    let row = |r: &[f32; 3]| r[0] * p.x + r[1] * p.y + r[2] * p.z;
    Point { x: row(&m[0]), y: row(&m[1]), z: row(&m[2]) }
}

fn between(a: (f32, f32), b: (f32, f32)) -> f32 {
    if (a.0 == 0.0 && a.1 == 0.0) || (b.0 == 0.0 && b.1 == 0.0) {
        return 0.0;
    }
    (a.0 * b.1 - a.1 * b.0).atan2(a.0 * b.0 + a.1 * b.1)
}

/// The planned feet have the marks of start.
pub fn plan(start: &Row, relaxed: &Row, lifted: u32, c: &Command) -> Result<Row, Refusal> {
    let mut d = Door::new();
    d.row(&FOOT, start);
    d.row(&FOOT, relaxed);
    c.seen(&mut d);
    d.open()?;
    if !c.step_time.is_period() {
        return Err(3);
    }
    let turn = about_z(c.rotation / 2.0);
    // the standing legs: in the order of the centre's sum, and in row order for the angles
    let (centre_order, row_order): ([usize; 3], [usize; 3]) = if lifted == LRL { ([2, 1, 5], [1, 2, 5]) } else { ([0, 4, 3], [0, 3, 4]) };
    let centre = |r: &Row| {
        let [a, b, e] = centre_order;
        let [a, b, e] = [&r[a].point, &r[b].point, &r[e].point];
        ((a.x + b.x + e.x) / 3.0, (a.y + b.y + e.y) / 3.0)
    };
    let from = centre(start);
    let to = centre(relaxed);
    let shift = (to.0 - from.0, to.1 - from.1);
    let angle = |l: usize| {
        let (p, q) = (&start[l].point, &relaxed[l].point);
        between((p.x - from.0, p.y - from.1), (q.x, q.y))
    };
    let [a, b, e] = row_order;
    let average = (angle(a) + angle(b) + angle(e)) / 3.0;
    let correcting = about_z(average + (-c.rotation / 2.0));
    let mut r = *start;
    for l in 0..6 {
        r[l].point = if lifted & WEIGHT[l] != 0 {
            let p = &relaxed[l].point;
            turned(&turn, &Point { x: p.x + c.x, y: p.y + c.y, z: p.z + 0.0 })
        } else {
            let p = &start[l].point;
            turned(&correcting, &Point { x: p.x + shift.0 - c.x, y: p.y + shift.1 - c.y, z: p.z + 0.0 - 0.0 })
        };
    }
    Ok(r)
}

// ---- joints

#[derive(Clone, Copy, Debug)]
pub struct LegConfig {
    pub position: Point,
    pub angle_offset: f32,
    pub femur_correction: f32,
    pub tibia_correction: f32,
}

#[derive(Clone, Copy, Debug)]
pub struct Config {
    pub coxa_length: f32,
    pub femur_length: f32,
    pub tibia_length: f32,
    pub femur_offset: f32,
    pub tibia_offset: f32,
    pub legs: [LegConfig; 6],
}

#[derive(Clone, Copy, Debug, PartialEq)]
pub struct Angles {
    pub coxa: f32,
    pub femur: f32,
    pub tibia: f32,
}

impl Config {
    #[inline(always)]
    fn seen(&self, d: &mut Door) {
        d.float(&LEG_LENGTH, self.coxa_length);
        d.float(&LEG_LENGTH, self.femur_length);
        d.float(&LEG_LENGTH, self.tibia_length);
        d.float(&OFFSET, self.femur_offset);
        d.float(&OFFSET, self.tibia_offset);
        for l in &self.legs {
            d.point(&FOOT, &l.position);
            d.float(&ROTATION, l.angle_offset);
            d.float(&CORRECTION, l.femur_correction);
            d.float(&CORRECTION, l.tibia_correction);
        }
    }
}

fn alpha(a: f32, b: f32, c: f32) -> f32 {
    let upper = b.powi(2) + c.powi(2) - a.powi(2);
    let bottom = 2.0 * b * c;
    (-1_f32).max((1_f32).min(upper / bottom)).acos()
}

/// One leg, and how far its foot is from its coxa's end; a refusal says the side. Put into both solvers, as it was into the one.
#[inline(always)]
fn ik_leg(target: &Point, body: &Config, leg: &LegConfig) -> Result<(Angles, f32), Refusal> {
    let v = Point { x: target.x - leg.position.x, y: target.y - leg.position.y, z: target.z - leg.position.z };
    let target_angle = v.y.atan2(v.x) + leg.angle_offset;
    let horizontal = (v.x.powi(2) + v.y.powi(2)).sqrt() - body.coxa_length;
    let reach = (horizontal.powi(2) + v.z.powi(2)).sqrt();
    let by_tibia = alpha(reach, body.femur_length, body.tibia_length);
    let by_femur = alpha(body.tibia_length, body.femur_length, reach);
    let ground = horizontal.atan2(-v.z);
    if target_angle >= 90_f32.to_radians() {
        return Err(6);
    }
    if target_angle <= (-90_f32).to_radians() {
        return Err(8);
    }
    let angles = Angles {
        coxa: 150_f32.to_radians() + target_angle,
        femur: (leg.femur_correction + body.femur_offset + (by_femur + ground)).abs(),
        tibia: (leg.tibia_correction + body.tibia_offset + by_tibia).abs(),
    };
    Ok((angles, reach))
}

/// A refusal and, where it names one, the leg's place in a row.
pub type LegRefusal = (Refusal, Option<usize>);

#[inline(always)]
fn let_in(feet: &Row, config: &Config) -> Result<(), LegRefusal> {
    let mut d = Door::new();
    d.row(&FOOT, feet);
    config.seen(&mut d);
    d.open().map_err(|n| (n, None))
}

pub fn inverse(feet: &Row, config: &Config) -> Result<[Angles; 6], LegRefusal> {
    let_in(feet, config)?;
    let mut r = [Angles { coxa: 0.0, femur: 0.0, tibia: 0.0 }; 6];
    for l in 0..6 {
        r[l] = ik_leg(&feet[l].point, config, &config.legs[l]).map_err(|n| (n, Some(l)))?.0;
    }
    Ok(r)
}

/// Not in the source: where it solves all six legs, the first that cannot reach its foot refuses.
pub fn inverse_strict(feet: &Row, config: &Config) -> Result<[Angles; 6], LegRefusal> {
    let_in(feet, config)?;
    let (mut r, mut far) = ([Angles { coxa: 0.0, femur: 0.0, tibia: 0.0 }; 6], [0.0; 6]);
    for l in 0..6 {
        (r[l], far[l]) = ik_leg(&feet[l].point, config, &config.legs[l]).map_err(|n| (n, Some(l)))?;
    }
    for l in 0..6 {
        if far[l] > config.femur_length + config.tibia_length {
            return Err((9, Some(l)));
        }
        if far[l] < (config.femur_length - config.tibia_length).abs() {
            return Err((10, Some(l)));
        }
    }
    Ok(r)
}

fn fk_leg(m: &Angles, body: &Config, leg: &LegConfig) -> Point {
    let femur = (m.femur - (leg.femur_correction + body.femur_offset).abs()).abs();
    let tibia = (m.tibia - (leg.tibia_correction + body.tibia_offset).abs()).abs();
    let coxa = m.coxa - 150_f32.to_radians() - leg.angle_offset;
    let (bx, by) = (coxa.cos(), coxa.sin());
    let c = (bx * body.coxa_length, by * body.coxa_length, 0.0 * body.coxa_length);
    let fx = (femur - 90_f32.to_radians()).sin() * body.femur_length;
    let fy = (femur - 90_f32.to_radians()).cos() * body.femur_length;
    let f = (bx * fy, by * fy, fx);
    let a = tibia - (90_f32.to_radians() - (femur - 90_f32.to_radians()));
    let tx = a.sin() * body.tibia_length;
    let ty = a.cos() * body.tibia_length;
    let t = (bx * tx, by * tx, -ty);
    let p = leg.position;
    Point { x: p.x + c.0 + f.0 + t.0, y: p.y + c.1 + f.1 + t.1, z: p.z + c.2 + f.2 + t.2 }
}

/// All six stand.
pub fn forward(joints: &[Angles; 6], config: &Config) -> Result<Row, Refusal> {
    let mut d = Door::new();
    for a in joints {
        d.float(&MOTOR_ANGLE, a.coxa);
        d.float(&MOTOR_ANGLE, a.femur);
        d.float(&MOTOR_ANGLE, a.tibia);
    }
    config.seen(&mut d);
    d.open()?;
    let mut r = [UNUSED; 6];
    for l in 0..6 {
        r[l].point = fk_leg(&joints[l], config, &config.legs[l]);
    }
    Ok(r)
}
