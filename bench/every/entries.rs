// Each entry: its row of the table for each float, what else it takes, and a check that calls it and judges its answer.
use crate::judge::*;

extern "C" {
    fn probe_min(x: f32, y: f32, out: &mut f32) -> u32;
    fn probe_max(x: f32, y: f32, out: &mut f32) -> u32;
    fn probe_sine(x: f32, out: &mut f32) -> u32;
    fn probe_cosine(x: f32, out: &mut f32) -> u32;
    fn probe_arc_cosine(x: f32, out: &mut f32) -> u32;
    fn probe_atan2(y: f32, x: f32, out: &mut f32) -> u32;
    fn probe_as_legs(s: *const f32, n: usize, marks: u32, out: *mut f32, m: usize, lifted: &mut u32) -> u32;
    fn probe_from_legs(s: *const f32, n: usize, marks: u32, out: *mut f32, m: usize, lifted: &mut u32) -> u32;
    fn probe_merge(s: *const f32, n: usize, marks: u32, mask: u32, out: *mut f32, m: usize, lifted: &mut u32) -> u32;
    fn probe_select(s: *const f32, n: usize, marks: u32, mask: u32, out: *mut f32, m: usize, len: &mut usize, lifted: &mut u32) -> u32;
    fn probe_update(s: *const f32, n: usize, marks: u32, values: *const f32, v: usize, lent: u64, count: usize, mask: u32, out: *mut f32, m: usize, lifted: &mut u32) -> u32;
    fn probe_move(s: *const f32, n: usize, out: *mut f32, m: usize) -> u32;
    fn probe_point_iter(s: *const f32, n: usize, out: *mut f32, m: usize, max_move: &mut f32) -> u32;
    fn probe_next_point(s: *const f32, n: usize, point: *mut f32, k: usize, out: *mut f32, m: usize, max_move: &mut f32) -> u32;
    fn probe_move_feet(s: *const f32, n: usize, marks: u32, out: *mut f32, m: usize, lifted: &mut u32) -> u32;
    fn probe_feet_iter(s: *const f32, n: usize, marks: u32, last: *mut f32, k: usize, target: *mut f32, m: usize, max_move: &mut f32, lifted: &mut u32) -> u32;
    fn probe_next_feet(s: *const f32, n: usize, marks: u32, out: *mut f32, j: usize, last: *mut f32, k: usize, target: *mut f32, m: usize, max_move: &mut f32, lifted: &mut u32) -> u32;
    fn probe_longest_distance(s: *const f32, n: usize, marks: u32, out: &mut f32) -> u32;
    fn probe_walk(s: *const f32, n: usize) -> u64;
    fn probe_walk_feet(s: *const f32, n: usize, marks: u32) -> u64;
    fn probe_new(x: f32, y: f32, rotation: f32, out: *mut f32, m: usize, s: &mut u64, ns: &mut u32) -> u32;
    fn probe_command(f: *const f32, n: usize, aggressive: u32, ps: u64, pn: u32, out: *mut f32, m: usize, s: &mut u64, ns: &mut u32) -> u32;
    fn probe_should_move(f: *const f32, n: usize, aggressive: u32, ps: u64, pn: u32) -> u32;
    fn probe_timed_progress(es: u64, en: u32, ps: u64, pn: u32, out: &mut f32) -> u32;
    fn probe_even_progress(es: u64, en: u32, ps: u64, pn: u32, out: &mut f32) -> u32;
    fn probe_step_iter(s: *const f32, n: usize, marks: u32, t: u32, a: u32, o: *mut f32, i: usize, p: *mut f32, j: usize, q: *mut f32, k: usize, max_move: &mut f32, height: &mut f32, lifted: &mut u32) -> u32;
    fn probe_timed_iter(s: *const f32, n: usize, marks: u32, t: u32, a: u32, ps: u64, pn: u32, o: *mut f32, i: usize, p: *mut f32, j: usize, q: *mut f32, k: usize, height: &mut f32, descent: &mut f32, s: &mut u64, ns: &mut u32, lifted: &mut u32) -> u32;
    fn probe_even_iter(s: *const f32, n: usize, marks: u32, t: u32, a: u32, ps: u64, pn: u32, o: *mut f32, i: usize, p: *mut f32, j: usize, q: *mut f32, k: usize, height: &mut f32, descent: &mut f32, s: &mut u64, ns: &mut u32, lifted: &mut u32) -> u32;
    fn probe_next_step(s: *const f32, n: usize, marks: u32, t: u32, a: u32, out: *mut f32, m: usize, o: *mut f32, i: usize, p: *mut f32, j: usize, q: *mut f32, k: usize, max_move: &mut f32, height: &mut f32, mark: &mut u32, lifted: &mut u32) -> u32;
    fn probe_next_timed(s: *const f32, n: usize, marks: u32, t: u32, a: u32, es: u64, en: u32, ps: u64, pn: u32, out: *mut f32, m: usize, o: *mut f32, i: usize, p: *mut f32, j: usize, q: *mut f32, k: usize, height: &mut f32, descent: &mut f32, s: &mut u64, ns: &mut u32, mark: &mut u32, lifted: &mut u32) -> u32;
    fn probe_next_even(s: *const f32, n: usize, marks: u32, t: u32, a: u32, es: u64, en: u32, ps: u64, pn: u32, out: *mut f32, m: usize, o: *mut f32, i: usize, p: *mut f32, j: usize, q: *mut f32, k: usize, height: &mut f32, descent: &mut f32, s: &mut u64, ns: &mut u32, mark: &mut u32, lifted: &mut u32) -> u32;
    fn probe_plan(s: *const f32, n: usize, marks: u32, t: u32, a: u32, seconds: u64, nanoseconds: u32, out: *mut f32, m: usize, lifted: &mut u32) -> u32;
    fn probe_ik(s: *const f32, n: usize, marks: u32, out: *mut f32, m: usize) -> u32;
    fn probe_ik_strict(s: *const f32, n: usize, marks: u32, out: *mut f32, m: usize) -> u32;
    fn probe_fk(s: *const f32, n: usize, out: *mut f32, m: usize, lifted: &mut u32) -> u32;
}

/// What an entry is called with. Lent values of an update stand after the feet, at 18. A state that stepped is called again
/// at the time `later`. Bit 6 * r + l of the marks is that of leg l of the r-th row of feet, bit i of `lent` that of lent value i.
#[derive(Clone, Copy)]
pub struct Input {
    pub f: [f32; 210],
    pub marks: u32,
    pub lent: u64,
    pub mask: u32,
    pub count: usize,
    pub tripod: u32,
    pub aggressive: u32,
    pub elapsed: Time,
    pub later: Time,
    pub period: Time,
}

impl Input {
    fn at(&self, k: usize) -> *const f32 {
        self.f[k..].as_ptr()
    }
    fn point(&self, k: usize) -> Point {
        [self.f[k], self.f[k + 1], self.f[k + 2]]
    }
    fn feet(&self, k: usize) -> Feet {
        std::array::from_fn(|l| self.point(k + 3 * l))
    }
    fn marks(&self, row: usize) -> Marks {
        self.marks >> (6 * row) & 63
    }
    fn course(&self) -> Course {
        Course { start: self.feet(0), last: self.feet(18), target: self.feet(36), marks: [self.marks(0), self.marks(1), self.marks(2)] }
    }
    fn body(&self) -> Body {
        std::array::from_fn(|k| self.f[18 + k])
    }
    fn leg(&self, l: usize) -> Leg {
        std::array::from_fn(|k| self.f[23 + 6 * l + k])
    }
}

/// The library's own angle functions. What it hands them is always permitted; else the NaN is found in the answer.
struct Ours;

fn value(f: impl Fn(&mut f32) -> u32) -> f32 {
    let mut out = f32::NAN;
    f(&mut out);
    out
}

impl Angles for Ours {
    fn sine(x: f32) -> f32 {
        value(|out| unsafe { probe_sine(x, out) })
    }
    fn cosine(x: f32) -> f32 {
        value(|out| unsafe { probe_cosine(x, out) })
    }
    fn arc_cosine(x: f32) -> f32 {
        value(|out| unsafe { probe_arc_cosine(x, out) })
    }
    fn atan2(y: f32, x: f32) -> f32 {
        value(|out| unsafe { probe_atan2(y, x, out) })
    }
}

// ---- judging

/// What an output holds before the call: a NaN's bits that no entry makes.
const HELD: f32 = f32::from_bits(0x7fab_cdef);

/// What its marks hold: a bit past those of four rows.
const NO_MARKS: u32 = 0x8abc_def5;

fn held(out: &[f32]) -> bool {
    out.iter().all(|x| x.to_bits() == HELD.to_bits())
}

fn same(a: &[f32], b: &[f32]) -> bool {
    a.len() == b.len() && a.iter().zip(b).all(|(x, y)| x.to_bits() == y.to_bits())
}

fn is_at(out: &[f32], feet: &Feet) -> bool {
    same(out, feet.as_flattened())
}

/// The marks of several rows, in their order.
fn rows_of(marks: &[Marks]) -> u32 {
    marks.iter().rev().fold(0, |all, m| all << 6 | m)
}

/// The largest distances from the reading with Rust's functions.
#[derive(Default)]
pub struct Worst(pub f64);

impl Worst {
    fn near(&mut self, a: f32, b: f32, bound: f64) -> bool {
        let d = (a as f64 - b as f64).abs();
        self.0 = self.0.max(d);
        d <= bound
    }
}

type Check = fn(&Input, u32, &mut Worst) -> bool;

fn number(n: u32, out: f32, want: u32, answer: impl Fn() -> f32) -> bool {
    n == want && if want == 0 { out.to_bits() == answer().to_bits() } else { held(&[out]) }
}

fn min(i: &Input, want: u32, _: &mut Worst) -> bool {
    let (x, y, mut out) = (i.f[0], i.f[1], HELD);
    let n = unsafe { probe_min(x, y, &mut out) };
    number(n, out, want, || if (y as f64) < x as f64 { y } else { x })
}

fn max(i: &Input, want: u32, _: &mut Worst) -> bool {
    let (x, y, mut out) = (i.f[0], i.f[1], HELD);
    let n = unsafe { probe_max(x, y, &mut out) };
    number(n, out, want, || if (y as f64) > x as f64 { y } else { x })
}

fn atan2(i: &Input, want: u32, w: &mut Worst) -> bool {
    let (y, x, mut out) = (i.f[0], i.f[1], HELD);
    let n = unsafe { probe_atan2(y, x, &mut out) };
    if n != want || want != 0 {
        return n == want && held(&[out]);
    }
    if y == 0.0 && x == 0.0 {
        let magnitude = if x.is_sign_negative() { P } else { 0.0 };
        return out.to_bits() == magnitude.copysign(y).to_bits();
    }
    let d = (out as f64 - (y as f64).atan2(x as f64)).abs();
    w.0 = w.0.max(d);
    d <= 1.0 / 262144.0 && out.is_sign_negative() == y.is_sign_negative() && out.abs() <= P
}

/// The same floats and marks in the same order; a NaN may be any.
fn moved_only(n: u32, out: &[f32], lifted: u32, i: &Input) -> bool {
    n == 0 && lifted == i.marks(0) && (0..18).all(|k| out[k].to_bits() == i.f[k].to_bits() || (out[k].is_nan() && i.f[k].is_nan()))
}

fn as_legs(i: &Input, _: u32, _: &mut Worst) -> bool {
    let (mut out, mut lifted) = ([HELD; 18], NO_MARKS);
    let n = unsafe { probe_as_legs(i.at(0), 18, i.marks, out.as_mut_ptr(), 18, &mut lifted) };
    moved_only(n, &out, lifted, i)
}

fn from_legs(i: &Input, _: u32, _: &mut Worst) -> bool {
    let (mut out, mut lifted) = ([HELD; 18], NO_MARKS);
    let n = unsafe { probe_from_legs(i.at(0), 18, i.marks, out.as_mut_ptr(), 18, &mut lifted) };
    moved_only(n, &out, lifted, i)
}

fn merge(i: &Input, want: u32, _: &mut Worst) -> bool {
    let (mut out, mut lifted) = ([HELD; 18], NO_MARKS);
    let n = unsafe { probe_merge(i.at(0), 36, i.marks, i.mask, out.as_mut_ptr(), 18, &mut lifted) };
    if n != want || want != 0 {
        return n == want && held(&out) && lifted == NO_MARKS;
    }
    is_at(&out, &merged(i.feet(0), i.feet(18), i.mask)) && lifted == merged_marks(i.marks(0), i.marks(1), i.mask)
}

fn select(i: &Input, want: u32, _: &mut Worst) -> bool {
    let (mut out, mut len, mut lifted) = ([HELD; 18], 77, NO_MARKS);
    let n = unsafe { probe_select(i.at(0), 18, i.marks, i.mask, out.as_mut_ptr(), 18, &mut len, &mut lifted) };
    if n != want || want != 0 {
        return n == want && held(&out) && len == 77 && lifted == NO_MARKS;
    }
    let points = selected(i.feet(0), i.mask);
    lifted == selected_marks(i.marks(0), i.mask) && len == points.len() && same(&out[..3 * len], points.as_flattened()) && out[3 * len..].iter().all(|x| x.to_bits() == 0)
}

fn update(i: &Input, want: u32, _: &mut Worst) -> bool {
    let (mut out, mut lifted) = ([HELD; 18], NO_MARKS);
    let n = unsafe { probe_update(i.at(0), 18, i.marks, i.at(18), 192, i.lent, i.count, i.mask, out.as_mut_ptr(), 18, &mut lifted) };
    if n != want || want != 0 {
        return n == want && held(&out) && lifted == NO_MARKS;
    }
    is_at(&out, &updated(i.feet(0), &i.feet(18), i.mask)) && lifted == updated_marks(i.marks(0), i.lent, i.mask)
}

/// The one move, against both of the source's.
fn one_move(i: &Input, want: u32, _: &mut Worst) -> bool {
    let mut out = [HELD; 3];
    let n = unsafe { probe_move(i.at(0), 7, out.as_mut_ptr(), 3) };
    if want != 0 {
        return n == want && held(&out);
    }
    let both = [towards, vector_towards].map(|go| go(i.point(0), i.point(3), i.f[6]));
    both.iter().all(|(p, moved)| n == 256 * *moved as u32 && same(&out, p))
}

/// The rows of a move of N - 1 coordinates.
fn move_rows<const N: usize>() -> [Row; N] {
    std::array::from_fn(|k| if k < N - 1 { FOOT } else { MAX_MOVE })
}

/// One call on a state of a moving point: the state that it leaves, or none where the answer is wrong.
fn point_turn(i: &Input, want: u32) -> Option<Input> {
    let (mut point, mut out, mut m) = ([HELD; 3], [HELD; 6], HELD);
    let n = unsafe { probe_next_point(i.at(0), 7, point.as_mut_ptr(), 3, out.as_mut_ptr(), 6, &mut m) };
    let (p, moved) = if want == 0 { towards(i.point(0), i.point(3), i.f[6]) } else { ([0.0; 3], false) };
    if !moved {
        return (n == want && held(&point) && held(&out) && held(&[m])).then_some(*i);
    }
    let good = n == 256 && same(&point, &p) && same(&out[..3], &p) && same(&out[3..], &i.f[3..6]) && same(&[m], &i.f[6..7]);
    good.then(|| {
        let mut after = *i;
        after.f[..6].copy_from_slice(&out);
        after.f[6] = m;
        after
    })
}

fn point_turns(i: &Input) -> Option<Input> {
    point_turn(i, floats(&move_rows::<7>(), &i.f))
}

/// A point sets out, and takes a turn.
fn point_iter(i: &Input, want: u32, _: &mut Worst) -> bool {
    let (mut out, mut m) = ([HELD; 6], HELD);
    let n = unsafe { probe_point_iter(i.at(0), 7, out.as_mut_ptr(), 6, &mut m) };
    if want != 0 {
        return n == want && held(&out) && held(&[m]);
    }
    n == 0 && same(&out, &i.f[..6]) && same(&[m], &i.f[6..7]) && point_turns(i).is_some()
}

/// Two turns, the second on the state that the first left.
fn next_point(i: &Input, want: u32, _: &mut Worst) -> bool {
    point_turn(i, want).is_some_and(|after| want != 0 || point_turns(&after).is_some())
}

/// Moved or arrived, the feet have last's marks.
fn move_feet(i: &Input, want: u32, _: &mut Worst) -> bool {
    let (mut out, mut lifted) = ([HELD; 18], NO_MARKS);
    let n = unsafe { probe_move_feet(i.at(0), 37, i.marks, out.as_mut_ptr(), 18, &mut lifted) };
    if want != 0 {
        return n == want && held(&out) && lifted == NO_MARKS;
    }
    let (feet, moved) = feet_towards(i.feet(0), i.feet(18), i.f[36]);
    n == 256 * moved as u32 && is_at(&out, &feet) && lifted == i.marks(0)
}

fn feet_turn(i: &Input, want: u32) -> Option<Input> {
    let (mut out, mut last, mut target, mut m, mut lifted) = ([HELD; 18], [HELD; 18], [HELD; 18], HELD, NO_MARKS);
    let n = unsafe { probe_next_feet(i.at(0), 37, i.marks, out.as_mut_ptr(), 18, last.as_mut_ptr(), 18, target.as_mut_ptr(), 18, &mut m, &mut lifted) };
    let (feet, moved) = if want == 0 { feet_towards(i.feet(0), i.feet(18), i.f[36]) } else { (i.feet(0), false) };
    if !moved {
        return (n == want && held(&out) && held(&last) && held(&target) && held(&[m]) && lifted == NO_MARKS).then_some(*i);
    }
    let good = n == 256 && is_at(&out, &feet) && is_at(&last, &feet) && same(&target, &i.f[18..36]) && same(&[m], &i.f[36..37]);
    let marks = lifted == rows_of(&[i.marks(0), i.marks(0), i.marks(1)]);
    (good && marks).then(|| {
        let mut after = *i;
        after.f[..18].copy_from_slice(&last);
        after.f[18..36].copy_from_slice(&target);
        after.f[36] = m;
        after.marks = lifted >> 6;
        after
    })
}

fn feet_turns(i: &Input) -> Option<Input> {
    feet_turn(i, floats(&move_rows::<37>(), &i.f))
}

fn feet_iter(i: &Input, want: u32, _: &mut Worst) -> bool {
    let (mut last, mut target, mut m, mut lifted) = ([HELD; 18], [HELD; 18], HELD, NO_MARKS);
    let n = unsafe { probe_feet_iter(i.at(0), 37, i.marks, last.as_mut_ptr(), 18, target.as_mut_ptr(), 18, &mut m, &mut lifted) };
    if want != 0 {
        return n == want && held(&last) && held(&target) && held(&[m]) && lifted == NO_MARKS;
    }
    let state = same(&last, &i.f[..18]) && same(&target, &i.f[18..36]) && same(&[m], &i.f[36..37]) && lifted == rows_of(&[i.marks(0), i.marks(1)]);
    n == 0 && state && feet_turns(i).is_some()
}

fn next_feet(i: &Input, want: u32, _: &mut Worst) -> bool {
    feet_turn(i, want).is_some_and(|after| want != 0 || feet_turns(&after).is_some())
}

fn longest_distance(i: &Input, want: u32, _: &mut Worst) -> bool {
    let mut out = HELD;
    let n = unsafe { probe_longest_distance(i.at(0), 36, i.marks, &mut out) };
    number(n, out, want, || longest(i.feet(0), i.feet(18)))
}

fn one_walk(i: &Input, want: u32, _: &mut Worst) -> bool {
    let n = unsafe { probe_walk(i.at(0), 7) };
    n == if want == 0 { walk(i.f[6], i.point(0), i.point(3)) } else { (want as u64) << 32 }
}

fn six_walks(i: &Input, want: u32, _: &mut Worst) -> bool {
    let n = unsafe { probe_walk_feet(i.at(0), 37, i.marks) };
    if want != 0 {
        return n == (want as u64) << 32;
    }
    let (start, target) = (i.feet(0), i.feet(18));
    Some(n) == (0..6).map(|l| walk(i.f[36], start[l], target[l])).max()
}

fn new(i: &Input, want: u32, _: &mut Worst) -> bool {
    let (mut out, mut s, mut ns) = ([HELD; 4], 77, 78);
    let n = unsafe { probe_new(i.f[0], i.f[1], i.f[2], out.as_mut_ptr(), 4, &mut s, &mut ns) };
    if want != 0 {
        return n == want && held(&out) && (s, ns) == (77, 78);
    }
    n == 0 && same(&out[..3], &i.f[..3]) && out[3].to_bits() == 0.03f32.to_bits() && (s, ns) == (0, 600_000_000)
}

fn command(i: &Input, want: u32, _: &mut Worst) -> bool {
    let (mut out, mut s, mut ns) = ([HELD; 4], 77, 78);
    let n = unsafe { probe_command(i.at(0), 4, i.aggressive, i.period.s, i.period.ns, out.as_mut_ptr(), 4, &mut s, &mut ns) };
    if want != 0 {
        return n == want && held(&out) && (s, ns) == (77, 78);
    }
    n == 256 * i.aggressive && same(&out, &i.f[..4]) && (s, ns) == (i.period.s, i.period.ns)
}

fn should_move(i: &Input, want: u32, _: &mut Worst) -> bool {
    let n = unsafe { probe_should_move(i.at(0), 4, i.aggressive, i.period.s, i.period.ns) };
    if want != 0 {
        return n == want;
    }
    n == 256 * i.f[..3].iter().any(|x| x.abs() >= f32::EPSILON) as u32
}

fn timed(i: &Input, want: u32, _: &mut Worst) -> bool {
    let mut out = HELD;
    let n = unsafe { probe_timed_progress(i.elapsed.s, i.elapsed.ns, i.period.s, i.period.ns, &mut out) };
    number(n, out, want, || timed_progress(i.elapsed, i.period))
}

fn even(i: &Input, want: u32, _: &mut Worst) -> bool {
    let mut out = HELD;
    let n = unsafe { probe_even_progress(i.elapsed.s, i.elapsed.ns, i.period.s, i.period.ns, &mut out) };
    number(n, out, want, || even_progress(i.elapsed, i.period))
}

#[derive(Clone, Copy, PartialEq)]
enum Pace {
    Distance,
    Timed,
    Even,
}

/// The rows of a step's state: start, last, target; max move and height, or height and descent.
fn step_rows(pace: Pace) -> [Row; 56] {
    std::array::from_fn(|k| match k {
        0..54 => FOOT,
        54 if pace == Pace::Distance => MAX_MOVE,
        _ => DIRECTION,
    })
}

fn step_refusal(i: &Input, pace: Pace) -> u32 {
    let first = floats(&step_rows(pace), &i.f);
    let late = pace != Pace::Distance && !(elapsed_fits(i.elapsed) && period_fits(i.period));
    if first == 0 && late { 3 } else { first }
}

fn lift_and_progress(i: &Input, pace: Pace) -> (Lift, f32) {
    let lift = |height, descent| Lift { height, descent, tripod: i.tripod, aggressive: i.aggressive != 0 };
    match pace {
        Pace::Distance => (lift(i.f[55], 0.0), progress_by_distance(&i.course(), i.f[54])),
        Pace::Timed => (lift(i.f[54], i.f[55]), timed_progress(i.elapsed, i.period)),
        Pace::Even => (lift(i.f[54], i.f[55]), even_progress(i.elapsed, i.period)),
    }
}

const NO_TIME: Time = Time { s: 77, ns: 78 };
const NO_MARK: u32 = 79;

/// What a step gives back: its feet; the state after: start, last, target, two floats, the period, the mark of tripod and lift;
/// the marks of the feet and of the state's rows.
struct After {
    feet: [f32; 18],
    rows: [[f32; 18]; 3],
    two: [f32; 2],
    period: Time,
    mark: u32,
    lifted: u32,
}

impl After {
    fn new() -> After {
        After { feet: [HELD; 18], rows: [[HELD; 18]; 3], two: [HELD; 2], period: NO_TIME, mark: NO_MARK, lifted: NO_MARKS }
    }
    fn is_held(&self) -> bool {
        let floats = held(&self.feet) && held(self.rows.as_flattened()) && held(&self.two);
        floats && self.period == NO_TIME && self.mark == NO_MARK && self.lifted == NO_MARKS
    }
    /// The state is that of i, but for start, last, target and the place of the two floats.
    fn is_state(&self, i: &Input, pace: Pace, rows: [&[f32]; 3], two: &[f32]) -> bool {
        let period = if pace == Pace::Distance { NO_TIME } else { i.period };
        let mark = 256 * i.tripod + 512 * i.aggressive;
        self.mark == mark && self.period == period && same(&self.two, two) && (0..3).all(|k| same(&self.rows[k], rows[k]))
    }
    /// The next call on this state, whose rows have these marks.
    fn again(&self, i: &Input, pace: Pace, marks: u32) -> Input {
        let mut next = Input { marks, ..*i };
        next.f[..54].copy_from_slice(self.rows.as_flattened());
        next.f[54..56].copy_from_slice(&self.two);
        (next.tripod, next.aggressive, next.elapsed) = (self.mark >> 8 & 1, self.mark >> 9 & 1, i.later);
        if pace != Pace::Distance {
            next.period = self.period;
        }
        next
    }
}

/// A state sets out, and steps once.
fn set_out(i: &Input, want: u32, pace: Pace, w: &mut Worst) -> bool {
    let mut a = After::new();
    let (s, k, t, l, p) = (i.at(0), i.marks, i.tripod, i.aggressive, i.period);
    let After { rows: [o, q, r], two: [x, y], period: e, lifted: g, .. } = &mut a;
    let (o, q, r) = (o.as_mut_ptr(), q.as_mut_ptr(), r.as_mut_ptr());
    let n = unsafe {
        match pace {
            Pace::Distance => probe_step_iter(s, 38, k, t, l, o, 18, q, 18, r, 18, x, y, g),
            Pace::Timed => probe_timed_iter(s, 38, k, t, l, p.s, p.ns, o, 18, q, 18, r, 18, x, y, &mut e.s, &mut e.ns, g),
            Pace::Even => probe_even_iter(s, 38, k, t, l, p.s, p.ns, o, 18, q, 18, r, 18, x, y, &mut e.s, &mut e.ns, g),
        }
    };
    if want != 0 {
        return n == want && a.is_held();
    }
    a.mark = n;
    let next = a.again(i, pace, a.lifted);
    let state = a.is_state(i, pace, [&i.f[..18], &i.f[..18], &i.f[18..36]], &i.f[36..38]) && a.lifted == rows_of(&[i.marks(0), i.marks(0), i.marks(1)]);
    state && turn(&next, step_refusal(&next, pace), pace, w).is_some()
}

/// One call on a state, which goes on at the later time; none where the answer is wrong.
/// To the bit over the library's sine; over Rust's, x and y to the bit and z within 2^-19 m. Marks by the answer's own points.
fn turn(i: &Input, want: u32, pace: Pace, w: &mut Worst) -> Option<Input> {
    let mut a = After::new();
    let (s, k, t, l, e, p) = (i.at(0), i.marks, i.tripod, i.aggressive, i.elapsed, i.period);
    let After { feet: out, rows: [o, q, r], two: [x, y], period: b, mark: m, lifted: g } = &mut a;
    let (out, o, q, r) = (out.as_mut_ptr(), o.as_mut_ptr(), q.as_mut_ptr(), r.as_mut_ptr());
    let n = unsafe {
        match pace {
            Pace::Distance => probe_next_step(s, 56, k, t, l, out, 18, o, 18, q, 18, r, 18, x, y, m, g),
            Pace::Timed => probe_next_timed(s, 56, k, t, l, e.s, e.ns, p.s, p.ns, out, 18, o, 18, q, 18, r, 18, x, y, &mut b.s, &mut b.ns, m, g),
            Pace::Even => probe_next_even(s, 56, k, t, l, e.s, e.ns, p.s, p.ns, out, 18, o, 18, q, 18, r, 18, x, y, &mut b.s, &mut b.ns, m, g),
        }
    };
    let stays = Input { elapsed: i.later, ..*i };
    if want != 0 {
        return (n == want && a.is_held()).then_some(stays);
    }
    let (lift, progress) = lift_and_progress(i, pace);
    let (c, source) = (i.course(), pace != Pace::Even);
    let (Some(ours), Some(rust)) = (step::<Ours>(&c, &lift, progress, source), step::<Rust>(&c, &lift, progress, source)) else {
        return (n == 0 && a.is_held()).then_some(stays);
    };
    let (out, rust) = (&a.feet, rust.as_flattened());
    let near = (0..18).all(|k| if k % 3 == 2 { w.near(out[k], rust[k], 1.0 / 524288.0) } else { out[k].to_bits() == rust[k].to_bits() });
    let state = a.is_state(i, pace, [&i.f[..18], ours.as_flattened(), &i.f[36..54]], &i.f[54..56]);
    let new = step_marks(&c, i.tripod, &ours);
    let marks = a.lifted == rows_of(&[new, c.marks[0], new, c.marks[2]]);
    (n == 256 && is_at(out, &ours) && near && state && marks).then(|| a.again(i, pace, a.lifted >> 6))
}

/// Two calls, the second on the state that the first left.
fn turns(i: &Input, want: u32, pace: Pace, w: &mut Worst) -> bool {
    turn(i, want, pace, w).is_some_and(|next| want != 0 || turn(&next, step_refusal(&next, pace), pace, w).is_some())
}

fn step_iter(i: &Input, want: u32, w: &mut Worst) -> bool {
    set_out(i, want, Pace::Distance, w)
}

fn timed_iter(i: &Input, want: u32, w: &mut Worst) -> bool {
    set_out(i, want, Pace::Timed, w)
}

fn even_iter(i: &Input, want: u32, w: &mut Worst) -> bool {
    set_out(i, want, Pace::Even, w)
}

fn step_by_distance(i: &Input, want: u32, w: &mut Worst) -> bool {
    turns(i, want, Pace::Distance, w)
}

fn timed_step(i: &Input, want: u32, w: &mut Worst) -> bool {
    turns(i, want, Pace::Timed, w)
}

fn even_step(i: &Input, want: u32, w: &mut Worst) -> bool {
    turns(i, want, Pace::Even, w)
}

/// To the bit over the library's functions; over Rust's, z to the bit, lifted feet within 2^-12 m, standing ones where they turn well.
/// All six feet have start's marks.
fn planner(i: &Input, want: u32, w: &mut Worst) -> bool {
    let (mut out, mut lifted) = ([HELD; 18], NO_MARKS);
    let n = unsafe { probe_plan(i.at(0), 40, i.marks, i.tripod, i.aggressive, i.period.s, i.period.ns, out.as_mut_ptr(), 18, &mut lifted) };
    if n != want || want != 0 {
        return n == want && held(&out) && lifted == NO_MARKS;
    }
    let planned_marks = i.marks(0);
    let (start, relaxed, asked) = (i.feet(0), i.feet(18), i.point(36));
    let rust = plan::<Rust>(start, relaxed, i.tripod, asked);
    let well = turns_well(start, relaxed, i.tripod);
    let mut near = |l: usize| (0..2).all(|k| w.near(out[3 * l + k], rust[l][k], 1.0 / 4096.0));
    is_at(&out, &plan::<Ours>(start, relaxed, i.tripod, asked))
        && lifted == planned_marks
        && (0..6).all(|l| out[3 * l + 2].to_bits() == rust[l][2].to_bits() && (!(well || is_lifted(i.tripod, l)) || near(l)))
}

/// To the bit over the library's functions, refusals 6 and 8 and their leg included; over Rust's, joints within 2^-16, and another leg or
/// side only where a coxa angle is within 2^-16 of a limit. Where no leg is past its limit, the strict one looks at how far the feet are.
fn solved(i: &Input, want: u32, w: &mut Worst, strict: bool) -> bool {
    let mut out = [HELD; 18];
    let n = unsafe { if strict { probe_ik_strict(i.at(0), 59, i.marks, out.as_mut_ptr(), 18) } else { probe_ik(i.at(0), 59, i.marks, out.as_mut_ptr(), 18) } };
    if want != 0 {
        return n == want && held(&out);
    }
    let (feet, body) = (i.feet(0), i.body());
    let ours: [(f32, Point); 6] = std::array::from_fn(|l| inverse::<Ours>(feet[l], &body, &i.leg(l)));
    let rust: [(f32, Point); 6] = std::array::from_fn(|l| inverse::<Rust>(feet[l], &body, &i.leg(l)));
    let past = first_refused(ours.map(|e| side(e.0)));
    let out_of_reach = first_refused(std::array::from_fn(|l| if strict { reach(feet[l], &body, &i.leg(l)) } else { 0 }));
    if n != (if past != 0 { past } else { out_of_reach }) || !right_within(past, rust.map(|e| e.0)) {
        return false;
    }
    if n != 0 {
        return held(&out);
    }
    is_at(&out, &ours.map(|e| e.1)) && (0..18).all(|k| w.near(out[k], rust[k / 3].1[k % 3], 1.0 / 65536.0))
}

fn inverse_kinematics(i: &Input, want: u32, w: &mut Worst) -> bool {
    solved(i, want, w, false)
}

fn strict_inverse_kinematics(i: &Input, want: u32, w: &mut Worst) -> bool {
    solved(i, want, w, true)
}

/// To the bit over the library's functions; over Rust's within 2^-17 m. Six standing feet.
fn forward_kinematics(i: &Input, want: u32, w: &mut Worst) -> bool {
    let (mut out, mut lifted) = ([HELD; 18], NO_MARKS);
    let n = unsafe { probe_fk(i.at(0), 59, out.as_mut_ptr(), 18, &mut lifted) };
    if n != want || want != 0 {
        return n == want && held(&out) && lifted == NO_MARKS;
    }
    let (joints, body) = (i.feet(0), i.body());
    let ours: Feet = std::array::from_fn(|l| forward::<Ours>(joints[l], &body, &i.leg(l)));
    let rust: Feet = std::array::from_fn(|l| forward::<Rust>(joints[l], &body, &i.leg(l)));
    is_at(&out, &ours) && lifted == 0 && (0..18).all(|k| w.near(out[k], rust.as_flattened()[k], 1.0 / 131072.0))
}

// ---- the list

/// What an entry takes besides floats.
#[derive(Clone, Copy, Default)]
pub struct Takes {
    /// Every float, and it refuses nothing.
    pub any: bool,
    /// Feet with marks, of which these bits mean nothing to the answer.
    pub marks: bool,
    pub idle: u32,
    pub mask: bool,
    pub count: bool,
    pub tripod: bool,
    pub flag: bool,
    pub elapsed: bool,
    pub period: bool,
}

pub struct Entry {
    pub name: &'static str,
    pub rows: Vec<Row>,
    pub takes: Takes,
    pub costly: bool,
    /// Blocks of floats that are often made nearly equal: from, to, length.
    pub twins: &'static [(usize, usize, usize)],
    pub check: Check,
}

impl Entry {
    /// The lowest number that applies, those of a leg apart.
    pub fn refusal(&self, i: &Input) -> u32 {
        let t = &self.takes;
        if t.any {
            return 0;
        }
        let n = if t.count { 18 + 3 * i.count.min(64) } else { self.rows.len() };
        let first = floats(&self.rows[..n], &i.f);
        if first != 0 {
            first
        } else if (t.elapsed && !elapsed_fits(i.elapsed)) || (t.period && !period_fits(i.period)) {
            3
        } else if t.mask && i.mask > 63 {
            4
        } else if t.count && i.count.min(64) as u32 != i.mask.count_ones() {
            5
        } else {
            0
        }
    }
}

pub fn entries() -> Vec<Entry> {
    let of = |parts: &[(usize, Row)]| parts.iter().flat_map(|&(n, row)| vec![row; n]).collect::<Vec<Row>>();
    let none = Takes::default();
    let any = Takes { any: true, ..none };
    let mask = Takes { mask: true, ..none };
    let lift = Takes { tripod: true, flag: true, ..none };
    let asked = Takes { flag: true, period: true, ..none };
    let period = Takes { tripod: true, ..asked };
    let times = Takes { elapsed: true, period: true, ..none };
    let both = Takes { elapsed: true, ..period };
    let feet = |takes, idle| Takes { marks: true, idle, ..takes };
    let (first, second, third, all) = (63, 63 << 6, 63 << 12, u32::MAX);
    let one = || move_rows::<7>().to_vec();
    let six = || move_rows::<37>().to_vec();
    let told = [(2, DIRECTION), (1, ROTATION), (1, DIRECTION)];
    let configuration = || {
        let leg = [(3, FOOT), (1, ROTATION), (2, CORRECTION)];
        [of(&[(3, LENGTH), (2, OFFSET)]), of(&leg), of(&leg), of(&leg), of(&leg), of(&leg), of(&leg)].concat()
    };
    let pair: &[_] = &[(0, 3, 3)];
    let rows: &[_] = &[(0, 18, 18)];
    let three: &[_] = &[(0, 18, 18), (18, 36, 18)];
    let entry = |name, rows, takes, costly, twins, check| Entry { name, rows, takes, costly, twins, check };
    vec![
        entry("min", of(&[(2, FINITE)]), none, false, &[(0, 1, 1)], min as Check),
        entry("max", of(&[(2, FINITE)]), none, false, &[(0, 1, 1)], max),
        entry("atan2", of(&[(2, ATAN2)]), none, false, &[(0, 1, 1)], atan2),
        entry("as legs", of(&[(18, FINITE)]), feet(any, !first), false, &[], as_legs),
        entry("from legs", of(&[(18, FINITE)]), feet(any, !first), false, &[], from_legs),
        entry("merge", of(&[(36, FOOT)]), feet(mask, !(first | second)), false, rows, merge),
        entry("select", of(&[(18, FOOT)]), feet(mask, !first), false, &[], select),
        entry("update", of(&[(210, FOOT)]), feet(Takes { count: true, ..mask }, !first), false, &[], update),
        entry("one move", one(), none, false, pair, one_move),
        entry("point sets out", one(), none, false, pair, point_iter),
        entry("next point", one(), none, false, pair, next_point),
        entry("longest distance", of(&[(36, FOOT)]), feet(none, all), false, rows, longest_distance),
        entry("new command", of(&told[..2]), none, false, &[], new),
        entry("command, all fields", of(&told), asked, false, &[], command),
        entry("should move", of(&told), asked, false, &[], should_move),
        entry("timed progress", vec![], times, false, &[], timed),
        entry("even progress", vec![], times, false, &[], even),
        entry("six moves", six(), feet(none, second), true, rows, move_feet),
        entry("feet set out", six(), feet(none, second), true, rows, feet_iter),
        entry("next feet", six(), feet(none, second), true, rows, next_feet),
        entry("walk", of(&[(6, WALK), (1, WALK_MOVE)]), none, true, pair, one_walk),
        entry("six walks", of(&[(36, WALK), (1, WALK_MOVE)]), feet(none, all), true, rows, six_walks),
        entry("step sets out", of(&[(36, FOOT), (1, MAX_MOVE), (1, DIRECTION)]), feet(lift, second), true, rows, step_iter),
        entry("timed sets out", of(&[(36, FOOT), (2, DIRECTION)]), feet(period, second), true, rows, timed_iter),
        entry("even sets out", of(&[(36, FOOT), (2, DIRECTION)]), feet(period, second), true, rows, even_iter),
        entry("step by distance", step_rows(Pace::Distance).to_vec(), feet(lift, first | third), true, three, step_by_distance),
        entry("timed step", step_rows(Pace::Timed).to_vec(), feet(both, first | third), true, three, timed_step),
        entry("even step", step_rows(Pace::Even).to_vec(), feet(both, first | third), true, three, even_step),
        entry("planner", [of(&[(36, FOOT)]), of(&told)].concat(), feet(period, second), true, rows, planner),
        entry("inverse kinematics", [of(&[(18, FOOT)]), configuration()].concat(), feet(none, all), true, &[], inverse_kinematics),
        entry("strict inverse kinematics", [of(&[(18, FOOT)]), configuration()].concat(), feet(none, all), true, &[], strict_inverse_kinematics),
        entry("forward kinematics", [of(&[(18, MOTOR)]), configuration()].concat(), none, true, &[], forward_kinematics),
    ]
}
