// The entries of the plain Rust reading, shaped as bench/probe has the library's: numbers and rows of floats in, a stored answer out, the
// marks of feet in bits.
use crate::reference::*;

#[inline(always)]
fn stored(r: Result<f32, u32>, out: &mut f32) -> u32 {
    match r {
        Ok(v) => {
            *out = v;
            0
        }
        Err(n) => n,
    }
}
#[export_name = "rust_square_root"]
#[inline(never)]
pub fn root(x: f32, out: &mut f32) -> u32 {
    stored(square_root(x), out)
}
#[export_name = "rust_sine"]
#[inline(never)]
pub fn sin(x: f32, out: &mut f32) -> u32 {
    stored(sine(x), out)
}
#[export_name = "rust_cosine"]
#[inline(never)]
pub fn cos(x: f32, out: &mut f32) -> u32 {
    stored(cosine(x), out)
}
#[export_name = "rust_arc_cosine"]
#[inline(never)]
pub fn acos(x: f32, out: &mut f32) -> u32 {
    stored(arc_cosine(x), out)
}
#[export_name = "rust_atan2"]
#[inline(never)]
pub fn angle(y: f32, x: f32, out: &mut f32) -> u32 {
    stored(atan2(y, x), out)
}
#[inline(always)]
pub fn point(s: &[f32], at: usize) -> Point {
    Point { x: s[at], y: s[at + 1], z: s[at + 2] }
}
/// A row of feet with the lowest six of the marks.
#[inline(always)]
pub fn row(s: &[f32], at: usize, marks: u32) -> Row {
    std::array::from_fn(|l| Foot { point: point(s, at + 3 * l), lifted: marks >> l & 1 != 0 })
}
#[inline(always)]
fn store_point(p: &Point, out: &mut [f32]) {
    out[0] = p.x;
    out[1] = p.y;
    out[2] = p.z;
}
#[inline(always)]
fn store(r: &Row, out: &mut [f32], lifted: &mut u32) {
    for l in 0..6 {
        store_point(&r[l].point, &mut out[3 * l..]);
    }
    *lifted = (0..6).map(|l| (r[l].lifted as u32) << l).sum();
}
#[inline(always)]
fn answered(r: Result<Row, u32>, out: &mut [f32], lifted: &mut u32) -> u32 {
    match r {
        Ok(r) => {
            store(&r, out, lifted);
            0
        }
        Err(n) => n,
    }
}
#[inline(always)]
fn moved(r: Result<(Row, bool), u32>, out: &mut [f32], lifted: &mut u32) -> u32 {
    match r {
        Ok((r, moved)) => {
            store(&r, out, lifted);
            256 * moved as u32
        }
        Err(n) => n,
    }
}
#[export_name = "rust_move"]
#[inline(never)]
pub fn one_move(s: &[f32], out: &mut [f32]) -> u32 {
    match move_towards(&point(s, 0), &point(s, 3), s[6]) {
        Ok((p, m)) => {
            store_point(&p, out);
            256 * m as u32
        }
        Err(n) => n,
    }
}
#[export_name = "rust_move_feet"]
#[inline(never)]
pub fn six_moves(s: &[f32], marks: u32, out: &mut [f32], lifted: &mut u32) -> u32 {
    moved(move_feet_towards(&row(s, 0, marks), &row(s, 18, marks >> 6), s[36]), out, lifted)
}
#[export_name = "rust_longest_distance"]
#[inline(never)]
pub fn longest(s: &[f32], marks: u32, out: &mut f32) -> u32 {
    stored(longest_distance(&row(s, 0, marks), &row(s, 18, marks >> 6)), out)
}
#[export_name = "rust_walk"]
#[inline(never)]
pub fn one_walk(s: &[f32]) -> u64 {
    walk(s[6], &point(s, 0), &point(s, 3)).map_or_else(|n| (n as u64) << 32, |(n, _)| n as u64)
}
#[export_name = "rust_walk_feet"]
#[inline(never)]
pub fn six_walks(s: &[f32], marks: u32) -> u64 {
    walk_feet(s[36], &row(s, 0, marks), &row(s, 18, marks >> 6)).map_or_else(|n| (n as u64) << 32, |(n, _)| n as u64)
}
#[export_name = "rust_merge"]
#[inline(never)]
pub fn merge(s: &[f32], marks: u32, mask: u32, out: &mut [f32], lifted: &mut u32) -> u32 {
    answered(merge_with(&row(s, 0, marks), &row(s, 18, marks >> 6), mask), out, lifted)
}
#[export_name = "rust_select"]
#[inline(never)]
pub fn select(s: &[f32], marks: u32, mask: u32, out: &mut [f32], len: &mut usize, lifted: &mut u32) -> u32 {
    match selected_legs(&row(s, 0, marks), mask) {
        Ok((n, r)) => {
            *len = n;
            store(&r, out, lifted);
            0
        }
        Err(n) => n,
    }
}
/// Of 64 feet the first n are lent.
#[export_name = "rust_update"]
#[inline(never)]
pub fn update(s: &[f32], marks: u32, values: &[f32], lent: u64, n: usize, mask: u32, out: &mut [f32], lifted: &mut u32) -> u32 {
    let values: [Foot; 64] = std::array::from_fn(|i| Foot { point: point(values, 3 * i), lifted: lent >> i & 1 != 0 });
    answered(updated_from_selected_legs(&row(s, 0, marks), &values[..n.min(64)], mask), out, lifted)
}
#[export_name = "rust_timed_progress"]
#[inline(never)]
pub fn progress_timed(e: Time, p: Time, out: &mut f32) -> u32 {
    stored(timed_progress(&e, &p), out)
}
#[export_name = "rust_even_progress"]
#[inline(never)]
pub fn progress_even(e: Time, p: Time, out: &mut f32) -> u32 {
    stored(even_progress(&e, &p), out)
}
fn tripod(t: u32) -> u32 {
    if t == 0 { LRL } else { RLR }
}
/// Start, last and target.
#[inline(always)]
fn course(s: &[f32], marks: u32) -> [Row; 3] {
    [row(s, 0, marks), row(s, 18, marks >> 6), row(s, 36, marks >> 12)]
}
#[export_name = "rust_step"]
#[inline(never)]
pub fn by_distance(s: &[f32], marks: u32, t: u32, a: u32, out: &mut [f32], lifted: &mut u32) -> u32 {
    let [start, last, target] = course(s, marks);
    moved(step(&start, &last, &target, s[54], s[55], tripod(t), a != 0), out, lifted)
}
#[export_name = "rust_timed_step"]
#[inline(never)]
pub fn timed(s: &[f32], marks: u32, t: u32, a: u32, e: Time, p: Time, out: &mut [f32], lifted: &mut u32) -> u32 {
    let lift = Lift { height: s[54], descent: s[55], lifted: tripod(t), aggressive: a != 0 };
    let [start, last, target] = course(s, marks);
    moved(timed_step(&start, &last, &target, &lift, &e, &p), out, lifted)
}
#[export_name = "rust_even_step"]
#[inline(never)]
pub fn even(s: &[f32], marks: u32, t: u32, a: u32, e: Time, p: Time, out: &mut [f32], lifted: &mut u32) -> u32 {
    let lift = Lift { height: s[54], descent: s[55], lifted: tripod(t), aggressive: a != 0 };
    let [start, last, target] = course(s, marks);
    moved(even_step(&start, &last, &target, &lift, &e, &p), out, lifted)
}
#[export_name = "rust_plan"]
#[inline(never)]
pub fn planned(s: &[f32], marks: u32, t: u32, a: u32, time: Time, out: &mut [f32], lifted: &mut u32) -> u32 {
    let c = Command { x: s[36], y: s[37], rotation: s[38], step_time: time, height: s[39], aggressive: a != 0 };
    answered(plan(&row(s, 0, marks), &row(s, 18, marks >> 6), tripod(t), &c), out, lifted)
}
#[inline(always)]
fn config(s: &[f32]) -> Config {
    Config {
        coxa_length: s[18],
        femur_length: s[19],
        tibia_length: s[20],
        femur_offset: s[21],
        tibia_offset: s[22],
        legs: std::array::from_fn(|l| LegConfig {
            position: point(s, 23 + 6 * l),
            angle_offset: s[26 + 6 * l],
            femur_correction: s[27 + 6 * l],
            tibia_correction: s[28 + 6 * l],
        }),
    }
}
#[inline(always)]
fn solution(r: Result<[Angles; 6], LegRefusal>, out: &mut [f32]) -> u32 {
    match r {
        Ok(r) => {
            for l in 0..6 {
                store_point(&Point { x: r[l].coxa, y: r[l].femur, z: r[l].tibia }, &mut out[3 * l..]);
            }
            0
        }
        Err((n, leg)) => n + 256 * leg.unwrap_or(0) as u32,
    }
}
#[export_name = "rust_ik"]
#[inline(never)]
pub fn ik(s: &[f32], marks: u32, out: &mut [f32]) -> u32 {
    solution(inverse(&row(s, 0, marks), &config(s)), out)
}
#[export_name = "rust_ik_strict"]
#[inline(never)]
pub fn ik_strict(s: &[f32], marks: u32, out: &mut [f32]) -> u32 {
    solution(inverse_strict(&row(s, 0, marks), &config(s)), out)
}
#[export_name = "rust_fk"]
#[inline(never)]
pub fn fk(s: &[f32], out: &mut [f32], lifted: &mut u32) -> u32 {
    let joints = std::array::from_fn(|l| Angles { coxa: s[3 * l], femur: s[3 * l + 1], tibia: s[3 * l + 2] });
    answered(forward(&joints, &config(s)), out, lifted)
}
