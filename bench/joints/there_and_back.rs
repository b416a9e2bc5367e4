// Inverse then forward kinematics of the proved library: how far the foot comes back from where it was, where
// correction + offset >= 0 for femur and tibia, the foot is not nearer than its coxa is long, and the joints lie in 0 to 8.
// First feet that the strict solver accepts, lengths to 1 m: at the far end of their reach, at the near end, and anywhere in it, six
// equal legs each, and the same by the plain Rust reading. Then poses of six legs well within reach, as of a crawler. Usage: there_and_back [POSES]. The last line has the
// poses tried and the largest distance.
#[path = "../rust/reference.rs"]
mod reference;

use reference::{forward, inverse_strict, Angles, Config, Foot, LegConfig, Point};

extern "C" {
    fn probe_ik(s: *const f32, n: usize, marks: u32, out: *mut f32, m: usize) -> u32;
    fn probe_ik_strict(s: *const f32, n: usize, marks: u32, out: *mut f32, m: usize) -> u32;
    fn probe_fk(s: *const f32, n: usize, out: *mut f32, m: usize, lifted: &mut u32) -> u32;
}

type Solver = unsafe extern "C" fn(*const f32, usize, u32, *mut f32, usize) -> u32;
/// A leg's configuration, and its foot.
type Leg = ([f32; 6], [f32; 3]);

struct Random(u64);

impl Random {
    fn between(&mut self, lo: f32, hi: f32) -> f32 {
        self.0 ^= self.0 << 13;
        self.0 ^= self.0 >> 7;
        self.0 ^= self.0 << 17;
        lo + (hi - lo) * ((self.0 >> 40) as f32 / (1u64 << 24) as f32)
    }
}

/// Coxa, femur and tibia length, femur and tibia offset.
fn body(r: &mut Random, coxa: (f32, f32), other: (f32, f32)) -> [f32; 5] {
    let lengths = [r.between(coxa.0, coxa.1), r.between(other.0, other.1), r.between(other.0, other.1)];
    [lengths[0], lengths[1], lengths[2], r.between(-1.0, 1.0), r.between(-1.0, 1.0)]
}

/// A foot ahead of its coxa and this far from its end; none where it is nearer than the coxa is long.
fn leg(r: &mut Random, body: &[f32; 5], reach: f32) -> Option<Leg> {
    let at = [r.between(-0.3, 0.3), r.between(-0.3, 0.3), r.between(-0.1, 0.1)];
    let turn = r.between(-3.0, 3.0);
    let (ahead, down) = (r.between(-1.4, 1.4) - turn, r.between(0.0, 3.1));
    let out = body[0] + reach * down.sin();
    let foot = [at[0] + out * ahead.cos(), at[1] + out * ahead.sin(), at[2] - reach * down.cos()];
    let corrections = [r.between(body[3].abs(), 3.0), r.between(body[4].abs(), 3.0)];
    (out >= body[0]).then_some(([at[0], at[1], at[2], turn, corrections[0], corrections[1]], foot))
}

fn apart(legs: &[Leg; 6], feet: &[f32]) -> f64 {
    let foot = |l: usize| (0..3).map(|k| (feet[3 * l + k] as f64 - legs[l].1[k] as f64).powi(2)).sum::<f64>().sqrt();
    (0..6).map(foot).fold(0.0, f64::max)
}

/// How far the feet come back from where they were, with some marks, and all standing; none where the solver refuses or a joint is out of the table.
fn ours(solver: Solver, body: &[f32; 5], legs: &[Leg; 6]) -> Option<f64> {
    let mut s: Vec<f32> = legs.iter().flat_map(|l| l.1).collect();
    s.extend(body);
    s.extend(legs.iter().flat_map(|l| l.0));
    let (mut joints, mut feet) = ([0.0f32; 18], [0.0f32; 18]);
    if unsafe { solver(s.as_ptr(), 59, s[0].to_bits() % 64, joints.as_mut_ptr(), 18) } != 0 || joints.iter().any(|a| !(0.0..=8.0).contains(a)) {
        return None;
    }
    let back: Vec<f32> = joints.iter().chain(s[18..].iter()).copied().collect();
    let mut lifted = u32::MAX;
    assert_eq!(unsafe { probe_fk(back.as_ptr(), 59, feet.as_mut_ptr(), 18, &mut lifted) }, 0);
    assert_eq!(lifted, 0);
    Some(apart(legs, &feet))
}

/// The same by the plain Rust reading.
fn theirs(body: &[f32; 5], legs: &[Leg; 6]) -> Option<f64> {
    let point = |p: &[f32]| Point { x: p[0], y: p[1], z: p[2] };
    let [coxa_length, femur_length, tibia_length, femur_offset, tibia_offset] = *body;
    let each = legs.map(|(c, _)| LegConfig { position: point(&c), angle_offset: c[3], femur_correction: c[4], tibia_correction: c[5] });
    let config = Config { coxa_length, femur_length, tibia_length, femur_offset, tibia_offset, legs: each };
    let joints: [Angles; 6] = inverse_strict(&legs.map(|l| Foot { point: point(&l.1), lifted: false }), &config).ok()?;
    let feet: Vec<f32> = forward(&joints, &config).ok()?.iter().flat_map(|f| [f.point.x, f.point.y, f.point.z]).collect();
    Some(apart(legs, &feet))
}

/// What these tries come to: how many were solved, and the largest distance.
fn worst(tries: impl Iterator<Item = Option<f64>>) -> (u64, f64) {
    tries.flatten().fold((0, 0.0), |(n, w), d| (n + 1, d.max(w)))
}

fn main() {
    let count: u64 = std::env::args().nth(1).and_then(|s| s.parse().ok()).unwrap_or(1_000_000);
    let mut r = Random(0x9e37_79b9_7f4a_7c15);
    let ends: [(&str, fn(f32, f32, f32) -> f32); 3] =
        [("at the far end", |_, far, _| far), ("at the near end", |near, _, _| near), ("anywhere in it", |near, far, part| near + (far - near) * part)];
    for (where_, reach) in ends {
        let tries: Vec<_> = (0..count)
            .filter_map(|_| {
                let body = body(&mut r, (1.0 / 256.0, 1.0), (1.0 / 256.0, 1.0));
                let part = r.between(0.0, 1.0);
                Some((body, [leg(&mut r, &body, reach((body[1] - body[2]).abs(), body[1] + body[2], part))?; 6]))
            })
            .collect();
        let (feet, d) = worst(tries.iter().map(|(body, legs)| ours(probe_ik_strict, body, legs)));
        let (_, rust) = worst(tries.iter().map(|(body, legs)| theirs(body, legs)));
        println!("strict, {where_}: {feet} feet there and back, largest distance {d:.2e} m, Rust's {rust:.2e} m");
    }
    let (poses, d) = worst((0..count).map(|_| {
        let body = body(&mut r, (0.02, 0.1), (0.04, 0.2));
        let (near, far) = ((body[1] - body[2]).abs() * 1.02 + 0.001, (body[1] + body[2]) * 0.98);
        let legs: [_; 6] = std::array::from_fn(|_| {
            let reach = r.between(near, far);
            leg(&mut r, &body, reach)
        });
        let legs: Vec<_> = legs.into_iter().collect::<Option<_>>()?;
        ours(probe_ik, &body, legs.as_slice().try_into().unwrap())
    }));
    println!("{poses} poses there and back, largest distance {d:.2e} m, 2^{:.2}", d.log2());
}
