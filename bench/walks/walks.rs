// Walks of the proved library, checked independently: each step of the library by the plain Rust reading, arrival and leastness
// by going the whole way and two steps on, the bound count * m <= 2S + m in exact whole numbers of 2^-149 m. And at every step
// the three clauses of request K14, by the order of the floats where that tells, else in whole numbers: no coordinate leaves the
// interval from its start to its target by more than 2^-18 m, none comes farther from its target, and one that began at its
// target is there. Random walks and adversarial ones. Usage: walks [COUNT]. The last line has the walks tried and the failures.
#[path = "../rust/reference.rs"]
mod reference;
use reference::*;

extern "C" {
    fn probe_walk(s: *const f32, n: usize) -> u64;
    fn probe_walk_feet(s: *const f32, n: usize, marks: u32) -> u64;
    fn probe_move(s: *const f32, n: usize, out: *mut f32, m: usize) -> u32;
    fn probe_move_feet(s: *const f32, n: usize, marks: u32, out: *mut f32, m: usize, lifted: &mut u32) -> u32;
}

/// A whole number below 2^256, lowest word first.
#[derive(Clone, Copy, PartialEq, Eq)]
struct Whole([u64; 4]);

impl Whole {
    const ZERO: Whole = Whole([0; 4]);
    /// The magnitude of a finite f32, in units of 2^-149.
    fn units(x: f32) -> Whole {
        let b = x.to_bits() & 0x7fff_ffff;
        let (e, t) = (b >> 23, (b & 0x7f_ffff) as u64);
        let (m, shift) = if e == 0 { (t, 0) } else { (t + 0x80_0000, e - 1) };
        Whole::shifted(m, shift)
    }
    /// m * 2^shift, below 2^256.
    fn shifted(m: u64, shift: u32) -> Whole {
        let (word, wide) = ((shift / 64) as usize, (m as u128) << (shift % 64));
        let mut r = [0; 4];
        r[word] = wide as u64;
        if word < 3 {
            r[word + 1] = (wide >> 64) as u64;
        }
        Whole(r)
    }
    fn add(self, o: Whole) -> Whole {
        let mut r = [0; 4];
        let mut carry = 0u128;
        for k in 0..4 {
            let s = self.0[k] as u128 + o.0[k] as u128 + carry;
            r[k] = s as u64;
            carry = s >> 64;
        }
        assert_eq!(carry, 0);
        Whole(r)
    }
    fn less(self, o: Whole) -> bool {
        (0..4).rev().find(|&k| self.0[k] != o.0[k]).is_some_and(|k| self.0[k] < o.0[k])
    }
    fn sub(self, o: Whole) -> Whole {
        let mut r = [0; 4];
        let mut borrow = 0i128;
        for k in 0..4 {
            let d = self.0[k] as i128 - o.0[k] as i128 - borrow;
            borrow = (d < 0) as i128;
            r[k] = d.rem_euclid(1 << 64) as u64;
        }
        Whole(r)
    }
    fn times(self, n: u64) -> Whole {
        let mut r = [0; 4];
        let mut carry = 0u128;
        for k in 0..4 {
            let p = self.0[k] as u128 * n as u128 + carry;
            r[k] = p as u64;
            carry = p >> 64;
        }
        assert_eq!(carry, 0);
        Whole(r)
    }
    fn log2(self) -> f64 {
        (0..4).map(|k| self.0[k] as f64 * 2f64.powi(64 * k as i32)).sum::<f64>().log2()
    }
    /// How far apart two finite f32 are.
    fn apart(a: f32, b: f32) -> Whole {
        let (x, y) = (Whole::units(a), Whole::units(b));
        if a.is_sign_negative() != b.is_sign_negative() {
            x.add(y)
        } else if x.less(y) {
            y.sub(x)
        } else {
            x.sub(y)
        }
    }
}

struct Random(u64);

impl Random {
    fn next(&mut self) -> u64 {
        self.0 ^= self.0 << 13;
        self.0 ^= self.0 >> 7;
        self.0 ^= self.0 << 17;
        self.0
    }
    fn unit(&mut self) -> f32 {
        (self.next() >> 40) as f32 / (1u64 << 24) as f32
    }
    fn between(&mut self, lo: f32, hi: f32) -> f32 {
        lo + (hi - lo) * self.unit()
    }
    fn sign(&mut self) -> f32 {
        if self.next() & 1 == 0 { 1.0 } else { -1.0 }
    }
    /// One ulp from a power of two, or at it, or at the limit.
    fn by_a_power(&mut self) -> f32 {
        let k = (self.next() % 41) as u32;
        let b = ((128 - k) << 23) + (self.next() % 3) as u32 - 1;
        (if k == 40 { WALK_FOOT.1 } else { f32::from_bits(b) }) * self.sign()
    }
    fn tiny(&mut self) -> f32 {
        f32::from_bits((self.next() % 0x2000_0000) as u32) * self.sign()
    }
}

/// What the steps of all walks have shown: how often a coordinate was outside the interval from its start to its target, and
/// by how much at most.
struct Swings {
    outside: u64,
    most: Whole,
    of: String,
}

impl Swings {
    /// One coordinate: it began at s, has its target at t, and a step took it from l to p.
    fn coordinate(&mut self, s: f32, t: f32, l: f32, p: f32) -> Result<(), &'static str> {
        if s == t && p != t {
            return Err("a coordinate that began at its target has left it");
        }
        let (low, high) = (s.min(t), s.max(t));
        if p < low || p > high {
            self.outside += 1;
            let by = Whole::apart(p, if p < low { low } else { high });
            if self.most.less(by) {
                self.most = by;
                self.of = format!("from {:08x} to {:08x}: at {:08x}", s.to_bits(), t.to_bits(), p.to_bits());
            }
            if Whole::shifted(1, 131).less(by) {
                return Err("a coordinate is outside its interval by more than 2^-18 m");
            }
        }
        // between l and t it is no farther from t than l is
        let nearer = (l <= p && p <= t) || (t <= p && p <= l);
        if !nearer && Whole::apart(l, t).less(Whole::apart(p, t)) {
            return Err("a coordinate has moved away from its target");
        }
        Ok(())
    }
    fn point(&mut self, s: &Point, t: &Point, l: &Point, p: &Point) -> Result<(), &'static str> {
        self.coordinate(s.x, t.x, l.x, p.x)?;
        self.coordinate(s.y, t.y, l.y, p.y)?;
        self.coordinate(s.z, t.z, l.z, p.z)
    }
}

/// The library's step, which is the reading's to the bit.
fn step(l: &Point, t: &Point, m: f32) -> Result<Point, &'static str> {
    let row = [l.x, l.y, l.z, t.x, t.y, t.z, m];
    let mut out = [0.0; 3];
    let n = unsafe { probe_move(row.as_ptr(), 7, out.as_mut_ptr(), 3) };
    let (p, moved) = towards(l, t, m);
    if n != if moved { 256 } else { 0 } || out.map(f32::to_bits) != [p.x, p.y, p.z].map(f32::to_bits) {
        return Err("a step is not the reading's");
    }
    Ok(p)
}

fn check(m: f32, s: &Point, t: &Point, count: u64, swings: &mut Swings) -> Result<(), String> {
    let mut at = *s;
    for k in 0..count + 2 {
        if (at == *t) != (k >= count) {
            return Err(format!("after {k} steps it has {}arrived", if k < count { "" } else { "not " }));
        }
        let p = step(&at, t, m)?;
        swings.point(s, t, &at, &p)?;
        at = p;
    }
    let spread = Whole::apart(s.x, t.x).add(Whole::apart(s.y, t.y)).add(Whole::apart(s.z, t.z));
    let most = spread.add(spread).add(Whole::units(m));
    if most.less(Whole::units(m).times(count)) {
        return Err("count * m is above 2S + m".to_string());
    }
    Ok(())
}

/// Six feet, 36 coordinates and m, with the marks of both rows: the count is the largest of the six, and the clauses hold of each
/// foot on the way, which keeps its mark.
fn check_six(six: &[f32], marks: u32, swings: &mut Swings) -> Result<(), String> {
    let m = six[36];
    let foot = |row: &[f32], l: usize| Point { x: row[3 * l], y: row[3 * l + 1], z: row[3 * l + 2] };
    let mut largest = 0;
    for l in 0..6 {
        let (s, t) = (foot(six, l), foot(&six[18..], l));
        let one = [s.x, s.y, s.z, t.x, t.y, t.z, m];
        largest = largest.max(unsafe { probe_walk(one.as_ptr(), 7) });
    }
    if largest != unsafe { probe_walk_feet(six.as_ptr(), 37, marks) } {
        return Err("not the largest count".to_string());
    }
    let mut at = six.to_vec();
    for k in 0..largest + 2 {
        let mut out = [0.0; 18];
        let mut lifted = u32::MAX;
        let n = unsafe { probe_move_feet(at.as_ptr(), 37, marks, out.as_mut_ptr(), 18, &mut lifted) };
        if n != if k < largest { 256 } else { 0 } {
            return Err(format!("after {k} steps the six answer {n}"));
        }
        if lifted != marks % 64 {
            return Err(format!("after {k} steps a foot has another mark"));
        }
        for l in 0..6 {
            swings.point(&foot(six, l), &foot(&six[18..], l), &foot(&at, l), &foot(&out, l))?;
        }
        at[..18].copy_from_slice(&out);
    }
    Ok(())
}

fn main() {
    let count: u64 = std::env::args().nth(1).and_then(|s| s.parse().ok()).unwrap_or(1_000_000);
    let mut r = Random(0x9e37_79b9_7f4a_7c15);
    let mut swings = Swings { outside: 0, most: Whole::ZERO, of: String::new() };
    let (mut tried, mut failed, mut steps, mut longest) = (0u64, 0u64, 0u64, 0u64);
    assert!(Whole::ZERO.less(Whole::units(f32::from_bits(1))));
    assert!(Whole::units(1.0) == Whole::shifted(1, 149) && Whole::units(-3.0) == Whole::shifted(3, 149));
    for i in 0..count {
        let m = if i % 64 == 0 { WALK_MOVE.0 } else { WALK_MOVE.0.powf(r.unit()).max(WALK_MOVE.0) };
        let p = |r: &mut Random| match i % 8 {
            0 | 4 => [r.between(-3.0, 3.0), r.between(-3.0, 3.0), r.between(-3.0, 3.0)],
            1 => [r.by_a_power(), r.by_a_power(), r.by_a_power()],
            5 => [r.between(-1.0, 1.0), r.between(-0.5, 0.5), r.between(-0.5, 0.5)],
            2 | 6 => [r.between(-3.0, 3.0), r.tiny().clamp(-3.0, 3.0), r.tiny().clamp(-3.0, 3.0)],
            _ => [r.between(-0.3, 0.3), r.between(-0.3, 0.3), r.between(-0.3, 0.3)],
        };
        // the first goes from corner to corner by the least move, the second passes its target by 2^-24 m
        let (mut a, mut b) = match i {
            0 => ([WALK_FOOT.0; 3], [WALK_FOOT.1; 3]),
            1 => ([0xb300_0000, 0, 0].map(f32::from_bits), [0x3f00_0001, 0x3f40_0000, 0].map(f32::from_bits)),
            // from half an ulp beyond zero to an odd number of ulps, so that the difference is a tie and rounded up
            _ if i % 8 == 5 => {
                let b = p(&mut r).map(|x| f32::from_bits(x.to_bits() | 1));
                (b.map(|x| f32::from_bits(x.to_bits() & 0xff80_0000) * -(2f32.powi(-24))), b)
            }
            _ => (p(&mut r), p(&mut r)),
        };
        // one coordinate level, at any number or at a zero of either sign
        if i % 8 == 7 {
            let level = (i >> 3) as usize % 3;
            (a[level], b[level]) = match (i >> 5) % 4 {
                0 => (-0.0, -0.0),
                1 => (-0.0, 0.0),
                2 => (0.0, -0.0),
                _ => (a[level], a[level]),
            };
        }
        let (s, t) = (Point { x: a[0], y: a[1], z: a[2] }, Point { x: b[0], y: b[1], z: b[2] });
        // m just below the distance, so that the last step is a crumb
        let d = distance(&s, &t);
        let crumb = (i % 16 == 3 || i % 4 == 1) && d > 2.0 * WALK_MOVE.0 && d < 1.0;
        let m = match i {
            1 => f32::from_bits(0x3f66_c15a),
            _ if crumb => f32::from_bits(d.to_bits() - 1 - (i >> 4) as u32 % 3),
            _ => m,
        };
        let row = [a[0], a[1], a[2], b[0], b[1], b[2], m];
        let answer = unsafe { probe_walk(row.as_ptr(), 7) };
        let outcome = if answer >> 32 != 0 { Err(format!("refusal {}", answer >> 32)) } else { check(m, &s, &t, answer, &mut swings) };
        if let Err(why) = outcome {
            failed += 1;
            if failed < 20 {
                println!("m {:08x} {:?} -> {:?}: {answer}: {why}", m.to_bits(), a.map(f32::to_bits), b.map(f32::to_bits));
            }
        }
        tried += 1;
        steps += answer & 0xffff_ffff;
        longest = longest.max(answer & 0xffff_ffff);
        if i % 1000 == 0 {
            let mut six: Vec<f32> = (0..36).map(|_| r.between(-3.0, 3.0)).collect();
            six.push(m);
            if let Err(why) = check_six(&six, (i / 1000 * 2731 % 4096) as u32, &mut swings) {
                failed += 1;
                println!("six feet: {why}");
            }
            tried += 1;
        }
    }
    println!("{steps} steps in all, the longest walk has {longest}");
    println!("{} coordinates outside their interval, by 2^{:.2} m at most ({})", swings.outside, swings.most.log2() - 149.0, swings.of);
    println!("{tried} walks, {failed} failures");
    std::process::exit((failed != 0) as i32);
}
