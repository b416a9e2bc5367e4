// Times the proved library and the plain Rust reading side by side: same inputs, same run, one thread.
// Both sides have the same shape at the boundary: a call that is not inlined, numbers and rows of floats in, a stored
// answer out, every number looked at; the marks of feet in the bits of a number, six a row, in and out. A line an operation: nanoseconds of ours, of Rust's, the ratio, the goal. The first word
// is the number of rounds, the second, for a profile or a count, the one operation to run, the third the one side: ours or Rust.
mod reference;
use reference::*;
use std::hint::black_box;
use std::time::Instant;

mod ours {
    extern "C" {
        pub fn probe_square_root(x: f32, out: &mut f32) -> u32;
        pub fn probe_sine(x: f32, out: &mut f32) -> u32;
        pub fn probe_cosine(x: f32, out: &mut f32) -> u32;
        pub fn probe_arc_cosine(x: f32, out: &mut f32) -> u32;
        pub fn probe_atan2(y: f32, x: f32, out: &mut f32) -> u32;
        pub fn probe_move(s: *const f32, n: usize, out: *mut f32, m: usize) -> u32;
        pub fn probe_move_feet(s: *const f32, n: usize, marks: u32, out: *mut f32, m: usize, lifted: &mut u32) -> u32;
        pub fn probe_longest_distance(s: *const f32, n: usize, marks: u32, out: &mut f32) -> u32;
        pub fn probe_walk(s: *const f32, n: usize) -> u64;
        pub fn probe_walk_feet(s: *const f32, n: usize, marks: u32) -> u64;
        pub fn probe_merge(s: *const f32, n: usize, marks: u32, mask: u32, out: *mut f32, m: usize, lifted: &mut u32) -> u32;
        pub fn probe_select(s: *const f32, n: usize, marks: u32, mask: u32, out: *mut f32, m: usize, len: &mut usize, lifted: &mut u32) -> u32;
        pub fn probe_update(
            s: *const f32,
            n: usize,
            marks: u32,
            values: *const f32,
            v: usize,
            lent: u64,
            first: usize,
            mask: u32,
            out: *mut f32,
            m: usize,
            lifted: &mut u32,
        ) -> u32;
        pub fn probe_timed_progress(es: u64, en: u32, ps: u64, pn: u32, out: &mut f32) -> u32;
        pub fn probe_even_progress(es: u64, en: u32, ps: u64, pn: u32, out: &mut f32) -> u32;
        pub fn probe_step(s: *const f32, n: usize, marks: u32, t: u32, a: u32, out: *mut f32, m: usize, lifted: &mut u32) -> u32;
        pub fn probe_timed_step(
            s: *const f32,
            n: usize,
            marks: u32,
            t: u32,
            a: u32,
            es: u64,
            en: u32,
            ps: u64,
            pn: u32,
            out: *mut f32,
            m: usize,
            lifted: &mut u32,
        ) -> u32;
        pub fn probe_even_step(
            s: *const f32,
            n: usize,
            marks: u32,
            t: u32,
            a: u32,
            es: u64,
            en: u32,
            ps: u64,
            pn: u32,
            out: *mut f32,
            m: usize,
            lifted: &mut u32,
        ) -> u32;
        pub fn probe_plan(
            s: *const f32,
            n: usize,
            marks: u32,
            t: u32,
            a: u32,
            seconds: u64,
            nanoseconds: u32,
            out: *mut f32,
            m: usize,
            lifted: &mut u32,
        ) -> u32;
        pub fn probe_ik(s: *const f32, n: usize, marks: u32, out: *mut f32, m: usize) -> u32;
        pub fn probe_ik_strict(s: *const f32, n: usize, marks: u32, out: *mut f32, m: usize) -> u32;
        pub fn probe_fk(s: *const f32, n: usize, out: *mut f32, m: usize, lifted: &mut u32) -> u32;
    }
}

mod theirs;

struct Random(u64);

impl Random {
    fn next(&mut self) -> u64 {
        self.0 ^= self.0 << 13;
        self.0 ^= self.0 >> 7;
        self.0 ^= self.0 << 17;
        self.0
    }
    fn between(&mut self, lo: f32, hi: f32) -> f32 {
        lo + (hi - lo) * ((self.next() >> 40) as f32 / (1u64 << 24) as f32)
    }
    fn floats(&mut self, n: usize, lo: f32, hi: f32) -> Vec<f32> {
        (0..n).map(|_| self.between(lo, hi)).collect()
    }
}

const INPUTS: usize = 1024;

/// One round over all inputs, in nanoseconds a call.
fn timed(call: &mut impl FnMut(usize)) -> f64 {
    let t = Instant::now();
    for i in 0..INPUTS {
        call(i);
    }
    t.elapsed().as_nanos() as f64 / INPUTS as f64
}

/// The best of several rounds over all inputs, ours and theirs by turns, in nanoseconds a call.
fn both(name: &str, goal: f64, each: f64, mut ours: impl FnMut(usize), mut theirs: impl FnMut(usize)) {
    let rounds = std::env::args().nth(1).and_then(|s| s.parse().ok()).unwrap_or(60);
    if std::env::args().nth(2).is_some_and(|only| only != name) {
        return;
    }
    let side = std::env::args().nth(3).unwrap_or_default();
    let (mut a, mut b) = (f64::MAX, f64::MAX);
    for _ in 0..rounds {
        if side != "Rust" {
            a = a.min(timed(&mut ours));
        }
        if side != "ours" {
            b = b.min(timed(&mut theirs));
        }
    }
    if !side.is_empty() {
        return;
    }
    let ratio = a / b;
    println!("{name:27} {:9.2} {:9.2} {ratio:7.2} {goal:6.1}{}", a / each, b / each, if ratio <= goal { "" } else { "  missed" });
}

// An answer that the compiler must make, though nothing reads it.
#[inline(always)]
fn kept<T>(answer: T) {
    black_box(answer);
}

fn main() {
    let mut r = Random(0x9e37_79b9_7f4a_7c15);
    println!("{:27} {:>9} {:>9} {:>7} {:>6}", "operation", "ours ns", "Rust ns", "ratio", "goal");
    let (mut a, mut b) = (0.0f32, 0.0f32);
    let mut row = [0.0f32; 18];
    let mut other = [0.0f32; 18];
    let (mut lifted, mut up) = (0u32, 0u32);
    // of their own, so that the floats stay those of earlier runs
    let mut bits = Random(0x2545_f491_4f6c_dd1d);
    let marks: Vec<u32> = (0..INPUTS).map(|_| (bits.next() >> 20) as u32 & 0x3_ffff).collect();
    let masks: Vec<u32> = (0..INPUTS).map(|_| (bits.next() >> 20) as u32 & 63).collect();
    let xs = r.floats(INPUTS, 0.0, 100.0);
    // chained: each argument waits for the answer before it
    let (mut u, mut v) = (0.0f32, 0.0f32);
    both(
        "square root, chained",
        2.9,
        1.0,
        |i| unsafe {
            ours::probe_square_root(xs[i] + u, &mut a);
            u = a * 0.0;
        },
        |i| {
            theirs::root(xs[i] + v, &mut b);
            v = b * 0.0;
        },
    );
    both("square root", 2.9, 1.0, |i| unsafe { kept(ours::probe_square_root(xs[i], &mut a)) }, |i| kept(theirs::root(xs[i], &mut b)));
    let xs = r.floats(INPUTS, -8.0, 8.0);
    both("sine", 1.0, 1.0, |i| unsafe { kept(ours::probe_sine(xs[i], &mut a)) }, |i| kept(theirs::sin(xs[i], &mut b)));
    both("cosine", 1.0, 1.0, |i| unsafe { kept(ours::probe_cosine(xs[i], &mut a)) }, |i| kept(theirs::cos(xs[i], &mut b)));
    let qs = r.floats(INPUTS, -1.0, 1.0);
    both("arc cosine", 1.1, 1.0, |i| unsafe { kept(ours::probe_arc_cosine(qs[i], &mut a)) }, |i| kept(theirs::acos(qs[i], &mut b)));
    let ys = r.floats(INPUTS, -8.0, 8.0);
    both("atan2", 1.0, 1.0, |i| unsafe { kept(ours::probe_atan2(ys[i], xs[i], &mut a)) }, |i| kept(theirs::angle(ys[i], xs[i], &mut b)));

    let feet: Vec<Vec<f32>> = (0..INPUTS)
        .map(|_| {
            let mut s = r.floats(36, -0.4, 0.4);
            s.push(r.between(0.001, 0.1));
            s
        })
        .collect();
    both(
        "one move",
        1.3,
        1.0,
        |i| unsafe { kept(ours::probe_move(feet[i][30..].as_ptr(), 7, row.as_mut_ptr(), 18)) },
        |i| kept(theirs::one_move(&feet[i][30..], &mut other)),
    );
    both(
        "six moves",
        1.3,
        1.0,
        |i| unsafe { kept(ours::probe_move_feet(feet[i].as_ptr(), 37, marks[i], row.as_mut_ptr(), 18, &mut lifted)) },
        |i| kept(theirs::six_moves(&feet[i], marks[i], &mut other, &mut up)),
    );
    both(
        "longest distance",
        1.3,
        1.0,
        |i| unsafe { kept(ours::probe_longest_distance(feet[i].as_ptr(), 36, marks[i], &mut a)) },
        |i| kept(theirs::longest(&feet[i], marks[i], &mut b)),
    );
    both(
        "merge",
        1.3,
        1.0,
        |i| unsafe { kept(ours::probe_merge(feet[i].as_ptr(), 36, marks[i], masks[i], row.as_mut_ptr(), 18, &mut lifted)) },
        |i| kept(theirs::merge(&feet[i], marks[i], masks[i], &mut other, &mut up)),
    );
    let (mut n, mut m) = (0usize, 0usize);
    both(
        "selection",
        1.3,
        1.0,
        |i| unsafe { kept(ours::probe_select(feet[i].as_ptr(), 18, marks[i], masks[i], row.as_mut_ptr(), 18, &mut n, &mut lifted)) },
        |i| kept(theirs::select(&feet[i], marks[i], masks[i], &mut other, &mut m, &mut up)),
    );
    // as many feet lent as the mask names legs
    let lent: Vec<Vec<f32>> = (0..INPUTS).map(|_| bits.floats(192, -0.4, 0.4)).collect();
    let lent_marks: Vec<u64> = (0..INPUTS).map(|_| bits.next()).collect();
    both(
        "update",
        1.3,
        1.0,
        |i| unsafe {
            let n = masks[i].count_ones() as usize;
            kept(ours::probe_update(feet[i].as_ptr(), 18, marks[i], lent[i].as_ptr(), 192, lent_marks[i], n, masks[i], row.as_mut_ptr(), 18, &mut lifted))
        },
        |i| kept(theirs::update(&feet[i], marks[i], &lent[i], lent_marks[i], masks[i].count_ones() as usize, masks[i], &mut other, &mut up)),
    );
    let walks: Vec<Vec<f32>> = (0..INPUTS)
        .map(|_| {
            let mut s = r.floats(36, -0.4, 0.4);
            s.push(0.01);
            s
        })
        .collect();
    let steps: u64 = walks.iter().map(|s| theirs::one_walk(&s[30..])).sum();
    both(
        "a walk, each step",
        1.3,
        steps as f64 / INPUTS as f64,
        |i| unsafe { kept(ours::probe_walk(walks[i][30..].as_ptr(), 7)) },
        |i| kept(theirs::one_walk(&walks[i][30..])),
    );
    // From corner to corner by the least move: one walk a round.
    let longest = [-3.0, -3.0, -3.0, 3.0, 3.0, 3.0, 1.0 / 4096.0];
    both(
        "the longest walk, each step",
        1.3,
        theirs::one_walk(&longest) as f64 / INPUTS as f64,
        |i| if i == 0 { unsafe { kept(ours::probe_walk(longest.as_ptr(), 7)) } },
        |i| if i == 0 { kept(theirs::one_walk(&longest)) },
    );
    let steps: u64 = walks.iter().map(|s| theirs::six_walks(s, 0)).sum();
    both(
        "six walks, each step",
        1.3,
        steps as f64 / INPUTS as f64,
        |i| unsafe { kept(ours::probe_walk_feet(walks[i].as_ptr(), 37, marks[i])) },
        |i| kept(theirs::six_walks(&walks[i], marks[i])),
    );
    let states: Vec<Vec<f32>> = (0..INPUTS)
        .map(|_| {
            let mut s = r.floats(54, -0.4, 0.4);
            s.push(r.between(0.001, 0.02));
            s.push(r.between(0.01, 0.05));
            s
        })
        .collect();
    both(
        "step by distance",
        1.3,
        1.0,
        |i| unsafe { kept(ours::probe_step(states[i].as_ptr(), 56, marks[i], i as u32 & 1, 0, row.as_mut_ptr(), 18, &mut lifted)) },
        |i| kept(theirs::by_distance(&states[i], marks[i], i as u32 & 1, 0, &mut other, &mut up)),
    );
    let time = |i: usize| Time { seconds: 0, nanoseconds: (i as u32 * 350_000) % 350_000_000 };
    let period = Time { seconds: 0, nanoseconds: 600_000_000 };
    let elapsed: Vec<Time> = (0..INPUTS).map(|i| Time { seconds: i as u64 * 3, nanoseconds: (i as u32 * 974_563) % 1_000_000_000 }).collect();
    both(
        "timed progress",
        1.3,
        1.0,
        |i| unsafe {
            let e = elapsed[i];
            kept(ours::probe_timed_progress(e.seconds, e.nanoseconds, 0, period.nanoseconds, &mut a))
        },
        |i| kept(theirs::progress_timed(elapsed[i], period, &mut b)),
    );
    both(
        "even progress",
        1.3,
        1.0,
        |i| unsafe {
            let e = elapsed[i];
            kept(ours::probe_even_progress(e.seconds, e.nanoseconds, 0, period.nanoseconds, &mut a))
        },
        |i| kept(theirs::progress_even(elapsed[i], period, &mut b)),
    );
    both(
        "timed step",
        1.3,
        1.0,
        |i| unsafe {
            let (s, e) = (states[i].as_ptr(), time(i));
            let (out, up) = (row.as_mut_ptr(), &mut lifted);
            kept(ours::probe_timed_step(s, 56, marks[i], i as u32 & 1, 0, e.seconds, e.nanoseconds, 0, period.nanoseconds, out, 18, up))
        },
        |i| kept(theirs::timed(&states[i], marks[i], i as u32 & 1, 0, time(i), period, &mut other, &mut up)),
    );
    both(
        "even step",
        1.3,
        1.0,
        |i| unsafe {
            let (s, e) = (states[i].as_ptr(), time(i));
            let (out, up) = (row.as_mut_ptr(), &mut lifted);
            kept(ours::probe_even_step(s, 56, marks[i], i as u32 & 1, 0, e.seconds, e.nanoseconds, 0, period.nanoseconds, out, 18, up))
        },
        |i| kept(theirs::even(&states[i], marks[i], i as u32 & 1, 0, time(i), period, &mut other, &mut up)),
    );
    // a stance: feet around the body, the relaxed ones near them
    let around = [(0.2, 0.16), (0.2, -0.16), (0.0, 0.2), (0.0, -0.2), (-0.2, 0.16), (-0.2, -0.16)];
    let plans: Vec<Vec<f32>> = (0..INPUTS)
        .map(|_| {
            let mut s = vec![];
            for spread in [0.03, 0.005] {
                for (x, y) in around {
                    s.push(x + r.between(-spread, spread));
                    s.push(y + r.between(-spread, spread));
                    s.push(-0.12);
                }
            }
            s.push(r.between(-0.05, 0.05));
            s.push(r.between(-0.05, 0.05));
            s.push(r.between(-0.5, 0.5));
            s.push(0.03);
            s
        })
        .collect();
    both(
        "planner",
        1.0,
        1.0,
        |i| unsafe { kept(ours::probe_plan(plans[i].as_ptr(), 40, marks[i], i as u32 & 1, 0, 0, 600_000_000, row.as_mut_ptr(), 18, &mut lifted)) },
        |i| kept(theirs::planned(&plans[i], marks[i], i as u32 & 1, 0, period, &mut other, &mut up)),
    );
    let mut config = vec![0.052, 0.066, 0.135, 0.6, -0.4];
    for (x, y) in around {
        config.extend([x * 0.4, y * 0.4, 0.0, -(y as f32).atan2(x), 2.6, 2.1]);
    }
    let poses: Vec<Vec<f32>> = plans.iter().map(|s| s[..18].iter().chain(config.iter()).copied().collect()).collect();
    both(
        "inverse kinematics",
        1.0,
        1.0,
        |i| unsafe { kept(ours::probe_ik(poses[i].as_ptr(), 59, marks[i], row.as_mut_ptr(), 18)) },
        |i| kept(theirs::ik(&poses[i], marks[i], &mut other)),
    );
    // one leg is turned past its limit, each leg in its turn, to either side; a rear leg's turn is permitted to one side alone
    let past: Vec<Vec<f32>> = poses
        .iter()
        .enumerate()
        .map(|(i, s)| {
            let (mut s, l) = (s.clone(), i % 6);
            let leftwards = l == 4 || (l != 5 && i / 6 % 2 == 0);
            s[26 + 6 * l] += if leftwards { 2.0 } else { -2.0 };
            assert_eq!(theirs::ik(&s, 0, &mut [0.0; 18]), if leftwards { 6 } else { 8 } + 256 * l as u32);
            s
        })
        .collect();
    both(
        "inverse kinematics, refused",
        1.0,
        1.0,
        |i| unsafe { kept(ours::probe_ik(past[i].as_ptr(), 59, marks[i], row.as_mut_ptr(), 18)) },
        |i| kept(theirs::ik(&past[i], marks[i], &mut other)),
    );
    poses.iter().for_each(|s| assert_eq!(theirs::ik_strict(s, 0, &mut [0.0; 18]), 0));
    both(
        "strict inverse kinematics",
        1.0,
        1.0,
        |i| unsafe { kept(ours::probe_ik_strict(poses[i].as_ptr(), 59, marks[i], row.as_mut_ptr(), 18)) },
        |i| kept(theirs::ik_strict(&poses[i], marks[i], &mut other)),
    );
    let joints: Vec<Vec<f32>> = poses
        .iter()
        .map(|s| {
            let mut j = [0.0f32; 18];
            assert_eq!(theirs::ik(s, 0, &mut j), 0);
            j.iter().chain(config.iter()).copied().collect()
        })
        .collect();
    both(
        "forward kinematics",
        1.0,
        1.0,
        |i| unsafe { kept(ours::probe_fk(joints[i].as_ptr(), 59, row.as_mut_ptr(), 18, &mut lifted)) },
        |i| kept(theirs::fk(&joints[i], &mut other, &mut up)),
    );
}
