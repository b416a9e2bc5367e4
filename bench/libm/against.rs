// Times the proved library's five functions and those of the crate libm side by side, through the same boundary: a call that
// is not inlined, the argument looked at, the answer stored. The best of many rounds counts, by turns.
// A line a function: nanoseconds of ours and of libm's, the ratio. The last line counts the ratios above 1.
mod checked;
use checked::*;
use std::hint::black_box;
use std::time::Instant;

extern "C" {
    fn probe_square_root(x: f32, out: &mut f32) -> u32;
    fn probe_sine(x: f32, out: &mut f32) -> u32;
    fn probe_cosine(x: f32, out: &mut f32) -> u32;
    fn probe_arc_cosine(x: f32, out: &mut f32) -> u32;
    fn probe_atan2(y: f32, x: f32, out: &mut f32) -> u32;
}

/// Keeps a call whose answer nobody reads.
fn seen(n: u32) {
    black_box(n);
}

const INPUTS: usize = 1024;

struct Bench {
    rounds: usize,
    seed: u64,
    behind: u32,
}

impl Bench {
    fn floats(&mut self, from: f32, to: f32) -> Vec<f32> {
        let mut next = || {
            self.seed ^= self.seed << 13;
            self.seed ^= self.seed >> 7;
            self.seed ^= self.seed << 17;
            from + (to - from) * ((self.seed >> 40) as f32 / (1u64 << 24) as f32)
        };
        (0..INPUTS).map(|_| next()).collect()
    }
    fn both(&mut self, name: &str, mut ours: impl FnMut(usize), mut theirs: impl FnMut(usize)) {
        let time = |f: &mut dyn FnMut(usize)| {
            let t = Instant::now();
            for i in 0..INPUTS {
                f(i);
            }
            t.elapsed().as_nanos() as f64 / INPUTS as f64
        };
        let (mut a, mut b) = (f64::MAX, f64::MAX);
        for _ in 0..self.rounds {
            a = a.min(time(&mut ours));
            b = b.min(time(&mut theirs));
        }
        self.behind += (a > b) as u32;
        println!("{name:22} {a:8.2} {b:8.2} {:7.2}", a / b);
    }
}

fn main() {
    let rounds = std::env::args().nth(1).and_then(|s| s.parse().ok()).unwrap_or(400);
    let mut bench = Bench { rounds, seed: 0x9e37_79b9_7f4a_7c15, behind: 0 };
    let (mut a, mut b) = (0.0f32, 0.0f32);
    let (mut u, mut v) = (0.0f32, 0.0f32);
    println!("{:22} {:>8} {:>8} {:>7}", "function", "ours ns", "libm ns", "ratio");
    let roots = bench.floats(0.0, 100.0);
    bench.both("square root", |i| unsafe { seen(probe_square_root(roots[i], &mut a)) }, |i| seen(libm_square_root(roots[i], &mut b)));
    // chained: each argument waits for the answer before it
    bench.both(
        "square root, chained",
        |i| unsafe {
            probe_square_root(roots[i] + u, &mut a);
            u = a * 0.0;
        },
        |i| {
            libm_square_root(roots[i] + v, &mut b);
            v = b * 0.0;
        },
    );
    let (xs, ys, qs) = (bench.floats(-8.0, 8.0), bench.floats(-8.0, 8.0), bench.floats(-1.0, 1.0));
    bench.both("sine", |i| unsafe { seen(probe_sine(xs[i], &mut a)) }, |i| seen(libm_sine(xs[i], &mut b)));
    bench.both("cosine", |i| unsafe { seen(probe_cosine(xs[i], &mut a)) }, |i| seen(libm_cosine(xs[i], &mut b)));
    bench.both("arc cosine", |i| unsafe { seen(probe_arc_cosine(qs[i], &mut a)) }, |i| seen(libm_arc_cosine(qs[i], &mut b)));
    bench.both("atan2", |i| unsafe { seen(probe_atan2(ys[i], xs[i], &mut a)) }, |i| seen(libm_atan2(ys[i], xs[i], &mut b)));
    println!("behind libm: {}", bench.behind);
}
