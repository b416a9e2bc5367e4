// A leg board's step in whole numbers, the proved one as tools/native-lib compiles it, run against its formulas; how near the f32 step is
// to it; its time beside an equal Rust program's.
// wholes STEPS ROUNDS SAMPLE LINES ANSWERS: every progress with every height from several starts, every progress with every way from
// start to target, and STEPS steps at random, refused ones among them, must be what the formulas say, written here once more in i64 with
// divisions that round down and a table by f64's sine. The f32 step, proved too, answers the good ones beside it. Both programs are timed
// by turns, the best of ROUNDS counting. The first SAMPLE steps at random go to the file LINES as operation lines, and what was answered
// to the file ANSWERS, for the toolchain's own build. Status 1 on a failure.
use std::fmt::Write;
use std::hint::black_box;
use std::time::Instant;

mod ours {
    extern "C" {
        pub fn hopper_leg_step(
            sx: i32, sy: i32, sz: i32, tx: i32, ty: i32, tz: i32, height: i32, progress: i32, x: &mut i32, y: &mut i32, z: &mut i32,
        ) -> u32;
        // Start, last, target, height, progress.
        pub fn probe_leg_step(
            sx: f32, sy: f32, sz: f32, lx: f32, ly: f32, lz: f32, tx: f32, ty: f32, tz: f32, height: f32, progress: f32,
            x: &mut f32, y: &mut f32, z: &mut f32,
        ) -> u32;
    }
}

#[derive(Clone, Copy, Debug)]
struct Step {
    start: [i32; 3],
    target: [i32; 3],
    height: i32,
    progress: i32,
}

/// The number and the point, which holds `before` where nothing is stored.
fn answered(s: &Step, before: [i32; 3]) -> (u32, [i32; 3]) {
    let ([sx, sy, sz], [tx, ty, tz], [mut x, mut y, mut z]) = (s.start, s.target, before);
    let n = unsafe { ours::hopper_leg_step(sx, sy, sz, tx, ty, tz, s.height, s.progress, &mut x, &mut y, &mut z) };
    (n, [x, y, z])
}

/// The formulas once more.
struct Judge {
    table: Vec<i64>,
}

impl Judge {
    /// Entry k is the whole number nearest to 16384 sin(k P / 2048), P the f32 of pi. Document 01's series is within 10^-12 of the sine for
    /// these, f64's sine within 10^-15, and none of the numbers is that near to the middle of two wholes.
    fn new() -> Judge {
        let p = 13_176_795.0 / (1 << 22) as f64;
        let scaled = |k: u32| 16384.0 * (k as f64 * p / 2048.0).sin();
        for k in 0..=1024 {
            assert!((scaled(k).fract() - 0.5).abs() > 1e-4, "entry {k} is near a tie");
        }
        Judge { table: (0..=1024).map(|k| scaled(k).round() as i64).collect() }
    }

    fn point(&self, s: &Step) -> Option<[i32; 3]> {
        let permitted = s.start.iter().chain(&s.target).all(|c| (-40_000..=40_000).contains(c));
        if !permitted || !(0..=1000).contains(&s.height) || !(0..=2048).contains(&s.progress) {
            return None;
        }
        if s.progress == 2048 {
            return Some(s.target);
        }
        let p = s.progress as i64;
        let sideways = |c: usize| s.start[c] as i64 + ((s.target[c] as i64 - s.start[c] as i64) * p).div_euclid(2048);
        let e = self.table[p.min(2048 - p) as usize];
        let z = s.start[2] as i64 + (s.height as i64 * e).div_euclid(16384);
        Some([sideways(0) as i32, sideways(1) as i32, z as i32])
    }
}

/// Steps made, those refused, those answered wrongly.
#[derive(Default)]
struct Count {
    steps: u64,
    refused: u64,
    wrong: u64,
}

impl Count {
    /// Makes a step and judges it; its point, where there is one.
    fn run(&mut self, judge: &Judge, s: &Step, before: [i32; 3]) -> Option<[i32; 3]> {
        let expected = judge.point(s);
        let got = answered(s, before);
        self.steps += 1;
        self.refused += expected.is_none() as u64;
        if got != expected.map_or((2, before), |p| (0, p)) {
            self.wrong += 1;
            if self.wrong <= 10 {
                println!("WRONG {s:?}: {got:?} for {expected:?}");
            }
        }
        expected
    }

    fn print(&self, what: &str) {
        println!("{what}: {} steps, {} refused, {} wrong", self.steps, self.refused, self.wrong);
    }
}

/// By how much the f32 step is more than the whole one, in units: the least and the most of x and y and of z, each with its step.
#[derive(Clone, Copy)]
struct Range {
    least: (f64, Step),
    most: (f64, Step),
}

struct Nearness {
    sideways: Range,
    upwards: Range,
}

/// The f32 nearest to a number of units in metres: both are f32, and a division is rounded once.
fn metres(units: i32) -> f32 {
    units as f32 / 10_000.0
}

impl Range {
    fn new(s: Step) -> Range {
        Range { least: (f64::INFINITY, s), most: (f64::NEG_INFINITY, s) }
    }

    fn take(&mut self, foot: f32, whole: i32, s: &Step) {
        let more = foot as f64 * 10_000.0 - whole as f64;
        if more < self.least.0 {
            self.least = (more, *s);
        }
        if more > self.most.0 {
            self.most = (more, *s);
        }
    }

    fn print(&self, what: &str) {
        println!("f32 step less whole step, {what}, in units: {:.4} to {:.4}", self.least.0, self.most.0);
        println!("  least {:?}\n  most {:?}", self.least.1, self.most.1);
    }
}

impl Nearness {
    fn take(&mut self, s: &Step, whole: [i32; 3]) {
        let ([sx, sy, sz], [tx, ty, tz]) = (s.start.map(metres), s.target.map(metres));
        let last = if s.target[0] < 0 { 4.0 } else { -4.0 }; // a point that is not the target
        let (mut x, mut y, mut z) = (0.0, 0.0, 0.0);
        let (height, progress) = (metres(s.height), s.progress as f32 / 2048.0);
        let n = unsafe {
            ours::probe_leg_step(sx, sy, sz, last, last, last, tx, ty, tz, height, progress, &mut x, &mut y, &mut z)
        };
        assert_eq!(n, 0, "the f32 step refuses {s:?}");
        self.sideways.take(x, whole[0], s);
        self.sideways.take(y, whole[1], s);
        self.upwards.take(z, whole[2], s);
    }
}

struct Random(u64);

impl Random {
    fn next(&mut self) -> u64 {
        self.0 ^= self.0 << 13;
        self.0 ^= self.0 >> 7;
        self.0 ^= self.0 << 17;
        self.0 >> 11
    }

    fn below(&mut self, n: u64) -> u64 {
        self.next() % n
    }

    fn between(&mut self, from: i32, to: i32) -> i32 {
        from + self.below((to as i64 - from as i64 + 1) as u64) as i32
    }

    fn one_of(&mut self, list: &[i32]) -> i32 {
        list[self.below(list.len() as u64) as usize]
    }

    fn good(&mut self) -> Step {
        let mut point = || [0; 3].map(|_| self.between(-40_000, 40_000));
        let (start, target) = (point(), point());
        Step { start, target, height: self.between(0, 1000), progress: self.between(0, 2048) }
    }

    /// Numbers at and beside the places where something changes. Every tenth may be one that is not permitted.
    fn at_the_ends(&mut self) -> Step {
        let mut number = |good: &[i32], bad: &[i32]| if self.below(10) == 0 { self.one_of(bad) } else { self.one_of(good) };
        let good = [-40_000, -39_999, -2049, -2048, -2047, -1, 0, 1, 2047, 2048, 2049, 39_999, 40_000];
        let bad = [-40_001, 40_001, 65_536, -65_536, i32::MIN, i32::MIN + 1, i32::MAX];
        let mut point = || [0; 3].map(|_| number(&good, &bad));
        let (start, target) = (point(), point());
        Step {
            start,
            target,
            height: number(&[0, 1, 16, 655, 656, 999, 1000], &[-1, 1001, 1024, i32::MIN, i32::MAX]),
            progress: number(&[0, 1, 2, 1023, 1024, 1025, 2046, 2047, 2048], &[-1, 2049, 4096, -2048, i32::MIN, i32::MAX]),
        }
    }

    fn any(&mut self) -> i32 {
        self.next() as u32 as i32
    }

    /// A good step with one number that is anything.
    fn one_changed(&mut self) -> Step {
        let mut s = self.good();
        let n = self.any() >> self.below(31);
        match self.below(8) {
            k @ 0..3 => s.start[k as usize] = n,
            k @ 3..6 => s.target[k as usize - 3] = n,
            6 => s.height = n,
            _ => s.progress = n,
        }
        s
    }

    fn step(&mut self) -> Step {
        match self.below(10) {
            0..5 => self.good(),
            5..7 => self.at_the_ends(),
            7..9 => self.one_changed(),
            _ => Step {
                start: [0; 3].map(|_| self.any()),
                target: [0; 3].map(|_| self.any()),
                height: self.any(),
                progress: self.any(),
            },
        }
    }
}

/// A start and a target.
type Course = ([i32; 3], [i32; 3]);

const COURSES: [Course; 8] = [
    ([0, 0, 0], [0, 0, 0]),
    ([0, 0, 7], [1, -1, 5]),
    ([10, 20, 30], [-10, -20, -30]),
    ([-40_000, 40_000, 40_000], [40_000, -40_000, 0]),
    ([40_000, -40_000, -40_000], [-40_000, 40_000, 40_000]),
    ([-12_046, 1234, -39_999], [39_037, 1235, 40_000]),
    ([2047, -2049, -1], [4095, -4097, 1]),
    ([31_415, -27_182, 16_384], [-14_142, 17_320, -22_360]),
];

/// Every progress with every height, from 60 starts: those above and others at random.
fn every_height(judge: &Judge, near: &mut Nearness) -> Count {
    let mut count = Count::default();
    let mut r = Random(0xd1b5_4a32_d192_ed03);
    let others = (COURSES.len()..60).map(|_| r.good()).map(|s| (s.start, s.target));
    for (start, target) in COURSES.into_iter().chain(others) {
        for progress in 0..=2048 {
            for height in 0..=1000 {
                let s = Step { start, target, height, progress };
                if let Some(whole) = count.run(judge, &s, [1, 2, 3]) {
                    near.take(&s, whole);
                }
            }
        }
    }
    count.print("every progress with every height, 60 starts");
    count
}

/// Every progress with every way from start to target, x upwards and y downwards.
fn every_way(judge: &Judge) -> Count {
    let mut count = Count::default();
    for progress in 0..=2048 {
        for way in 0..=80_000 {
            let from = -40_000 + (way * 7919 + progress * 31) % (80_001 - way);
            let s = Step { start: [from, from + way, 0], target: [from + way, from, 0], height: 1000, progress };
            count.run(judge, &s, [1, 2, 3]);
        }
    }
    count.print("every progress with every way sideways");
    count
}

/// Steps at random; the lines and answers of the first of them.
fn at_random(judge: &Judge, near: &mut Nearness, steps: u64, sample: u64) -> (Count, String, String) {
    let (mut count, mut lines, mut answers) = (Count::default(), String::new(), String::new());
    let mut r = Random(0x9e37_79b9_7f4a_7c15);
    for k in 0..steps {
        let s = r.step();
        let before = [r.any(), r.any(), r.any()];
        if let Some(whole) = count.run(judge, &s, before) {
            near.take(&s, whole);
        }
        if k < sample {
            let ([sx, sy, sz], [tx, ty, tz]) = (s.start, s.target);
            writeln!(lines, "wstep {sx} {sy} {sz} {tx} {ty} {tz} {} {}", s.height, s.progress).unwrap();
            match answered(&s, before) {
                (0, [x, y, z]) => writeln!(answers, "ok {x} {y} {z}").unwrap(),
                (n, _) => writeln!(answers, "R {n}").unwrap(),
            }
        }
    }
    count.print("at random");
    (count, lines, answers)
}

// The same in plain Rust: the same looks, the table a constant.
mod theirs {
    use super::Step;

    const fn sine(x: f64) -> f64 {
        let (mut sum, mut term, mut n) = (x, x, 1.0);
        while n < 31.0 {
            term = -term * x * x / ((n + 1.0) * (n + 2.0));
            sum += term;
            n += 2.0;
        }
        sum
    }

    const fn sines() -> [u16; 1025] {
        let (mut table, mut k) = ([0; 1025], 0);
        while k < 1025 {
            table[k] = (16384.0 * sine(k as f64 * (13_176_795.0 / 8_589_934_592.0)) + 0.5) as u16;
            k += 1;
        }
        table
    }

    pub const SINES: [u16; 1025] = sines();

    fn is_place(p: [i32; 3]) -> bool {
        p.iter().all(|c| (-40_000..=40_000).contains(c))
    }

    fn sideways(start: i32, target: i32, progress: i32) -> i32 {
        start + (((target - start) * progress) >> 11)
    }

    #[inline(never)]
    pub extern "C" fn step(
        sx: i32, sy: i32, sz: i32, tx: i32, ty: i32, tz: i32, height: i32, progress: i32, x: &mut i32, y: &mut i32, z: &mut i32,
    ) -> u32 {
        let (start, target) = ([sx, sy, sz], [tx, ty, tz]);
        if !(is_place(start) && is_place(target) && (0..=1000).contains(&height) && (0..=2048).contains(&progress)) {
            return 2;
        }
        if progress == 2048 {
            [*x, *y, *z] = target;
            return 0;
        }
        let e = SINES[if progress <= 1024 { progress } else { 2048 - progress } as usize] as i32;
        [*x, *y, *z] = [sideways(sx, tx, progress), sideways(sy, ty, progress), sz + ((height * e) >> 14)];
        0
    }

    /// A step by the plain program, as `answered`.
    pub fn answered(s: &Step, before: [i32; 3]) -> (u32, [i32; 3]) {
        let ([sx, sy, sz], [tx, ty, tz], [mut x, mut y, mut z]) = (s.start, s.target, before);
        let n = step(sx, sy, sz, tx, ty, tz, s.height, s.progress, &mut x, &mut y, &mut z);
        (n, [x, y, z])
    }
}

/// Nanoseconds a step of one round.
fn round(inputs: &[Step], step: impl Fn(&Step, [i32; 3]) -> (u32, [i32; 3])) -> f64 {
    let began = Instant::now();
    for s in inputs {
        black_box(step(black_box(s), [0; 3]));
    }
    began.elapsed().as_nanos() as f64 / inputs.len() as f64
}

fn times(rounds: u64) {
    let mut r = Random(0x2545_f491_4f6c_dd1d);
    for (what, inputs) in [
        ("good steps", (0..1024).map(|_| r.good()).collect::<Vec<_>>()),
        ("steps at random", (0..1024).map(|_| r.step()).collect()),
    ] {
        assert!(inputs.iter().all(|s| answered(s, [0; 3]) == theirs::answered(s, [0; 3])), "the plain program answers otherwise");
        let (mut ours, mut rust) = (f64::INFINITY, f64::INFINITY);
        for _ in 0..rounds {
            ours = ours.min(round(&inputs, answered));
            rust = rust.min(round(&inputs, theirs::answered));
        }
        println!("{what}: {ours:.2} ns, Rust {rust:.2} ns, ratio {:.2}", ours / rust);
    }
}

fn main() {
    let word = |k| std::env::args().nth(k).expect("wholes STEPS ROUNDS SAMPLE LINES ANSWERS");
    let number = |k| word(k).parse().expect("a number");
    let judge = Judge::new();
    assert!(judge.table.iter().zip(&theirs::SINES).all(|(a, b)| *a == *b as i64), "two tables");
    let none = Random(1).good();
    let mut near = Nearness { sideways: Range::new(none), upwards: Range::new(none) };
    let (random, lines, answers) = at_random(&judge, &mut near, number(1), number(3));
    let wrong = random.wrong + every_height(&judge, &mut near).wrong + every_way(&judge).wrong;
    near.sideways.print("x and y");
    near.upwards.print("z");
    times(number(2));
    std::fs::write(word(4), lines).expect("lines");
    std::fs::write(word(5), answers).expect("answers");
    if wrong > 0 {
        std::process::exit(1);
    }
}
