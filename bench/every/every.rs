// Runs every entry of the proved library: special values in several argument positions at once (`whole` says how many), in
// all of them where there are few, then random calls.
// Usage: every CHEAP COSTLY [ENTRY]. A line an entry; the last line has the inputs tried and the failures.
mod entries;
mod judge;
use entries::*;
use judge::*;
use std::sync::Mutex;
use std::thread;

extern "C" {
    fn probe_pattern(bits: u32, out: &mut u32) -> u32;
    fn probe_default(out: *mut f32, m: usize, seconds: &mut u64, nanoseconds: &mut u32) -> u32;
    fn probe_invert(t: u32) -> u32;
    fn probe_flag(t: u32) -> u32;
}

struct Random(u64);

impl Random {
    #[inline(always)]
    fn next(&mut self) -> u64 {
        self.0 ^= self.0 << 13;
        self.0 ^= self.0 >> 7;
        self.0 ^= self.0 << 17;
        self.0
    }
    fn below(&mut self, n: usize) -> usize {
        ((self.next() >> 32) as usize * n) >> 32
    }
    fn of<T: Copy>(&mut self, list: &[T]) -> T {
        list[self.below(list.len())]
    }
}

/// A float's neighbour, one ulp further from zero where `out`, else nearer.
fn neighbour(x: f32, out: bool) -> f32 {
    let b = x.to_bits();
    f32::from_bits(if b & 0x7fff_ffff == 0 { b | 1 } else if out { b + 1 } else { b - 1 })
}

/// Zeros, subnormals, ends, one ulp past and short of them, NaNs, infinities, plain values.
fn special(row: Row) -> Vec<f32> {
    let mut all: Vec<f32> = [
        0, 1, 0x7f_ffff, 0x80_0000, 0x3400_0000, 0x33ff_ffff, 0x3f00_0000, 0x7f7f_ffff, 0x7f80_0000, 0x7f80_0001, 0x7fc0_0000, 0x7fff_ffff,
    ]
    .iter()
    .flat_map(|&b: &u32| [f32::from_bits(b), f32::from_bits(b | 0x8000_0000)])
    .collect();
    for end in [row.0, row.1] {
        all.extend([end, neighbour(end, true), neighbour(end, false)]);
    }
    all.push(row.0 + (row.1 / 4.0 - row.0 / 4.0));
    all.push(row.1 - (row.1 / 4.0 - row.0 / 4.0));
    all.sort_by_key(|x| x.to_bits());
    all.dedup_by_key(|x| x.to_bits());
    all
}

/// Sixteen of them: zeros, a subnormal of either sign, ends, one ulp past and short of them, NaNs, infinities, a plain value.
fn few(row: Row) -> Vec<f32> {
    let mut all: Vec<f32> = [0, 0x8000_0000, 1, 0x807f_ffff, 0x7f80_0000, 0xff80_0000, 0x7f80_0001, 0x7fc0_0000, 0xffc0_0000].map(f32::from_bits).to_vec();
    for end in [row.0, row.1] {
        all.extend([end, neighbour(end, true), neighbour(end, false)]);
    }
    if row.0 == 0.0 {
        all.push(-f32::from_bits(1));
    }
    all.push(row.0 * 0.3 + row.1 * 0.7);
    all.sort_by_key(|x| x.to_bits());
    all.dedup_by_key(|x| x.to_bits());
    all
}

fn permits(row: Row, x: f32) -> bool {
    row.0 <= x && x <= row.1
}

/// An argument position.
#[derive(Clone, Copy)]
enum Place {
    Float(usize),
    Marks,
    Lent,
    Mask,
    Count,
    Tripod,
    Flag,
    Elapsed,
    Period,
}

/// The special values of each position.
struct Lists {
    floats: Vec<Vec<f32>>,
    marks: Vec<u32>,
    lent: Vec<u64>,
    masks: Vec<u32>,
    counts: Vec<usize>,
    elapsed: Vec<Time>,
    period: Vec<Time>,
}

/// Marks of up to three rows: none, all, one leg's, a row's, a tripod's.
fn special_marks() -> Vec<u32> {
    (0..18).map(|k| 1 << k).chain([0, u32::MAX, 63, 63 << 6, 63 << 12, 0o25_25_25, 0o31_31_31, 0o46_46_46]).collect()
}

/// Those of lent values: none, all, one, the first six.
fn special_lent() -> Vec<u64> {
    (0..7).chain([62, 63]).map(|k| 1 << k).chain([0, u64::MAX, 63]).collect()
}

impl Lists {
    fn wide(rows: &[Row]) -> Lists {
        let mut times = vec![];
        // 18446744074 s are 0.29 s in 64 bits of nanoseconds
        for s in [0, 1, 2, 59, 60, 61, 3599, 3600, 3601, 1 << 24, u32::MAX as u64, 1 << 32, (1 << 32) + 1, 18446744073, 18446744074, 1 << 63, u64::MAX] {
            for ns in [0, 1, 999_999, 1_000_000, 1_000_001, 16_777_217, 500_000_000, 999_999_999, 1_000_000_000, u32::MAX] {
                times.push(Time { s, ns });
            }
        }
        Lists {
            floats: rows.iter().map(|&r| special(r)).collect(),
            marks: special_marks(),
            lent: special_lent(),
            masks: (0..=80).chain([127, 128, 255, 256, 0x8000_0000, u32::MAX - 63, u32::MAX]).collect(),
            counts: (0..=66).chain([usize::MAX]).collect(),
            elapsed: times.clone(),
            period: times,
        }
    }

    fn few(rows: &[Row]) -> Lists {
        let times = |all: &[(u64, u32)]| all.iter().map(|&(s, ns)| Time { s, ns }).collect();
        let (last, over) = (999_999_999, 1_000_000_000);
        Lists {
            floats: rows.iter().map(|&r| few(r)).collect(),
            marks: special_marks(),
            lent: special_lent(),
            masks: vec![0, 1, 21, 32, 42, 62, 63, 64, 65, 127, 256, 0x8000_0000, u32::MAX - 63, u32::MAX],
            counts: (0..=7).chain([8, 63, 64, 65, usize::MAX]).collect(),
            elapsed: times(&[(0, 0), (0, 1), (0, last), (0, over), (0, u32::MAX), (1, 0), (3600, 0), (3600, last), (3600, over), (3601, 0), (1 << 32, 0), (u64::MAX, 0)]),
            period: times(&[
                (0, 0), (0, 999_999), (0, 1_000_000), (0, 1_000_001), (0, 500_000_000), (0, over), (0, u32::MAX), (1, 0), (59, last), (59, over), (60, 0), (60, 1), (61, 0), (18446744074, 0), (u64::MAX, 0),
            ]),
        }
    }

    fn len(&self, place: Place) -> usize {
        match place {
            Place::Float(k) => self.floats[k].len(),
            Place::Marks => self.marks.len(),
            Place::Lent => self.lent.len(),
            Place::Mask => self.masks.len(),
            Place::Count => self.counts.len(),
            Place::Tripod | Place::Flag => 2,
            Place::Elapsed => self.elapsed.len(),
            Place::Period => self.period.len(),
        }
    }

    fn put(&self, place: Place, at: usize, input: &mut Input) {
        match place {
            Place::Float(k) => input.f[k] = self.floats[k][at],
            Place::Marks => input.marks = self.marks[at],
            Place::Lent => input.lent = self.lent[at],
            Place::Mask => input.mask = self.masks[at],
            Place::Count => input.count = self.counts[at],
            Place::Tripod => input.tripod = at as u32,
            Place::Flag => input.aggressive = at as u32,
            Place::Elapsed => input.elapsed = self.elapsed[at],
            Place::Period => input.period = self.period[at],
        }
    }
}

struct Run {
    entry: Entry,
    /// All special values, and the fewer that are taken in more positions at once.
    wide: Lists,
    few: Lists,
    permitted: Vec<Vec<f32>>,
    floats: Vec<Place>,
    marks: Vec<Place>,
    others: Vec<Place>,
    input: Input,
    random: Random,
    tried: u64,
    answered: u64,
    failed: u64,
    worst: Worst,
}

impl Run {
    fn new(entry: Entry) -> Run {
        let wide = Lists::wide(&entry.rows);
        let permitted = entry.rows.iter().zip(&wide.floats).map(|(&r, all)| all.iter().copied().filter(|&x| permits(r, x)).collect()).collect();
        let none = Time { s: 0, ns: 0 };
        let t = entry.takes;
        let marks = [(t.marks, Place::Marks), (t.count, Place::Lent)];
        let others = [(t.mask, Place::Mask), (t.count, Place::Count), (t.tripod, Place::Tripod), (t.flag, Place::Flag), (t.elapsed, Place::Elapsed), (t.period, Place::Period)];
        Run {
            input: Input { f: [0.0; 210], marks: 0, lent: 0, mask: 0, count: 0, tripod: 0, aggressive: 0, elapsed: none, later: none, period: none },
            random: Random(0x9e37_79b9_7f4a_7c15),
            few: Lists::few(&entry.rows),
            floats: (0..entry.rows.len()).map(Place::Float).collect(),
            marks: marks.iter().filter(|m| m.0).map(|m| m.1).collect(),
            others: others.iter().filter(|o| o.0).map(|o| o.1).collect(),
            tried: 0,
            answered: 0,
            failed: 0,
            worst: Worst(0.0),
            entry,
            wide,
            permitted,
        }
    }

    /// How many of the floats the entry is given: of an update's points those that are lent.
    fn used(&self) -> usize {
        if self.entry.takes.count { 18 + 3 * self.input.count.min(64) } else { self.entry.rows.len() }
    }

    /// A call; at times once more with those marks turned that mean nothing.
    fn call(&mut self) {
        self.judged();
        if self.entry.takes.idle != 0 && self.random.next() >> 61 == 0 {
            self.input.marks ^= self.entry.takes.idle;
            self.judged();
        }
    }

    fn judged(&mut self) {
        let want = self.entry.refusal(&self.input);
        self.tried += 1;
        self.answered += (want == 0) as u64;
        if !(self.entry.check)(&self.input, want, &mut self.worst) {
            self.failed += 1;
            if self.failed <= 3 {
                let i = &self.input;
                let bits: Vec<String> = i.f[..self.entry.rows.len()].iter().map(|x| format!("{:08x}", x.to_bits())).collect();
                println!(
                    "{}: want {want}: {} marks {:o} lent {:x} mask {} count {} tripod {} aggressive {} {:?} {:?} later {:?}",
                    self.entry.name, bits.join(" "), i.marks, i.lent, i.mask, i.count, i.tripod, i.aggressive, i.elapsed, i.period, i.later
                );
            }
        }
    }

    /// A permitted float: mostly anywhere between the ends, at times of any size, at times special.
    #[inline(always)]
    fn draw(&mut self, k: usize) -> f32 {
        let row = self.entry.rows[k];
        let r = self.random.next();
        if r & 7 == 0 {
            let x = f32::from_bits((r >> 32) as u32);
            if permits(row, x) {
                return x;
            }
        } else if r & 31 == 1 {
            return self.permitted[k][(r >> 8) as usize % self.permitted[k].len()];
        }
        let part = (r >> 40) as f32 / 16777216.0;
        row.0 * (1.0 - part) + row.1 * part
    }

    /// A permitted elapsed time, mostly within the period.
    fn draw_elapsed(&mut self) -> Time {
        let r = self.random.next();
        let most = if r & 3 == 0 { 3_600_999_999_999 } else { self.input.period.s * 1_000_000_000 + self.input.period.ns as u64 };
        let all = if r & 60 == 0 { most / 2 } else { (r >> 8) % (most + 1) };
        Time { s: all / 1_000_000_000, ns: (all % 1_000_000_000) as u32 }
    }

    /// Permitted everything; of an update's points those that are lent.
    fn draw_all(&mut self) {
        let (takes, r) = (self.entry.takes, self.random.next());
        if takes.mask {
            self.input.mask = r as u32 & 63;
            self.input.count = self.input.mask.count_ones() as usize;
        }
        for k in 0..self.used() {
            self.input.f[k] = self.draw(k);
        }
        if takes.marks {
            let m = self.random.next();
            self.input.marks = if m & 7 == 0 { self.random.of(&self.wide.marks) } else { (m >> 32) as u32 };
            self.input.lent = if m & 56 == 0 { self.random.of(&self.wide.lent) } else { self.random.next() };
        }
        self.input.tripod = (r >> 6) as u32 & 1;
        self.input.aggressive = (r >> 7) as u32 & 1;
        if takes.period {
            let all = 1_000_000 + (r >> 8) % 59_999_000_001;
            let all = if r & 32 == 0 { all / 32 + 968_750 } else { all };
            self.input.period = Time { s: all / 1_000_000_000, ns: (all % 1_000_000_000) as u32 };
            self.input.elapsed = self.draw_elapsed();
            self.input.later = self.draw_elapsed();
        }
    }

    /// Lends the point that has float k: as many as the mask has ones where that suffices, else any number; the points permitted.
    fn lend(&mut self, k: usize) {
        let need = (k.max(17) - 17).div_ceil(3);
        let r = self.random.next();
        if need <= 6 && r & 3 != 0 {
            while (self.input.mask.count_ones() as usize) < need || self.input.mask > 63 {
                self.input.mask = self.random.next() as u32 & 63;
            }
            self.input.count = self.input.mask.count_ones() as usize;
        } else {
            self.input.count = need + self.random.below(65 - need);
        }
        for k in 18..18 + 3 * self.input.count {
            self.input.f[k] = self.draw(k);
        }
    }

    /// Makes what belongs together nearly equal, so that feet arrive, stand, and are within a move of each other.
    fn twin(&mut self) {
        for t in 0..self.entry.twins.len() {
            let (from, to, len) = self.entry.twins[t];
            let r = self.random.next();
            let scale = if r & 3 == 0 { 0.0 } else { 0.5f32.powi((r >> 8) as i32 & 31) };
            for k in 0..len {
                let (x, r) = (self.input.f[from + k], self.random.next());
                let near = if r & 7 == 0 { neighbour(x, r & 8 != 0) } else { x + scale * ((r >> 40) as f32 / 16777216.0 - 0.5) };
                let near = if x == 0.0 && r & 16 == 0 { -x } else { near };
                if permits(self.entry.rows[to + k], near) && (r & 32 == 0 || scale != 0.0) {
                    self.input.f[to + k] = near;
                }
            }
        }
        // walks of many steps
        if self.entry.rows.last() == Some(&WALK_MOVE) && self.random.next() & 7 == 0 {
            let last = self.entry.rows.len() - 1;
            self.input.f[last] *= 0.03125;
            self.input.f[last] = self.input.f[last].max(WALK_MOVE.0);
        }
        if self.entry.name.ends_with("inverse kinematics") {
            (0..6).for_each(|l| self.aim(l));
        }
        if self.entry.name == "strict inverse kinematics" {
            let at = self.random.next();
            (0..6).for_each(|l| self.put(l, at));
        }
    }

    /// Half of the floats that may be zero are, of either sign.
    fn zeros(&mut self) {
        for k in 0..self.used() {
            let r = self.random.next();
            if r & 32 == 0 && permits(self.entry.rows[k], 0.0) {
                self.input.f[k] = if r & 64 == 0 { 0.0 } else { -0.0 };
            }
        }
    }

    /// A step by distance that stands at its start, and a move of half of the longest way.
    fn half_way(&mut self) {
        for k in 0..18 {
            self.input.f[18 + k] = self.input.f[k];
            self.input.f[36 + k] = self.input.f[k] * 0.75;
        }
        let f = &mut self.input.f;
        f[54] = (0..6).map(|l| (f[3 * l] - f[36 + 3 * l]).hypot(f[3 * l + 1] - f[37 + 3 * l])).fold(0.0, f32::max) * 0.5;
    }

    /// A step straight up or down: the targets have their starts' x and y, zeros with either sign, and at times their z; some feet are there.
    fn straight(&mut self) {
        let to = match self.entry.rows.len() {
            56 => 36,
            38 => 18,
            _ => return,
        };
        let level = self.random.next() & 7 == 0;
        for k in 0..18 {
            let (x, r) = (self.input.f[k], self.random.next());
            if k % 3 != 2 || level {
                self.input.f[to + k] = if x == 0.0 && r & 1 == 0 { -x } else { x };
            }
        }
        let there = self.random.next();
        for l in (0..6).filter(|l| to == 36 && there >> l & 1 == 0) {
            (0..3).for_each(|k| self.input.f[18 + 3 * l + k] = self.input.f[36 + 3 * l + k]);
        }
    }

    /// Foot l of the row at `from` is put into the row at `to`: zeros with either sign, where `near` at times an x or y beside it.
    fn set(&mut self, l: usize, from: usize, to: usize, near: bool) {
        for k in 3 * l..3 * l + 3 {
            let (x, r) = (self.input.f[from + k], self.random.next());
            let beside = neighbour(x, r & 8 != 0);
            let x = if near && k % 3 != 2 && r & 7 == 0 && permits(FOOT, beside) { beside } else { x };
            self.input.f[to + k] = if x == 0.0 && r & 16 == 0 { -x } else { x };
        }
    }

    /// Feet that are there and feet that come there: last is at the target in some legs, at times in all. Of a step some feet start at
    /// their target, or beside it, and without height they come there at once; at times the step is over.
    fn landing(&mut self) {
        let n = self.entry.rows.len();
        let (last, target) = match n {
            37 | 38 => (0, 18),
            56 => (18, 36),
            _ => return,
        };
        let r = self.random.next();
        let by_distance = self.entry.rows[n - 2] == MAX_MOVE;
        if n != 37 && by_distance && r & 3 == 0 {
            (0..18).for_each(|k| self.input.f[target + k] = self.input.f[k] + (self.input.f[target + k] - self.input.f[k]) * 0.0625);
            self.input.f[n - 2] = 1.0;
        }
        if n != 37 && r & 4 == 0 {
            self.input.f[if by_distance { n - 1 } else { n - 2 }] = if r & 8 == 0 { 0.0 } else { -0.0 };
        }
        if r & 0x30 == 0 {
            self.input.elapsed = self.input.period;
        }
        if r & 0xc0 == 0 {
            self.input.later = self.input.period;
        }
        let there = if r & 0x700 == 0 { 63 } else { (r >> 16) & (r >> 24) };
        for l in 0..6 {
            if n == 56 && r >> 32 >> l & 1 == 0 {
                self.set(l, target, 0, true);
            }
            if there >> l & 1 == 1 {
                self.set(l, target, last, false);
            }
        }
    }

    /// Leg l of an inverse: its coxa points at its foot, at times about a right angle off, to either side, at times the reach is 0.
    fn aim(&mut self, l: usize) {
        let (r, at) = (self.random.next(), 23 + 6 * l);
        let f = &mut self.input.f;
        for k in 0..3 {
            f[at + k] = f[3 * l + k] * 0.5;
        }
        let right = if r & 128 == 0 { 90f32 } else { -90f32 };
        let away = -(f[3 * l + 1] - f[at + 1]).atan2(f[3 * l] - f[at]);
        f[at + 3] = away + 1.7 * (f[at + 3] / 4.0);
        match r & 63 {
            0 => (f[at], f[at + 3]) = (f[3 * l], 0.0),
            1 => f[at + 3] = neighbour(away + right.to_radians(), r & 64 != 0),
            2 => (f[3 * l], f[3 * l + 1], f[3 * l + 2], f[at], f[at + 1], f[at + 2], f[20]) = (f[18], 0.0, 0.0, 0.0, 0.0, 0.0, f[19]),
            _ => (),
        }
    }

    /// Leg l of a strict inverse: its foot is put within reach of its coxa's end, at times at an end of the reach or a place past it, at times
    /// well out of it.
    fn put(&mut self, l: usize, six: u64) {
        let (r, at) = (self.random.next(), 23 + 6 * l);
        let f = &mut self.input.f;
        let (far, near) = (f[19] + f[20], (f[19] - f[20]).abs());
        let part = (r >> 40) as f32 / 16777216.0;
        let (down, straight) = ((r >> 16 & 255) as f32 / 64.0, six & 3 == 0);
        let d = match r & 63 {
            0 => far * 1.25,
            1 => near * 0.75,
            2..=4 => neighbour(far, r & 64 != 0),
            5..=7 => neighbour(near, r & 64 != 0),
            8..=23 if straight => far,
            24..=39 if straight => near,
            _ => near + (far - near) * part,
        };
        let (sideways, up) = if straight { (f[18] + d, 0.0) } else { (f[18] + d * down.sin().abs(), d * down.cos()) };
        let turn = 1.3 * (part - 0.5) - f[at + 3];
        if straight {
            (f[at], f[at + 1], f[at + 2], f[at + 3]) = (0.0, 0.0, 0.0, 0.0);
            (f[3 * l], f[3 * l + 1], f[3 * l + 2]) = (sideways, 0.0, up);
        } else {
            (0..3).for_each(|k| f[at + k] *= 0.25);
            (f[3 * l], f[3 * l + 1], f[3 * l + 2]) = (f[at] + sideways * turn.cos(), f[at + 1] + sideways * turn.sin(), f[at + 2] + up);
        }
    }

    fn lists(&self, wide: bool) -> &Lists {
        if wide { &self.wide } else { &self.few }
    }

    /// Permitted points wherever an update may lend one.
    fn draw_lent(&mut self) {
        if self.entry.takes.count {
            for k in 18..self.entry.rows.len() {
                self.input.f[k] = self.draw(k);
            }
        }
    }

    /// Every way to put special values into k of these positions at once, what else there is permitted.
    fn specials(&mut self, k: usize, places: &[Place], wide: bool) {
        let n = places.len();
        let mut at: Vec<usize> = (0..k).collect();
        loop {
            let chosen: Vec<Place> = at.iter().map(|&p| places[p]).collect();
            self.draw_lent();
            self.product(&chosen, wide);
            let Some(j) = (0..k).rev().find(|&j| at[j] < n - k + j) else { return };
            at[j] += 1;
            for m in j + 1..k {
                at[m] = at[m - 1] + 1;
            }
        }
    }

    /// Whether this is a walk in which a coordinate is more than 256 moves from its target.
    fn is_long(&self) -> bool {
        let (f, half) = (&self.input.f, self.entry.rows.len() / 2);
        let far = || f[2 * half] < 0.01 && (0..half).any(|k| (f[half + k] - f[k]).abs() > 256.0 * f[2 * half]);
        self.entry.rows.last() == Some(&WALK_MOVE) && far() && self.entry.refusal(&self.input) == 0
    }

    /// All special values in these positions at once, of long walks one in eight. What else there is is drawn anew for every
    /// sixteenth call.
    fn product(&mut self, places: &[Place], wide: bool) {
        let all = places.len() == self.floats.len() + self.marks.len() + self.others.len();
        let last = places.iter().filter_map(|p| if let Place::Float(k) = p { Some(*k) } else { None }).max().unwrap_or(0);
        let sizes: Vec<usize> = places.iter().map(|&p| self.lists(wide).len(p)).collect();
        let mut digits = vec![0; places.len()];
        for turn in 0u64.. {
            if turn == 0 || (turn % 16 == 0 && !all) {
                self.draw_all();
                if self.entry.takes.count {
                    self.lend(last);
                }
                let lists = if wide { &self.wide } else { &self.few };
                places.iter().zip(&digits).for_each(|(&p, &d)| lists.put(p, d, &mut self.input));
            }
            if !self.is_long() || self.random.next() >> 61 == 0 {
                self.call();
            }
            if !self.advance(places, &sizes, &mut digits, wide) {
                return;
            }
        }
    }

    /// The next combination of special values, if there is one.
    fn advance(&mut self, places: &[Place], sizes: &[usize], digits: &mut [usize], wide: bool) -> bool {
        let lists = if wide { &self.wide } else { &self.few };
        for j in 0..places.len() {
            digits[j] = if digits[j] + 1 == sizes[j] { 0 } else { digits[j] + 1 };
            lists.put(places[j], digits[j], &mut self.input);
            if digits[j] != 0 {
                return true;
            }
        }
        false
    }

    /// Every special mask, count, tripod, flag and time at once, with permitted floats, and with special values among them:
    /// each in each position, or else two somewhere.
    fn combined(&mut self, each: bool) {
        let places = self.others.clone();
        let sizes: Vec<usize> = places.iter().map(|&p| self.wide.len(p)).collect();
        let mut digits = vec![0; places.len()];
        loop {
            self.draw_all();
            self.draw_lent();
            places.iter().zip(&digits).for_each(|(&p, &d)| self.wide.put(p, d, &mut self.input));
            self.call();
            let n = self.used();
            let some: Vec<usize> = if each { (0..n).collect() } else { (0..n.min(2)).map(|_| self.random.below(n)).collect() };
            for k in some {
                let held = self.input.f[k];
                let from = if each { 0 } else { self.random.below(self.few.floats[k].len()) };
                let to = if each { self.few.floats[k].len() } else { from + 1 };
                for v in from..to {
                    self.input.f[k] = self.few.floats[k][v];
                    self.call();
                }
                self.input.f[k] = held;
            }
            if !self.advance(&places, &sizes, &mut digits, true) {
                return;
            }
        }
    }

    fn random_call(&mut self) {
        self.draw_all();
        let (n, r) = (self.used(), self.random.next());
        if r & 3 == 0 {
            self.twin();
        }
        match r >> 8 & 31 {
            0 => (0..n).for_each(|k| self.input.f[k] = f32::from_bits(self.random.next() as u32)),
            1..=3 if n > 0 => {
                let k = self.random.below(n);
                self.input.f[k] = f32::from_bits(self.random.next() as u32);
            }
            4..=6 if n > 0 => {
                for _ in 0..2 {
                    let k = self.random.below(n);
                    self.input.f[k] = self.random.of(&self.wide.floats[k]);
                }
            }
            7 => self.input.mask = self.random.next() as u32,
            8 => {
                self.input.count = self.random.below(67);
                (n..self.used()).for_each(|k| self.input.f[k] = self.draw(k));
            }
            9 => self.input.period = Time { s: self.random.next() >> (r >> 16 & 63), ns: self.random.next() as u32 },
            10 => self.input.elapsed = Time { s: self.random.next() >> (r >> 16 & 63), ns: self.random.next() as u32 },
            11 => (self.input.elapsed, self.input.period) = (self.random.of(&self.wide.elapsed), self.random.of(&self.wide.period)),
            12 => self.input.mask = self.random.of(&self.wide.masks),
            13 => self.zeros(),
            14 if self.entry.name == "step by distance" => self.half_way(),
            15 => self.input.later = self.random.of(&self.wide.elapsed),
            16 => self.straight(),
            17..=20 => self.landing(),
            _ => (),
        }
        self.call();
    }
}

/// Bits to a float and back: the same bits, or no number.
fn patterns(step: u32) -> (u64, u64) {
    let (mut b, mut tried, mut failed) = (0u32, 0, 0);
    loop {
        let mut out = 7;
        let n = unsafe { probe_pattern(b, &mut out) };
        failed += ((n, out) != if f32::from_bits(b).is_nan() { (1, 7) } else { (0, b) }) as u64;
        tried += 1;
        match b.checked_add(step) {
            Some(next) => b = next,
            None => return (tried, failed),
        }
    }
}

/// The default command, and the tripods.
fn constants() -> (u64, u64) {
    let (mut out, mut s, mut ns) = ([7.0f32; 4], 0, 0);
    let n = unsafe { probe_default(out.as_mut_ptr(), 4, &mut s, &mut ns) };
    let plain = (n, s, ns, out.map(f32::to_bits)) == (0, 0, 600_000_000, [0, 0, 0, 0.03f32.to_bits()]);
    let tripods = unsafe { [probe_invert(0), probe_invert(1), probe_flag(0), probe_flag(1)] } == [1, 0, 21, 42];
    (5, !plain as u64 + !tripods as u64)
}

fn report(name: &str, tried: u64, permitted: u64, failed: u64, note: String) {
    println!("{name:20} {tried:>12} inputs, {permitted:>11} of them permitted, {failed} failures{note}");
}

/// All that is tried of an entry. Special values: in all positions at once where there are four or fewer; where there are up
/// to seven, in four at once, and fewer of them in all; where there are more, in two at once, and fewer of them in three. A
/// short run takes less: up to four of seven, two of more; a shorter one up to two of seven, one of more.
fn whole(entry: Entry, cheap: u64, costly: u64) -> Run {
    let mut run = Run::new(entry);
    let depth = (cheap >= 1_000_000) as usize + (cheap >= 100_000_000) as usize;
    let mut places = [run.floats.clone(), run.marks.clone(), run.others.clone()].concat();
    let together = match places.len() {
        0..=4 => places.len(),
        5..=7 => [2, 4, 4][depth],
        _ => [1, 2, 2][depth],
    };
    (1..=together).for_each(|k| run.specials(k, &places, true));
    if depth == 2 && places.len() > 4 {
        let most = if places.len() > 7 { 3 } else { places.len() };
        // of 64 lent points the first eight
        if run.entry.takes.count {
            places.retain(|p| !matches!(p, Place::Float(42..)));
        }
        run.specials(most, &places, false);
    }
    run.combined(depth == 2);
    for _ in 0..if run.entry.costly { costly } else { cheap } {
        run.random_call();
    }
    run
}

fn main() {
    let words: Vec<String> = std::env::args().skip(1).collect();
    let count = |k: usize, usual: u64| words.get(k).and_then(|s| s.parse().ok()).unwrap_or(usual);
    let (cheap, costly) = (count(0, 1_000_000), count(1, 100_000));
    let (mut tried, mut failed) = (0, 0);
    if words.len() < 3 {
        let step = if cheap < 100_000_000 { 997 } else { 1 };
        for (name, (t, f)) in [("bits and back", patterns(step)), ("constants", constants())] {
            report(name, t, t, f, String::new());
            (tried, failed) = (tried + t, failed + f);
        }
    }
    let left = Mutex::new(entries().into_iter().filter(|e| words.get(2).is_none_or(|name| name == e.name)));
    let sums = Mutex::new((tried, failed));
    let work = || loop {
        let Some(entry) = left.lock().unwrap().next() else { return };
        let run = whole(entry, cheap, costly);
        let mut sums = sums.lock().unwrap();
        *sums = (sums.0 + run.tried, sums.1 + run.failed);
        let far = if run.worst.0 > 0.0 { format!(", largest distance 2^{:.2}", run.worst.0.log2()) } else { String::new() };
        report(run.entry.name, run.tried, run.answered, run.failed, far);
    };
    thread::scope(|s| (0..thread::available_parallelism().map_or(1, |n| n.get())).for_each(|_| drop(s.spawn(work))));
    let (tried, failed) = *sums.lock().unwrap();
    println!("{tried} inputs, {failed} failures");
    std::process::exit((failed != 0) as i32);
}
