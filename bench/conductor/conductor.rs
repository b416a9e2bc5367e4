// The gait conductor as tools/native-lib compiles it, through C and by value, against a plain reading of its rules over the library's own
// functions (reading.rs), to the bit; and its time to theirs.
// conductor CALLS ROUNDS: CALLS calls of gaits, one in six of them with faults: numbers that are NaN, infinite, at and just past their
// limits, flags, lengths, times. Result, state row and joint row are compared whole after each call. Each wrong reading must differ
// somewhere (CALLS 0: none of this). Then `hopper_conduct` and `conducted` by value are timed beside the library's functions, ROUNDS rounds
// by turns, the best counting. Status 1 on a failure.
use reading::{Command, Time, Told, Wrong, LAST, STATE, WRONG};
use std::hint::black_box;
use std::time::Instant;

mod reading;

/// The three functions of examples/conductor.h.
mod c {
    extern "C" {
        pub fn hopper_stand(state: *mut u8, n: u64, feet: *const u8, f: u64, configuration: *const u8, c: u64) -> u32;
        pub fn hopper_command(
            state: *mut u8, n: u64, x: f32, y: f32, rotation: f32, seconds: u64, nanoseconds: u32, height: f32, aggressive: u32,
        ) -> u32;
        pub fn hopper_conduct(state: *mut u8, n: u64, joints: *mut u8, m: u64, seconds: u64, nanoseconds: u32) -> u32;
    }
}

/// A call by value, and the library's functions one by one, on structs (bench/conduct_probe).
mod by_value {
    use super::reading::{Command, State, Time, Told};

    /// The place in a struct of each leg of a row.
    const FIELD: [usize; 6] = [0, 3, 1, 4, 2, 5];

    #[repr(C)]
    #[derive(Clone, Copy, Default)]
    pub struct Foot {
        point: [u32; 3],
        lifted: u8,
    }

    pub type Feet = [Foot; 6];

    #[repr(C)]
    #[derive(Clone, Copy, Default)]
    struct Commanded {
        turn: [u32; 3],
        seconds: u64,
        nanoseconds: u32,
        height: u32,
        aggressive: u8,
    }

    #[repr(C)]
    #[derive(Clone, Copy, Default)]
    struct Configuration {
        body: [u32; 5],
        legs: [[u32; 6]; 6],
    }

    #[repr(C)]
    #[derive(Clone, Copy, Default)]
    pub struct Given {
        feet: [Feet; 4],
        command: Commanded,
        configuration: Configuration,
    }

    /// A state without relaxed feet.
    #[repr(C)]
    #[derive(Clone, Copy, Default)]
    pub struct Course {
        feet: [Feet; 3],
        command: Commanded,
        configuration: Configuration,
    }

    #[repr(C)]
    pub struct Left {
        pub result: u32,
        lifted: u32,
        state: Given,
        feet: Feet,
        joints: [[u32; 3]; 6],
    }

    #[repr(C)]
    pub struct StepApart {
        pub result: u32,
        nanoseconds: u32,
        seconds: u64,
        feet: [Feet; 4],
        joints: [[u32; 3]; 6],
    }

    #[repr(C)]
    pub struct RestApart {
        pub result: u32,
        joints: [[u32; 3]; 6],
    }

    #[repr(C)]
    pub struct PlanApart {
        pub result: u32,
        target: Feet,
        joints: [[u32; 3]; 6],
    }

    extern "C" {
        pub fn probe_conducted(given: Given, lifted: u32, seconds: u64, nanoseconds: u32) -> Left;
        pub fn probe_step_apart(course: Course, lifted: u32, seconds: u64, nanoseconds: u32) -> StepApart;
        pub fn probe_rest_apart(course: Course, lifted: u32, seconds: u64, nanoseconds: u32) -> RestApart;
        pub fn probe_plan_apart(given: Given, lifted: u32, seconds: u64, nanoseconds: u32) -> PlanApart;
    }

    fn by_leg<T: Copy + Default>(row: impl Fn(usize) -> T) -> [T; 6] {
        let mut made = [T::default(); 6];
        (0..6).for_each(|l| made[FIELD[l]] = row(l));
        made
    }

    fn points(joints: &[[u32; 3]; 6]) -> [u32; 18] {
        std::array::from_fn(|k| joints[FIELD[k / 3]][k % 3])
    }

    fn feet_of(feet: &Feet) -> [u32; 18] {
        points(&feet.map(|f| f.point))
    }

    fn marks_of(feet: &Feet) -> [u8; 6] {
        std::array::from_fn(|l| feet[FIELD[l]].lifted)
    }

    pub fn given(s: &State) -> Given {
        let foot = |k: usize, l: usize| Foot { point: std::array::from_fn(|c| s.feet[k][3 * l + c]), lifted: s.marks[k][l] };
        let [x, y, rotation, height] = s.command.floats;
        let Time { seconds, nanoseconds } = s.command.time;
        Given {
            feet: std::array::from_fn(|k| by_leg(|l| foot(k, l))),
            command: Commanded { turn: [x, y, rotation], seconds, nanoseconds, height, aggressive: s.command.aggressive },
            configuration: Configuration {
                body: std::array::from_fn(|k| s.configuration[k]),
                legs: by_leg(|l| std::array::from_fn(|k| s.configuration[5 + 6 * l + k])),
            },
        }
    }

    pub fn course(g: &Given) -> Course {
        Course { feet: std::array::from_fn(|k| g.feet[k]), command: g.command, configuration: g.configuration }
    }

    fn state(g: &Given, lifted: u32) -> State {
        let ([x, y, rotation], c, built) = (g.command.turn, &g.command, &g.configuration);
        State {
            feet: g.feet.each_ref().map(feet_of),
            marks: g.feet.each_ref().map(marks_of),
            lifted: lifted as u8,
            command: Command {
                floats: [x, y, rotation, c.height],
                time: Time { seconds: c.seconds, nanoseconds: c.nanoseconds },
                aggressive: c.aggressive,
            },
            configuration: std::array::from_fn(|k| if k < 5 { built.body[k] } else { built.legs[FIELD[(k - 5) / 6]][(k - 5) % 6] }),
        }
    }

    /// What the call tells, the feet of a step with their marks, and the state after.
    pub fn conducted(s: &State, elapsed: Time) -> (Told, Option<([u32; 18], [u8; 6])>, State) {
        let left = unsafe { probe_conducted(given(s), s.lifted as u32, elapsed.seconds, elapsed.nanoseconds) };
        let n = left.result;
        let told = if n % 256 == 0 { Told::Done(n / 256, points(&left.joints)) } else { Told::Refused(n % 256, n / 256) };
        (told, (n == 0).then(|| (feet_of(&left.feet), marks_of(&left.feet))), state(&left.state, left.lifted))
    }
}

// ---- gaits and faults

struct Random(u64);

impl Random {
    fn next(&mut self) -> u64 {
        self.0 ^= self.0 << 13;
        self.0 ^= self.0 >> 7;
        self.0 ^= self.0 << 17;
        self.0 >> 8
    }

    fn below(&mut self, n: u64) -> u64 {
        self.next() % n
    }

    fn one_in(&mut self, n: u64) -> bool {
        self.below(n) == 0
    }

    fn of<T: Copy>(&mut self, list: &[T]) -> T {
        list[self.below(list.len() as u64) as usize]
    }

    fn between(&mut self, from: f32, to: f32) -> f32 {
        from + (to - from) * (self.below(1 << 24) as f32 / (1 << 24) as f32)
    }
}

const AROUND: [(f32, f32); 6] = [(0.2, 0.16), (0.2, -0.16), (0.0, 0.2), (0.0, -0.2), (-0.2, 0.16), (-0.2, -0.16)];

/// Numbers at which something changes.
const EDGES: [u32; 12] = [
    0, 0x8000_0000, 1, 0x8000_0001, 0x3400_0000, 0x33ff_ffff, 0x3f80_0000, 0xbf80_0000, 0x4080_0000, 0xc080_0000, 0x407f_ffff, 0x3e00_0000,
];

/// Feet and configuration. Of a crawler as they are built, of one that is any size, of one at the edges.
fn crawler(r: &mut Random) -> ([f32; 18], [f32; 41]) {
    let (mut feet, mut config) = ([0.0; 18], [0.0; 41]);
    let sort = r.below(10);
    let (spread, size) = if sort < 6 { (0.02, 1.0) } else { (1.0, r.between(0.2, 14.0)) };
    for (l, (x, y)) in AROUND.into_iter().enumerate() {
        let z = if sort < 6 { -0.12 } else { r.between(-4.0, 4.0) };
        let foot = [x * size + r.between(-spread, spread), y * size + r.between(-spread, spread), z];
        let coxa = [x * 0.4 * size, y * 0.4 * size, 0.0];
        feet[3 * l..3 * l + 3].copy_from_slice(&foot.map(|c| c.clamp(-4.0, 4.0)));
        let turned = -(foot[1] - coxa[1]).atan2(foot[0] - coxa[0]) + if r.one_in(40) { r.between(-2.0, 2.0) } else { r.between(-0.3, 0.3) };
        let leg = [coxa[0], coxa[1], coxa[2], turned.clamp(-4.0, 4.0), r.between(0.0, 3.0), r.between(0.0, 3.0)];
        config[5 + 6 * l..11 + 6 * l].copy_from_slice(&leg.map(|c| c.clamp(-4.0, 4.0)));
    }
    let body = [(0.03, 0.08), (0.05, 0.1), (0.1, 0.2), (-1.0, 1.0), (-1.0, 1.0)];
    config[..5].copy_from_slice(&body.map(|(from, to)| r.between(from, to)));
    if sort == 9 {
        for _ in 0..6 {
            feet[r.below(18) as usize] = f32::from_bits(r.of(&EDGES));
        }
    }
    (feet, config)
}

fn command(r: &mut Random) -> Command {
    let wide = if r.one_in(4) { 1.0 } else { 0.04 };
    let turn = 4.0 * wide;
    let mut floats = [r.between(-wide, wide), r.between(-wide, wide), r.between(-turn, turn), r.between(0.0, wide)].map(f32::to_bits);
    match r.below(8) {
        0 => floats[..3].fill(0),
        // whether it should move hangs on these
        1 => floats[..3].iter_mut().for_each(|f| *f = r.of(&[0, 0x3400_0000, 0xb400_0000, 0x33ff_ffff, 0xb3ff_ffff, 0x8000_0000])),
        2 => floats[3] = r.of(&EDGES) & 0xbfff_ffff,
        _ => {}
    }
    if f32::from_bits(floats[3]).abs() > 1.0 {
        floats[3] = 0;
    }
    let nanoseconds = 1_000_000 + r.below(998_000_000) as u32;
    let time = match r.below(6) {
        0 => Time { seconds: 60, nanoseconds: 0 },
        1 => Time { seconds: 0, nanoseconds: 1_000_000 },
        2 => Time { seconds: r.below(3), nanoseconds },
        _ => Time { seconds: 0, nanoseconds: 600_000_000 },
    };
    Command { floats, time, aggressive: r.one_in(3) as u8 }
}

/// From where to where the float at place k of a row is permitted: feet, command, configuration.
fn limits(k: usize) -> (f32, f32) {
    match k {
        0..72 | 74 => (-4.0, 4.0),
        72..76 => (-1.0, 1.0),
        76..79 => (0.00390625, 1.0),
        79..81 => (-2.0, 2.0),
        _ if (k - 81) % 6 < 4 => (-4.0, 4.0),
        _ => (-6.0, 6.0),
    }
}

/// A pattern in the place of a float that has these limits: one time in three it is permitted.
fn strange(r: &mut Random, (from, to): (f32, f32)) -> u32 {
    match r.below(12) {
        0 => to.to_bits(),
        1 => from.to_bits(),
        2 => to.to_bits() + 1,
        3 => if from < 0.0 { from.to_bits() + 1 } else { from.to_bits() - 1 },
        4 => r.of(&[0x7fc0_0000, 0x7f80_0001, 0xffc0_1234, 0xff80_0001, 0x7fff_ffff]),
        5 => r.of(&[0x7f80_0000, 0xff80_0000]),
        6 => r.of(&EDGES),
        7 => r.next() as u32,
        8 => r.of(&[0x7f7f_ffff, 0xff7f_ffff]),
        9 => to.to_bits() - 1,
        10 => from.to_bits() ^ 0x8000_0000,
        _ => to.to_bits() ^ 0x8000_0000,
    }
}

fn strange_time(r: &mut Random) -> Time {
    Time {
        seconds: r.of(&[0, 1, 59, 60, 61, 3599, 3600, 3601, 1 << 32, u64::MAX]),
        nanoseconds: r.of(&[0, 1, 999_999, 1_000_000, 999_999_999, 1_000_000_000, u32::MAX]),
    }
}

/// A fault in a state row, or none that one can see.
fn damaged(r: &mut Random, row: &mut Vec<u8>) {
    match r.below(10) {
        0..5 => {
            let k = r.below(117) as usize;
            let bits = strange(r, limits(k));
            row[4 * k..4 * k + 4].copy_from_slice(&bits.to_le_bytes());
        }
        5..7 => row[480 + r.below(26) as usize] = r.of(&[0, 1, 1, 1, 2, 3, 128, 255]),
        7 => {
            let t = strange_time(r);
            row[468..472].copy_from_slice(&t.nanoseconds.to_le_bytes());
            row[472..480].copy_from_slice(&t.seconds.to_le_bytes());
        }
        8 => row[r.below(506) as usize] ^= 1 << r.below(8),
        _ => {}
    }
}

fn length(r: &mut Random, good: usize) -> usize {
    r.of(&[0, 1, good - 1, good + 1, 2 * good, good, good, good])
}

#[derive(Clone, Debug)]
enum Call {
    Stand(Vec<u8>, Vec<u8>),
    Command([u32; 4], Time, u32),
    Conduct(Vec<u8>, Time),
}

fn bytes(floats: &[f32]) -> Vec<u8> {
    floats.iter().flat_map(|x| x.to_le_bytes()).collect()
}

/// The library's answer; the rows are changed as it changes them.
fn made(call: &mut Call, row: &mut [u8]) -> u32 {
    let (state, n) = (row.as_mut_ptr(), row.len() as u64);
    unsafe {
        match call {
            Call::Stand(feet, config) => c::hopper_stand(state, n, feet.as_ptr(), feet.len() as u64, config.as_ptr(), config.len() as u64),
            Call::Command(floats, t, aggressive) => {
                let [x, y, rotation, height] = floats.map(f32::from_bits);
                c::hopper_command(state, n, x, y, rotation, t.seconds, t.nanoseconds, height, *aggressive)
            }
            Call::Conduct(joints, t) => c::hopper_conduct(state, n, joints.as_mut_ptr(), joints.len() as u64, t.seconds, t.nanoseconds),
        }
    }
}

/// The same by the reading.
fn read(call: &mut Call, row: &mut Vec<u8>, wrong: Wrong) -> u32 {
    match call {
        Call::Stand(feet, config) => reading::stand(row, feet, config, wrong),
        Call::Command(floats, t, aggressive) => reading::command(row, *floats, *t, *aggressive, wrong),
        Call::Conduct(joints, t) => reading::conduct(row, joints, *t, wrong),
    }
}

/// What the calls changed, to be compared.
fn rows(call: Call, row: Vec<u8>, result: u32) -> (u32, Vec<u8>, Vec<u8>) {
    (result, row, if let Call::Conduct(joints, _) = call { joints } else { vec![] })
}

/// A host that goes on from call to call.
struct Host {
    row: Vec<u8>,
    elapsed: u64, // nanoseconds
    refused: u32,
}

impl Host {
    fn call(&self, r: &mut Random) -> Call {
        if self.refused > 5 || r.one_in(200) || self.row.is_empty() {
            let (feet, config) = crawler(r);
            return Call::Stand(bytes(&feet), bytes(&config));
        }
        if r.one_in(12) {
            let c = command(r);
            return Call::Command(c.floats, c.time, c.aggressive as u32);
        }
        let joints = (0..72).map(|_| r.next() as u8).collect();
        Call::Conduct(joints, Time { seconds: self.elapsed / 1_000_000_000, nanoseconds: (self.elapsed % 1_000_000_000) as u32 })
    }

    /// A call with faults, in what goes with it and in the row.
    fn faulty(&self, r: &mut Random, call: &mut Call, row: &mut Vec<u8>) {
        for _ in 0..1 + r.below(3) {
            match call {
                Call::Stand(feet, config) => match r.below(4) {
                    0 => feet.resize(length(r, 72), 0),
                    1 => config.resize(length(r, 164), 0),
                    k => {
                        let (row, from) = if k == 2 { (&mut *feet, 0) } else { (&mut *config, 76) };
                        let at = r.below((row.len() as u64 / 4).clamp(1, 18 + 23 * (k - 2))) as usize;
                        let bits = strange(r, limits(from + at));
                        if let Some(place) = row.get_mut(4 * at..4 * at + 4) {
                            place.copy_from_slice(&bits.to_le_bytes());
                        }
                    }
                },
                Call::Command(floats, t, aggressive) => match r.below(3) {
                    0 => {
                        let k = r.below(4) as usize;
                        floats[k] = strange(r, limits(72 + k));
                    }
                    1 => *t = strange_time(r),
                    _ => *aggressive = r.of(&[0, 1, 2, 256, 257, u32::MAX]),
                },
                Call::Conduct(joints, t) => match r.below(3) {
                    0 => joints.resize(length(r, 72), 7),
                    1 => *t = strange_time(r),
                    _ => {}
                },
            }
            if row.len() == STATE {
                damaged(r, row);
            }
        }
        if r.one_in(8) {
            row.resize(length(r, STATE), 0);
        }
    }

    /// What the host does after a call.
    fn after(&mut self, r: &mut Random, row: Vec<u8>, result: u32, faulty: bool) {
        self.refused = if result & 255 == 0 { 0 } else { self.refused + 1 };
        if row.len() == STATE && (!faulty || r.one_in(4)) {
            self.row = row;
        }
        let begins_anew = result == 256 && !r.one_in(10);
        self.elapsed = match r.below(30) {
            _ if begins_anew => 0,
            0 => 600_000_000,
            1 => 0,
            2 => self.elapsed.saturating_sub(100_000_000),
            3 => self.elapsed + 60_000_000_000,
            _ => self.elapsed + r.below(60_000_000),
        };
        if self.elapsed > 3_700_000_000_000 {
            self.elapsed = 0;
        }
    }
}

/// Of some calls: how many of each kind, how many refused by each number, how many answered wrongly.
#[derive(Default)]
struct Count {
    calls: u64,
    kinds: [u64; 3],
    refused: [u64; 17],
    past_the_door: u64,
    wrong: u64,
}

impl Count {
    fn take(&mut self, result: u32) {
        self.calls += 1;
        match result & 255 {
            0 => self.kinds[(result >> 8) as usize] += 1,
            n => self.refused[n as usize] += 1,
        }
    }

    fn differs(&mut self, what: impl std::fmt::Debug) {
        self.wrong += 1;
        if self.wrong <= 5 {
            println!("WRONG {what:?}");
        }
    }

    fn refusals(&self) -> String {
        let each: Vec<String> = (0..17).filter(|n| self.refused[*n] > 0).map(|n| format!("{n}: {}", self.refused[n])).collect();
        format!("refused {}; {} wrong", each.join(", "), self.wrong)
    }

    fn print(&self, what: &str) {
        println!("{what}: {} calls, {}", self.calls, self.refusals());
    }

    fn print_kinds(&self, what: &str) {
        let [steps, planned, rests] = self.kinds;
        println!("{what}: {} calls, {steps} steps, {planned} planned, {rests} rests; {}", self.calls, self.refusals());
        println!("  of the new feet {} are refused 2", self.past_the_door);
    }
}

/// The call by value against the reading.
fn value_judged(count: &mut Count, row: &[u8], elapsed: Time) {
    let Some(s) = reading::state_of(row, Wrong::Nothing) else {
        return;
    };
    let (told, after) = reading::conducted(&s, elapsed, Wrong::Nothing);
    let feet = matches!(told, Told::Done(0, _)).then(|| (after.feet[LAST], after.marks[LAST]));
    let got = by_value::conducted(&s, elapsed);
    count.take(told.result());
    count.past_the_door += (told == Told::Refused(2, 0) && reading::at_the_door(&s, elapsed, Wrong::Nothing).is_none()) as u64;
    if got != (told, feet, after) {
        count.differs((s, elapsed, got, told, after));
    }
}

/// Lengths that only 64 bits tell apart, and rows that stay.
fn long_lengths() -> u64 {
    let (mut wrong, long) = (0, [506 + (1 << 32), 72 + (1 << 32), 164 + (1 << 32), u64::MAX]);
    for n in long {
        let (mut row, mut joints, rest) = ([3u8; 506], [5u8; 72], [0u8; 164]);
        let (state, angles) = (row.as_mut_ptr(), joints.as_mut_ptr());
        let results = unsafe {
            [
                c::hopper_conduct(state, n, angles, 72, 0, 0),
                c::hopper_conduct(state, 506, angles, n, 0, 0),
                c::hopper_command(state, n, 0.0, 0.0, 0.0, 1, 0, 0.0, 0),
                c::hopper_stand(state, n, rest.as_ptr(), 72, rest.as_ptr(), 164),
                c::hopper_stand(state, 506, rest.as_ptr(), n, rest.as_ptr(), 164),
                c::hopper_stand(state, 506, rest.as_ptr(), 72, rest.as_ptr(), n),
            ]
        };
        wrong += (results != [16, 5, 16, 16, 5, 5] || row != [3; 506] || joints != [5; 72]) as u64;
    }
    println!("lengths past 32 bits: {} calls, {wrong} wrong", 6 * long.len());
    wrong
}

/// Whether every answer is right, and every wrong reading is told apart.
fn judged(calls: u64) -> bool {
    let mut r = Random(0x9e37_79b9_7f4a_7c15);
    let mut host = Host { row: vec![], elapsed: 0, refused: 0 };
    let (mut stands, mut commands, mut conducts, mut values) = (Count::default(), Count::default(), Count::default(), Count::default());
    let mut apart = [0u64; WRONG.len()];
    let sample = calls / 10;
    for n in 0..calls {
        let mut call = host.call(&mut r);
        let mut row = if host.row.is_empty() { vec![9; STATE] } else { host.row.clone() };
        let faulty = r.one_in(6);
        if faulty {
            host.faulty(&mut r, &mut call, &mut row);
        }
        let reads = |wrong| {
            let (mut call, mut row) = (call.clone(), row.clone());
            let result = read(&mut call, &mut row, wrong);
            rows(call, row, result)
        };
        let expected = reads(Wrong::Nothing);
        if n < sample {
            WRONG.iter().zip(&mut apart).for_each(|(w, told)| *told += (reads(*w) != expected) as u64);
        }
        if let Call::Conduct(_, elapsed) = call {
            value_judged(&mut values, &row, elapsed);
        }
        let before = (call.clone(), row.clone());
        let result = made(&mut call, &mut row);
        let count = match call {
            Call::Stand(..) => &mut stands,
            Call::Command(..) => &mut commands,
            Call::Conduct(..) => &mut conducts,
        };
        count.take(expected.0);
        let got = rows(call, row, result);
        if got != expected {
            count.differs((before, &got, &expected));
        }
        host.after(&mut r, got.1, result, faulty);
    }
    conducts.past_the_door = values.past_the_door;
    conducts.print_kinds("hopper_conduct");
    values.print_kinds("conducted");
    commands.print("hopper_command");
    stands.print("hopper_stand");
    let long = long_lengths();
    println!("wrong readings, and how many of {sample} calls tell them apart:");
    WRONG.iter().zip(&apart).for_each(|(w, told)| println!("  {w:?} {told}"));
    let wrong = long + [&conducts, &values, &commands, &stands].map(|c| c.wrong).iter().sum::<u64>();
    wrong == 0 && apart.iter().all(|told| *told > 0)
}

// ---- times

const INPUTS: usize = 1024;

/// A row where a C compiler would put it.
#[repr(align(16))]
#[derive(Clone, Copy)]
struct Lent<const N: usize>([u8; N]);

/// A call to be timed.
struct Tick {
    row: Lent<STATE>,
    given: by_value::Given,
    course: by_value::Course,
    lifted: u32,
    nanoseconds: u32,
}

/// Gaits of crawlers as they are built: calls of each kind, in turn.
fn ticks() -> [Vec<Tick>; 3] {
    let mut r = Random(0x2545_f491_4f6c_dd1d);
    let mut kinds = [vec![], vec![], vec![]];
    let mut config = vec![0.052f32, 0.066, 0.135, 0.6, -0.4];
    for (x, y) in AROUND {
        config.extend([x * 0.4, y * 0.4, 0.0, -y.atan2(x), 2.6, 2.1]);
    }
    let config = bytes(&config);
    while kinds.iter().any(|k: &Vec<Tick>| k.len() < INPUTS) {
        let feet: Vec<f32> = AROUND.iter().flat_map(|(x, y)| [x + r.between(-0.005, 0.005), y + r.between(-0.005, 0.005), -0.12]).collect();
        let (mut row, mut joints, mut elapsed) = ([0; STATE], [0; 72], 0);
        let stood = made(&mut Call::Stand(bytes(&feet), config.clone()), &mut row);
        let floats = [r.between(-0.04, 0.04), r.between(-0.04, 0.04), r.between(-0.3, 0.3), 0.03].map(f32::to_bits);
        let moves = r.one_in(2);
        let mut wish = Call::Command(floats, Time { seconds: 0, nanoseconds: 600_000_000 }, r.below(2) as u32);
        let commanded = if moves { made(&mut wish, &mut row) } else { 0 };
        assert_eq!((stood, commanded), (0, 0));
        for _ in 0..40 {
            elapsed += r.below(90_000_000) as u32;
            let state = reading::state_of(&row, Wrong::Nothing).expect("a state");
            let given = by_value::given(&state);
            let tick = Tick { row: Lent(row), given, course: by_value::course(&given), lifted: state.lifted as u32, nanoseconds: elapsed };
            let result = unsafe { c::hopper_conduct(row.as_mut_ptr(), 506, joints.as_mut_ptr(), 72, 0, elapsed) };
            assert_eq!(result & 255, 0, "a gait is refused");
            let kind = (result >> 8) as usize;
            if kinds[kind].len() < INPUTS {
                kinds[kind].push(tick);
            }
            if kind != 0 {
                elapsed = 0;
            }
        }
    }
    kinds
}

/// A call's result, after all that it answers is made.
#[inline(always)]
fn kept<T>(answer: T, result: impl Fn(&T) -> u32) -> u32 {
    result(&black_box(answer))
}

/// The calls that are timed: through C with what puts the row back, that alone, by value, and the library's functions one by one.
type Timed = fn(&Tick, &mut Lent<STATE>, &mut Lent<72>) -> u32;

fn through_c(t: &Tick, row: &mut Lent<STATE>, joints: &mut Lent<72>) -> u32 {
    *row = t.row;
    unsafe { c::hopper_conduct(row.0.as_mut_ptr(), 506, joints.0.as_mut_ptr(), 72, 0, t.nanoseconds) }
}

fn put_back(t: &Tick, row: &mut Lent<STATE>, _: &mut Lent<72>) -> u32 {
    *row = t.row;
    black_box(row).0[0] as u32
}

fn value(t: &Tick, _: &mut Lent<STATE>, _: &mut Lent<72>) -> u32 {
    kept(unsafe { by_value::probe_conducted(t.given, t.lifted, 0, t.nanoseconds) }, |left| left.result)
}

fn step_apart(t: &Tick, _: &mut Lent<STATE>, _: &mut Lent<72>) -> u32 {
    kept(unsafe { by_value::probe_step_apart(t.course, t.lifted, 0, t.nanoseconds) }, |apart| apart.result)
}

fn plan_apart(t: &Tick, _: &mut Lent<STATE>, _: &mut Lent<72>) -> u32 {
    kept(unsafe { by_value::probe_plan_apart(t.given, t.lifted, 0, t.nanoseconds) }, |apart| apart.result)
}

fn rest_apart(t: &Tick, _: &mut Lent<STATE>, _: &mut Lent<72>) -> u32 {
    kept(unsafe { by_value::probe_rest_apart(t.course, t.lifted, 0, t.nanoseconds) }, |apart| apart.result)
}

/// Nanoseconds a call of one round.
fn round(ticks: &[Tick], call: Timed) -> f64 {
    let (mut row, mut joints) = (Lent([0; STATE]), Lent([0; 72]));
    let began = Instant::now();
    for t in ticks {
        black_box(call(black_box(t), &mut row, &mut joints));
    }
    began.elapsed().as_nanos() as f64 / ticks.len() as f64
}

fn times(rounds: u64) {
    println!("{:8} {:>12} {:>12} {:>12} {:>14} {:>12}", "", "C, ns", "value, ns", "apart, ns", "C to apart", "value");
    for (kind, (name, ticks)) in ["a step", "a plan", "at rest"].into_iter().zip(ticks()).enumerate() {
        let calls: [Timed; 4] = [through_c, put_back, value, [step_apart, plan_apart, rest_apart][kind]];
        let mut best = [f64::MAX; 4];
        for t in &ticks {
            let results = [0, 2, 3].map(|k| calls[k](t, &mut Lent([0; STATE]), &mut Lent([0; 72])));
            assert_eq!(results, [256 * kind as u32, 256 * kind as u32, 0]);
        }
        for _ in 0..rounds {
            best.iter_mut().zip(calls).for_each(|(least, call)| *least = least.min(round(&ticks, call)));
        }
        let [c, back, value, apart] = best;
        let goal = |ratio: f64, most: f64| if ratio > most { " missed" } else { "" };
        let (by_c, by_value) = ((c - back) / apart, value / apart);
        let goals = (goal(by_c, 1.4), goal(by_value, 1.15));
        println!("{name:8} {:12.1} {value:12.1} {apart:12.1} {by_c:14.3}{} {by_value:12.3}{}", c - back, goals.0, goals.1);
    }
}

fn main() {
    let number = |k, otherwise| std::env::args().nth(k).map_or(otherwise, |word| word.parse().expect("a number"));
    let calls = number(1, 2_000_000);
    let good = calls == 0 || judged(calls);
    times(number(2, 400));
    if !good {
        println!("FAILED");
        std::process::exit(1);
    }
}
