// Request K10 read anew, in Rust, for judging: the rows, the refusals in their order, and one call of the gait over the library's own
// functions, `EvenStepIterator::next`, `should_move`, `step_with_relaxed_transformation` and `calculate_ik`. Nothing is taken from the
// conductor's proved code, and nothing here is quick. A wrong reading differs in one place.

pub const STATE: usize = 506;
pub const FEET: usize = 72;
pub const CONFIGURATION: usize = 164;

pub const START: usize = 0;
pub const LAST: usize = 1;
pub const TARGET: usize = 2;
pub const RELAXED: usize = 3;

mod library {
    extern "C" {
        pub fn probe_even_step(
            s: *const f32, n: usize, marks: u32, t: u32, a: u32, es: u64, en: u32, ps: u64, pn: u32,
            out: *mut f32, m: usize, lifted: &mut u32,
        ) -> u32;
        pub fn probe_timed_step(
            s: *const f32, n: usize, marks: u32, t: u32, a: u32, es: u64, en: u32, ps: u64, pn: u32,
            out: *mut f32, m: usize, lifted: &mut u32,
        ) -> u32;
        pub fn probe_plan(
            s: *const f32, n: usize, marks: u32, t: u32, a: u32, seconds: u64, nanoseconds: u32, out: *mut f32, m: usize, lifted: &mut u32,
        ) -> u32;
        pub fn probe_should_move(s: *const f32, n: usize, a: u32, ps: u64, pn: u32) -> u32;
        pub fn probe_ik(s: *const f32, n: usize, marks: u32, out: *mut f32, m: usize) -> u32;
    }
}

/// What is read otherwise.
#[derive(Clone, Copy, Debug, PartialEq)]
pub enum Wrong {
    Nothing,
    PlanByTheOldTripod,
    StartStays,
    LastIsTheTarget,
    PlanUnmarked,
    JointsOfTheFeetBefore,
    DescentIsTheHeight,
    TimedPace,
    RestsWhereItShouldMove,
    MovesWhereItRests,
    SixteenBeforeFive,
    ThreeBeforeTwo,
    TwoBeforeOne,
    TripodTwoIsTaken,
    MarkTwoIsTaken,
    MarkDropped,
    BigEndianJoints,
    RefusedKeepsTheLast,
    RelaxedNotLookedAt,
    PlannedPastFourIsRefused,
    CommandNotLookedAtOnceMore,
    CommandBeginsTheStepAnew,
    StandsLifted,
    StandLooksAtTheRow,
}

pub const WRONG: [Wrong; 23] = {
    use Wrong::*;
    [
        PlanByTheOldTripod, StartStays, LastIsTheTarget, PlanUnmarked, JointsOfTheFeetBefore, DescentIsTheHeight, TimedPace,
        RestsWhereItShouldMove, MovesWhereItRests, SixteenBeforeFive, ThreeBeforeTwo, TwoBeforeOne, TripodTwoIsTaken, MarkTwoIsTaken,
        MarkDropped, BigEndianJoints, RefusedKeepsTheLast, RelaxedNotLookedAt, PlannedPastFourIsRefused, CommandNotLookedAtOnceMore,
        CommandBeginsTheStepAnew, StandsLifted, StandLooksAtTheRow,
    ]
};

#[derive(Clone, Copy, Debug, PartialEq)]
pub struct Time {
    pub seconds: u64,
    pub nanoseconds: u32,
}

/// Direction x and y, rotation, step height; step time; aggressive, 0 or 1.
#[derive(Clone, Copy, Debug, PartialEq)]
pub struct Command {
    pub floats: [u32; 4],
    pub time: Time,
    pub aggressive: u8,
}

/// Floats by their bits, so that a NaN is a value like any other. Feet and marks of start, last, target, relaxed, in row order.
#[derive(Clone, Copy, Debug, PartialEq)]
pub struct State {
    pub feet: [[u32; 18]; 4],
    pub marks: [[u8; 6]; 4],
    pub lifted: u8,
    pub command: Command,
    pub configuration: [u32; 41],
}

/// A refusal's number and leg, or a kind and joints.
#[derive(Clone, Copy, Debug, PartialEq)]
pub enum Told {
    Refused(u32, u32),
    Done(u32, [u32; 18]),
}

impl Told {
    /// As C has it.
    pub fn result(&self) -> u32 {
        match *self {
            Told::Refused(number, leg) => number + 256 * leg,
            Told::Done(kind, _) => 256 * kind,
        }
    }
}

// ---- rows

fn words<const N: usize>(row: &[u8]) -> [u32; N] {
    std::array::from_fn(|k| (0..4).map(|b| (row[4 * k + b] as u32) << 8 * b).sum())
}

fn put_words(row: &mut Vec<u8>, words: &[u32]) {
    for w in words {
        row.extend([*w as u8, (*w >> 8) as u8, (*w >> 16) as u8, (*w >> 24) as u8]);
    }
}

/// The state of a row, where it is one.
pub fn state_of(row: &[u8], wrong: Wrong) -> Option<State> {
    if row.len() != STATE {
        return None;
    }
    let is_flag = |at: usize| match wrong {
        Wrong::TripodTwoIsTaken if at == 504 => row[at] <= 2,
        Wrong::MarkTwoIsTaken if at < 504 => row[at] <= 2,
        _ => row[at] == 0 || row[at] == 1,
    };
    if !(480..506).all(is_flag) {
        return None;
    }
    let [nanoseconds, low, high] = words(&row[468..]);
    Some(State {
        feet: std::array::from_fn(|k| words(&row[72 * k..])),
        marks: std::array::from_fn(|k| std::array::from_fn(|l| row[480 + 6 * k + l])),
        lifted: row[504],
        command: Command {
            floats: words(&row[288..]),
            time: Time { seconds: low as u64 | (high as u64) << 32, nanoseconds },
            aggressive: row[505],
        },
        configuration: words(&row[304..]),
    })
}

pub fn row_of(s: &State) -> Vec<u8> {
    let mut row = vec![];
    for feet in &s.feet {
        put_words(&mut row, feet);
    }
    put_words(&mut row, &s.command.floats);
    put_words(&mut row, &s.configuration);
    let Time { seconds, nanoseconds } = s.command.time;
    put_words(&mut row, &[nanoseconds, seconds as u32, (seconds >> 32) as u32]);
    for marks in &s.marks {
        row.extend(marks);
    }
    row.extend([s.lifted, s.command.aggressive]);
    row
}

// ---- the door

/// What is wrong with the numbers looked at.
#[derive(Clone, Copy, Default)]
struct Door {
    infinite: bool,
    outside: bool,
    untimely: bool,
}

impl Door {
    fn float(&mut self, from: f32, to: f32, bits: u32) {
        let x = f32::from_bits(bits);
        self.infinite |= x.is_nan() || x.is_infinite();
        self.outside |= !(from <= x && x <= to);
    }

    fn feet(&mut self, feet: &[u32; 18]) {
        feet.iter().for_each(|c| self.float(-4.0, 4.0, *c));
    }

    fn command(&mut self, c: &Command) {
        let [x, y, rotation, height] = c.floats;
        self.float(-1.0, 1.0, x);
        self.float(-1.0, 1.0, y);
        self.float(-4.0, 4.0, rotation);
        self.float(-1.0, 1.0, height);
        let all = c.time.seconds as u128 * 1_000_000_000 + c.time.nanoseconds as u128;
        self.untimely |= c.time.nanoseconds > 999_999_999 || all < 1_000_000 || all > 60_000_000_000;
    }

    fn configuration(&mut self, c: &[u32; 41]) {
        c[..3].iter().for_each(|length| self.float(0.00390625, 1.0, *length));
        c[3..5].iter().for_each(|offset| self.float(-2.0, 2.0, *offset));
        for leg in c[5..].chunks(6) {
            leg[..4].iter().for_each(|place_and_angle| self.float(-4.0, 4.0, *place_and_angle));
            leg[4..].iter().for_each(|correction| self.float(-6.0, 6.0, *correction));
        }
    }

    fn elapsed(&mut self, t: Time) {
        self.untimely |= t.seconds > 3600 || t.nanoseconds > 999_999_999;
    }

    fn state(&mut self, s: &State, wrong: Wrong) {
        s.feet[..3].iter().for_each(|f| self.feet(f));
        if wrong != Wrong::RelaxedNotLookedAt {
            self.feet(&s.feet[RELAXED]);
        }
        self.command(&s.command);
        self.configuration(&s.configuration);
    }

    /// The lowest number that applies.
    fn refusal(&self, wrong: Wrong) -> Option<u32> {
        let order = match wrong {
            Wrong::ThreeBeforeTwo => [1, 3, 2],
            Wrong::TwoBeforeOne => [2, 1, 3],
            _ => [1, 2, 3],
        };
        order.into_iter().find(|n| [self.infinite, self.outside, self.untimely][*n as usize - 1])
    }
}

// ---- the call

fn floats(parts: &[&[u32]]) -> Vec<f32> {
    parts.iter().flat_map(|p| p.iter()).map(|b| f32::from_bits(*b)).collect()
}

/// Marks as bits, six a row.
fn bits(rows: &[[u8; 6]]) -> u32 {
    rows.iter().flatten().enumerate().map(|(k, m)| (*m as u32 & 1) << k).sum()
}

/// Six marks of bits.
fn marks(bits: u32) -> [u8; 6] {
    std::array::from_fn(|l| (bits >> l & 1) as u8)
}

fn patterns(floats: [f32; 18]) -> [u32; 18] {
    floats.map(f32::to_bits)
}

/// Points and marks.
type Feet = ([u32; 18], [u8; 6]);

/// The next feet, where a leg moves. Past a good door the library refuses nothing here, nor below.
fn next_even(s: &State, elapsed: Time, wrong: Wrong) -> Result<Option<Feet>, u32> {
    let (height, c) = (s.command.floats[3], &s.command);
    let descent = if wrong == Wrong::DescentIsTheHeight { height } else { 0 };
    let given = floats(&[&s.feet[START], &s.feet[LAST], &s.feet[TARGET], &[height, descent]]);
    let (mut out, mut lifted) = ([0.0; 18], 0);
    let step = if wrong == Wrong::TimedPace { library::probe_timed_step } else { library::probe_even_step };
    let answer = unsafe {
        step(
            given.as_ptr(), 56, bits(&s.marks[..3]), s.lifted as u32, c.aggressive as u32,
            elapsed.seconds, elapsed.nanoseconds, c.time.seconds, c.time.nanoseconds, out.as_mut_ptr(), 18, &mut lifted,
        )
    };
    match answer {
        256 => Ok(Some((patterns(out), marks(lifted)))),
        0 => Ok(None),
        n => Err(n),
    }
}

fn should_move(c: &Command) -> Result<bool, u32> {
    let given = floats(&[&c.floats]);
    match unsafe { library::probe_should_move(given.as_ptr(), 4, c.aggressive as u32, c.time.seconds, c.time.nanoseconds) } {
        256 => Ok(true),
        0 => Ok(false),
        n => Err(n),
    }
}

/// The target from last, by this tripod.
fn plan(s: &State, tripod: u8) -> Result<Feet, u32> {
    let (c, given) = (&s.command, floats(&[&s.feet[LAST], &s.feet[RELAXED], &s.command.floats]));
    let (mut out, mut lifted) = ([0.0; 18], 0);
    let both = bits(&[s.marks[LAST], s.marks[RELAXED]]);
    let answer = unsafe {
        library::probe_plan(
            given.as_ptr(), 40, both, tripod as u32, c.aggressive as u32, c.time.seconds, c.time.nanoseconds,
            out.as_mut_ptr(), 18, &mut lifted,
        )
    };
    if answer == 0 { Ok((patterns(out), marks(lifted))) } else { Err(answer) }
}

/// Number and leg, or joints.
fn joints(s: &State) -> Result<[u32; 18], (u32, u32)> {
    let given = floats(&[&s.feet[LAST], &s.configuration]);
    let mut out = [0.0; 18];
    match unsafe { library::probe_ik(given.as_ptr(), 59, bits(&s.marks[LAST..TARGET]), out.as_mut_ptr(), 18) } {
        0 => Ok(patterns(out)),
        n => Err((n % 256, n / 256)),
    }
}

/// The state whose next step is planned.
fn planned(s: &State, wrong: Wrong) -> Result<State, u32> {
    let mut after = *s;
    after.lifted = 1 - s.lifted.min(1);
    let (target, target_marks) = plan(s, if wrong == Wrong::PlanByTheOldTripod { s.lifted } else { after.lifted })?;
    after.feet[TARGET] = target;
    after.marks[TARGET] = if wrong == Wrong::PlanUnmarked { [0; 6] } else { target_marks };
    if wrong != Wrong::StartStays {
        after.feet[START] = s.feet[LAST];
        after.marks[START] = s.marks[LAST];
    }
    if wrong == Wrong::LastIsTheTarget {
        after.feet[LAST] = after.feet[TARGET];
    }
    Ok(after)
}

/// The kind, and the state after.
fn stepped(s: &State, elapsed: Time, wrong: Wrong) -> Result<(u32, State), u32> {
    if let Some((feet, marks)) = next_even(s, elapsed, wrong)? {
        let mut after = *s;
        (after.feet[LAST], after.marks[LAST]) = (feet, marks);
        return Ok((0, after));
    }
    let moves = match wrong {
        Wrong::RestsWhereItShouldMove => false,
        Wrong::MovesWhereItRests => true,
        _ => should_move(&s.command)?,
    };
    if moves { Ok((1, planned(s, wrong)?)) } else { Ok((2, *s)) }
}

/// What the door refuses of a state and an elapsed time.
pub fn at_the_door(s: &State, elapsed: Time, wrong: Wrong) -> Option<u32> {
    let mut door = Door::default();
    door.state(s, wrong);
    door.elapsed(elapsed);
    door.refusal(wrong)
}

/// One call by value: what is told, and the state after.
pub fn conducted(s: &State, elapsed: Time, wrong: Wrong) -> (Told, State) {
    if let Some(n) = at_the_door(s, elapsed, wrong) {
        return (Told::Refused(n, 0), *s);
    }
    let (kind, after) = match stepped(s, elapsed, wrong) {
        Ok(made) => made,
        Err(n) => {
            assert_ne!(wrong, Wrong::Nothing, "refused {n} past the door: {s:?} {elapsed:?}");
            return (Told::Refused(n, 0), *s);
        }
    };
    if wrong == Wrong::PlannedPastFourIsRefused && after.feet[TARGET].iter().any(|c| f32::from_bits(*c).abs() > 4.0) {
        return (Told::Refused(2, 0), *s);
    }
    match joints(if wrong == Wrong::JointsOfTheFeetBefore { s } else { &after }) {
        Ok(angles) => (Told::Done(kind, angles), after),
        Err((n, leg)) => (Told::Refused(n, leg), if wrong == Wrong::RefusedKeepsTheLast { after } else { *s }),
    }
}

/// `hopper_conduct`: its result; the rows are changed as it changes them.
pub fn conduct(row: &mut Vec<u8>, joint_row: &mut Vec<u8>, elapsed: Time, wrong: Wrong) -> u32 {
    let state = state_of(row, wrong);
    if wrong == Wrong::SixteenBeforeFive && state.is_none() {
        return 16;
    }
    if joint_row.len() != FEET {
        return 5;
    }
    let Some(state) = state else {
        return 16;
    };
    let (told, mut after) = conducted(&state, elapsed, wrong);
    if wrong == Wrong::MarkDropped {
        after.marks[LAST][5] = 0;
    }
    if let Told::Done(_, angles) = told {
        joint_row.clear();
        let angles = if wrong == Wrong::BigEndianJoints { angles.map(u32::swap_bytes) } else { angles };
        put_words(joint_row, &angles);
        *row = row_of(&after);
    } else if wrong == Wrong::RefusedKeepsTheLast {
        *row = row_of(&after);
    }
    told.result()
}

/// `hopper_stand`.
pub fn stand(row: &mut Vec<u8>, feet: &[u8], configuration: &[u8], wrong: Wrong) -> u32 {
    if feet.len() != FEET || configuration.len() != CONFIGURATION {
        return 5;
    }
    if row.len() != STATE || wrong == Wrong::StandLooksAtTheRow && state_of(row, wrong).is_none() {
        return 16;
    }
    let (feet, configuration) = (words(feet), words(configuration));
    let mut door = Door::default();
    door.feet(&feet);
    door.configuration(&configuration);
    if let Some(n) = door.refusal(wrong) {
        return n;
    }
    let still = Command { floats: [0, 0, 0, 0.03f32.to_bits()], time: Time { seconds: 0, nanoseconds: 600_000_000 }, aggressive: 0 };
    let mark = (wrong == Wrong::StandsLifted) as u8;
    *row = row_of(&State { feet: [feet; 4], marks: [[mark; 6]; 4], lifted: 0, command: still, configuration });
    0
}

/// `hopper_command`; `aggressive` is any number.
pub fn command(row: &mut Vec<u8>, floats: [u32; 4], time: Time, aggressive: u32, wrong: Wrong) -> u32 {
    let Some(mut state) = state_of(row, wrong) else {
        return 16;
    };
    if aggressive > 1 {
        return 16;
    }
    let new = Command { floats, time, aggressive: aggressive as u8 };
    let mut door = Door::default();
    if wrong == Wrong::CommandNotLookedAtOnceMore {
        state.command = new;
    }
    door.state(&state, wrong);
    door.command(&new);
    if let Some(n) = door.refusal(wrong) {
        return n;
    }
    state.command = new;
    if wrong == Wrong::CommandBeginsTheStepAnew {
        (state.feet[START], state.marks[START]) = (state.feet[LAST], state.marks[LAST]);
    }
    *row = row_of(&state);
    0
}
