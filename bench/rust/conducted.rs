// A plain reading of the conductor's three calls, over rows of bytes that are changed in place; a refusal leaves them. A step, a plan and
// joints are those of `reference`; the door goes through a row's floats in the order in which they stand there.
use crate::reference::*;

/// A call's refusal: its number, and the leg where it names one.
pub type Refused = (Refusal, Option<usize>);

const NONE: Foot = Foot { point: ORIGIN, lifted: false };
const NO_LEG: LegConfig = LegConfig { position: ORIGIN, angle_offset: 0.0, femur_correction: 0.0, tibia_correction: 0.0 };

struct State {
    /// Start, last, target, relaxed.
    feet: [Row; 4],
    command: Command,
    config: Config,
    lifted: u32,
}

const FEET: &[Limit] = &[FOOT];
const COMMAND: &[Limit] = &[DIRECTION, DIRECTION, ROTATION, DIRECTION];
const BODY: &[Limit] = &[LEG_LENGTH, LEG_LENGTH, LEG_LENGTH, OFFSET, OFFSET];
const LEG: &[Limit] = &[FOOT, FOOT, FOOT, ROTATION, CORRECTION, CORRECTION];

/// The first N floats of a row.
fn floats<const N: usize>(row: &[u8]) -> [f32; N] {
    std::array::from_fn(|i| f32::from_le_bytes(row[4 * i..4 * i + 4].try_into().unwrap()))
}

fn put_floats(floats: &[f32], row: &mut [u8]) {
    for (bytes, x) in row.chunks_exact_mut(4).zip(floats) {
        bytes.copy_from_slice(&x.to_le_bytes());
    }
}

/// 1 or 2, the lower of those that apply to some float; the limits of a group come round again while there are floats.
fn let_in(groups: &[(&[f32], &[Limit])]) -> Result<(), Refused> {
    let mut door = Door::new();
    for (floats, limits) in groups {
        for some in floats.chunks(limits.len()) {
            for (x, limit) in some.iter().zip(*limits) {
                door.float(limit, *x);
            }
        }
    }
    door.open().map_err(|n| (n, None))
}

/// 3, where a time is outside the table.
fn timely(elapsed: &Time, period: &Time) -> Result<(), Refused> {
    even_progress(elapsed, period).map(|_| ()).map_err(|n| (n, None))
}

fn point(f: &[f32]) -> Point {
    Point { x: f[0], y: f[1], z: f[2] }
}

fn feet(f: &[f32], marks: &[u8]) -> Row {
    let mut row = [NONE; 6];
    for l in 0..6 {
        row[l] = Foot { point: point(&f[3 * l..]), lifted: marks[l] == 1 };
    }
    row
}

fn config(f: &[f32]) -> Config {
    let mut legs = [NO_LEG; 6];
    for (l, leg) in legs.iter_mut().enumerate() {
        let f = &f[5 + 6 * l..];
        *leg = LegConfig { position: point(f), angle_offset: f[3], femur_correction: f[4], tibia_correction: f[5] };
    }
    Config { coxa_length: f[0], femur_length: f[1], tibia_length: f[2], femur_offset: f[3], tibia_offset: f[4], legs }
}

/// The state of a row and its floats, unless it is refused 16.
fn state(row: &[u8]) -> Result<(State, [f32; 117]), Refused> {
    if row.len() != 506 || row[480..].iter().any(|b| *b > 1) {
        return Err((16, None));
    }
    let f = floats(row);
    let marked = |k: usize| feet(&f[18 * k..], &row[480 + 6 * k..]);
    let step_time = Time {
        seconds: u64::from_le_bytes(row[472..480].try_into().unwrap()),
        nanoseconds: u32::from_le_bytes(row[468..472].try_into().unwrap()),
    };
    let s = State {
        feet: [marked(0), marked(1), marked(2), marked(3)],
        command: Command { x: f[72], y: f[73], rotation: f[74], height: f[75], step_time, aggressive: row[505] == 1 },
        config: config(&f[76..]),
        lifted: if row[504] == 1 { RLR } else { LRL },
    };
    Ok((s, f))
}

/// A state into its row. All of the configuration stays, with its bytes.
fn put(s: &State, row: &mut [u8]) {
    let c = &s.command;
    for (l, foot) in s.feet.iter().flatten().enumerate() {
        put_floats(&[foot.point.x, foot.point.y, foot.point.z], &mut row[12 * l..12 * l + 12]);
        row[480 + l] = foot.lifted as u8;
    }
    put_floats(&[c.x, c.y, c.rotation, c.height], &mut row[288..304]);
    row[468..472].copy_from_slice(&c.step_time.nanoseconds.to_le_bytes());
    row[472..480].copy_from_slice(&c.step_time.seconds.to_le_bytes());
    row[504] = (s.lifted == RLR) as u8;
    row[505] = c.aggressive as u8;
}

/// 1 or 2 over a state's floats, and more floats with their limits.
fn state_let_in(f: &[f32; 117], more: (&[f32], &[Limit])) -> Result<(), Refused> {
    let_in(&[(&f[..72], FEET), (&f[72..76], COMMAND), (&f[76..81], BODY), (&f[81..], LEG), more])
}

/// A fresh state.
pub fn stand(row: &mut [u8], feet: &[u8], config: &[u8]) -> Result<(), Refused> {
    if feet.len() != 72 || config.len() != 164 {
        return Err((5, None));
    }
    if row.len() != 506 {
        return Err((16, None));
    }
    let (f, c): ([f32; 18], [f32; 41]) = (floats(feet), floats(config));
    let_in(&[(&f, FEET), (&c[..5], BODY), (&c[5..], LEG)])?;
    for k in 0..4 {
        row[72 * k..72 * k + 72].copy_from_slice(feet);
    }
    put_floats(&[0.0, 0.0, 0.0, 0.03], &mut row[288..304]);
    row[304..468].copy_from_slice(config);
    row[468..].fill(0);
    row[468..472].copy_from_slice(&600_000_000_u32.to_le_bytes());
    Ok(())
}

/// A state under a command; `aggressive` as it came.
pub fn command(row: &mut [u8], c: Command, aggressive: u32) -> Result<(), Refused> {
    let (mut s, f) = state(row)?;
    if aggressive > 1 {
        return Err((16, None));
    }
    let begun = Time { seconds: 0, nanoseconds: 0 };
    state_let_in(&f, (&[c.x, c.y, c.rotation, c.height], COMMAND))?;
    timely(&begun, &s.command.step_time)?;
    timely(&begun, &c.step_time)?;
    s.command = Command { aggressive: aggressive == 1, ..c };
    put(&s, row);
    Ok(())
}

/// What a call did. The numbers are those of the library's.
#[derive(Clone, Copy)]
pub enum Kind {
    Step = 0,
    Planned = 1,
    Rests = 2,
}

/// One call of a gait; the joints go into their row.
pub fn conduct(row: &mut [u8], joints: &mut [u8], elapsed: &Time) -> Result<Kind, Refused> {
    if joints.len() != 72 {
        return Err((5, None));
    }
    let (mut s, f) = state(row)?;
    state_let_in(&f, (&[], FEET))?;
    timely(elapsed, &s.command.step_time)?;
    let [start, last, target, relaxed] = &s.feet;
    let c = &s.command;
    let lift = Lift { height: c.height, descent: 0.0, lifted: s.lifted, aggressive: c.aggressive };
    let (next, moved) = even_step(start, last, target, &lift, elapsed, &c.step_time).map_err(|n| (n, None))?;
    let kind = if moved {
        s.feet[1] = next;
        Kind::Step
    } else if should_move(c).map_err(|n| (n, None))? {
        s.lifted = LRL + RLR - s.lifted;
        let planned = plan(last, relaxed, s.lifted, c).map_err(|n| (n, None))?;
        s.feet[0] = s.feet[1];
        s.feet[2] = planned;
        Kind::Planned
    } else {
        Kind::Rests
    };
    let angles = inverse(&s.feet[1], &s.config)?;
    for (a, bytes) in angles.iter().zip(joints.chunks_exact_mut(12)) {
        put_floats(&[a.coxa, a.femur, a.tibia], bytes);
    }
    put(&s, row);
    Ok(kind)
}
