// Answers operation lines (docs/OPERATIONS.md) by the plain Rust reading, for comparing with `replay`.
mod conducted;
mod json;
#[path = "../taught/judge.rs"]
mod judge;
mod reference;
use judge::{Call, Pose, Told};
use reference::*;
use std::io::{self, BufRead, Write};

/// What is left of a line, and whether its rows of feet have marks.
struct Fields<'a> {
    rest: std::str::Split<'a, char>,
    marks: bool,
}

/// The operations that have a line with marks: its name is theirs and an m.
const MARKED: [&str; 10] = ["merge", "sel", "upd", "mv6", "walk6", "step", "tstep", "estep", "plan", "fk"];

type Parsed<T> = Option<T>;

impl<'a> Fields<'a> {
    fn hex(&mut self, least: usize, most: usize) -> Parsed<u64> {
        let f = self.rest.next()?;
        let good = f.len() >= least && f.len() <= most && f.bytes().all(|b| matches!(b, b'0'..=b'9' | b'a'..=b'f'));
        if good { u64::from_str_radix(f, 16).ok() } else { None }
    }
    fn float(&mut self) -> Parsed<f32> {
        Some(f32::from_bits(self.hex(8, 8)? as u32))
    }
    fn short(&mut self) -> Parsed<u32> {
        Some(self.hex(1, 8)? as u32)
    }
    fn bit(&mut self) -> Parsed<bool> {
        match self.hex(1, 1)? {
            0 => Some(false),
            1 => Some(true),
            _ => None,
        }
    }
    fn tripod(&mut self) -> Parsed<u32> {
        Some(if self.bit()? { RLR } else { LRL })
    }
    fn point(&mut self) -> Parsed<Point> {
        Some(Point { x: self.float()?, y: self.float()?, z: self.float()? })
    }
    /// A field of n bits. Of none there is no field.
    fn bits(&mut self, n: usize) -> Parsed<Vec<bool>> {
        if n == 0 {
            return Some(vec![]);
        }
        let f = self.rest.next()?;
        let good = f.len() == n && f.bytes().all(|b| matches!(b, b'0' | b'1'));
        if good { Some(f.bytes().map(|b| b == b'1').collect()) } else { None }
    }
    /// Points, and their marks where the line has them; else they stand.
    fn feet(&mut self, n: usize) -> Parsed<Vec<Foot>> {
        let mut feet = vec![];
        for _ in 0..n {
            feet.push(Foot { point: self.point()?, lifted: false });
        }
        if self.marks {
            for (foot, lifted) in feet.iter_mut().zip(self.bits(n)?) {
                foot.lifted = lifted;
            }
        }
        Some(feet)
    }
    fn row(&mut self) -> Parsed<Row> {
        self.feet(6)?.try_into().ok()
    }
    fn joints(&mut self) -> Parsed<[Angles; 6]> {
        let mut r = [Angles { coxa: 0.0, femur: 0.0, tibia: 0.0 }; 6];
        for a in r.iter_mut() {
            *a = Angles { coxa: self.float()?, femur: self.float()?, tibia: self.float()? };
        }
        Some(r)
    }
    fn time(&mut self) -> Parsed<Time> {
        Some(Time { seconds: self.hex(1, 16)?, nanoseconds: self.short()? })
    }
    fn command(&mut self) -> Parsed<Command> {
        Some(Command {
            x: self.float()?,
            y: self.float()?,
            rotation: self.float()?,
            step_time: self.time()?,
            height: self.float()?,
            aggressive: self.bit()?,
        })
    }
    fn config(&mut self) -> Parsed<Config> {
        let (coxa_length, femur_length, tibia_length) = (self.float()?, self.float()?, self.float()?);
        let (femur_offset, tibia_offset) = (self.float()?, self.float()?);
        let none = LegConfig { position: ORIGIN, angle_offset: 0.0, femur_correction: 0.0, tibia_correction: 0.0 };
        let mut legs = [none; 6];
        for l in legs.iter_mut() {
            *l = LegConfig {
                position: self.point()?,
                angle_offset: self.float()?,
                femur_correction: self.float()?,
                tibia_correction: self.float()?,
            };
        }
        Some(Config { coxa_length, femur_length, tibia_length, femur_offset, tibia_offset, legs })
    }
    /// Three floats, or `-` for null.
    fn leg(&mut self) -> Parsed<json::Leg> {
        if self.rest.clone().next()? == "-" {
            self.rest.next();
            return Some(None);
        }
        Some(Some([self.float()?, self.float()?, self.float()?]))
    }
    /// Bytes as hex digits, or `-` for none.
    fn text(&mut self) -> Parsed<Vec<u8>> {
        let f = self.rest.next()?;
        if f == "-" {
            return Some(vec![]);
        }
        let good = !f.is_empty() && f.len() % 2 == 0 && f.bytes().all(|b| matches!(b, b'0'..=b'9' | b'a'..=b'f'));
        if good { (0..f.len()).step_by(2).map(|i| u8::from_str_radix(&f[i..i + 2], 16).ok()).collect() } else { None }
    }
    /// A row of bytes, at most 512.
    fn bytes(&mut self) -> Parsed<Vec<u8>> {
        self.text().filter(|row| row.len() <= 512)
    }
    /// A whole number in decimal, as it is written: no plus, no 0 in front, no minus before 0.
    fn whole(&mut self) -> Parsed<i32> {
        let f = self.rest.next()?;
        f.parse().ok().filter(|n: &i32| n.to_string() == f)
    }
    fn done(&mut self) -> Parsed<()> {
        if self.rest.next().is_none() { Some(()) } else { None }
    }
}

fn float(x: f32) -> String {
    format!(" {:08x}", x.to_bits())
}

fn point(p: &Point) -> String {
    float(p.x) + &float(p.y) + &float(p.z)
}

/// Points and, where the line has them, their marks as one field. Of none there is no field.
fn feet(feet: &[Foot], marks: bool) -> String {
    let points: String = feet.iter().map(|f| point(&f.point)).collect();
    let bits: String = feet.iter().map(|f| if f.lifted { '1' } else { '0' }).collect();
    if marks && !feet.is_empty() { points + " " + &bits } else { points }
}

fn row(r: &Row) -> String {
    feet(r, false)
}

fn told<T>(r: Result<T, Refusal>, say: impl Fn(T) -> String) -> String {
    match r {
        Ok(v) => "ok".to_string() + &say(v),
        Err(n) => format!("R {n}"),
    }
}

fn lettered(r: Result<(Row, bool), Refusal>, yes: &str, no: &str, marks: bool) -> String {
    told(r, |(f, m)| format!(" {}{}", if m { yes } else { no }, feet(&f, marks)))
}

/// The fields of a command, as a line has them.
fn command(c: &Command) -> String {
    float(c.x) + &float(c.y) + &float(c.rotation) + &time(&c.step_time) + &float(c.height) + &format!(" {}", c.aggressive as u8)
}

fn time(t: &Time) -> String {
    format!(" {:08x} {:08x}", t.seconds, t.nanoseconds)
}

fn lift(l: &Lift) -> String {
    float(l.height) + &float(l.descent) + &format!(" {} {}", (l.lifted == RLR) as u8, l.aggressive as u8)
}

/// The source's defaults: 600 ms, 0.025 m, 0.03 m.
const STEP_TIME: Time = Time { seconds: 0, nanoseconds: 600_000_000 };
const STEP_DISTANCE: f32 = 0.025;
const STEP_HEIGHT: f32 = 0.03;
const STANDING: Command = Command { x: 0.0, y: 0.0, rotation: 0.0, step_time: STEP_TIME, height: STEP_HEIGHT, aggressive: false };

/// The source's move of a vector: arrival is told by the distance of last from target.
fn vector_towards(last: &Point, target: &Point, m: f32) -> (Point, bool) {
    if last == target {
        return (*target, false);
    }
    if distance(target, last) <= m {
        return (*target, true);
    }
    let d = distance(last, target);
    let step = |l: f32, t: f32| l + ((t - l) / d) * m;
    (Point { x: step(last.x, target.x), y: step(last.y, target.y), z: step(last.z, target.z) }, true)
}

/// The source's two moves as one: what both answer, to the bit.
fn one_move(last: &Point, target: &Point, m: f32) -> Result<String, Refusal> {
    let shown = |(p, moved): (Point, bool)| format!(" {}{}", if moved { "M" } else { "A" }, point(&p));
    let told = shown(move_towards(last, target, m)?);
    assert_eq!(told, shown(vector_towards(last, target, m)), "the source's two moves differ");
    Ok(told)
}

/// The operations that set out and that step a state once.
fn on_states(name: &str, f: &mut Fields) -> Parsed<String> {
    Some(match name {
        "iter" | "next" => {
            let (l, t, m) = (f.point()?, f.point()?, f.float()?);
            f.done()?;
            match name {
                "iter" => told(move_towards(&l, &t, m), |_| point(&l) + &point(&t) + &float(m)),
                _ => told(move_towards(&l, &t, m), |(p, moved)| {
                    if moved { " M".to_string() + &point(&p) + &point(&p) + &point(&t) + &float(m) } else { " D".to_string() }
                }),
            }
        }
        "iter6" | "next6" => {
            let (l, t, m) = (f.row()?, f.row()?, f.float()?);
            f.done()?;
            told(move_feet_towards(&l, &t, m), |(p, moved)| match (name, moved) {
                ("iter6", _) => row(&l) + &row(&t) + &float(m),
                (_, true) => " M".to_string() + &row(&p) + &row(&p) + &row(&t) + &float(m),
                _ => " D".to_string(),
            })
        }
        "siter" => {
            let (s, t) = (f.row()?, f.row()?);
            let (m, h, tri, b) = (f.float()?, f.float()?, f.tripod()?, f.bit()?);
            f.done()?;
            let state = row(&s) + &row(&s) + &row(&t) + &float(m) + &float(h) + &format!(" {} {}", (tri == RLR) as u8, b as u8);
            told(step(&s, &s, &t, m, h, tri, b), |_| state.clone())
        }
        "titer" | "eiter" => {
            let (s, t) = (f.row()?, f.row()?);
            let l = Lift { height: f.float()?, descent: f.float()?, lifted: f.tripod()?, aggressive: f.bit()? };
            let p = f.time()?;
            f.done()?;
            let begun = Time { seconds: 0, nanoseconds: 0 };
            let r = if name == "titer" { timed_step(&s, &s, &t, &l, &begun, &p) } else { even_step(&s, &s, &t, &l, &begun, &p) };
            told(r, |_| row(&s) + &row(&s) + &row(&t) + &lift(&l) + &time(&p))
        }
        _ => return None,
    })
}

/// The commands' constructors, the constants, and a float from its bits.
fn on_commands(name: &str, f: &mut Fields) -> Parsed<String> {
    Some(match name {
        "cnew" => {
            let c = Command { x: f.float()?, y: f.float()?, rotation: f.float()?, ..STANDING };
            f.done()?;
            told(should_move(&c), |_| command(&c))
        }
        "cwith" => {
            let c = f.command()?;
            f.done()?;
            told(should_move(&c), |_| command(&c))
        }
        "cdef" => {
            f.done()?;
            "ok".to_string() + &command(&STANDING)
        }
        "defaults" => {
            f.done()?;
            "ok".to_string() + &time(&STEP_TIME) + &float(STEP_DISTANCE) + &float(STEP_HEIGHT)
        }
        "flags" => {
            f.done()?;
            let [lf, rf, lm, rm, lr, rr] = WEIGHT;
            let groups = [lf + rm + lr, rf + lm + rr, rf + rm + rr, lf + lm + lr, rm + lm, lf + rf, lr + rr];
            let all = [lf, lm, lr, rf, rm, rr].into_iter().chain(groups).chain([lf + lm + lr + rf + rm + rr]);
            "ok".to_string() + &all.map(|m| format!(" {m:08x}")).collect::<String>()
        }
        "bits" => {
            let x = f.float()?;
            f.done()?;
            "ok".to_string() + &float(if x.is_nan() { f32::from_bits(0x7fc0_0000) } else { x })
        }
        _ => return on_states(name, f),
    })
}

/// A leg of a pose.
fn leg(l: json::Leg) -> String {
    l.map_or(" -".to_string(), |p| p.iter().map(|&x| float(x)).collect())
}

/// What writing answers, and how many bytes of the row still hold what filled them.
fn written(legs: [json::Leg; 6], n: usize) -> String {
    match json::to_json(&legs, n) {
        Ok(text) => format!("ok {} {text} {}", text.len(), n - text.len()),
        Err(number) => format!("R {number} {n}"),
    }
}

/// What the lines on taught poses share, and how many bytes of it are lent.
struct Shared {
    room: [u8; 5200],
    lent: usize,
}

fn told_of_taught(told: Told) -> String {
    match told {
        Told::Done => "ok".to_string(),
        Told::Refused(n) => format!("R {n}"),
        Told::Pose(pose) => {
            let marks = pose.marks.map(|m| if m { "1" } else { "0" }).concat();
            format!("ok{} {marks}", pose.bits.map(|b| format!(" {b:08x}")).concat())
        }
        Told::Ids(ids) => format!("ok {}", ids.len()) + &ids.iter().map(|id| format!(" {id:04x}")).collect::<String>(),
    }
}

/// One of the five calls, on the bytes that are lent.
fn call(name: &str, f: &mut Fields, shared: &mut Shared) -> Parsed<String> {
    let id = if matches!(name, "tfresh" | "tlist") { 0 } else { u16::try_from(f.short()?).ok()? };
    let call = match name {
        "tfresh" => Call::Fresh,
        "tlist" => Call::List,
        "tget" => Call::Get(id),
        "tdrop" => Call::Drop(id),
        _ => {
            let mut bits = [0; 18];
            for b in bits.iter_mut() {
                *b = f.float()?.to_bits();
            }
            Call::Put(id, Pose { marks: f.bits(6)?.try_into().ok()?, bits })
        }
    };
    f.done()?;
    let (told, after) = judge::called(&call, &shared.room[..shared.lent]);
    shared.room[..shared.lent].copy_from_slice(&after);
    Some(told_of_taught(told))
}

/// The host's own hand, or a call.
fn on_taught(name: &str, f: &mut Fields, shared: &mut Shared) -> Parsed<String> {
    match name {
        "tlend" => {
            let n = f.short()? as usize;
            f.done()?;
            shared.room.get(..n)?;
            shared.lent = n;
        }
        "tpoke" => {
            let (at, b) = (f.short()? as usize, u8::try_from(f.short()?).ok());
            f.done()?;
            *shared.room.get_mut(at)? = b?;
        }
        "tpeek" => {
            let (at, n) = (f.short()? as usize, f.short()? as usize);
            f.done()?;
            let shown = shared.room.get(at..at + n).filter(|_| (1..=0x80).contains(&n))?;
            return Some("ok ".to_string() + &shown.iter().map(|b| format!("{b:02x}")).collect::<String>());
        }
        _ => return call(name, f, shared),
    }
    Some("ok".to_string())
}

/// The sine of the step in whole numbers: 16384 times the sine of k parts of 2048 of the f32 nearest to pi, to the nearest. An f64 is far
/// nearer to it than any tie is.
fn whole_sine(k: i64) -> i64 {
    let part = std::f32::consts::PI as f64 / 2048.0;
    (16384.0 * (k as f64 * part).sin()).round() as i64
}

/// The step in whole numbers: start, target, height, progress.
fn on_wholes(n: [i64; 8]) -> Result<[i64; 3], Refusal> {
    let [sx, sy, sz, tx, ty, tz, height, progress] = n;
    let good = n[..6].iter().all(|c| c.abs() <= 40_000) && (0..=1_000).contains(&height) && (0..=2_048).contains(&progress);
    if !good {
        return Err(2);
    }
    if progress == 2_048 {
        return Ok([tx, ty, tz]);
    }
    let sideways = |s: i64, t: i64| s + ((t - s) * progress).div_euclid(2_048);
    let up = (height * whole_sine(progress.min(2_048 - progress))).div_euclid(16_384);
    Ok([sideways(sx, tx), sideways(sy, ty), sz + up])
}

/// A row of bytes, `-` for none.
fn bytes(row: &[u8]) -> String {
    if row.is_empty() { " -".to_string() } else { " ".to_string() + &row.iter().map(|b| format!("{b:02x}")).collect::<String>() }
}

/// A call of the conductor, done or refused, with its rows as it left them.
fn told_rows(done: Result<&str, conducted::Refused>, after: &[&[u8]]) -> String {
    let told = match done {
        Ok(kind) => "ok".to_string() + kind,
        Err((n, leg)) => format!("R {n}{} row", leg.map_or(String::new(), |leg| format!(" {leg}"))),
    };
    told + &after.iter().map(|row| bytes(row)).collect::<String>()
}

/// The conductor's calls.
fn on_conductor(name: &str, f: &mut Fields) -> Parsed<String> {
    const LENT: [u8; 512] = [0xa5; 512];
    Some(match name {
        "conduct" => {
            let (n, mut state, elapsed) = (f.short()? as usize, f.bytes()?, f.time()?);
            f.done()?;
            let mut joints = LENT[..128].get(..n)?.to_vec();
            let done = conducted::conduct(&mut state, &mut joints, &elapsed);
            told_rows(done.map(|kind| [" S", " P", " N"][kind as usize]), &[&state, &joints])
        }
        "cstand" => {
            let (n, feet, config) = (f.short()? as usize, f.bytes()?, f.bytes()?);
            f.done()?;
            let mut state = LENT.get(..n)?.to_vec();
            let done = conducted::stand(&mut state, &feet, &config);
            told_rows(done.map(|()| ""), &[&state])
        }
        _ => {
            let (mut state, x, y, rotation, step_time, height) = (f.bytes()?, f.float()?, f.float()?, f.float()?, f.time()?, f.float()?);
            let (c, aggressive) = (Command { x, y, rotation, step_time, height, aggressive: false }, f.short()?);
            f.done()?;
            let done = conducted::command(&mut state, c, aggressive);
            told_rows(done.map(|()| ""), &[&state])
        }
    })
}

fn answer(line: &str, shared: &mut Shared) -> Parsed<String> {
    let mut f = Fields { rest: line.split(' '), marks: false };
    let word = f.rest.next()?;
    let name = word.strip_suffix('m').filter(|name| MARKED.contains(name)).unwrap_or(word);
    f.marks = name != word;
    let marks = f.marks;
    Some(match name {
        "abs" | "sqrt" | "sin" | "cos" | "acos" => {
            let x = f.float()?;
            f.done()?;
            let r = match name {
                "abs" => absolute(x),
                "sqrt" => square_root(x),
                "sin" => sine(x),
                "cos" => cosine(x),
                _ => arc_cosine(x),
            };
            told(r, float)
        }
        "jread" => {
            let text = f.text()?;
            f.done()?;
            match json::from_json(&text) {
                Ok(legs) => format!("ok{} 000000", legs.map(leg).concat()),
                Err(number) => format!("R {number}"),
            }
        }
        "jwrite" => {
            let (n, fill) = (f.short()?, f.short()?);
            let legs = [f.leg()?, f.leg()?, f.leg()?, f.leg()?, f.leg()?, f.leg()?];
            f.bits(6)?;
            f.done()?;
            if n > 0x400 || fill > 0xff {
                return None;
            }
            written(legs, n as usize)
        }
        "min" | "max" | "atan2" => {
            let (x, y) = (f.float()?, f.float()?);
            f.done()?;
            let r = match name {
                "min" => min(x, y),
                "max" => max(x, y),
                _ => atan2(x, y),
            };
            told(r, float)
        }
        "sel" => {
            let (m, r) = (f.short()?, f.row()?);
            f.done()?;
            told(selected_legs(&r, m), |(n, fs)| format!(" {n}") + &feet(&fs[..n], marks))
        }
        "upd" => {
            let (m, n) = (f.short()?, f.short()?);
            if n > 64 {
                return None;
            }
            let (vs, r) = (f.feet(n as usize)?, f.row()?);
            f.done()?;
            match updated_from_selected_legs(&r, &vs, m) {
                Ok(after) => "ok".to_string() + &feet(&after, marks),
                Err(n) => format!("R {n} row") + &feet(&r, marks),
            }
        }
        "merge" => {
            let (m, a, b) = (f.short()?, f.row()?, f.row()?);
            f.done()?;
            told(merge_with(&a, &b, m), |r| feet(&r, marks))
        }
        "mv" => {
            let (l, t, m) = (f.point()?, f.point()?, f.float()?);
            f.done()?;
            told(one_move(&l, &t, m), |answer| answer)
        }
        "mv6" => {
            let (l, t, m) = (f.row()?, f.row()?, f.float()?);
            f.done()?;
            lettered(move_feet_towards(&l, &t, m), "M", "A", marks)
        }
        "walk" => {
            let (m, s, t) = (f.float()?, f.point()?, f.point()?);
            f.done()?;
            told(walk(m, &s, &t), |(n, p)| format!(" {n}") + &point(&p))
        }
        "walk6" => {
            let (m, s, t) = (f.float()?, f.row()?, f.row()?);
            f.done()?;
            told(walk_feet(m, &s, &t), |(n, r)| format!(" {n}") + &feet(&r, marks))
        }
        "ldist" => {
            let (a, b) = (f.row()?, f.row()?);
            f.done()?;
            told(longest_distance(&a, &b), float)
        }
        "tprog" | "eprog" => {
            let (e, p) = (f.time()?, f.time()?);
            f.done()?;
            told(if name == "tprog" { timed_progress(&e, &p) } else { even_progress(&e, &p) }, float)
        }
        "step" => {
            let (s, l, t) = (f.row()?, f.row()?, f.row()?);
            let (m, h, tri, b) = (f.float()?, f.float()?, f.tripod()?, f.bit()?);
            f.done()?;
            lettered(step(&s, &l, &t, m, h, tri, b), "S", "N", marks)
        }
        "tstep" | "estep" => {
            let (s, l, t) = (f.row()?, f.row()?, f.row()?);
            let lift = Lift { height: f.float()?, descent: f.float()?, lifted: f.tripod()?, aggressive: f.bit()? };
            let (e, p) = (f.time()?, f.time()?);
            f.done()?;
            let r = if name == "tstep" { timed_step(&s, &l, &t, &lift, &e, &p) } else { even_step(&s, &l, &t, &lift, &e, &p) };
            lettered(r, "S", "N", marks)
        }
        "should" => {
            let c = f.command()?;
            f.done()?;
            told(should_move(&c), |b| format!(" {}", b as u8))
        }
        "plan" => {
            let (s, r, tri, c) = (f.row()?, f.row()?, f.tripod()?, f.command()?);
            f.done()?;
            told(plan(&s, &r, tri, &c), |r| feet(&r, marks))
        }
        "ik" | "iks" => {
            let (r, c) = (f.row()?, f.config()?);
            f.done()?;
            match if name == "ik" { inverse(&r, &c) } else { inverse_strict(&r, &c) } {
                Err((n, Some(leg))) => format!("R {n} {leg}"),
                Err((n, None)) => format!("R {n}"),
                Ok(a) => "ok".to_string() + &a.map(|a| float(a.coxa) + &float(a.femur) + &float(a.tibia)).concat(),
            }
        }
        "fk" => {
            let (joints, c) = (f.joints()?, f.config()?);
            f.done()?;
            told(forward(&joints, &c), |r| feet(&r, marks))
        }
        "inv" | "flag" => {
            let t = f.tripod()?;
            f.done()?;
            if name == "inv" { format!("ok {}", (t == LRL) as u8) } else { format!("ok {t:08x}") }
        }
        "consts" => {
            f.done()?;
            let c = [90_f32.to_radians(), (-90_f32).to_radians(), 150_f32.to_radians(), std::f32::consts::PI, f32::EPSILON, 0.03];
            "ok".to_string() + &c.map(float).concat()
        }
        "wstep" => {
            let mut n = [0; 8];
            for m in n.iter_mut() {
                *m = f.whole()? as i64;
            }
            f.done()?;
            told(on_wholes(n), |point| point.map(|c| format!(" {c}")).concat())
        }
        "conduct" | "cstand" | "ccommand" => return on_conductor(name, &mut f),
        "tfresh" | "tput" | "tget" | "tdrop" | "tlist" | "tlend" | "tpoke" | "tpeek" => return on_taught(name, &mut f, shared),
        _ => return on_commands(name, &mut f),
    })
}

fn main() {
    let stdin = io::stdin();
    let mut out = io::BufWriter::new(io::stdout());
    let mut shared = Shared { room: [0xff; 5200], lent: 5120 };
    for line in stdin.lock().split(b'\n') {
        let line = line.unwrap();
        if line.is_empty() || line[0] == b'#' {
            out.write_all(&line).unwrap();
        } else {
            let text = if line.len() <= 4096 { std::str::from_utf8(&line).ok() } else { None };
            let said = text.and_then(|line| answer(line, &mut shared)).unwrap_or_else(|| "E".to_string());
            out.write_all(said.as_bytes()).unwrap();
        }
        out.write_all(b"\n").unwrap();
    }
}
