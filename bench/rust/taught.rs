// Taught poses, the proved library beside a plain Rust program over the same bytes, in one run.
// taught [ROUNDS [CALLS [ONE [SIDE]]]]: each byte of five rooms is changed to each of 256 values, with every call but fresh on each; CALLS
// calls are made at random, in rooms of every fullness; answers and rooms are held to a map (bench/taught/judge.rs), the plain program's
// too (CALLS 0: none of this). Then both are timed, ROUNDS rounds by turns. What puts a room back after a call that changes it is timed
// with them and taken off; `get 0` is the look at the room and nothing more, and the last column has what part of our call that is. With
// ONE, for a profile or a count, only that operation is run, with SIDE one side of it: ours, Rust, or back, the putting back alone.
// Status 1 on a failure.
use judge::{Call, Map, Pose, Told, ROOM};
use std::hint::black_box;
use std::time::Instant;

#[path = "../taught/judge.rs"]
mod judge;

mod ours {
    extern "C" {
        fn probe_taught_fresh(room: *mut u8, n: usize) -> u32;
        fn probe_taught_put(room: *mut u8, n: usize, id: u16, s: *const f32, m: usize, marks: u32) -> u32;
        fn probe_taught_get(room: *const u8, n: usize, id: u16, out: *mut f32, m: usize, lifted: &mut u32) -> u32;
        fn probe_taught_drop(room: *mut u8, n: usize, id: u16) -> u32;
        fn probe_taught_list(room: *const u8, n: usize, ids: &mut [u16; 64], len: &mut usize) -> u32;
    }
    #[inline(always)]
    pub fn fresh(room: &mut [u8]) -> u32 {
        unsafe { probe_taught_fresh(room.as_mut_ptr(), room.len()) }
    }
    #[inline(always)]
    pub fn put(room: &mut [u8], id: u16, pose: &[f32], marks: u32) -> u32 {
        unsafe { probe_taught_put(room.as_mut_ptr(), room.len(), id, pose.as_ptr(), pose.len(), marks) }
    }
    #[inline(always)]
    pub fn get(room: &[u8], id: u16, out: &mut [f32], marks: &mut u32) -> u32 {
        unsafe { probe_taught_get(room.as_ptr(), room.len(), id, out.as_mut_ptr(), out.len(), marks) }
    }
    #[inline(always)]
    pub fn drop(room: &mut [u8], id: u16) -> u32 {
        unsafe { probe_taught_drop(room.as_mut_ptr(), room.len(), id) }
    }
    #[inline(always)]
    pub fn list(room: &[u8], ids: &mut [u16; 64], len: &mut usize) -> u32 {
        unsafe { probe_taught_list(room.as_ptr(), room.len(), ids, len) }
    }
}

#[path = "theirs_taught.rs"]
mod theirs;

/// The five calls of one side.
struct Side {
    fresh: fn(&mut [u8]) -> u32,
    put: fn(&mut [u8], u16, &[f32], u32) -> u32,
    get: fn(&[u8], u16, &mut [f32], &mut u32) -> u32,
    drop: fn(&mut [u8], u16) -> u32,
    list: fn(&[u8], &mut [u16; 64], &mut usize) -> u32,
}

const OURS: Side = Side { fresh: ours::fresh, put: ours::put, get: ours::get, drop: ours::drop, list: ours::list };
const RUST: Side = {
    use theirs::calls::*;
    Side { fresh, put, get, drop, list }
};

fn kept_of(number: u32) -> Told {
    if number == 0 { Told::Done } else { Told::Refused(number) }
}

/// What a side tells. A refused list must have no ids.
fn told(side: &Side, call: &Call, room: &mut [u8]) -> Told {
    match call {
        Call::Fresh => kept_of((side.fresh)(room)),
        Call::Put(id, pose) => {
            let marks = (0..6).map(|l| (pose.marks[l] as u32) << l).sum();
            kept_of((side.put)(room, *id, &pose.bits.map(f32::from_bits), marks))
        }
        Call::Get(id) => {
            let (mut out, mut marks) = ([7.0; 18], 77);
            match (side.get)(room, *id, &mut out, &mut marks) {
                0 => Told::Pose(Pose { marks: std::array::from_fn(|l| marks >> l & 1 == 1), bits: out.map(f32::to_bits) }),
                n => Told::Refused(n),
            }
        }
        Call::Drop(id) => kept_of((side.drop)(room, *id)),
        Call::List => {
            let (mut ids, mut len) = ([7; 64], 77);
            let n = (side.list)(room, &mut ids, &mut len);
            if len > 64 || ids[len..].iter().any(|id| *id != 0) || n != 0 && len != 0 {
                return Told::Refused(100);
            }
            if n == 0 { Told::Ids(ids[..len].to_vec()) } else { Told::Refused(n) }
        }
    }
}

struct Random(u64);

impl Random {
    fn next(&mut self) -> u64 {
        self.0 ^= self.0 << 13;
        self.0 ^= self.0 >> 7;
        self.0 ^= self.0 << 17;
        self.0
    }
    fn below(&mut self, n: usize) -> usize {
        (self.next() >> 20) as usize % n
    }
    /// A number that a room takes, an edge among a few.
    fn pattern(&mut self) -> u32 {
        const EDGES: [u32; 8] = [0, 1, 0x7f_ffff, 0x80_0000, 0x407f_ffff, 0x4080_0000, 0x3f80_0000, 0];
        let bits = if self.below(4) == 0 { EDGES[self.below(8)] } else { self.below(0x4080_0001) as u32 };
        bits | (self.below(2) as u32) << 31
    }
    fn pose(&mut self) -> Pose {
        Pose { marks: std::array::from_fn(|_| self.below(2) == 1), bits: std::array::from_fn(|_| self.pattern()) }
    }
    /// One that a put may refuse: 1, 2, or both apply.
    fn any_pose(&mut self) -> Pose {
        const NO: [u32; 8] = [0x4080_0001, 0xc080_0001, 0x40a0_0000, 0xff7f_ffff, 0x7f80_0000, 0xff80_0000, 0x7fc0_0000, 0x7f80_0001];
        let mut pose = self.pose();
        if self.below(4) == 0 {
            for _ in 0..1 + self.below(2) {
                pose.bits[self.below(18)] = NO[self.below(8)];
            }
        }
        pose
    }
    fn id(&mut self) -> u16 {
        const EDGES: [u16; 6] = [0, 1, 255, 256, 65534, 65535];
        if self.below(4) == 0 { EDGES[self.below(6)] } else { self.next() as u16 }
    }
    fn map(&mut self, n: usize) -> Map {
        let mut map = Map::new();
        while map.len() < n {
            map.insert(1 + self.below(65535) as u16, self.pose());
        }
        map
    }
    /// An id that the map has, where it has one, or another.
    fn id_of(&mut self, map: &Map) -> u16 {
        if map.is_empty() || self.below(3) == 0 { self.id() } else { *map.keys().nth(self.below(map.len())).unwrap() }
    }
}

/// Bytes of a row that is lent.
const LONGEST: usize = ROOM + 80;

/// Calls made, those refused 17, and those that answered or left what they must not.
#[derive(Default)]
struct Tally {
    calls: u64,
    refused: u64,
    wrong: u64,
}

impl Tally {
    /// A call on a copy of the room that has this byte on both sides of it.
    fn one(&mut self, side: &Side, call: &Call, room: &[u8], wanted: &Told, left: &[u8]) {
        let mut row = [0xee; 64 + LONGEST + 64];
        let end = 64 + room.len();
        row[64..end].copy_from_slice(room);
        let told = told(side, call, &mut row[64..end]);
        let around = row[..64].iter().chain(&row[end..]).all(|b| *b == 0xee);
        self.calls += 1;
        self.refused += (*wanted == Told::Refused(17)) as u64;
        self.wrong += (told != *wanted || row[64..end] != *left || !around) as u64;
    }
}

/// Each byte of a room to each value, with every call.
fn damaged(side: &Side, n: usize, r: &mut Random, tally: &mut Tally) {
    let map = r.map(n);
    let mut room = judge::room_of(&map);
    for at in 0..ROOM {
        let before = room[at];
        for value in 0..=255 {
            room[at] = value;
            let id = r.id_of(&map);
            let calls = [Call::List, Call::Get(id), Call::Put(id, r.any_pose()), Call::Drop(id)];
            let map = judge::map_of(&room);
            for call in calls {
                match &map {
                    None => tally.one(side, &call, &room, &Told::Refused(17), &room),
                    Some(map) => {
                        let told = judge::answer(&call, map);
                        if told == Told::Done {
                            let mut map = map.clone();
                            judge::after(&call, &mut map);
                            tally.one(side, &call, &room, &told, &judge::room_of(&map));
                        } else {
                            tally.one(side, &call, &room, &told, &room);
                        }
                    }
                }
            }
        }
        room[at] = before;
    }
}

/// Runs of calls, each from a fresh room on; some are about full, and some rooms are of another length.
fn runs(side: &Side, calls: usize, r: &mut Random, tally: &mut Tally) {
    let mut room = vec![];
    let (mut pool, mut puts) = (vec![], 0);
    for k in 0..calls {
        if k % 1000 == 0 {
            room = vec![r.next() as u8; ROOM];
            let few = [3, 40, 64, 66, 90][r.below(5)];
            pool = (0..few).map(|_| r.id()).collect();
            puts = 1 + r.below(9);
        }
        let id = pool[r.below(pool.len())];
        let call = match r.below(puts + 3) {
            _ if k % 1000 == 0 || r.below(2000) == 0 => Call::Fresh,
            0 => Call::Get(id),
            1 => Call::Drop(id),
            2 => Call::List,
            _ => Call::Put(id, r.any_pose()),
        };
        if r.below(50) == 0 {
            let mut other = room.clone();
            other.resize([0, 79, 80, ROOM - 80, ROOM - 1, ROOM + 1, LONGEST][r.below(7)], 0);
            tally.one(side, &call, &other, &Told::Refused(17), &other);
        }
        let (told, left) = judge::called(&call, &room);
        tally.one(side, &call, &room, &told, &left);
        room = left;
    }
}

/// Whether both sides are right.
fn judged(calls: usize) -> bool {
    let mut good = true;
    for (name, side) in [("ours", &OURS), ("Rust's", &RUST)] {
        let mut r = Random(0x1234_5678_9abc_def1);
        let (mut damage, mut run) = (Tally::default(), Tally::default());
        for n in [0, 1, 2, 63, 64] {
            damaged(side, n, &mut r, &mut damage);
        }
        runs(side, calls, &mut r, &mut run);
        for (what, t) in [("rooms with one byte another", damage), ("runs of calls", run)] {
            println!("{what}, {name}: {} calls, {} of them refused 17, {} failed", t.calls, t.refused, t.wrong);
            good &= t.wrong == 0;
        }
    }
    good
}

const INPUTS: usize = 1024;

/// One round over all inputs, in nanoseconds a call.
fn timed(call: &mut impl FnMut(usize)) -> f64 {
    let t = Instant::now();
    for i in 0..INPUTS {
        call(i);
    }
    t.elapsed().as_nanos() as f64 / INPUTS as f64
}

/// The best of several rounds, ours, theirs and what puts the room back by turns; the last is taken off. Ours is given back.
fn both(name: &str, look: f64, mut ours: impl FnMut(usize), mut theirs: impl FnMut(usize), mut back: impl FnMut(usize)) -> f64 {
    let word = |k| std::env::args().nth(k);
    let rounds = word(1).and_then(|s| s.parse().ok()).unwrap_or(200);
    if word(3).is_some_and(|only| only != name) {
        return f64::NAN;
    }
    let side = word(4).unwrap_or_default();
    let mut best = [f64::MAX; 3];
    for _ in 0..rounds {
        if side.is_empty() || side == "ours" {
            best[0] = best[0].min(timed(&mut ours));
        }
        if side.is_empty() || side == "Rust" {
            best[1] = best[1].min(timed(&mut theirs));
        }
        if side.is_empty() || side == "back" {
            best[2] = best[2].min(timed(&mut back));
        }
    }
    let (a, b) = (best[0] - best[2], best[1] - best[2]);
    if side.is_empty() {
        let part = if look.is_nan() { String::new() } else { format!("{:4.0} %", 100.0 * look / a) };
        println!("{name:27} {a:9.1} {b:9.1} {:7.2} {:6.1} {part:>6}{}", a / b, 1.3, if a / b <= 1.3 { "" } else { "  missed" });
    }
    a
}

// An answer that the compiler must make, though nothing reads it.
#[inline(always)]
fn kept<T>(answer: T) {
    black_box(answer);
}

/// Both sides' rooms begin where a cache line does.
#[derive(Clone)]
#[repr(align(64))]
struct Room([u8; ROOM]);

/// What the calls are made with.
struct Inputs {
    poses: Vec<[f32; 18]>,
    marks: Vec<u32>,
    there: Vec<u16>, // ids that the room has, where it has any
    new: Vec<u16>,   // ids that it has not
}

/// Ids 2, 4, .. 2n are there.
fn inputs(n: usize, r: &mut Random) -> Inputs {
    let mut number = || -1.0 + 2.0 * ((r.next() >> 40) as f32 / (1u64 << 24) as f32);
    let poses = (0..INPUTS).map(|_| std::array::from_fn(|_| number())).collect();
    Inputs {
        poses,
        marks: (0..INPUTS).map(|_| r.below(64) as u32).collect(),
        there: (0..INPUTS).map(|_| 2 * r.below(n.max(1)) as u16 + 2).collect(),
        new: (0..INPUTS).map(|_| 2 * r.below(n + 1) as u16 + 1).collect(),
    }
}

/// Each call on a room of n poses. On an empty one get and drop are refused 12, on a full one a put of a new id is refused 11.
fn times(kind: &str, n: usize, with: &Inputs) {
    let mut first = Room([0; ROOM]);
    for k in 0..n {
        assert_eq!(theirs::calls::put(&mut first.0, 2 * k as u16 + 2, &with.poses[k], with.marks[k]), 0);
    }
    let (mut room, mut other, mut third) = (first.clone(), first.clone(), first.clone());
    let (first, a, b, c) = (&first.0, &mut room.0[..], &mut other.0[..], &mut third.0[..]);
    let name = |call: &str| format!("{call}, {kind}");
    let nothing = |_| {};
    // The places from an id's own on, and one more; nothing after a call that is refused.
    let back = |refused: bool, room: &mut [u8], id: u16| {
        let (from, to) = (80 * ((id as usize - 1) / 2), (80 * n + 80).min(ROOM));
        if !refused {
            room[from..to].copy_from_slice(&first[from..to]);
        }
    };
    let Inputs { poses, marks, there, new } = with;
    both(&name("fresh"), f64::NAN, |_| kept(ours::fresh(a)), |_| kept(theirs::calls::fresh(b)), nothing);
    a.copy_from_slice(first);
    b.copy_from_slice(first);
    let (mut p, mut q, mut k, mut l) = ([0.0; 18], [0.0; 18], 0, 0);
    let look = both(
        &name("get 0"),
        f64::NAN,
        |_| kept(ours::get(a, black_box(0), &mut p, &mut k)),
        |_| kept(theirs::calls::get(b, black_box(0), &mut q, &mut l)),
        nothing,
    );
    both(
        &name("get"),
        look,
        |i| kept(ours::get(a, there[i], &mut p, &mut k)),
        |i| kept(theirs::calls::get(b, there[i], &mut q, &mut l)),
        nothing,
    );
    let (mut ids, mut others, mut m, mut o) = ([0; 64], [0; 64], 0, 0);
    both(&name("list"), look, |_| kept(ours::list(a, &mut ids, &mut m)), |_| kept(theirs::calls::list(b, &mut others, &mut o)), nothing);
    both(
        &name("put a new one"),
        look,
        |i| {
            kept(ours::put(a, new[i], &poses[i], marks[i]));
            back(n == 64, a, new[i]);
        },
        |i| {
            kept(theirs::calls::put(b, new[i], &poses[i], marks[i]));
            back(n == 64, b, new[i]);
        },
        |i| back(n == 64, c, new[i]),
    );
    both(
        &name("drop"),
        look,
        |i| {
            kept(ours::drop(a, there[i]));
            back(n == 0, a, there[i]);
        },
        |i| {
            kept(theirs::calls::drop(b, there[i]));
            back(n == 0, b, there[i]);
        },
        |i| back(n == 0, c, there[i]),
    );
    if n > 0 {
        both(
            &name("put another"),
            look,
            |i| kept(ours::put(a, there[i], &poses[i], marks[i])),
            |i| kept(theirs::calls::put(b, there[i], &poses[i], marks[i])),
            nothing,
        );
    }
}

fn main() {
    let word = |k| std::env::args().nth(k);
    let calls = word(2).and_then(|s| s.parse().ok()).unwrap_or(2_000_000);
    let good = calls == 0 || judged(calls);
    println!("{:27} {:>9} {:>9} {:>7} {:>6} {:>6}", "operation", "ours ns", "Rust ns", "ratio", "goal", "look");
    let mut r = Random(0x9e37_79b9_7f4a_7c15);
    for (kind, n) in [("empty", 0), ("half full", 32), ("full", 64)] {
        times(kind, n, &inputs(n, &mut r));
    }
    if !good {
        std::process::exit(1);
    }
}
