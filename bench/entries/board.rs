//! The program that runs on the emulated board: reads calls, makes each of them, and writes them back with their answers.
//! What the calls execute is counted from outside (bench/emulated.py).
#![no_main]
#![feature(let_else, slice_as_chunks)]
#[path = "../rust/conducted.rs"]
mod conducted;
#[path = "../rust/theirs_poses.rs"]
mod poses;
#[path = "../rust/reference.rs"]
mod reference;
#[path = "../rust/theirs_taught.rs"]
mod taught;
#[path = "../rust/theirs.rs"]
mod theirs;
use std::slice::{from_raw_parts, from_raw_parts_mut};

/// The library's. A length is of 64 bits there, whatever the board's.
mod ours {
    extern "C" {
        pub fn probe_move(s: *const f32, n: u64, out: *mut f32, m: u64) -> u32;
        pub fn probe_move_feet(s: *const f32, n: u64, marks: u32, out: *mut f32, m: u64, lifted: &mut u32) -> u32;
        pub fn probe_walk(s: *const f32, n: u64) -> u64;
        pub fn probe_walk_feet(s: *const f32, n: u64, marks: u32) -> u64;
        pub fn probe_step(s: *const f32, n: u64, marks: u32, t: u32, a: u32, out: *mut f32, m: u64, lifted: &mut u32) -> u32;
        pub fn probe_timed_step(
            s: *const f32, n: u64, marks: u32, t: u32, a: u32, es: u64, en: u32, ps: u64, pn: u32, out: *mut f32, m: u64, lifted: &mut u32,
        ) -> u32;
        pub fn probe_even_step(
            s: *const f32, n: u64, marks: u32, t: u32, a: u32, es: u64, en: u32, ps: u64, pn: u32, out: *mut f32, m: u64, lifted: &mut u32,
        ) -> u32;
        pub fn probe_plan(
            s: *const f32, n: u64, marks: u32, t: u32, a: u32, seconds: u64, nanoseconds: u32, out: *mut f32, m: u64, lifted: &mut u32,
        ) -> u32;
        pub fn probe_ik(s: *const f32, n: u64, marks: u32, out: *mut f32, m: u64) -> u32;
        pub fn probe_ik_strict(s: *const f32, n: u64, marks: u32, out: *mut f32, m: u64) -> u32;
        pub fn probe_fk(s: *const f32, n: u64, out: *mut f32, m: u64, lifted: &mut u32) -> u32;
        pub fn hopper_conduct(state: *mut u8, n: u64, joints: *mut u8, m: u64, seconds: u64, nanoseconds: u32) -> u32;
        pub fn probe_from_json(s: *const u8, n: u64, out: *mut f32, m: u64, kinds: &mut u32) -> u32;
        pub fn probe_to_json(s: *const f32, n: u64, kinds: u32, row: *mut u8, m: u64, len: &mut u64) -> u32;
        pub fn probe_taught_put(room: *mut u8, n: u64, id: u16, s: *const f32, m: u64, marks: u32) -> u32;
        pub fn probe_taught_get(room: *const u8, n: u64, id: u16, out: *mut f32, m: u64, lifted: &mut u32) -> u32;
    }
}

/// Rust's call of the conductor, with the result of the library's.
#[export_name = "rust_conduct"]
#[inline(never)]
fn conduct(state: &mut [u8], joints: &mut [u8], seconds: u64, nanoseconds: u32) -> u32 {
    match conducted::conduct(state, joints, &reference::Time { seconds, nanoseconds }) {
        Ok(kind) => 256 * kind as u32,
        Err((n, leg)) => n + 256 * leg.unwrap_or(0) as u32,
    }
}

extern "C" {
    /// A request to the system: its number, then up to three arguments.
    fn request(number: usize, a: usize, b: usize, c: usize) -> usize;
}

std::arch::global_asm!(
    ".thumb_func", "request:", "push {{r7, lr}}", "mov r7, r0", "mov r0, r1", "mov r1, r2", "mov r2, r3", "svc #0", "pop {{r7, pc}}"
);
const EXIT: usize = 1;
const READ: usize = 3;
const WRITE: usize = 4;

/// What comes before a call's two rows, which are `given` and `made` bytes long and are lent as `n` and `m` numbers or bytes. `function` is
/// 0 after the last call; otherwise odd for ours and even for Rust's, in the order of the list in board.py.
#[repr(C, align(8))]
pub struct Call {
    function: u32,
    given: u32,
    made: u32,
    n: u32,
    m: u32,
    marks: u32,
    tripod: u32,
    nanoseconds: u32,
    seconds: u64,
    period: u32,
    lifted: u32,
    result: u64,
    len: u64,
}

const ROOM: usize = 1 << 22;
#[repr(align(8))]
struct Calls([u8; ROOM]);
static mut CALLS: Calls = Calls([0; ROOM]);

#[no_mangle]
#[inline(never)]
unsafe extern "C" fn make_calls() {
    let mut at = CALLS.0.as_mut_ptr();
    loop {
        let c = &mut *(at as *mut Call);
        let (n, m) = (c.n as usize, c.m as usize);
        let given = at.add(std::mem::size_of::<Call>());
        let made = given.add(c.given as usize);
        let (s, out) = (given as *const f32, made as *mut f32);
        let floats = || from_raw_parts(s, n);
        let answer = || from_raw_parts_mut(out, m);
        let elapsed = reference::Time { seconds: c.seconds, nanoseconds: c.nanoseconds };
        let period = reference::Time { seconds: 0, nanoseconds: c.period };
        let (lent, wide, tripod, marks, lifted) = (n as u64, m as u64, c.tripod, c.marks, &mut c.lifted);
        let result = match c.function {
            1 => ours::probe_move(s, lent, out, wide),
            2 => theirs::one_move(floats(), answer()),
            3 => ours::probe_move_feet(s, lent, marks, out, wide, lifted),
            4 => theirs::six_moves(floats(), marks, answer(), lifted),
            5 => {
                c.len = ours::probe_walk(s, lent);
                0
            }
            6 => {
                c.len = theirs::one_walk(floats());
                0
            }
            7 => {
                c.len = ours::probe_walk_feet(s, lent, marks);
                0
            }
            8 => {
                c.len = theirs::six_walks(floats(), marks);
                0
            }
            9 => ours::probe_step(s, lent, marks, tripod, 0, out, wide, lifted),
            10 => theirs::by_distance(floats(), marks, tripod, 0, answer(), lifted),
            11 => ours::probe_timed_step(s, lent, marks, tripod, 0, c.seconds, c.nanoseconds, 0, c.period, out, wide, lifted),
            12 => theirs::timed(floats(), marks, tripod, 0, elapsed, period, answer(), lifted),
            13 => ours::probe_even_step(s, lent, marks, tripod, 0, c.seconds, c.nanoseconds, 0, c.period, out, wide, lifted),
            14 => theirs::even(floats(), marks, tripod, 0, elapsed, period, answer(), lifted),
            15 => ours::probe_plan(s, lent, marks, tripod, 0, 0, c.period, out, wide, lifted),
            16 => theirs::planned(floats(), marks, tripod, 0, period, answer(), lifted),
            17 => ours::probe_ik(s, lent, marks, out, wide),
            18 => theirs::ik(floats(), marks, answer()),
            19 => ours::probe_ik_strict(s, lent, marks, out, wide),
            20 => theirs::ik_strict(floats(), marks, answer()),
            21 => ours::probe_fk(s, lent, out, wide, lifted),
            22 => theirs::fk(floats(), answer(), lifted),
            23 => ours::hopper_conduct(given, lent, made, wide, c.seconds, c.nanoseconds),
            24 => conduct(from_raw_parts_mut(given, n), from_raw_parts_mut(made, m), c.seconds, c.nanoseconds),
            25 => ours::probe_from_json(given, lent, out, wide, lifted),
            26 => poses::read(from_raw_parts(given, n), answer(), lifted),
            27 => ours::probe_to_json(s, lent, marks, made, wide, &mut c.len),
            28 => {
                let mut len = 0;
                let result = poses::write(floats(), marks, from_raw_parts_mut(made, m), &mut len);
                c.len = len as u64;
                result
            }
            29 => ours::probe_taught_put(made, wide, c.tripod as u16, s, lent, marks),
            30 => taught::calls::put(from_raw_parts_mut(made, m), c.tripod as u16, floats(), marks),
            31 => ours::probe_taught_get(given, lent, c.tripod as u16, out, wide, lifted),
            32 => taught::calls::get(from_raw_parts(given, n), c.tripod as u16, answer(), lifted),
            _ => return,
        };
        c.result = result as u64;
        at = made.add(c.made as usize);
    }
}

#[no_mangle]
unsafe extern "C" fn _start() -> ! {
    let at = CALLS.0.as_mut_ptr() as usize;
    request(READ, 0, at, ROOM);
    make_calls();
    request(WRITE, 1, at, ROOM);
    request(EXIT, 0, 0, 0);
    loop {}
}

#[panic_handler]
fn panic(_: &std::panic::PanicInfo) -> ! {
    loop {}
}
