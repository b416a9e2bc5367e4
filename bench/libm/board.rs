//! The program that runs on the emulated board: reads calls, makes each of them, and writes them back with their answers.
//! What the calls execute is counted from outside, between the entry of a function and the return to `make_calls`.
#![no_std]
#![no_main]
#[path = "checked.rs"]
mod checked;
use checked::*;

extern "C" {
    fn probe_square_root(x: f32, out: &mut f32) -> u32;
    fn probe_sine(x: f32, out: &mut f32) -> u32;
    fn probe_cosine(x: f32, out: &mut f32) -> u32;
    fn probe_arc_cosine(x: f32, out: &mut f32) -> u32;
    fn probe_atan2(y: f32, x: f32, out: &mut f32) -> u32;
    /// A request to the system: its number, then up to three arguments.
    fn request(number: usize, a: usize, b: usize, c: usize) -> usize;
}

core::arch::global_asm!(
    ".thumb_func", "request:", "push {{r7, lr}}", "mov r7, r0", "mov r0, r1", "mov r1, r2", "mov r2, r3", "svc #0", "pop {{r7, pc}}"
);
const EXIT: usize = 1;
const READ: usize = 3;
const WRITE: usize = 4;

/// `function` is 0 after the last call; otherwise odd for ours and even for libm's, in the order of the list in board.py.
#[repr(C)]
#[derive(Clone, Copy)]
pub struct Call {
    function: u32,
    first: f32,
    second: f32,
    refused: u32,
    answer: f32,
}

const NO_CALL: Call = Call { function: 0, first: 0.0, second: 0.0, refused: 0, answer: 0.0 };
static mut CALLS: [Call; 1 << 14] = [NO_CALL; 1 << 14];

#[no_mangle]
#[inline(never)]
unsafe extern "C" fn make_calls() {
    for c in CALLS.iter_mut() {
        let (x, y, out) = (c.first, c.second, &mut c.answer);
        c.refused = match c.function {
            1 => probe_square_root(x, out),
            2 => libm_square_root(x, out),
            3 => probe_sine(x, out),
            4 => libm_sine(x, out),
            5 => probe_cosine(x, out),
            6 => libm_cosine(x, out),
            7 => probe_arc_cosine(x, out),
            8 => libm_arc_cosine(x, out),
            9 => probe_atan2(x, y, out),
            10 => libm_atan2(x, y, out),
            _ => return,
        };
    }
}

#[no_mangle]
unsafe extern "C" fn _start() -> ! {
    let (at, bytes) = (CALLS.as_mut_ptr() as usize, core::mem::size_of_val(&CALLS));
    request(READ, 0, at, bytes);
    make_calls();
    request(WRITE, 1, at, bytes);
    request(EXIT, 0, 0, 0);
    loop {}
}

#[panic_handler]
fn panic(_: &core::panic::PanicInfo) -> ! {
    loop {}
}
