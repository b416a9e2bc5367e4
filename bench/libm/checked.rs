//! The five functions of libm behind the boundary of the proved library: the argument looked at, the answer stored.

#[inline(always)]
fn refusal(from: f32, to: f32, x: f32) -> u32 {
    if !x.is_finite() {
        1
    } else if !(from <= x && x <= to) {
        2
    } else {
        0
    }
}

macro_rules! checked {
    ($name:ident, $f:path, $from:expr, $to:expr) => {
        #[no_mangle]
        #[inline(never)]
        pub extern "C" fn $name(x: f32, out: &mut f32) -> u32 {
            let n = refusal($from, $to, x);
            if n == 0 {
                *out = $f(x);
            }
            n
        }
    };
}

checked!(libm_square_root, libm::sqrtf, 0.0, 65536.0);
checked!(libm_sine, libm::sinf, -16.0, 16.0);
checked!(libm_cosine, libm::cosf, -16.0, 16.0);
checked!(libm_arc_cosine, libm::acosf, -1.0, 1.0);

#[no_mangle]
#[inline(never)]
pub extern "C" fn libm_atan2(y: f32, x: f32, out: &mut f32) -> u32 {
    let n = refusal(-128.0, 128.0, y).max(refusal(-128.0, 128.0, x));
    if n == 0 {
        *out = libm::atan2f(y, x);
    }
    n
}
