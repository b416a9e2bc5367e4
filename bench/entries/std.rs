//! What the plain Rust reading takes from the standard library, for a board, which has none: core, and floats by libm. The crate is named
//! std, so that the reading is compiled as it is.
#![no_std]
#![feature(core_intrinsics)]
pub use core::*;

pub mod prelude {
    pub mod rust_2021 {
        pub use crate::{Double, Single};
        pub use core::prelude::rust_2021::*;
    }
}

/// Of f32 what core has not. A compiler has an instruction or two for the magnitude and for a square.
pub trait Single {
    fn abs(self) -> f32;
    fn powi(self, n: i32) -> f32;
    fn sqrt(self) -> f32;
    fn sin(self) -> f32;
    fn cos(self) -> f32;
    fn acos(self) -> f32;
    fn atan2(self, x: f32) -> f32;
}

impl Single for f32 {
    #[inline(always)]
    fn abs(self) -> f32 {
        unsafe { intrinsics::fabsf32(self) }
    }
    #[inline(always)]
    fn powi(self, n: i32) -> f32 {
        unsafe { intrinsics::powif32(self, n) }
    }
    #[inline(always)]
    fn sqrt(self) -> f32 {
        libm::sqrtf(self)
    }
    #[inline(always)]
    fn sin(self) -> f32 {
        libm::sinf(self)
    }
    #[inline(always)]
    fn cos(self) -> f32 {
        libm::cosf(self)
    }
    #[inline(always)]
    fn acos(self) -> f32 {
        libm::acosf(self)
    }
    #[inline(always)]
    fn atan2(self, x: f32) -> f32 {
        libm::atan2f(self, x)
    }
}

/// The same of f64.
pub trait Double {
    fn round_ties_even(self) -> f64;
}

impl Double for f64 {
    /// As newer libms have it, for a number from 0 to 2^52: the sum has no place for a part of one.
    #[inline(always)]
    fn round_ties_even(self) -> f64 {
        const BEYOND: f64 = (1u64 << 52) as f64;
        self + BEYOND - BEYOND
    }
}

/// Where core's `max` and `min` of f32 end on a board, as Rust's compiler_builtins has them.
#[no_mangle]
pub extern "C" fn fmaxf(x: f32, y: f32) -> f32 {
    libm::fmaxf(x, y)
}

#[no_mangle]
pub extern "C" fn fminf(x: f32, y: f32) -> f32 {
    libm::fminf(x, y)
}
