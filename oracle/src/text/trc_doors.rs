// A door to each function of trc.rs that is compared. It stands in a module inside that of trc.rs, so that the
// functions that are private there can be called, and keeps their names.

#[cfg(wide)]
use crate::width::u32;

pub use super::{ParametricCurve, ToneReprCurve};

pub fn lut_interp_linear16(input_value: u16, table: &[u16]) -> u16 {
    super::lut_interp_linear16(input_value, table)
}

pub fn lut_inverse_interp16(value: u16, table: &[u16]) -> u16 {
    super::lut_inverse_interp16(value, table)
}

pub fn invert_lut(table: &[u16], out_length: usize) -> Vec<u16> {
    super::invert_lut(table, out_length)
}

pub fn lut_interp_linear(input_value: f64, table: &[u16]) -> f32 {
    super::lut_interp_linear(input_value, table)
}

pub fn lut_interp_linear_float(x: f32, table: &[f32]) -> f32 {
    super::lut_interp_linear_float(x, table)
}

/// A passthrough table of this length, with the greatest value that the Rust's callers give it.
pub fn passthrough_table_impl(length: usize) -> Vec<f32> {
    let mut output = vec![0f32; length];
    super::passthrough_table_impl(&mut output, length, length - 1);
    output
}

pub fn u8_fixed_8number_to_float(x: u16) -> f32 {
    super::u8_fixed_8number_to_float(x)
}

pub fn compare_parametric(src: &[f32], dst: &[f32]) -> bool {
    super::compare_parametric(src, dst)
}

type Gamma = fn(u32, &[u16]) -> u16;

/// The gamma lookup of one N at each depth from 0 to 17: those that are asked for, and one beyond at either end.
macro_rules! at_each_depth {
    ($n:literal: $($depth:literal)*) => {
        [$(super::lut_interp_linear_gamma_impl::<u16, $n, $depth>),*]
    };
}

macro_rules! gamma_sizes {
    ($($n:literal)*) => {
        /// Every N for which there is a gamma lookup, rising.
        pub const GAMMA_SIZES: &[usize] = &[$($n),*];

        static GAMMA: &[[Gamma; 18]] =
            &[$(at_each_depth!($n: 0 1 2 3 4 5 6 7 8 9 10 11 12 13 14 15 16 17)),*];
    };
}

gamma_sizes! {
    0 1
    2 3 4 5 17 255 256 257 1023 1024 1025 4092 4096 8192 16384 32768
    43692 43693 56175 56176 61168 61169 63423 63424 64497 64498 65021 65022 65280 65281 65409 65410
    65473 65474 65505 65506 65521 65522 65529 65530 65533 65534 65535 65536
    65537
}

/// The gamma lookup with this N, one of `GAMMA_SIZES`, and this depth, at most 17.
pub fn lut_interp_linear_gamma_impl(n: usize, depth: usize, input: u32, table: &[u16]) -> u16 {
    let at = GAMMA_SIZES.binary_search(&n).expect("an N that was built in");
    GAMMA[at][depth](input, table)
}
