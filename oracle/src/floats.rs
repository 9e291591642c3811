//! Floats as bit patterns: every class, the neighbours of what matters, and the borders of a table's cells.

use crate::generator::Generator;
use std::fmt::{Display, Formatter, Result};

/// A question or an entry, as groat reads it.
#[derive(Clone, Copy)]
pub struct Single(pub u32);

impl Display for Single {
    fn fmt(&self, f: &mut Formatter) -> Result {
        write!(f, "{:08x}", self.0)
    }
}

/// The same for an f64.
#[derive(Clone, Copy)]
pub struct Double(pub u64);

impl Display for Double {
    fn fmt(&self, f: &mut Formatter) -> Result {
        write!(f, "{:016x}", self.0)
    }
}

/// An answer, as groat writes it. All NaNs are one answer: the Rust leaves their bits open.
#[derive(PartialEq)]
pub struct Float(Option<u32>);

impl Float {
    pub fn of(answer: f32) -> Float {
        Float(if answer.is_nan() { None } else { Some(answer.to_bits()) })
    }
}

impl Display for Float {
    fn fmt(&self, f: &mut Formatter) -> Result {
        match self.0 {
            Some(pattern) => write!(f, "{pattern:08x}"),
            None => write!(f, "nan"),
        }
    }
}

const SIGN_32: u32 = 1 << 31;
const SIGN_64: u64 = 1 << 63;

/// A NaN whose bits no machine chose: the bits of a question must not come from arithmetic on NaNs.
const A_NAN_64: u64 = 0x7ff8_0000_0000_0000;

/// Zero, the ends of the subnormals, small, about a half, about 1, large, infinite, and NaNs, the first one signalling.
pub const CORNERS_32: [u32; 23] = [
    0x0000_0000,
    0x0000_0001,
    0x0000_0002,
    0x007f_ffff,
    0x0080_0000,
    0x0080_0001,
    0x3300_0000,
    0x3780_0080,
    0x3eff_ffff,
    0x3f00_0000,
    0x3f00_0001,
    0x3f7f_fffe,
    0x3f7f_ffff,
    0x3f80_0000,
    0x3f80_0001,
    0x4000_0000,
    0x4b80_0000,
    0x7f7f_ffff,
    0x7f80_0000,
    0x7f80_0001,
    0x7fc0_0000,
    0x7fc0_1234,
    0x7fff_ffff,
];

/// The same for f64, with the ends of the f32 numbers and of the f32 subnormals among them.
pub const CORNERS_64: [u64; 26] = [
    0x0000_0000_0000_0000,
    0x0000_0000_0000_0001,
    0x000f_ffff_ffff_ffff,
    0x0010_0000_0000_0000,
    0x3680_0000_0000_0000,
    0x3690_0000_0000_0000,
    0x36a0_0000_0000_0000,
    0x3800_0000_0000_0000,
    0x380f_ffff_ffff_ffff,
    0x3810_0000_0000_0000,
    0x3ca0_0000_0000_0000,
    0x3fdf_ffff_ffff_ffff,
    0x3fe0_0000_0000_0000,
    0x3fef_ffff_e000_0000,
    0x3fef_ffff_f000_0000,
    0x3fef_ffff_ffff_ffff,
    0x3ff0_0000_0000_0000,
    0x3ff0_0000_0000_0001,
    0x4000_0000_0000_0000,
    0x47ef_ffff_e000_0000,
    0x47ef_ffff_f000_0000,
    0x47f0_0000_0000_0000,
    0x7fef_ffff_ffff_ffff,
    0x7ff0_0000_0000_0000,
    0x7ff0_0000_0000_0001,
    0x7ff8_0000_0000_0000,
];

const QUIET: u32 = 1 << 22;

/// A NaN whose quiet bit is off.
pub fn is_signalling(pattern: u32) -> bool {
    f32::from_bits(pattern).is_nan() && pattern & QUIET == 0
}

/// The same number; of a NaN the one with its quiet bit on.
pub fn quieted(pattern: u32) -> u32 {
    if is_signalling(pattern) { pattern | QUIET } else { pattern }
}

/// A pattern up to `reach` steps away from this one, in the order of patterns.
fn beside_32(g: &mut Generator, pattern: u32, reach: usize) -> u32 {
    let step = g.below(2 * reach + 1) as u32;
    pattern.wrapping_add(step).wrapping_sub(reach as u32)
}

pub fn beside_64(g: &mut Generator, pattern: u64, reach: usize) -> u64 {
    let step = g.below(2 * reach + 1) as u64;
    pattern.wrapping_add(step).wrapping_sub(reach as u64)
}

/// A number from 0 up to and without 1, in steps of 2^-24.
pub fn fraction_32(g: &mut Generator) -> u32 {
    ((g.next() >> 40) as f32 / 16_777_216.0).to_bits()
}

/// A number from 0 up to and without 1, in steps of 2^-53.
pub fn fraction_64(g: &mut Generator) -> u64 {
    ((g.next() >> 11) as f64 / 9_007_199_254_740_992.0).to_bits()
}

/// Any f32: a corner or its neighbour of either sign, any pattern, or a number up to 1.
pub fn any_32(g: &mut Generator) -> u32 {
    match g.below(4) {
        0 => {
            let corner = g.pick(&CORNERS_32);
            corner ^ (g.next() as u32 & SIGN_32)
        }
        1 => {
            let corner = g.pick(&CORNERS_32);
            beside_32(g, corner, 3) ^ (g.next() as u32 & SIGN_32)
        }
        2 => g.next() as u32,
        _ => fraction_32(g),
    }
}

/// Any f64, with those that lie about halfway between two f32s among them.
pub fn any_64(g: &mut Generator) -> u64 {
    match g.below(5) {
        0 => {
            let corner = g.pick(&CORNERS_64);
            corner ^ (g.next() & SIGN_64)
        }
        1 => {
            let corner = g.pick(&CORNERS_64);
            beside_64(g, corner, 3) ^ (g.next() & SIGN_64)
        }
        2 => g.next(),
        3 => about_an_f32(g),
        _ => fraction_64(g),
    }
}

/// An f64 at an f32, halfway to the next one, or a step or two from there; subnormal f32s are half of them.
pub fn about_an_f32(g: &mut Generator) -> u64 {
    let narrow = if g.once_in(2) { g.next() as u32 & (SIGN_32 | 0x00ff_ffff) } else { g.next() as u32 };
    let this = f64::from(f32::from_bits(narrow));
    let next = f64::from(f32::from_bits(narrow.wrapping_add(1)));
    let chosen = g.pick(&[this, (this + next) / 2.0]);
    if chosen.is_nan() {
        return A_NAN_64 | u64::from(narrow);
    }
    beside_64(g, chosen.to_bits(), 2)
}

/// The number halfway between the two f32s about this one.
pub fn between_f32s(number: f64) -> f64 {
    let this = number as f32;
    let next = f32::from_bits(this.to_bits() + 1);
    (f64::from(this) + f64::from(next)) / 2.0
}

/// A number in 0 to 1 for a table of this length: an end, a border of a cell or its neighbour, a tiny one, or any.
pub fn inside_64(g: &mut Generator, length: usize) -> u64 {
    const ENDS: [u64; 8] = [
        0,
        SIGN_64,
        1,
        0x0010_0000_0000_0000,
        0x3ca0_0000_0000_0000,
        0x3fef_ffff_ffff_fffe,
        0x3fef_ffff_ffff_ffff,
        0x3ff0_0000_0000_0000,
    ];
    let pattern = match g.below(8) {
        0 => g.pick(&ENDS),
        1..=3 if length > 1 => {
            let border = g.below(length) as f64 / (length - 1) as f64;
            beside_64(g, border.to_bits(), 2)
        }
        4 => fraction_64(g) >> g.below(12),
        _ => fraction_64(g),
    };
    let number = f64::from_bits(pattern);
    if (0.0..=1.0).contains(&number) { pattern } else { 0 }
}

/// An input of the f32 lookup in a list of this length: mostly in 0 to 1 and at the borders of cells, at times any f32.
pub fn input_32(g: &mut Generator, length: usize) -> u32 {
    match g.below(8) {
        0 => any_32(g),
        1..=3 if length > 1 => {
            let border = g.below(length) as f32 / (length - 1) as f32;
            beside_32(g, border.to_bits(), 2)
        }
        4 => g.pick(&CORNERS_32),
        _ => fraction_32(g),
    }
}

/// A list of f32 entries of one kind: a ramp, numbers up to 1, any patterns at all, or a few special ones.
pub fn list_32(g: &mut Generator, length: usize) -> Vec<u32> {
    match g.below(4) {
        0 => {
            let last = length.saturating_sub(1).max(1) as f32;
            (0..length).map(|i| (i as f32 / last).to_bits()).collect()
        }
        1 => (0..length).map(|_| fraction_32(g)).collect(),
        2 => (0..length).map(|_| any_32(g)).collect(),
        _ => (0..length).map(|_| finite_32(g)).collect(),
    }
}

/// A few levels, each held for a while.
pub fn steps_32(g: &mut Generator, length: usize) -> Vec<u32> {
    let levels: [u32; 6] = std::array::from_fn(|_| any_32(g));
    (0..length).map(|i| levels[i * levels.len() / length]).collect()
}

/// A finite f32 of any size.
fn finite_32(g: &mut Generator) -> u32 {
    let pattern = any_32(g);
    if f32::from_bits(pattern).is_finite() { pattern } else { pattern & (SIGN_32 | 0x007f_ffff) | 0x3f00_0000 }
}
