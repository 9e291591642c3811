//! What document 01 refuses, from the question alone: the number of the refusal, or 0 where the routine must answer.
//! Written from the document and not from the library, so that the two are held against each other.

use crate::tables::TOO_LONG;

/// Row 1 where an empty table is refused too.
pub fn sized(length: usize) -> u32 {
    if length == 0 || length >= TOO_LONG { 1 } else { 0 }
}

/// Row 1 where only a table that is too long is refused.
pub fn not_above(length: usize) -> u32 {
    if length >= TOO_LONG { 1 } else { 0 }
}

/// Rows 1, 12 and 3, in this order.
pub fn gamma(length: usize, n: usize, depth: usize, input: usize) -> u32 {
    if sized(length) != 0 {
        1
    } else if spanned(n) != 0 || !(1..=16).contains(&depth) {
        12
    } else if input >= n {
        3
    } else {
        0
    }
}

/// Row 12 of an inverted length, a passthrough length, or N.
pub fn spanned(length: usize) -> u32 {
    if (2..TOO_LONG).contains(&length) { 0 } else { 12 }
}

/// Rows 1 and 12.
pub fn invert(length: usize, inverted: usize) -> u32 {
    if sized(length) != 0 { 1 } else { spanned(inverted) }
}

/// Rows 1, only above, and 13. Minus zero is not below 0.
pub fn interp_linear(length: usize, input: f64) -> u32 {
    if length >= TOO_LONG {
        1
    } else if (0.0..=1.0).contains(&input) {
        0
    } else {
        13
    }
}

/// Row 7.
pub fn parameters(count: usize) -> u32 {
    if [1, 3, 4, 5, 7].contains(&count) { 0 } else { 7 }
}
