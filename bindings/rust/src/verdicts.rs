//! Verdicts on a curve's shape.
use crate::refusal::granted;
use crate::{Refusal, raw};

/// Which way a curve is to go.
#[derive(Clone, Copy, Debug, PartialEq, Eq, Hash)]
pub enum Direction {
    /// Each entry is at or above the one before: a fall is a violation.
    Rising,
    /// Each entry is at or below the one before: a rise is a violation.
    Falling,
}

/// Whether a curve is monotonic, and how many violations it has.
#[derive(Clone, Copy, Debug, PartialEq, Eq, Hash)]
pub struct Monotonic {
    /// Monotonic: 20 × violations < entries, or fewer than two entries.
    pub yes: bool,
    /// How many entries are on the wrong side of the one before them.
    pub violations: usize,
}

/// Whether the curve is monotonic in the given direction: 20 × violations < entries, or fewer than two entries.
///
/// ```
/// use brassgroat::{Direction, Monotonic, is_curve_monotonic};
///
/// assert_eq!(is_curve_monotonic(&[1, 2, 3], Direction::Falling), Ok(Monotonic { yes: false, violations: 2 }));
/// ```
///
/// # Errors
/// [`TableLength`](Refusal::TableLength) above 65,536 entries.
pub fn is_curve_monotonic(table: &[u16], direction: Direction) -> Result<Monotonic, Refusal> {
    // SAFETY: a slice's pointer and length, see `raw`
    let answer = unsafe { raw::bg_is_curve_monotonic(table.as_ptr(), table.len(), direction == Direction::Rising) };
    granted(answer.refusal).map(|()| Monotonic { yes: answer.yes, violations: answer.violations })
}

/// Whether the curve is degenerated: the run of entries equal to the first, or of those equal to the last, has at least
/// 20 entries.
///
/// ```
/// assert_eq!(brassgroat::is_curve_degenerated(&[7; 19]), Ok(false));
/// assert_eq!(brassgroat::is_curve_degenerated(&[7; 20]), Ok(true));
/// ```
///
/// # Errors
/// [`TableLength`](Refusal::TableLength) above 65,536 entries.
pub fn is_curve_degenerated(table: &[u16]) -> Result<bool, Refusal> {
    // SAFETY: a slice's pointer and length, see `raw`
    let answer = unsafe { raw::bg_is_curve_degenerated(table.as_ptr(), table.len()) };
    granted(answer.refusal).map(|()| answer.yes)
}
