//! Working on a curve.
use crate::refusal::granted;
use crate::{Density, Refusal, raw};

/// Makes the table the straight curve from 0 to 65535.
///
/// ```
/// let mut table = [0; 3];
/// brassgroat::start(&mut table)?;
/// assert_eq!(table, [0, 32768, 65535]);
/// # Ok::<(), brassgroat::Refusal>(())
/// ```
///
/// # Errors
/// [`TableLength`](Refusal::TableLength) below 2 entries or above 65,536.
pub fn start(table: &mut [u16]) -> Result<(), Refusal> {
    // SAFETY: a slice's pointer and length, see `raw`
    granted(unsafe { raw::bg_start(table.as_mut_ptr(), table.len()) })
}

/// Whether the table may be nudged and read backwards: granted, it is nondecreasing.
///
/// # Errors
/// [`TableLength`](Refusal::TableLength); [`NotNondecreasing`](Refusal::NotNondecreasing).
pub fn accept(table: &[u16]) -> Result<(), Refusal> {
    // SAFETY: a slice's pointer and length, see `raw`
    granted(unsafe { raw::bg_accept(table.as_ptr(), table.len()) })
}

/// Sets one entry, where the density fits between its neighbours, and changes no other.
///
/// ```
/// use brassgroat::{Density, Refusal, nudge};
///
/// let mut table = [10, 20, 30];
/// nudge(&mut table, 1, Density(25))?;
/// assert_eq!(nudge(&mut table, 1, Density(31)), Err(Refusal::OutsideNeighbours));
/// assert_eq!(table, [10, 25, 30]);
/// # Ok::<(), Refusal>(())
/// ```
///
/// # Errors
/// [`TableLength`](Refusal::TableLength); [`IndexBeyond`](Refusal::IndexBeyond);
/// [`NotNondecreasing`](Refusal::NotNondecreasing); [`OutsideNeighbours`](Refusal::OutsideNeighbours).
pub fn nudge(table: &mut [u16], index: usize, density: Density) -> Result<(), Refusal> {
    // SAFETY: a slice's pointer and length, see `raw`
    granted(unsafe { raw::bg_nudge(table.as_mut_ptr(), table.len(), index, density) })
}
