//! From density back to drive.
use crate::refusal::granted;
use crate::{Density, Drive, Refusal, raw};

/// The smallest position whose density is at least the one given.
///
/// ```
/// use brassgroat::{Density, Drive, Refusal, least_input};
///
/// assert_eq!(least_input(&[0, 100, 65535], Density(100)), Ok(Drive(32768)));
/// assert_eq!(least_input(&[10, 20], Density(21)), Err(Refusal::AboveLast));
/// ```
///
/// # Errors
/// [`TableLength`](Refusal::TableLength); [`NotNondecreasing`](Refusal::NotNondecreasing);
/// [`AboveLast`](Refusal::AboveLast).
pub fn least_input(table: &[u16], density: Density) -> Result<Drive, Refusal> {
    // SAFETY: a slice's pointer and length, see `raw`
    let answer = unsafe { raw::bg_least_input(table.as_ptr(), table.len(), density) };
    granted(answer.refusal).map(|()| answer.drive)
}

/// The least inputs of a row of densities: `out[i]` is [`least_input`] of `densities[i]`, or 65,536, which is no
/// position, where no position reaches it.
///
/// ```
/// let mut out = [0; 3];
/// brassgroat::least_input_row(&[10, 20], &[0, 20, 21], &mut out)?;
/// assert_eq!(out, [0, 65535, 65536]);
/// # Ok::<(), brassgroat::Refusal>(())
/// ```
///
/// # Errors
/// [`TableLength`](Refusal::TableLength); [`OutputLength`](Refusal::OutputLength) where `out` is not as long as
/// `densities`; [`NotNondecreasing`](Refusal::NotNondecreasing).
pub fn least_input_row(table: &[u16], densities: &[u16], out: &mut [u32]) -> Result<(), Refusal> {
    // SAFETY: slices' pointers and lengths, see `raw`
    granted(unsafe {
        raw::bg_least_input_row(
            table.as_ptr(),
            table.len(),
            densities.as_ptr(),
            densities.len(),
            out.as_mut_ptr(),
            out.len(),
        )
    })
}

/// moxcms's own inverse, step by step. It is **not** the least position; that is [`least_input`].
///
/// ```
/// use brassgroat::{Density, Drive, least_input, lut_inverse_interp16};
///
/// assert_eq!(lut_inverse_interp16(&[0, 100, 65535], Density(0)), Ok(Drive(255)));
/// assert_eq!(least_input(&[0, 100, 65535], Density(0)), Ok(Drive(0)));
/// ```
///
/// # Errors
/// [`TableLength`](Refusal::TableLength).
pub fn lut_inverse_interp16(table: &[u16], density: Density) -> Result<Drive, Refusal> {
    // SAFETY: a slice's pointer and length, see `raw`
    let answer = unsafe { raw::bg_lut_inverse_interp16(table.as_ptr(), table.len(), density) };
    granted(answer.refusal).map(|()| answer.drive)
}

/// The table inverted by [`lut_inverse_interp16`]: the drives for densities spread evenly from 0 to 65535, as many as
/// `out` has entries.
///
/// # Errors
/// [`TableLength`](Refusal::TableLength); [`OutsideRange`](Refusal::OutsideRange) where `out` has other than 2 to
/// 65,536 entries.
pub fn invert_lut(table: &[u16], out: &mut [u16]) -> Result<(), Refusal> {
    // SAFETY: slices' pointers and lengths, see `raw`
    granted(unsafe { raw::bg_invert_lut(table.as_ptr(), table.len(), out.as_mut_ptr(), out.len()) })
}
