//! Looking up.
use crate::refusal::granted;
use crate::{Density, Drive, Refusal, raw};

/// The density at a position, by linear interpolation rounded down.
///
/// ```
/// use brassgroat::{Density, Drive, lut_interp_linear16};
///
/// assert_eq!(lut_interp_linear16(&[0, 100, 65535], Drive(32767)), Ok(Density(99)));
/// ```
///
/// # Errors
/// [`TableLength`](Refusal::TableLength).
pub fn lut_interp_linear16(table: &[u16], position: Drive) -> Result<Density, Refusal> {
    // SAFETY: a slice's pointer and length, see `raw`
    let answer = unsafe { raw::bg_lut_interp_linear16(table.as_ptr(), table.len(), position) };
    granted(answer.refusal).map(|()| answer.density)
}

/// The densities at a row of positions: `out[i]` is [`lut_interp_linear16`] at `positions[i]`. One load for each where
/// the table has 65,536 entries.
///
/// # Errors
/// [`TableLength`](Refusal::TableLength); [`OutputLength`](Refusal::OutputLength) where `out` is not as long as
/// `positions`.
pub fn lut_interp_linear16_row(table: &[u16], positions: &[u16], out: &mut [u16]) -> Result<(), Refusal> {
    // SAFETY: slices' pointers and lengths, see `raw`
    granted(unsafe {
        raw::bg_lut_interp_linear16_row(
            table.as_ptr(),
            table.len(),
            positions.as_ptr(),
            positions.len(),
            out.as_mut_ptr(),
            out.len(),
        )
    })
}

/// The table's densities at every one of the 65,536 positions. Looking up in the baked table is looking up in the
/// table.
///
/// ```
/// use brassgroat::{Drive, bake, lut_interp_linear16};
///
/// let table = [0, 100, 65535];
/// let mut baked = [0; 65536];
/// bake(&table, &mut baked)?;
/// assert_eq!(lut_interp_linear16(&baked, Drive(40000))?, lut_interp_linear16(&table, Drive(40000))?);
/// # Ok::<(), brassgroat::Refusal>(())
/// ```
///
/// # Errors
/// [`TableLength`](Refusal::TableLength); [`OutputLength`](Refusal::OutputLength) where `out` has other than 65,536
/// entries.
pub fn bake(table: &[u16], out: &mut [u16]) -> Result<(), Refusal> {
    // SAFETY: slices' pointers and lengths, see `raw`
    granted(unsafe { raw::bg_bake(table.as_ptr(), table.len(), out.as_mut_ptr(), out.len()) })
}

/// The integer gamma lookup: of `inputs` inputs from 0 on the one given, as a code of `depth` bits. The code may be
/// 2^depth, and is no density.
///
/// ```
/// assert_eq!(brassgroat::lut_interp_linear_gamma_impl(&[0, 65535], 2, 10, 1), Ok(1024));
/// ```
///
/// # Errors
/// [`TableLength`](Refusal::TableLength); [`OutsideRange`](Refusal::OutsideRange) where `inputs` is outside 2 to 65,536
/// or `depth` outside 1 to 16; [`IndexBeyond`](Refusal::IndexBeyond) where `input` is not below `inputs`.
pub fn lut_interp_linear_gamma_impl(table: &[u16], inputs: usize, depth: usize, input: usize) -> Result<u16, Refusal> {
    // SAFETY: a slice's pointer and length, see `raw`
    let answer = unsafe { raw::bg_lut_interp_linear_gamma_impl(table.as_ptr(), table.len(), inputs, depth, input) };
    granted(answer.refusal).map(|()| answer.code)
}
