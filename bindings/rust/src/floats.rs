//! Floats: IEEE 754, one rounding for each operation, in the default floating-point environment.
use crate::refusal::granted;
use crate::{Refusal, raw};

/// The float at x in a table of floats; x above 1 or a NaN reads as 1, below 0 as 0.
///
/// ```
/// assert_eq!(brassgroat::lut_interp_linear_float(&[0.0, 1.0], 0.25), Ok(0.25));
/// ```
///
/// # Errors
/// [`TableLength`](Refusal::TableLength).
pub fn lut_interp_linear_float(table: &[f32], x: f32) -> Result<f32, Refusal> {
    // SAFETY: a slice's pointer and length, see `raw`
    let answer = unsafe { raw::bg_lut_interp_linear_float(table.as_ptr(), table.len(), x) };
    granted(answer.refusal).map(|()| answer.value)
}

/// The float, where 1 stands for 65535, at x from 0 to 1 in a table of 16-bit entries. An empty table answers x.
///
/// ```
/// assert_eq!(brassgroat::lut_interp_linear(&[], 0.1), Ok(0.1));
/// assert_eq!(brassgroat::lut_interp_linear(&[], 1.1), Err(brassgroat::Refusal::OutsideUnit));
/// ```
///
/// # Errors
/// [`TableLength`](Refusal::TableLength) above 65,536 entries; [`OutsideUnit`](Refusal::OutsideUnit) where x is a NaN,
/// below 0 or above 1.
pub fn lut_interp_linear(table: &[u16], x: f64) -> Result<f32, Refusal> {
    // SAFETY: a slice's pointer and length, see `raw`
    let answer = unsafe { raw::bg_lut_interp_linear(table.as_ptr(), table.len(), x) };
    granted(answer.refusal).map(|()| answer.value)
}

/// The table that passes its input through: entry i is i times the reciprocal of the last index, worked in f64, as the
/// nearest f32.
///
/// ```
/// let mut table = [0.0; 5];
/// brassgroat::passthrough_table_impl(&mut table)?;
/// assert_eq!(table, [0.0, 0.25, 0.5, 0.75, 1.0]);
/// # Ok::<(), brassgroat::Refusal>(())
/// ```
///
/// # Errors
/// [`OutsideRange`](Refusal::OutsideRange) where `out` has other than 2 to 65,536 entries.
pub fn passthrough_table_impl(out: &mut [f32]) -> Result<(), Refusal> {
    // SAFETY: a slice's pointer and length, see `raw`
    granted(unsafe { raw::bg_passthrough_table_impl(out.as_mut_ptr(), out.len()) })
}

/// The f32 nearest to x, a tie to the even one: what `x as f32` is.
pub fn nearest_f64_to_f32(x: f64) -> f32 {
    raw::bg_nearest_f64_to_f32(x)
}

/// An unsigned 8.8 number: x / 256, exactly.
pub fn u8_fixed_8number_to_float(x: u16) -> f32 {
    raw::bg_u8_fixed_8number_to_float(x)
}

/// A signed 16.16 number: the f32 nearest to x / 65536, a tie to the even one.
pub fn s15_fixed16_number_to_float(x: i32) -> f32 {
    raw::bg_s15_fixed16_number_to_float(x)
}
