//! Parametric curves.
use crate::refusal::granted;
use crate::{Refusal, raw};

/// A parametric curve: (aX + b)^g + e from X = d on, cX + f below.
#[allow(missing_docs)]
#[repr(C)]
#[derive(Clone, Copy, Debug, PartialEq)]
pub struct ParametricCurve {
    pub g: f32,
    pub a: f32,
    pub b: f32,
    pub c: f32,
    pub d: f32,
    pub e: f32,
    pub f: f32,
}

impl ParametricCurve {
    /// The curve unified from 1, 3, 4, 5 or 7 parameters in the order g, a, b, c, d, e, f; of four, the last is e and
    /// f.
    ///
    /// ```
    /// use brassgroat::{ParametricCurve, Refusal};
    ///
    /// let curve = ParametricCurve::new(&[2.0, 4.0, 3.0])?;
    /// assert_eq!(curve, ParametricCurve { g: 2.0, a: 4.0, b: 3.0, c: 0.0, d: -0.75, e: 0.0, f: 0.0 });
    /// assert_eq!(ParametricCurve::new(&[]), Err(Refusal::ParameterCount));
    /// # Ok::<(), Refusal>(())
    /// ```
    ///
    /// # Errors
    /// [`ParameterCount`](Refusal::ParameterCount).
    pub fn new(params: &[f32]) -> Result<ParametricCurve, Refusal> {
        // SAFETY: a slice's pointer and length, see `raw`
        let answer = unsafe { raw::bg_parametric_curve_new(params.as_ptr(), params.len()) };
        granted(answer.refusal).map(|()| answer.curve)
    }
}

/// Whether no two parameters at one place are further apart than 1e-4, over the shorter length. A NaN difference counts
/// as close.
pub fn compare_parametric(src: &[f32], dst: &[f32]) -> bool {
    // SAFETY: slices' pointers and lengths, see `raw`
    unsafe { raw::bg_compare_parametric(src.as_ptr(), src.len(), dst.as_ptr(), dst.len()) }
}
