//! The para tag of ICC.1: read, read as a curve, written.
use crate::refusal::granted;
use crate::{ParametricCurve, Refusal, raw};

/// Seven raw signed 16.16 numbers in a tag's order, by ICC.1's letters.
#[allow(missing_docs)]
#[repr(C)]
#[derive(Clone, Copy, Debug, Default, PartialEq, Eq, Hash)]
pub struct Numbers {
    pub g: i32,
    pub a: i32,
    pub b: i32,
    pub c: i32,
    pub d: i32,
    pub e: i32,
    pub f: i32,
}

/// What a tag holds.
#[derive(Clone, Copy, Debug, PartialEq, Eq, Hash)]
pub struct Parameters {
    /// How many numbers it has: 1, 3, 4, 5 or 7.
    pub count: usize,
    /// Those, and 0 for the others.
    pub numbers: Numbers,
}

/// Reads a tag's count and its raw numbers.
///
/// # Errors
/// [`TagLength`](Refusal::TagLength) below 12 bytes; [`WrongSignature`](Refusal::WrongSignature);
/// [`ReservedNotZero`](Refusal::ReservedNotZero); [`FunctionType`](Refusal::FunctionType);
/// [`TagLength`](Refusal::TagLength) where the tag is not exactly 12 bytes and four for each number.
pub fn read(tag: &[u8]) -> Result<Parameters, Refusal> {
    // SAFETY: a slice's pointer and length, see `raw`
    let answer = unsafe { raw::bg_para_read(tag.as_ptr(), tag.len()) };
    granted(answer.refusal).map(|()| Parameters { count: answer.count, numbers: answer.numbers })
}

/// Reads a tag as a curve, each raw number as [`s15_fixed16_number_to_float`](crate::s15_fixed16_number_to_float) has
/// it.
///
/// ```
/// use brassgroat::{ParametricCurve, para};
///
/// let tag = *b"para\0\0\0\0\0\0\0\0\x00\x02\x80\x00";
/// assert_eq!(para::curve(&tag)?, ParametricCurve::new(&[2.5])?);
/// # Ok::<(), brassgroat::Refusal>(())
/// ```
///
/// # Errors
/// As [`read`].
pub fn curve(tag: &[u8]) -> Result<ParametricCurve, Refusal> {
    // SAFETY: a slice's pointer and length, see `raw`
    let answer = unsafe { raw::bg_para_curve(tag.as_ptr(), tag.len()) };
    granted(answer.refusal).map(|()| answer.curve)
}

/// Writes a tag of function type 0 to 4, which has 1, 3, 4, 5 or 7 numbers; the others are ignored.
///
/// ```
/// use brassgroat::para::{self, Numbers};
///
/// let numbers = Numbers { g: 2 << 16, ..Numbers::default() };
/// let mut tag = [0; 16];
/// para::write(0, numbers, &mut tag)?;
/// assert_eq!(para::read(&tag)?.numbers, numbers);
/// # Ok::<(), brassgroat::Refusal>(())
/// ```
///
/// # Errors
/// [`FunctionType`](Refusal::FunctionType) above 4; [`OutputLength`](Refusal::OutputLength) where `out` is not 12 bytes
/// and four for each number.
pub fn write(function_type: usize, numbers: Numbers, out: &mut [u8]) -> Result<(), Refusal> {
    // SAFETY: a slice's pointer and length, see `raw`
    granted(unsafe { raw::bg_para_write(function_type, numbers, out.as_mut_ptr(), out.len()) })
}
