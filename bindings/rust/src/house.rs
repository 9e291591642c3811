//! The house curve: a fixed table of 1,024 entries, gamma 2.5.
use crate::refusal::granted;
use crate::{Density, Refusal, raw};

/// How many entries the curve has.
pub const ENTRIES: usize = 1024;

/// One entry. Whoever wants many fills a buffer, which costs no more than one of these.
///
/// ```
/// use brassgroat::{Density, house};
///
/// assert_eq!(house::entry(1023), Ok(Density(65535)));
/// ```
///
/// # Errors
/// [`IndexBeyond`](Refusal::IndexBeyond) above 1,023.
pub fn entry(index: usize) -> Result<Density, Refusal> {
    let answer = raw::bg_house_entry(index);
    granted(answer.refusal).map(|()| answer.density)
}

/// All entries.
///
/// ```
/// use brassgroat::house;
///
/// let mut table = [0; house::ENTRIES];
/// house::fill(&mut table)?;
/// brassgroat::accept(&table)?;
/// # Ok::<(), brassgroat::Refusal>(())
/// ```
///
/// # Errors
/// [`OutputLength`](Refusal::OutputLength) where `out` has other than 1,024 entries.
pub fn fill(out: &mut [u16]) -> Result<(), Refusal> {
    // SAFETY: a slice's pointer and length, see `raw`
    granted(unsafe { raw::bg_house_fill(out.as_mut_ptr(), out.len()) })
}
