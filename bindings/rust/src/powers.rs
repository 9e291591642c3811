//! Gamma curves worked out on whole numbers.
use crate::refusal::granted;
use crate::{Density, Drive, Refusal, raw};

/// The density at `x` of a gamma curve, 65535·(x/65535)^e. The exponent e is given in 65536ths: 65,536 is 1, 144,179 is
/// 2.2 as nearly as can be, and 262,144 is 4, the largest.
///
/// It is worked out on whole numbers, so that every machine gives the same answer. With p for `exponent`, the answer n
/// is within one of the curve: (n-1)^65536·65535^p ≤ x^p·65535^65536 ≤ (n+1)^65536·65535^p, where n-1 is 0 for an n of
/// 0. Below an exponent of 1 it is rounded up, from 1 on to the nearest. It is 0 at 0 and 65535 at 65535, and never
/// falls as `x` rises. The exponent 1 answers `x` itself.
///
/// ```
/// use brassgroat::{Density, Drive, power};
///
/// assert_eq!(power(Drive(16384), 2 * 65536), Ok(Density(4096)));
/// assert_eq!(power(Drive(16384), 65536), Ok(Density(16384)));
/// ```
///
/// # Errors
/// [`Exponent`](Refusal::Exponent) where `exponent` is outside 1 to 262,144.
pub fn power(x: Drive, exponent: u64) -> Result<Density, Refusal> {
    let answer = raw::bg_power(x, exponent);
    granted(answer.refusal).map(|()| answer.density)
}

/// A table of `n` entries of a gamma curve, whose exponent is given in 65536ths: entry i is [`power`] at entry i of the
/// straight curve that [`start`](crate::start) makes of `n` entries. It is nondecreasing, so [`accept`](crate::accept)
/// grants it; for the exponent 1 it is that straight curve.
///
/// `n` stands beside the slice, so that a slice of another length is refused and not filled.
///
/// ```
/// use brassgroat::{Refusal, accept, power_table};
///
/// let mut table = [0; 5];
/// power_table(&mut table, 5, 2 * 65536)?;
/// assert_eq!(table, [0, 4096, 16384, 36863, 65535]);
/// accept(&table)?;
/// assert_eq!(power_table(&mut table, 4, 65536), Err(Refusal::OutputLength));
/// # Ok::<(), Refusal>(())
/// ```
///
/// # Errors
/// [`TableLength`](Refusal::TableLength) where `n` is below 2 or above 65,536; [`Exponent`](Refusal::Exponent) where
/// `exponent` is outside 1 to 262,144; [`OutputLength`](Refusal::OutputLength) where `out` has other than `n` entries.
pub fn power_table(out: &mut [u16], n: usize, exponent: u64) -> Result<(), Refusal> {
    // SAFETY: a slice's pointer and length, see `raw`
    granted(unsafe { raw::bg_power_table(out.as_mut_ptr(), out.len(), n, exponent) })
}

/// As [`power`], by the one entry of a gamma tag, which gives the exponent in 256ths: 256 is 1, and 0x0233 is nearly
/// 2.2. Entry k answers what 256·k answers there.
///
/// ```
/// use brassgroat::{Density, Drive, tag_power};
///
/// assert_eq!(tag_power(Drive(32768), 0x0233), Ok(Density(14271)));
/// ```
///
/// # Errors
/// [`Exponent`](Refusal::Exponent) where `gamma` is outside 1 to 1,024.
pub fn tag_power(x: Drive, gamma: u16) -> Result<Density, Refusal> {
    let answer = raw::bg_tag_power(x, gamma);
    granted(answer.refusal).map(|()| answer.density)
}

/// As [`power_table`], by the one entry of a gamma tag. So a tag that holds 2.2 becomes a curve in three lines:
///
/// ```
/// use brassgroat::{accept, curv, tag_power_table};
///
/// let tag = *b"curv\0\0\0\0\0\0\0\x01\x02\x33";
/// let (mut gamma, mut table) = ([0; 1], [0; 1024]);
/// curv::read(&tag, &mut gamma)?;
/// tag_power_table(&mut table, 1024, gamma[0])?;
///
/// assert_eq!(gamma, [0x0233]);
/// assert_eq!((table[0], table[512], table[1023]), (0, 14302, 65535));
/// accept(&table)?;
/// # Ok::<(), brassgroat::Refusal>(())
/// ```
///
/// # Errors
/// [`TableLength`](Refusal::TableLength) where `n` is below 2 or above 65,536; [`Exponent`](Refusal::Exponent) where
/// `gamma` is outside 1 to 1,024; [`OutputLength`](Refusal::OutputLength) where `out` has other than `n` entries.
pub fn tag_power_table(out: &mut [u16], n: usize, gamma: u16) -> Result<(), Refusal> {
    // SAFETY: a slice's pointer and length, see `raw`
    granted(unsafe { raw::bg_tag_power_table(out.as_mut_ptr(), out.len(), n, gamma) })
}
