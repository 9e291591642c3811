//! The curv tag of ICC.1: counted, read, handed back in part, written.
use crate::refusal::granted;
use crate::{Refusal, raw};

/// How many entries a tag has, and so how long a buffer [`read`] asks for.
///
/// # Errors
/// [`TagLength`](Refusal::TagLength) below 12 bytes; [`WrongSignature`](Refusal::WrongSignature);
/// [`ReservedNotZero`](Refusal::ReservedNotZero); [`TableLength`](Refusal::TableLength) where the count is above
/// 65,536; [`TagLength`](Refusal::TagLength) where the tag is not exactly 12 bytes and two for each entry.
pub fn count(tag: &[u8]) -> Result<usize, Refusal> {
    // SAFETY: a slice's pointer and length, see `raw`
    let answer = unsafe { raw::bg_curv_count(tag.as_ptr(), tag.len()) };
    granted(answer.refusal).map(|()| answer.entries)
}

/// Reads a tag's entries.
///
/// # Errors
/// As [`count`]; [`OutputLength`](Refusal::OutputLength) where `out` has other than as many entries.
pub fn read(tag: &[u8], out: &mut [u16]) -> Result<(), Refusal> {
    // SAFETY: slices' pointers and lengths, see `raw`
    granted(unsafe { raw::bg_curv_read(tag.as_ptr(), tag.len(), out.as_mut_ptr(), out.len()) })
}

/// The bytes of a tag's entries, big-endian, as that part of the tag and no copy.
///
/// ```
/// use brassgroat::curv;
///
/// let tag = *b"curv\0\0\0\0\0\0\0\x01\x02\x33";
/// assert_eq!(curv::part(&tag)?, [0x02, 0x33]);
/// # Ok::<(), brassgroat::Refusal>(())
/// ```
///
/// # Errors
/// As [`count`].
pub fn part(tag: &[u8]) -> Result<&[u8], Refusal> {
    // SAFETY: a slice's pointer and length, see `raw`
    let answer = unsafe { raw::bg_curv_part(tag.as_ptr(), tag.len()) };
    granted(answer.refusal).map(|()| &tag[answer.start..][..answer.len])
}

/// Writes a table, which may be empty, as a tag.
///
/// # Errors
/// [`TableLength`](Refusal::TableLength) above 65,536 entries; [`OutputLength`](Refusal::OutputLength) where `out` is
/// not 12 bytes and two for each entry.
pub fn write(table: &[u16], out: &mut [u8]) -> Result<(), Refusal> {
    // SAFETY: slices' pointers and lengths, see `raw`
    granted(unsafe { raw::bg_curv_write(table.as_ptr(), table.len(), out.as_mut_ptr(), out.len()) })
}
