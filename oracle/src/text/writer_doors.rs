// A door to `write_trc_entry`, which is private to writer.rs.

use crate::trc::ToneReprCurve;

/// The bytes that it writes, and how many it says that it wrote; nothing where it gives an error.
pub fn write_trc_entry(trc: &ToneReprCurve) -> Option<(Vec<u8>, usize)> {
    let mut bytes = Vec::new();
    let said = super::write_trc_entry(&mut bytes, trc).ok()?;
    Some((bytes, said))
}
