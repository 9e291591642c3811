// A door to `write_trc_entry`, which is private to writer.rs. It writes into a `Vec` that keeps its room from call to
// call, as a buffer that is lent does, so that no call pays for memory.

use crate::trc::ToneReprCurve;
use std::slice::{from_raw_parts, from_raw_parts_mut};

pub struct Tag {
    curve: ToneReprCurve,
    bytes: Vec<u8>,
}

#[unsafe(no_mangle)]
pub unsafe extern "C" fn rust_tag(table: *const u16, n: usize) -> *mut Tag {
    let table = unsafe { from_raw_parts(table, n) };
    let bytes = Vec::with_capacity(12 + 2 * n);
    Box::into_raw(Box::new(Tag { curve: ToneReprCurve::Lut(table.to_vec()), bytes }))
}

/// Whether the Rust wrote as many bytes as it says.
#[unsafe(no_mangle)]
pub unsafe extern "C" fn rust_write(tag: *mut Tag) -> bool {
    let tag = unsafe { &mut *tag };
    tag.bytes.clear();
    super::write_trc_entry(&mut tag.bytes, &tag.curve).is_ok_and(|said| said == tag.bytes.len())
}

/// Copies what was written, for the comparison of the answers.
#[unsafe(no_mangle)]
pub unsafe extern "C" fn rust_written(tag: *const Tag, out: *mut u8) {
    let bytes = unsafe { &(*tag).bytes };
    unsafe { from_raw_parts_mut(out, bytes.len()) }.copy_from_slice(bytes);
}
