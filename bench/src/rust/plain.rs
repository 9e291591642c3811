//! What moxcms's text has no routine for, written plainly, as a Rust programmer would.

use std::slice::{from_raw_parts, from_raw_parts_mut};

/// A loop over neighbours: whether no entry is below the one before it.
#[unsafe(no_mangle)]
pub unsafe extern "C" fn rust_in_order(table: *const u16, n: usize) -> bool {
    let table = unsafe { from_raw_parts(table, n) };
    table.windows(2).all(|pair| pair[0] <= pair[1])
}

/// The standard library's own test, whose loop is made for vectors.
#[unsafe(no_mangle)]
pub unsafe extern "C" fn rust_is_sorted(table: *const u16, n: usize) -> bool {
    unsafe { from_raw_parts(table, n) }.is_sorted()
}

/// The entries of a curv tag whose head is known to be right; moxcms's reader is not in the text.
#[unsafe(no_mangle)]
pub unsafe extern "C" fn rust_read(tag: *const u8, out: *mut u16, n: usize) {
    let (tag, out) = unsafe { (from_raw_parts(tag, 12 + 2 * n), from_raw_parts_mut(out, n)) };
    for (entry, pair) in out.iter_mut().zip(tag[12..].chunks_exact(2)) {
        *entry = u16::from_be_bytes([pair[0], pair[1]]);
    }
}
