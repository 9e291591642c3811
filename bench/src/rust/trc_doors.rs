// Doors to the routines of trc.rs. They stand in a module inside its own, since some of these are private there.

use std::slice::{from_raw_parts, from_raw_parts_mut};

#[unsafe(no_mangle)]
#[inline(never)]
pub unsafe extern "C" fn rust_lookup(table: *const u16, n: usize, position: u16) -> u16 {
    super::lut_interp_linear16(position, unsafe { from_raw_parts(table, n) })
}

#[unsafe(no_mangle)]
pub unsafe extern "C" fn rust_lookup_loop(table: *const u16, n: usize, asked: *const u16, count: usize) -> u64 {
    let (table, asked) = unsafe { (from_raw_parts(table, n), from_raw_parts(asked, count)) };
    asked.iter().map(|&position| u64::from(super::lut_interp_linear16(position, table))).sum()
}

#[unsafe(no_mangle)]
pub unsafe extern "C" fn rust_lookup_row(table: *const u16, n: usize, asked: *const u16, count: usize, out: *mut u16) {
    let (table, asked) = unsafe { (from_raw_parts(table, n), from_raw_parts(asked, count)) };
    let out = unsafe { from_raw_parts_mut(out, count) };
    for (answer, &position) in out.iter_mut().zip(asked) {
        *answer = super::lut_interp_linear16(position, table);
    }
}

/// The lookup at every position, as `bake` does it.
#[unsafe(no_mangle)]
pub unsafe extern "C" fn rust_bake(table: *const u16, n: usize, out: *mut u16) {
    let (table, out) = unsafe { (from_raw_parts(table, n), from_raw_parts_mut(out, 65536)) };
    for (position, answer) in (0..=u16::MAX).zip(out) {
        *answer = super::lut_interp_linear16(position, table);
    }
}

#[unsafe(no_mangle)]
#[inline(never)]
pub unsafe extern "C" fn rust_inverse(table: *const u16, n: usize, value: u16) -> u16 {
    super::lut_inverse_interp16(value, unsafe { from_raw_parts(table, n) })
}

#[unsafe(no_mangle)]
pub unsafe extern "C" fn rust_inverse_loop(table: *const u16, n: usize, asked: *const u16, count: usize) -> u64 {
    let (table, asked) = unsafe { (from_raw_parts(table, n), from_raw_parts(asked, count)) };
    asked.iter().map(|&value| u64::from(super::lut_inverse_interp16(value, table))).sum()
}

/// The inverse for each value of a row, as wide as our row of least inputs is.
#[unsafe(no_mangle)]
pub unsafe extern "C" fn rust_inverse_row(table: *const u16, n: usize, asked: *const u16, count: usize, out: *mut u32) {
    let (table, asked) = unsafe { (from_raw_parts(table, n), from_raw_parts(asked, count)) };
    let out = unsafe { from_raw_parts_mut(out, count) };
    for (answer, &value) in out.iter_mut().zip(asked) {
        *answer = u32::from(super::lut_inverse_interp16(value, table));
    }
}

/// The Rust hands its table back in a `Vec`; the caller here lends a buffer, so the entries are copied into it.
#[unsafe(no_mangle)]
pub unsafe extern "C" fn rust_invert_lut(table: *const u16, n: usize, out: *mut u16, length: usize) {
    let (table, out) = unsafe { (from_raw_parts(table, n), from_raw_parts_mut(out, length)) };
    out.copy_from_slice(&super::invert_lut(table, length));
}

#[unsafe(no_mangle)]
#[inline(never)]
pub unsafe extern "C" fn rust_float(table: *const f32, n: usize, x: f32) -> f32 {
    super::lut_interp_linear_float(x, unsafe { from_raw_parts(table, n) })
}

#[unsafe(no_mangle)]
pub unsafe extern "C" fn rust_float_loop(table: *const f32, n: usize, asked: *const f32, count: usize) -> u64 {
    let (table, asked) = unsafe { (from_raw_parts(table, n), from_raw_parts(asked, count)) };
    asked.iter().map(|&x| u64::from(super::lut_interp_linear_float(x, table).to_bits())).sum()
}

#[unsafe(no_mangle)]
#[inline(never)]
pub unsafe extern "C" fn rust_linear(table: *const u16, n: usize, x: f64) -> f32 {
    super::lut_interp_linear(x, unsafe { from_raw_parts(table, n) })
}

#[unsafe(no_mangle)]
pub unsafe extern "C" fn rust_linear_loop(table: *const u16, n: usize, asked: *const f64, count: usize) -> u64 {
    let (table, asked) = unsafe { (from_raw_parts(table, n), from_raw_parts(asked, count)) };
    asked.iter().map(|&x| u64::from(super::lut_interp_linear(x, table).to_bits())).sum()
}
