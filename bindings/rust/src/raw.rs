//! The archive's own calls, as include/brassgroat.h has them.
//!
//! What each asks of its caller is that a pointer is good for as many elements as the count beside it says, and that no
//! output overlaps another buffer of the call. The safe functions of this crate pass the pointer and the length of a
//! slice, and an output is always a `&mut` slice, so both hold.
//!
//! A log has no count of its length beside it: its pointer must be good for [`Log::PLACES`](crate::Log::PLACES)
//! records, as that of a [`Log`](crate::Log)'s own array is.
use crate::{Density, Drive, Record};

#[repr(C)]
pub struct Sample {
    pub refusal: u32,
    pub density: Density,
}

#[repr(C)]
pub struct Position {
    pub refusal: u32,
    pub drive: Drive,
}

#[repr(C)]
pub struct Code {
    pub refusal: u32,
    pub code: u16,
}

#[repr(C)]
pub struct Real {
    pub refusal: u32,
    pub value: f32,
}

#[repr(C)]
pub struct Monotony {
    pub refusal: u32,
    pub yes: bool,
    pub violations: usize,
}

#[repr(C)]
pub struct Degeneration {
    pub refusal: u32,
    pub yes: bool,
}

#[repr(C)]
pub struct Count {
    pub refusal: u32,
    pub entries: usize,
}

#[repr(C)]
pub struct Part {
    pub refusal: u32,
    pub start: usize,
    pub len: usize,
}

#[repr(C)]
pub struct Parametric {
    pub refusal: u32,
    pub curve: crate::ParametricCurve,
}

#[repr(C)]
pub struct Para {
    pub refusal: u32,
    pub count: usize,
    pub numbers: crate::para::Numbers,
}

unsafe extern "C" {
    pub safe fn bg_version() -> u32;

    pub fn bg_lut_interp_linear16(table: *const u16, table_len: usize, position: Drive) -> Sample;
    pub fn bg_lut_interp_linear16_row(
        table: *const u16,
        table_len: usize,
        positions: *const u16,
        positions_len: usize,
        out: *mut u16,
        out_len: usize,
    ) -> u32;
    pub fn bg_bake(table: *const u16, table_len: usize, out: *mut u16, out_len: usize) -> u32;
    pub fn bg_lut_interp_linear_gamma_impl(
        table: *const u16,
        table_len: usize,
        inputs: usize,
        depth: usize,
        input: usize,
    ) -> Code;

    pub fn bg_start(table: *mut u16, table_len: usize) -> u32;
    pub fn bg_accept(table: *const u16, table_len: usize) -> u32;
    pub fn bg_nudge(table: *mut u16, table_len: usize, index: usize, density: Density) -> u32;

    pub fn bg_log_start(table: *mut u16, table_len: usize, log: *mut Record, count: *mut usize) -> u32;
    pub fn bg_log_accept(table: *const u16, table_len: usize, log: *mut Record, count: *mut usize) -> u32;
    pub fn bg_log_nudge(
        table: *mut u16,
        table_len: usize,
        log: *mut Record,
        count: *mut usize,
        index: usize,
        density: Density,
    ) -> u32;
    pub fn bg_take_back(table: *mut u16, table_len: usize, log: *mut Record, count: *mut usize) -> u32;

    pub fn bg_least_input(table: *const u16, table_len: usize, density: Density) -> Position;
    pub fn bg_least_input_row(
        table: *const u16,
        table_len: usize,
        densities: *const u16,
        densities_len: usize,
        out: *mut u32,
        out_len: usize,
    ) -> u32;
    pub fn bg_lut_inverse_interp16(table: *const u16, table_len: usize, density: Density) -> Position;
    pub fn bg_invert_lut(table: *const u16, table_len: usize, out: *mut u16, out_len: usize) -> u32;

    pub fn bg_lut_interp_linear_float(table: *const f32, table_len: usize, x: f32) -> Real;
    pub fn bg_lut_interp_linear(table: *const u16, table_len: usize, x: f64) -> Real;
    pub fn bg_passthrough_table_impl(out: *mut f32, out_len: usize) -> u32;
    pub safe fn bg_nearest_f64_to_f32(x: f64) -> f32;
    pub safe fn bg_u8_fixed_8number_to_float(x: u16) -> f32;
    pub safe fn bg_s15_fixed16_number_to_float(x: i32) -> f32;

    pub fn bg_parametric_curve_new(params: *const f32, params_len: usize) -> Parametric;
    pub fn bg_compare_parametric(src: *const f32, src_len: usize, dst: *const f32, dst_len: usize) -> bool;

    pub fn bg_is_curve_monotonic(table: *const u16, table_len: usize, rising: bool) -> Monotony;
    pub fn bg_is_curve_degenerated(table: *const u16, table_len: usize) -> Degeneration;

    pub safe fn bg_house_entry(index: usize) -> Sample;
    pub fn bg_house_fill(out: *mut u16, out_len: usize) -> u32;

    pub safe fn bg_power(x: Drive, exponent: u64) -> Sample;
    pub fn bg_power_table(out: *mut u16, out_len: usize, n: usize, exponent: u64) -> u32;
    pub safe fn bg_tag_power(x: Drive, gamma: u16) -> Sample;
    pub fn bg_tag_power_table(out: *mut u16, out_len: usize, n: usize, gamma: u16) -> u32;

    pub fn bg_curv_count(tag: *const u8, tag_len: usize) -> Count;
    pub fn bg_curv_read(tag: *const u8, tag_len: usize, out: *mut u16, out_len: usize) -> u32;
    pub fn bg_curv_part(tag: *const u8, tag_len: usize) -> Part;
    pub fn bg_curv_write(table: *const u16, table_len: usize, out: *mut u8, out_len: usize) -> u32;

    pub fn bg_para_read(tag: *const u8, tag_len: usize) -> Para;
    pub fn bg_para_curve(tag: *const u8, tag_len: usize) -> Parametric;
    pub fn bg_para_write(function_type: usize, numbers: crate::para::Numbers, out: *mut u8, out_len: usize) -> u32;
}
