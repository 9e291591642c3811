//! What `i32` and `u32` mean inside the widened trc.rs.
#![allow(non_camel_case_types)]

pub type i32 = i64;
pub type u32 = u64;
