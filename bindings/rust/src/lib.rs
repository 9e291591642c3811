//! The tone curve part of a photo lab's grey box.
//!
//! Behind every function here stands one that is written in Rattle and proved to keep its promise. This crate makes the
//! calls safe and Rust's own: slices go in, a [`Result`] comes out. It has no dependencies, allocates nothing and needs
//! no `std`.
//!
//! **It links on x86-64 Linux**, which the archive is for ([below](#the-archive)). On other systems it can be checked
//! and documented.
//!
//! A position, the input side of a curve, is a [`Drive`]; a sample, the output side, is a [`Density`]. They are two
//! types, so that neither is taken for the other: looking up takes a drive and gives a density, and both inverses take
//! a density and give a drive. Tables and rows are plain `u16`s.
//!
//! **Every call takes any input at all.** It answers, or it refuses with a [`Refusal`], and then every slice that was
//! lent holds what it held. So check nothing first: call, and look at what comes back.
//!
//! # A morning
//!
//! A curve arrives as an ICC tag. Ask how many entries it has, and read them into a buffer of that length.
//!
//! ```
//! use brassgroat::{Density, Drive, Log, Refusal, curv};
//!
//! let tag = *b"curv\0\0\0\0\0\0\0\x05\x00\x00\x23\x28\x75\x30\xcb\x20\xff\xff";
//! let mut table = [0; 5];
//! assert_eq!(curv::count(&tag)?, table.len());
//! curv::read(&tag, &mut table)?;
//! assert_eq!(table, [0, 9000, 30000, 52000, 65535]);
//!
//! // It may be worked on if no entry is below the one before it.
//! let mut log = Log::new();
//! log.accept(&table)?;
//!
//! // The operator nudges the middle. A nudge past a neighbour is refused, and nothing has changed.
//! log.nudge(&mut table, 2, Density(33000))?;
//! assert_eq!(log.nudge(&mut table, 2, Density(60000)), Err(Refusal::OutsideNeighbours));
//! assert_eq!(table, [0, 9000, 33000, 52000, 65535]);
//!
//! // An overshoot is taken back. Whoever takes nothing back needs no log: `accept` and `nudge` are there without one.
//! log.nudge(&mut table, 2, Density(45000))?;
//! log.take_back(&mut table)?;
//! assert_eq!(table, [0, 9000, 33000, 52000, 65535]);
//!
//! // A drive in, a density out; and back, the least drive that gives at least that density.
//! let density = brassgroat::lut_interp_linear16(&table, Drive(32768))?;
//! assert_eq!(density, Density(33000));
//! assert_eq!(brassgroat::least_input(&table, density)?, Drive(32768));
//!
//! // A job has many positions: look up a row of them in one call.
//! let mut print = [0; 4];
//! brassgroat::lut_interp_linear16_row(&table, &[0, 16384, 49152, 65535], &mut print)?;
//! assert_eq!(print, [0, 9000, 52000, 65535]);
//!
//! // In the evening the curve goes back into a tag, 12 bytes and two for each entry.
//! let mut evening = [0; 12 + 2 * 5];
//! curv::write(&table, &mut evening)?;
//! assert_eq!(evening[16..18], [0x80, 0xe8]);
//! # Ok::<(), Refusal>(())
//! ```
//!
//! # A gamma tag
//!
//! A curv tag of one entry holds a gamma in place of a curve. [`tag_power_table`] works its curve out, on whole
//! numbers, in as many entries as are asked for; [`power_table`] takes an exponent in 65536ths.
//!
//! ```
//! let tag = *b"curv\0\0\0\0\0\0\0\x01\x02\x33";
//! let (mut gamma, mut table) = ([0; 1], [0; 1024]);
//! brassgroat::curv::read(&tag, &mut gamma)?;
//! brassgroat::tag_power_table(&mut table, 1024, gamma[0])?;
//! assert_eq!((gamma[0], table[512]), (0x0233, 14302));
//! # Ok::<(), brassgroat::Refusal>(())
//! ```
//!
//! # The archive
//!
//! The calls are in libbrassgroat.a, for x86-64 Linux. A release has it beside this crate, in ../lib. In the project
//! `rt lib`, run in crates/brassgroat, proves the library and writes it into crates/brassgroat/out. The build finds it
//! in either place. Where the environment variable `BRASSGROAT_LIB_DIR` names a folder, the build takes it from there
//! and nowhere else; a relative folder is taken from where cargo was started, as `PWD` says.
//!
//! An archive that was not made with this crate may have other structs, or logs of another length: compare [`version`]
//! with [`VERSION`] first.
//!
//! # The floating-point environment
//!
//! Rust's own code rounds to nearest and flushes nothing to zero, and a call keeps its promise there. A program in C
//! that calls Rust may be in another environment, as it is where it was linked with -ffast-math. Eight calls, which
//! work in floats, then promise nothing: [`lut_interp_linear_float`], [`lut_interp_linear`],
//! [`passthrough_table_impl`], [`ParametricCurve::new`], [`compare_parametric`], [`para::curve`], and, since they work
//! in doubles inside, [`lut_inverse_interp16`] and [`invert_lut`]. All other calls answer the same in every
//! environment.
#![no_std]
#![warn(missing_docs)]

pub mod curv;
mod curves;
mod floats;
pub mod house;
mod inverses;
mod log;
mod lookups;
pub mod para;
mod parametrics;
mod powers;
mod raw;
mod refusal;
mod verdicts;
mod version;

pub use curves::{accept, nudge, start};
pub use floats::{
    lut_interp_linear, lut_interp_linear_float, nearest_f64_to_f32, passthrough_table_impl,
    s15_fixed16_number_to_float, u8_fixed_8number_to_float,
};
pub use inverses::{invert_lut, least_input, least_input_row, lut_inverse_interp16};
pub use log::{Log, Record};
pub use lookups::{bake, lut_interp_linear_gamma_impl, lut_interp_linear16, lut_interp_linear16_row};
pub use parametrics::{ParametricCurve, compare_parametric};
pub use powers::{power, power_table, tag_power, tag_power_table};
pub use refusal::Refusal;
pub use verdicts::{Direction, Monotonic, is_curve_degenerated, is_curve_monotonic};
pub use version::{VERSION, version};

/// A position, the input side of a curve.
#[repr(C)]
#[derive(Clone, Copy, Debug, Default, PartialEq, Eq, PartialOrd, Ord, Hash)]
pub struct Drive(pub u16);

/// A sample, the output side of a curve.
#[repr(C)]
#[derive(Clone, Copy, Debug, Default, PartialEq, Eq, PartialOrd, Ord, Hash)]
pub struct Density(pub u16);
