//! The version of this crate, and that of the archive.
use crate::raw;

/// This crate's version as one number: 10,000 times its first, 100 times its second, and its third.
pub const VERSION: u32 = 10_000 * part(env!("CARGO_PKG_VERSION_MAJOR"))
    + 100 * part(env!("CARGO_PKG_VERSION_MINOR"))
    + part(env!("CARGO_PKG_VERSION_PATCH"));

const fn part(digits: &str) -> u32 {
    match u32::from_str_radix(digits, 10) {
        Ok(part) => part,
        Err(_) => panic!("a part of a version is a number"),
    }
}

/// The version of the archive that is linked, in the same form. The two belong together only where it is [`VERSION`]:
/// another archive may have other structs.
///
/// ```
/// assert_eq!(brassgroat::version(), brassgroat::VERSION);
/// ```
pub fn version() -> u32 {
    raw::bg_version()
}
