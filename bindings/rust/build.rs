//! Finds the archive, libbrassgroat.a, and says how to link it. It is looked for in
//!
//! 1. the folder that BRASSGROAT_LIB_DIR names; a relative one is taken from where cargo was started;
//! 2. ../lib, where a release has it beside this crate;
//! 3. ../../crates/brassgroat/out, where `rt lib` in crates/brassgroat writes it in the project.
//!
//! A folder that is named and lacks the archive is an error. Where none is named and the archive is in neither place,
//! that is a warning: the crate can still be checked and documented. face/release-test tries all of this.
use std::env;
use std::ffi::OsString;
use std::path::PathBuf;

const ARCHIVE: &str = "libbrassgroat.a";
const PLACES: [&str; 2] = ["../lib", "../../crates/brassgroat/out"];

fn main() {
    println!("cargo::rerun-if-env-changed=BRASSGROAT_LIB_DIR");
    let named = env::var_os("BRASSGROAT_LIB_DIR").filter(|named| !named.is_empty());
    let found = match named.map(named_folder) {
        None => found_folder(),
        Some(Ok(folder)) => Some(folder),
        Some(Err(why)) => return println!("cargo::error={why}"),
    };
    let target =
        ["ARCH", "OS", "POINTER_WIDTH"].map(|part| env::var(format!("CARGO_CFG_TARGET_{part}")).unwrap_or_default());
    if target != ["x86_64", "linux", "64"] {
        println!(
            "cargo::warning=the archive is for x86-64 Linux, and the target is {}: \
             for it this crate can be checked and documented, and not linked",
            target.join(" ")
        );
    } else if let Some(folder) = found {
        println!("cargo::rerun-if-changed={}", folder.join(ARCHIVE).display());
        println!("cargo::rustc-link-search=native={}", folder.display());
        println!("cargo::rustc-link-lib=static=brassgroat");
    } else {
        println!(
            "cargo::warning=no {ARCHIVE} to link: take this crate from a release, which has it beside the crate, or \
             run `rt lib` in the project's crates/brassgroat, or name its folder in BRASSGROAT_LIB_DIR"
        );
    }
}

/// The folder that BRASSGROAT_LIB_DIR names, if the archive is there. Cargo runs this in the crate's folder, so where
/// cargo was started is known from the environment's PWD alone.
fn named_folder(named: OsString) -> Result<PathBuf, String> {
    let mut folder = PathBuf::from(&named);
    if folder.is_relative() {
        println!("cargo::rerun-if-env-changed=PWD");
        let started = env::var_os("PWD").map(PathBuf::from).filter(|started| started.is_absolute());
        folder = started.map(|started| started.join(&folder)).ok_or_else(|| {
            format!(
                "BRASSGROAT_LIB_DIR is {}, which is relative, and PWD does not say where cargo was started: \
                 give it as an absolute folder",
                folder.display()
            )
        })?;
    }
    if folder.join(ARCHIVE).is_file() {
        return Ok(folder);
    }
    Err(format!(
        "BRASSGROAT_LIB_DIR names {}, and no {ARCHIVE} is there: name the folder that has it, or unset it",
        folder.display()
    ))
}

/// The first of the places where the archive is.
fn found_folder() -> Option<PathBuf> {
    let here = PathBuf::from(env::var_os("CARGO_MANIFEST_DIR").expect("cargo names the crate's folder"));
    let found = PLACES.map(|place| here.join(place)).into_iter().find(|folder| folder.join(ARCHIVE).is_file());
    if found.is_none() {
        // A file that is missing makes cargo look again at each build.
        println!("cargo::rerun-if-changed={}", here.join(PLACES[1]).join(ARCHIVE).display());
    }
    found
}
