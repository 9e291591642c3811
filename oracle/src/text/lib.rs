//! The text of moxcms, taken in unchanged from the folder that `MOXCMS_SRC` names at build time, and around it
//! stand-ins of ours for what it asks for and the comparison does not want.
//!
//! It is built twice. As `moxcms` it is the Rust as it stands. As `widened`, with `--cfg wide`, the names `i32` and
//! `u32` mean `i64` and `u64` inside trc.rs, so that where the Rust overflows the same text gives the whole-number
//! answer.
//!
//! With `--cfg fused` the stand-in for `MulAdd` rounds once, otherwise twice (stand_ins.rs).

#[cfg(wide)]
mod width;

pub mod profile;
mod stand_ins;

pub use profile::{
    CicpProfile, ColorDateTime, ColorProfile, DataColorSpace, LocalizableString, LutMultidimensionalType, LutStore,
    LutType, LutWarehouse, Matrix3d, ProfileClass, ProfileSignature, ProfileText, ProfileVersion, Vector3d,
    ViewingConditions, Xyz, Xyzd,
};
pub use stand_ins::{CmsError, Rgb, TransferCharacteristics, cicp, num_traits, pxfm, transform};

#[allow(dead_code)]
mod mlaf {
    use crate::num_traits;
    include!(concat!(env!("MOXCMS_SRC"), "/mlaf.rs"));
}

#[allow(dead_code, unused_imports, clippy::all)]
mod trc {
    #[cfg(wide)]
    use crate::width::{i32, u32};
    use crate::{num_traits, pxfm};
    include!(concat!(env!("MOXCMS_SRC"), "/trc.rs"));

    #[warn(dead_code, unused_imports, clippy::all)]
    pub mod doors {
        include!("trc_doors.rs");
    }
}

#[allow(dead_code, clippy::all)]
mod tag {
    include!(concat!(env!("MOXCMS_SRC"), "/tag.rs"));
}

#[allow(dead_code, clippy::all)]
mod writer {
    include!(concat!(env!("MOXCMS_SRC"), "/writer.rs"));

    #[warn(dead_code, clippy::all)]
    pub mod doors {
        include!("writer_doors.rs");
    }
}

mod matan {
    include!("matan_doors.rs");

    mod monotonic {
        include!(concat!(env!("MOXCMS_SRC"), "/matan/monotonic.rs"));
    }

    mod degeneration {
        include!(concat!(env!("MOXCMS_SRC"), "/matan/degeneration.rs"));
    }
}

pub use matan::doors::{is_curve_degenerated, is_curve_monotonic};
pub use trc::doors::{
    GAMMA_SIZES, ParametricCurve, ToneReprCurve, compare_parametric, invert_lut, lut_interp_linear,
    lut_interp_linear_float, lut_interp_linear_gamma_impl, lut_interp_linear16, lut_inverse_interp16,
    passthrough_table_impl, u8_fixed_8number_to_float,
};
pub use writer::doors::write_trc_entry;
