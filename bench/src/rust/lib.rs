//! The text of moxcms, taken in unchanged as the oracle does it (oracle/src/text), built as a release would be, with
//! doors for the benchmark. A door is what a caller in C meets; a function that ends in `_loop` or `_row` has the loop
//! around the Rust's routine in the Rust's own crate, so that the compiler may inline it.

#[path = "../../../oracle/src/text/profile.rs"]
#[allow(dead_code)]
pub mod profile;
#[path = "../../../oracle/src/text/stand_ins.rs"]
#[allow(dead_code)]
mod stand_ins;

pub use profile::{
    CicpProfile, ColorDateTime, ColorProfile, DataColorSpace, LocalizableString, LutMultidimensionalType, LutStore,
    LutType, LutWarehouse, Matrix3d, ProfileClass, ProfileSignature, ProfileText, ProfileVersion, Vector3d,
    ViewingConditions, Xyz, Xyzd,
};
pub use stand_ins::{CmsError, Rgb, TransferCharacteristics, cicp, num_traits, pxfm, transform};

#[allow(dead_code)]
mod mlaf {
    use crate::num_traits;
    include!(concat!(env!("MOXCMS_SRC"), "/mlaf.rs"));
}

#[allow(dead_code, unused_imports)]
mod trc {
    use crate::{num_traits, pxfm};
    include!(concat!(env!("MOXCMS_SRC"), "/trc.rs"));

    pub mod doors {
        include!("trc_doors.rs");
    }
}

#[allow(dead_code)]
mod tag {
    include!(concat!(env!("MOXCMS_SRC"), "/tag.rs"));
}

#[allow(dead_code)]
mod writer {
    include!(concat!(env!("MOXCMS_SRC"), "/writer.rs"));

    pub mod doors {
        include!("writer_doors.rs");
    }
}

mod plain;
