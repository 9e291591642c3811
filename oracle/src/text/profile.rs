//! Stand-ins for the types that writer.rs writes whole profiles from. Only `write_trc_entry` is compared, so these
//! have the fields that the text names, and their numbers are never asked for.

use crate::stand_ins::{TransferCharacteristics, not_asked};
use crate::trc::ToneReprCurve;

macro_rules! enums_with_a_number {
    ($($name:ident { $($case:ident)* })*) => {
        $(
            #[derive(Clone, Copy, PartialEq, PartialOrd)]
            pub enum $name {
                $($case,)*
            }

            impl From<$name> for u32 {
                fn from(_: $name) -> u32 {
                    not_asked()
                }
            }
        )*
    };
}

enums_with_a_number! {
    DataColorSpace { Gray Rgb YCbr Xyz }
    LutType { Lut8 Lut16 LutMab LutMba }
    ProfileClass { InputDevice DisplayDevice }
    ProfileSignature { Acsp }
    ProfileVersion { V4_0 V4_3 }
    RenderingIntent { Perceptual }
    StandardObserver { Unknown }
}

#[derive(Clone, Copy)]
pub struct Matrix3d {
    pub v: [[f64; 3]; 3],
}

#[derive(Clone, Copy)]
pub struct Vector3d {
    pub v: [f64; 3],
}

#[derive(Clone, Copy)]
pub struct Xyz {
    pub x: f32,
    pub y: f32,
    pub z: f32,
}

#[derive(Clone, Copy, Default, PartialEq)]
pub struct Xyzd {
    pub x: f64,
    pub y: f64,
    pub z: f64,
}

impl Xyzd {
    pub fn to_xyz(self) -> Xyz {
        not_asked()
    }
}

pub struct ColorDateTime;

impl ColorDateTime {
    pub fn now() -> ColorDateTime {
        not_asked()
    }
    pub fn encode(&self, _: &mut Vec<u8>) {
        not_asked()
    }
}

pub struct LocalizableString {
    pub language: String,
    pub country: String,
    pub value: String,
}

pub struct DescriptionString {
    pub ascii_string: String,
    pub unicode_string: String,
}

pub enum ProfileText {
    PlainString(String),
    Localizable(Vec<LocalizableString>),
    Description(DescriptionString),
}

impl ProfileText {
    pub fn has_values(&self) -> bool {
        not_asked()
    }
}

pub struct ViewingConditions {
    pub illuminant: Xyz,
    pub surround: Xyz,
    pub observer: StandardObserver,
}

#[derive(Clone, Copy)]
pub struct CicpProfile {
    pub color_primaries: u8,
    pub transfer_characteristics: TransferCharacteristics,
    pub matrix_coefficients: u8,
    pub full_range: bool,
}

pub enum LutStore {
    Store8(Vec<u8>),
    Store16(Vec<u16>),
}

pub struct LutDataType {
    pub num_input_channels: u8,
    pub num_output_channels: u8,
    pub num_clut_grid_points: u8,
    pub matrix: Matrix3d,
    pub num_input_table_entries: u16,
    pub num_output_table_entries: u16,
    pub input_table: LutStore,
    pub clut_table: LutStore,
    pub output_table: LutStore,
}

impl LutDataType {
    pub fn has_same_kind(&self) -> bool {
        not_asked()
    }
}

pub struct LutMultidimensionalType {
    pub num_input_channels: u8,
    pub num_output_channels: u8,
    pub grid_points: [u8; 16],
    pub clut: Option<LutStore>,
    pub a_curves: Vec<ToneReprCurve>,
    pub b_curves: Vec<ToneReprCurve>,
    pub m_curves: Vec<ToneReprCurve>,
    pub matrix: Matrix3d,
    pub bias: Vector3d,
}

pub enum LutWarehouse {
    Lut(LutDataType),
    Multidimensional(LutMultidimensionalType),
}

pub struct ProfileHeader {
    pub size: u32,
    pub pcs: DataColorSpace,
    pub profile_class: ProfileClass,
    pub rendering_intent: RenderingIntent,
    pub cmm_type: u32,
    pub version: ProfileVersion,
    pub data_color_space: DataColorSpace,
    pub creation_date_time: ColorDateTime,
    pub signature: ProfileSignature,
    pub platform: u32,
    pub flags: u32,
    pub device_manufacturer: u32,
    pub device_model: u32,
    pub device_attributes: [u8; 8],
    pub illuminant: Xyz,
    pub creator: u32,
    pub profile_id: [u8; 16],
    pub reserved: [u8; 28],
    pub tag_count: u32,
}

pub struct ColorProfile {
    pub pcs: DataColorSpace,
    pub color_space: DataColorSpace,
    pub profile_class: ProfileClass,
    pub rendering_intent: RenderingIntent,
    pub version_internal: ProfileVersion,
    pub white_point: Xyzd,
    pub red_colorant: Xyzd,
    pub green_colorant: Xyzd,
    pub blue_colorant: Xyzd,
    pub red_trc: Option<ToneReprCurve>,
    pub green_trc: Option<ToneReprCurve>,
    pub blue_trc: Option<ToneReprCurve>,
    pub gray_trc: Option<ToneReprCurve>,
    pub cicp: Option<CicpProfile>,
    pub media_white_point: Option<Xyzd>,
    pub luminance: Option<Xyzd>,
    pub chromatic_adaptation: Option<Matrix3d>,
    pub gamut: Option<LutWarehouse>,
    pub lut_a_to_b_perceptual: Option<LutWarehouse>,
    pub lut_a_to_b_colorimetric: Option<LutWarehouse>,
    pub lut_a_to_b_saturation: Option<LutWarehouse>,
    pub lut_b_to_a_perceptual: Option<LutWarehouse>,
    pub lut_b_to_a_colorimetric: Option<LutWarehouse>,
    pub lut_b_to_a_saturation: Option<LutWarehouse>,
    pub description: Option<ProfileText>,
    pub copyright: Option<ProfileText>,
    pub viewing_conditions: Option<ViewingConditions>,
    pub viewing_conditions_description: Option<ProfileText>,
    pub device_model: Option<ProfileText>,
    pub device_manufacturer: Option<ProfileText>,
}
