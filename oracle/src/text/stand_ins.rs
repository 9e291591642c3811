//! Stand-ins for what trc.rs, mlaf.rs and tag.rs ask for. What no question of the comparison reaches panics.

/// The body of everything that the text names and the comparison never calls.
pub fn not_asked() -> ! {
    panic!("a stand-in was called")
}

/// The two traits that the text takes from the crate of this name.
pub mod num_traits {
    pub trait AsPrimitive<T> {
        fn as_(self) -> T;
    }

    macro_rules! as_primitive {
        ($($from:ident => $($to:ident)*;)*) => {
            $($(impl AsPrimitive<$to> for $from {
                fn as_(self) -> $to {
                    self as $to
                }
            })*)*
        };
    }
    as_primitive! {
        u32 => u8 u16 f32 f64;
        u64 => u8 u16 f32 f64;
        f32 => u8 u16 f32 f64;
    }

    pub trait MulAdd<A = Self, B = Self> {
        type Output;
        fn mul_add(self, a: A, b: B) -> Self::Output;
    }

    macro_rules! rounds_twice {
        ($($number:ident)*) => {
            $(impl MulAdd for $number {
                type Output = $number;
                fn mul_add(self, a: $number, b: $number) -> $number {
                    self * a + b
                }
            })*
        };
    }
    rounds_twice!(u32 u64);
    #[cfg(not(fused))]
    rounds_twice!(f32 f64);

    #[cfg(fused)]
    macro_rules! rounds_once {
        ($($number:ident)*) => {
            $(impl MulAdd for $number {
                type Output = $number;
                fn mul_add(self, a: $number, b: $number) -> $number {
                    $number::mul_add(self, a, b)
                }
            })*
        };
    }
    #[cfg(fused)]
    rounds_once!(f32 f64);
}

pub mod pxfm {
    use super::not_asked;

    pub fn dirty_powf(_: f32, _: f32) -> f32 {
        not_asked()
    }
    pub fn f_powf(_: f32, _: f32) -> f32 {
        not_asked()
    }
    pub fn f_pow(_: f64, _: f64) -> f64 {
        not_asked()
    }
}

pub mod cicp {
    pub fn create_rec709_parametric() -> [f32; 5] {
        super::not_asked()
    }
}

pub mod transform {
    /// Of the Rust's trait only what trc.rs reads; of its values only those of the whole numbers, which are compared.
    pub trait PointeeSizeExpressible {
        const FINITE: bool;
        const NOT_FINITE_LINEAR_TABLE_SIZE: usize;
    }

    impl PointeeSizeExpressible for u8 {
        const FINITE: bool = true;
        const NOT_FINITE_LINEAR_TABLE_SIZE: usize = 1;
    }

    impl PointeeSizeExpressible for u16 {
        const FINITE: bool = true;
        const NOT_FINITE_LINEAR_TABLE_SIZE: usize = 1;
    }
}

#[derive(Debug)]
pub enum CmsError {
    BuildTransferFunction,
    InvalidProfile,
    UnknownTag(u32),
}

pub struct Rgb<T> {
    pub r: T,
    pub g: T,
    pub b: T,
}

impl<T> Rgb<T> {
    pub fn new(r: T, g: T, b: T) -> Rgb<T> {
        Rgb { r, g, b }
    }
}

#[derive(Clone, Copy)]
pub enum TransferCharacteristics {
    Srgb,
    Bt709,
}

impl TransferCharacteristics {
    pub fn has_transfer_curve(self) -> bool {
        not_asked()
    }
    pub fn linearize(self, _: f64) -> f64 {
        not_asked()
    }
    pub fn gamma(self, _: f64) -> f64 {
        not_asked()
    }
    pub fn make_linear_table<T, const N: usize, const BIT_DEPTH: usize>(self) -> Box<[f32; N]> {
        not_asked()
    }
    pub fn make_gamma_table<T, const BUCKET: usize, const N: usize>(self, _: usize) -> Box<[T; BUCKET]> {
        not_asked()
    }
}
