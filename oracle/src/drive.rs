//! Calls into the crate's files, chosen by numbers known only at run time.

use crate::float::Float;
use crate::form::{Form, Load, all_ones};
use crate::helpers::{FloatKind, FromFloatHelper, Private, Sealed};
use crate::types::extra::N;
use crate::{FixedI8, FixedI16, FixedI32, FixedI64, FixedU8, FixedU16, FixedU32, FixedU64};
use crate::{float_helper, int_helper};
use core::cmp::Ordering;
use half::{bf16 as half_bf16, f16 as half_f16};

/// What a float is, as the crate reads it.
#[derive(Clone, Copy)]
pub enum Kind {
    Nan,
    Infinite { negative: bool },
    Finite(Load),
}

/// A fixed number against a float and the float against the fixed number.
#[derive(Clone, Copy)]
pub struct Comparison {
    pub fixed_to_float: Option<Ordering>,
    pub float_to_fixed: Option<Ordering>,
    pub fixed_equals_float: bool,
    pub float_equals_fixed: bool,
}

/// What the crate makes of a float as a fixed number.
#[derive(Clone, Copy)]
pub enum FromFloat {
    Nan,
    Infinite { clamped: u64 },
    Finite(Rounded),
}

/// A fixed number that stands for a float, by its bits.
#[derive(Clone, Copy)]
pub struct Rounded {
    /// The bits that are left if too large a number wraps around.
    pub bits: u64,
    /// The number before it wraps around, against the float.
    pub direction: Ordering,
    /// Whether the number is too large.
    pub over: bool,
    /// The bits if too large a number becomes the largest or the smallest.
    pub clamped: u64,
}

/// The crate's calls for one form and one float.
pub struct Calls {
    /// Bits of a fixed number against bits of a float.
    pub compare: fn(u64, u64) -> Comparison,
    /// Bits of a fixed number to bits of a float.
    pub to_float: fn(u64) -> u64,
    /// Bits of a float to a fixed number.
    pub from_float: fn(u64) -> FromFloat,
}

/// The crate's `kind` of the float with these bits.
pub fn kind(float: Float, bits: u64) -> Kind {
    macro_rules! kind_of {
        ($Float:ident, $Bits:ident) => {{
            use float_helper::$Float as helper;
            match helper::kind($Float::from_bits(bits as $Bits)) {
                helper::Kind::NaN => Kind::Nan,
                helper::Kind::Infinite { neg } => Kind::Infinite { negative: neg },
                helper::Kind::Finite {
                    neg,
                    abs,
                    frac_bits,
                } => Kind::Finite(Load {
                    negative: neg,
                    size: abs.into(),
                    scale: frac_bits,
                }),
            }
        }};
    }
    match float {
        Float::F16 => kind_of!(half_f16, u16),
        Float::Bf16 => kind_of!(half_bf16, u16),
        Float::F32 => kind_of!(f32, u32),
        Float::F64 => kind_of!(f64, u64),
    }
}

/// The crate's `neg_abs` of the integer with these bits: whether it is below
/// zero, and its size. `None` if the oracle drives no such width.
pub fn neg_abs(signed: bool, width: u32, bits: u64) -> Option<(bool, u64)> {
    macro_rules! neg_abs_of {
        ($Inner:ident) => {{
            let (negative, size) = int_helper::$Inner::neg_abs(bits as $Inner);
            Some((negative, size.into()))
        }};
    }
    match (signed, width) {
        (true, 8) => neg_abs_of!(i8),
        (true, 16) => neg_abs_of!(i16),
        (true, 32) => neg_abs_of!(i32),
        (true, 64) => neg_abs_of!(i64),
        (false, 8) => neg_abs_of!(u8),
        (false, 16) => neg_abs_of!(u16),
        (false, 32) => neg_abs_of!(u32),
        (false, 64) => neg_abs_of!(u64),
        _ => None,
    }
}

/// The crate's fixed number for a float that it has read as this kind, which
/// its two calls use up. The crate would panic at a no number in both calls
/// and at an infinite one where it wraps around: these calls are not made.
fn from_float<Fixed: Sealed>(kind: impl Fn() -> FloatKind, bits: fn(Fixed) -> u64) -> FromFloat {
    let helper = || FromFloatHelper { kind: kind() };
    let clamped = || bits(Fixed::saturating_from_float_helper(Private, helper()));
    match kind() {
        FloatKind::NaN => FromFloat::Nan,
        FloatKind::Infinite { .. } => FromFloat::Infinite { clamped: clamped() },
        FloatKind::Finite { conv, .. } => {
            let (fixed, over) = Fixed::overflowing_from_float_helper(Private, helper());
            FromFloat::Finite(Rounded {
                bits: bits(fixed),
                direction: conv.dir,
                over,
                clamped: clamped(),
            })
        }
    }
}

/// The record of calls for one fixed type and one float type.
macro_rules! record {
    ($Fixed:ident<$fraction:literal>($Inner:ident), $Float:ident($Bits:ident)) => {
        Calls {
            compare: |fixed, float| {
                let fixed = $Fixed::<N<$fraction>>::from_bits(fixed as $Inner);
                let float = $Float::from_bits(float as $Bits);
                Comparison {
                    fixed_to_float: fixed.partial_cmp(&float),
                    float_to_fixed: float.partial_cmp(&fixed),
                    fixed_equals_float: fixed == float,
                    float_equals_fixed: float == fixed,
                }
            },
            to_float: |fixed| {
                type Fixed = $Fixed<N<$fraction>>;
                let helper = Fixed::from_bits(fixed as $Inner).to_float_helper(Private);
                float_helper::$Float::from_to_float_helper(
                    helper,
                    Fixed::FRAC_NBITS,
                    Fixed::INT_NBITS,
                )
                .to_bits()
                .into()
            },
            from_float: |float| {
                type Fixed = $Fixed<N<$fraction>>;
                let float = $Float::from_bits(float as $Bits);
                let kind = || {
                    float_helper::$Float::to_float_kind(float, Fixed::FRAC_NBITS, Fixed::INT_NBITS)
                };
                from_float(kind, |fixed: Fixed| {
                    fixed.to_bits() as u64 & all_ones($Inner::BITS)
                })
            },
        }
    };
}

/// The record for a fraction out of a row of fractions.
macro_rules! by_fraction {
    ($fraction:expr, $Fixed:ident($Inner:ident), $Float:tt($Bits:tt), $($each:literal)*) => {
        match $fraction {
            $( $each => Some(record!($Fixed<$each>($Inner), $Float($Bits))), )*
            _ => None,
        }
    };
}

/// The record for a float, the fractions being a row.
macro_rules! by_float {
    ($form:expr, $float:expr, $Fixed:ident($Inner:ident), $($each:literal)*) => {
        match $float {
            Float::F16 => by_fraction!($form.fraction, $Fixed($Inner), half_f16(u16), $($each)*),
            Float::Bf16 => by_fraction!($form.fraction, $Fixed($Inner), half_bf16(u16), $($each)*),
            Float::F32 => by_fraction!($form.fraction, $Fixed($Inner), f32(u32), $($each)*),
            Float::F64 => by_fraction!($form.fraction, $Fixed($Inner), f64(u64), $($each)*),
        }
    };
}

/// The record for a signedness, the fractions being a row.
macro_rules! by_sign {
    ($form:expr, $float:expr, $I:ident($i:ident), $U:ident($u:ident), $($each:literal)*) => {
        if $form.signed {
            by_float!($form, $float, $I($i), $($each)*)
        } else {
            by_float!($form, $float, $U($u), $($each)*)
        }
    };
}

/// The crate's calls for a form and a float, or `None` if the oracle drives no such form.
pub fn calls(form: Form, float: Float) -> Option<Calls> {
    match form.width {
        8 => by_sign!(form, float, FixedI8(i8), FixedU8(u8),
            0 1 2 3 4 5 6 7 8),
        16 => by_sign!(form, float, FixedI16(i16), FixedU16(u16),
            0 1 2 3 4 5 6 7 8 9 10 11 12 13 14 15 16),
        32 => by_sign!(form, float, FixedI32(i32), FixedU32(u32),
            0 1 2 3 4 5 6 7 8 9 10 11 12 13 14 15 16
            17 18 19 20 21 22 23 24 25 26 27 28 29 30 31 32),
        64 => by_sign!(form, float, FixedI64(i64), FixedU64(u64),
            0 1 2 3 4 5 6 7 8 9 10 11 12 13 14 15 16
            17 18 19 20 21 22 23 24 25 26 27 28 29 30 31 32
            33 34 35 36 37 38 39 40 41 42 43 44 45 46 47 48
            49 50 51 52 53 54 55 56 57 58 59 60 61 62 63 64),
        _ => None,
    }
}
