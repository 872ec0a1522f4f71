//! What the crate's five files lean on and do not define themselves.
//!
//! Nothing here gives an answer: the stand-ins hold bits, name fractions and
//! edges, and refuse the calls that the oracle does not drive.

use core::cmp::Ordering;
use core::marker::PhantomData;
use types::extra::Unsigned;

/// The fraction of a fixed type as a type.
pub mod types {
    pub mod extra {
        /// The number `K` as a type.
        #[derive(Clone, Copy)]
        pub struct N<const K: u32>;

        pub type U0 = N<0>;

        /// A type that stands for a number.
        pub trait Unsigned: Copy {
            const U32: u32;

            fn to_i32() -> i32 {
                Self::U32 as i32
            }
        }

        impl<const K: u32> Unsigned for N<K> {
            const U32: u32 = K;
        }

        macro_rules! bounds {
            ($($LeEqU:ident)*) => { $(
                /// A fraction that fits its width. Held by every number here:
                /// the driver names no fraction that does not fit.
                pub trait $LeEqU: Unsigned {}

                impl<const K: u32> $LeEqU for N<K> {}
            )* };
        }
        bounds! { LeEqU8 LeEqU16 LeEqU32 LeEqU64 LeEqU128 }
    }
}

macro_rules! fixed_types {
    ($($Fixed:ident($Inner:ident))*) => { $(
        /// A fixed type: its bits, its fraction and its edges.
        pub struct $Fixed<Frac> {
            bits: $Inner,
            fraction: PhantomData<Frac>,
        }

        impl<Frac> Clone for $Fixed<Frac> {
            fn clone(&self) -> Self {
                *self
            }
        }

        impl<Frac> Copy for $Fixed<Frac> {}

        impl<Frac> $Fixed<Frac> {
            pub const MIN: Self = Self::from_bits($Inner::MIN);
            pub const MAX: Self = Self::from_bits($Inner::MAX);

            pub const fn from_bits(bits: $Inner) -> Self {
                Self { bits, fraction: PhantomData }
            }

            pub const fn to_bits(self) -> $Inner {
                self.bits
            }
        }

        impl<Frac: Unsigned> $Fixed<Frac> {
            pub const FRAC_NBITS: u32 = Frac::U32;
            pub const INT_NBITS: u32 = $Inner::BITS - Frac::U32;
        }
    )* };
}
fixed_types! {
    FixedI8(i8) FixedI16(i16) FixedI32(i32) FixedI64(i64) FixedI128(i128)
    FixedU8(u8) FixedU16(u16) FixedU32(u32) FixedU64(u64) FixedU128(u128)
}

// The crate compares fixed numbers with integers by way of fixed numbers with
// fixed numbers, which it defines in another file. The oracle does neither.
macro_rules! fixed_against_fixed {
    ($Left:ident: $($Right:ident)*) => { $(
        impl<A: Unsigned, B: Unsigned> PartialEq<$Right<B>> for $Left<A> {
            fn eq(&self, _: &$Right<B>) -> bool {
                unimplemented!("fixed against fixed")
            }
        }

        impl<A: Unsigned, B: Unsigned> PartialOrd<$Right<B>> for $Left<A> {
            fn partial_cmp(&self, _: &$Right<B>) -> Option<Ordering> {
                unimplemented!("fixed against fixed")
            }
        }
    )* };
}
macro_rules! each_against_all {
    ($($Left:ident)*) => { $(
        fixed_against_fixed! {
            $Left:
            FixedI8 FixedI16 FixedI32 FixedI64 FixedI128
            FixedU8 FixedU16 FixedU32 FixedU64 FixedU128
        }
    )* };
}
each_against_all! {
    FixedI8 FixedI16 FixedI32 FixedI64 FixedI128
    FixedU8 FixedU16 FixedU32 FixedU64 FixedU128
}

macro_rules! floats_never_driven {
    ($($Float:ident)*) => { $(
        /// A 128-bit float as bare bits. The oracle never drives it.
        #[derive(Clone, Copy)]
        pub struct $Float(u128);

        impl $Float {
            pub const fn from_bits(bits: u128) -> Self {
                Self(bits)
            }

            pub const fn to_bits(self) -> u128 {
                self.0
            }
        }
    )* };
}
floats_never_driven! { F128 F128Bits }
