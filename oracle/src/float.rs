//! The four floats: their measures, and bits of numbers that matter.
//!
//! This serves the choice of questions only; no answer comes from here.

use crate::form::{Load, all_ones};

/// One of the floats that the oracle drives.
#[derive(Clone, Copy)]
pub enum Float {
    F16,
    Bf16,
    F32,
    F64,
}

impl Float {
    pub const ALL: [Float; 4] = [Float::F16, Float::Bf16, Float::F32, Float::F64];

    /// The name by which lines call it.
    pub fn name(self) -> &'static str {
        match self {
            Float::F16 => "f16",
            Float::Bf16 => "bf16",
            Float::F32 => "f32",
            Float::F64 => "f64",
        }
    }

    pub fn width(self) -> u32 {
        match self {
            Float::F16 | Float::Bf16 => 16,
            Float::F32 => 32,
            Float::F64 => 64,
        }
    }

    /// Bits of the significand, the implicit one included.
    pub fn precision(self) -> u32 {
        match self {
            Float::F16 => 11,
            Float::Bf16 => 8,
            Float::F32 => 24,
            Float::F64 => 53,
        }
    }

    /// The exponent of the largest finite numbers.
    pub fn greatest_exponent(self) -> i32 {
        all_ones(self.width() - self.precision() - 1) as i32
    }

    /// The exponent of the smallest normal numbers.
    pub fn least_exponent(self) -> i32 {
        1 - self.greatest_exponent()
    }

    /// How many exponent fields there are.
    pub fn exponent_fields(self) -> u64 {
        1 << (self.width() - self.precision())
    }

    /// The significand of powers of two: as long as it may be, and the least so.
    pub fn least_significand(self) -> u64 {
        1 << (self.precision() - 1)
    }

    /// The greatest significand.
    pub fn greatest_significand(self) -> u64 {
        all_ones(self.precision())
    }

    /// The first bits, sign aside, with that exponent field.
    pub fn first_with_field(self, field: u64) -> u64 {
        field << (self.precision() - 1)
    }

    /// The last bits, sign aside, with that exponent field.
    pub fn last_with_field(self, field: u64) -> u64 {
        self.first_with_field(field + 1) - 1
    }

    pub fn smallest_normal(self) -> u64 {
        self.first_with_field(1)
    }

    pub fn infinity(self) -> u64 {
        self.first_with_field(self.exponent_fields() - 1)
    }

    pub fn largest_finite(self) -> u64 {
        self.infinity() - 1
    }

    /// The bit that makes a no number a quiet one.
    fn quiet_bit(self) -> u64 {
        1 << (self.precision() - 2)
    }

    /// The quiet no number with that payload.
    pub fn quiet(self, payload: u64) -> u64 {
        self.infinity() | self.quiet_bit() | payload
    }

    /// The signalling no number with that payload, which is not zero.
    pub fn signalling(self, payload: u64) -> u64 {
        self.infinity() | payload
    }

    /// The greatest payload of a no number.
    pub fn greatest_payload(self) -> u64 {
        self.quiet_bit() - 1
    }

    /// The bits with the sign given.
    pub fn signed(self, negative: bool, bits: u64) -> u64 {
        if negative { self.negated(bits) } else { bits }
    }

    /// The bits with the other sign.
    pub fn negated(self, bits: u64) -> u64 {
        bits ^ (1 << (self.width() - 1))
    }

    /// The bits of 2^`exponent`, if the float has that number as a normal one.
    pub fn power_of_two(self, exponent: i32) -> Option<u64> {
        let scale = self.precision() as i32 - 1 - exponent;
        self.normal(self.least_significand(), scale)
    }

    /// The bits, sign aside, of the normal number worth `significand` over
    /// 2^`scale`, if there is one. The significand has all its bits.
    pub fn normal(self, significand: u64, scale: i32) -> Option<u64> {
        let exponent = self.precision() as i32 - 1 - scale;
        (self.least_exponent()..=self.greatest_exponent())
            .contains(&exponent)
            .then(|| self.encoded(exponent, significand))
    }

    /// The bits, sign aside, of the largest finite number not above the size
    /// of the load, and whether it is that size exactly.
    pub fn toward_zero(self, load: Load) -> (u64, bool) {
        if load.size == 0 {
            return (0, true);
        }
        let exponent = load.size.ilog2() as i32 - load.scale;
        if exponent > self.greatest_exponent() {
            return (self.largest_finite(), false);
        }
        let exponent = exponent.max(self.least_exponent());
        let unit_scale = self.precision() as i32 - 1 - exponent;
        let (significand, exact) = scaled(load.size, unit_scale - load.scale);
        (self.encoded(exponent, significand), exact)
    }

    /// The bits of a significand at an exponent. A significand without its
    /// implicit one is a subnormal and stands at the least exponent.
    fn encoded(self, exponent: i32, significand: u64) -> u64 {
        let steps = (exponent - self.least_exponent()) as u64;
        (steps << (self.precision() - 1)) + significand
    }
}

/// `size` times 2^`left` without what falls below one, and whether nothing does.
fn scaled(size: u64, left: i32) -> (u64, bool) {
    if left >= 0 {
        return (size << left, true);
    }
    let kept = size.checked_shr(left.unsigned_abs()).unwrap_or(0);
    let exact = size.trailing_zeros() >= left.unsigned_abs();
    (kept, exact)
}
