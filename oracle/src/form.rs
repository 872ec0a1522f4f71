//! Fixed forms and loads.

/// A way bits stand for a load: an integer of `width` bits, signed by two's
/// complement or not, worth that integer over 2^`fraction`.
#[derive(Clone, Copy)]
pub struct Form {
    pub signed: bool,
    pub width: u32,
    pub fraction: u32,
}

/// A number worth `size` over 2^`scale`, below zero if `negative`.
#[derive(Clone, Copy)]
pub struct Load {
    pub negative: bool,
    pub size: u64,
    pub scale: i32,
}

impl Form {
    /// The bits that are all ones.
    pub fn ones(self) -> u64 {
        all_ones(self.width)
    }

    /// The bits of which only the top one is set.
    pub fn top(self) -> u64 {
        1 << (self.width - 1)
    }

    /// The bits of the largest number.
    pub fn largest(self) -> u64 {
        if self.signed {
            self.top() - 1
        } else {
            self.ones()
        }
    }

    /// The bits of the smallest number.
    pub fn smallest(self) -> u64 {
        if self.signed { self.top() } else { 0 }
    }

    /// The bits of 2^`exponent`, if the form has that number.
    pub fn power_of_two(self, exponent: i32) -> Option<u64> {
        let place = u32::try_from(exponent + self.fraction as i32).ok()?;
        let places = if self.signed {
            self.width - 1
        } else {
            self.width
        };
        (place < places).then(|| 1 << place)
    }

    /// The load that bits stand for.
    pub fn load(self, bits: u64) -> Load {
        let negative = self.signed && bits & self.top() != 0;
        Load {
            negative,
            size: if negative { self.negated(bits) } else { bits },
            scale: self.fraction as i32,
        }
    }

    /// The bits counted `by` numbers on, past all ones back to zero.
    pub fn stepped(self, bits: u64, by: i64) -> u64 {
        bits.wrapping_add_signed(by) & self.ones()
    }

    /// The bits negated by two's complement.
    pub fn negated(self, bits: u64) -> u64 {
        bits.wrapping_neg() & self.ones()
    }

    /// The bits of the number of this form closest to plus or minus `size`
    /// units of 2^-`fraction`.
    pub fn closest(self, negative: bool, size: u128) -> u64 {
        if negative {
            let most = u128::from(self.load(self.smallest()).size);
            self.negated(size.min(most) as u64)
        } else {
            size.min(u128::from(self.largest())) as u64
        }
    }
}

/// The lowest `count` bits set, for a count of 1 to 64.
pub fn all_ones(count: u32) -> u64 {
    u64::MAX >> (64 - count)
}
