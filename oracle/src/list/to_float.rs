//! Questions of a fixed number as a float.
//!
//! The crate keeps as many of the number's bits as the float has and rounds by
//! what falls off. So numbers are chosen by what falls off (nothing, one half,
//! a little more or less), and by the float that comes out: a power of two
//! above the number, a subnormal, the largest one, or none.

use super::random::Random;
use super::sides::Sides;
use crate::form::all_ones;
use crate::line::hex;

const SEED: u64 = 5;

/// How many numbers of each sort a form and a float get.
struct Shares {
    landmark: usize,
    short: usize,
    half_way: usize,
    round_up: usize,
    joint: usize,
    any: usize,
}

/// The shares of 8-bit forms, of which every fraction is asked for.
const NARROW: Shares = Shares {
    landmark: 4,
    short: 2,
    half_way: 0,
    round_up: 0,
    joint: 0,
    any: 2,
};

/// The shares of wider forms.
const WIDE: Shares = Shares {
    landmark: 3,
    short: 3,
    half_way: 8,
    round_up: 3,
    joint: 5,
    any: 4,
};

pub fn questions() -> Vec<String> {
    let mut random = Random::with_seed(SEED);
    let mut questions = known_questions();
    for sides in Sides::all() {
        let numbers = sides.numbers(&mut random);
        questions.extend(numbers.into_iter().map(|bits| question(sides, bits)));
    }
    questions
}

/// Questions that are asked whatever else is chosen.
fn known_questions() -> Vec<String> {
    [
        "to_float u 16 0 0801 f16",
        "to_float u 16 0 0803 f16",
        "to_float u 16 0 ffef f16",
        "to_float u 16 0 fff0 f16",
        "to_float u 16 0 ffff f16",
        "to_float i 64 64 ffffffffffffffff f16",
    ]
    .map(String::from)
    .to_vec()
}

fn question(sides: Sides, bits: u64) -> String {
    let bits = hex(bits, sides.form.width);
    format!(
        "to_float {} {bits} {}",
        sides.form_words(),
        sides.float.name()
    )
}

impl Sides {
    /// The bits of the fixed numbers asked for.
    fn numbers(self, random: &mut Random) -> Vec<u64> {
        let shares = if self.form.width == 8 { NARROW } else { WIDE };
        let mut numbers = random.some_of(self.landmarks(), shares.landmark);
        numbers.extend((0..shares.short).map(|_| self.short_number(random)));
        let mut sizes = Vec::new();
        let half_way = self.half_way_sizes(random);
        sizes.extend(random.some_of(half_way, shares.half_way));
        let round_up = self.round_up_sizes(random);
        sizes.extend(random.some_of(round_up, shares.round_up));
        sizes.extend(random.some_of(self.joint_sizes(), shares.joint));
        sizes.extend((0..shares.any).map(|_| self.any_size(random)));
        for size in sizes {
            let negative = random.one_of(self.signs());
            numbers.push(self.form.closest(negative, size.into()));
        }
        numbers
    }

    /// Zero, one, two and three units, and the numbers around the top bit and
    /// around all ones.
    fn landmarks(self) -> Vec<u64> {
        let form = self.form;
        let mut landmarks = vec![0, 1, 2, 3, form.ones() - 2, form.ones() - 1, form.ones()];
        landmarks.extend([-1, 0, 1].map(|step| form.stepped(form.top(), step)));
        landmarks
    }

    /// Bits for the size of a number, the sign bit not counted.
    fn places(self) -> u32 {
        self.form.width - u32::from(self.form.signed)
    }

    /// How many of its lowest bits a size of that length loses as a float, if
    /// it loses some and they are no more than all.
    fn lost_bits(self, length: u32) -> Option<u32> {
        let exponent = length as i32 - 1 - self.scale();
        let exponent = exponent.max(self.float.least_exponent());
        let lost = exponent - (self.float.precision() as i32 - 1) + self.scale();
        let lost = u32::try_from(lost).ok()?;
        (1..=length).contains(&lost).then_some(lost)
    }

    /// The lengths of sizes that lose bits as floats: one that loses as few as
    /// any, the longest, and a pseudo-random one.
    fn losing_lengths(self, random: &mut Random) -> Vec<u32> {
        let lengths: Vec<u32> = (1..=self.places())
            .filter(|&length| self.lost_bits(length).is_some())
            .collect();
        let (Some(&first), Some(&last)) = (lengths.first(), lengths.last()) else {
            return Vec::new();
        };
        vec![first, last, random.one_of(&lengths)]
    }

    /// Sizes half-way between two floats, of which the smaller is even or odd,
    /// each with its neighbours.
    fn half_way_sizes(self, random: &mut Random) -> Vec<u64> {
        let mut sizes = Vec::new();
        for length in self.losing_lengths(random) {
            let Some(lost) = self.lost_bits(length) else {
                continue;
            };
            let half = 1 << (lost - 1);
            for significand in significands(length - lost, random) {
                let size = significand.checked_shl(lost).unwrap_or(0) | half;
                sizes.extend([size - 1, size, size + 1]);
            }
        }
        sizes
    }

    /// Sizes that round up to a power of two, and the last one that does not.
    fn round_up_sizes(self, random: &mut Random) -> Vec<u64> {
        let mut sizes = Vec::new();
        for length in self.losing_lengths(random) {
            let Some(lost) = self.lost_bits(length) else {
                continue;
            };
            let ones = all_ones(length);
            let half = 1 << (lost - 1);
            sizes.extend([ones, ones - half + 1, ones - half]);
        }
        sizes
    }

    /// Sizes around the joints of the float: half the smallest subnormal, the
    /// smallest subnormal and normal, the largest finite number, the point
    /// half-way from there to the next power of two, and that power.
    fn joint_sizes(self) -> Vec<u64> {
        let precision = self.float.precision();
        let least = self.float.least_exponent() - (precision as i32 - 1);
        let most = self.float.greatest_exponent() + 1;
        let joints = [
            (1, least - 1),
            (1, least),
            (3, least - 1),
            (1, self.float.least_exponent()),
            (self.float.greatest_significand(), most - precision as i32),
            (all_ones(precision + 1), most - precision as i32 - 1),
            (1, most),
        ];
        joints
            .into_iter()
            .filter_map(|(size, exponent)| self.size_at(size, exponent))
            .flat_map(|size| [size - 1, size, size.saturating_add(1)])
            .collect()
    }

    /// `size` times 2^`exponent` in units of the form, if the form has it.
    fn size_at(self, size: u64, exponent: i32) -> Option<u64> {
        let left = u32::try_from(exponent + self.scale()).ok()?;
        let length = size.ilog2() + 1;
        (length + left <= self.places()).then(|| size << left)
    }

    /// A pseudo-random size of a pseudo-random length.
    fn any_size(self, random: &mut Random) -> u64 {
        let length = 1 + random.below(self.places().into()) as u32;
        random.bits() & all_ones(length)
    }
}

/// Significands of that length, an even and an odd one if there are both.
fn significands(length: u32, random: &mut Random) -> Vec<u64> {
    match length {
        0 => vec![0],
        1 => vec![1],
        _ => {
            let even = random.bits() & all_ones(length) & !1 | 1 << (length - 1);
            vec![even, even | 1]
        }
    }
}
