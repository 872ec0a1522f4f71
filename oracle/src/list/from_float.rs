//! Questions of a float as a fixed number.
//!
//! Floats are chosen by where they stand among the numbers of the form: on
//! one, half-way between two, close to either, around the edges of the form,
//! beyond them so that bits wrap around, and far below its smallest unit.

use super::random::Random;
use super::sides::Sides;
use crate::form::{Load, all_ones};
use crate::line::hex;

const SEED: u64 = 6;

/// How many floats of each sort a form and a float get, beside one no number.
struct Shares {
    special: usize,
    whole: usize,
    between: usize,
    edge: usize,
    small: usize,
    beyond: usize,
    long_shift: usize,
    inside: usize,
    any: usize,
}

/// The shares of 8-bit forms, of which every fraction is asked for.
const NARROW: Shares = Shares {
    special: 2,
    whole: 1,
    between: 4,
    edge: 4,
    small: 2,
    beyond: 1,
    long_shift: 1,
    inside: 1,
    any: 1,
};

/// The shares of wider forms.
const WIDE: Shares = Shares {
    special: 3,
    whole: 2,
    between: 5,
    edge: 5,
    small: 2,
    beyond: 2,
    long_shift: 1,
    inside: 2,
    any: 1,
};

pub fn questions() -> Vec<String> {
    let mut random = Random::with_seed(SEED);
    let mut questions = known_questions();
    for sides in Sides::all() {
        let floats = sides.floats(&mut random);
        questions.extend(floats.into_iter().map(|bits| question(sides, bits)));
    }
    questions
}

/// Questions that are asked whatever else is chosen.
fn known_questions() -> Vec<String> {
    [
        "from_float f32 3f000000 u 8 0",
        "from_float f32 bf000000 u 8 0",
        "from_float f32 bf800000 u 8 0",
        "from_float f32 437f8000 u 8 0",
        "from_float f32 43000000 i 8 0",
        "from_float f32 c3000000 i 8 0",
        "from_float f32 7f7fffff u 64 64",
    ]
    .map(String::from)
    .to_vec()
}

fn question(sides: Sides, bits: u64) -> String {
    let float = sides.float;
    let bits = hex(bits, float.width());
    format!("from_float {} {bits} {}", float.name(), sides.form_words())
}

impl Sides {
    /// The bits of the floats asked for.
    fn floats(self, random: &mut Random) -> Vec<u64> {
        let shares = if self.form.width == 8 { NARROW } else { WIDE };
        let mut floats = random.some_of(self.special_floats(), shares.special);
        floats.push(self.no_number(random));
        floats.extend(random.some_of(self.edge_floats(), shares.edge));
        floats.extend(random.some_of(self.small_floats(), shares.small));
        let mut sizes = Vec::new();
        sizes.extend((0..shares.whole).map(|_| self.whole_float(random)));
        let between = self.between_floats(random);
        sizes.extend(random.some_of(between, shares.between));
        sizes.extend((0..shares.beyond).filter_map(|_| self.beyond_float(random)));
        sizes.extend(random.some_of(self.long_shift_floats(), shares.long_shift));
        sizes.extend((0..shares.inside).filter_map(|_| self.inside_float(random)));
        for size in sizes {
            let negative = self.any_sign(random);
            floats.push(self.float.signed(negative, size));
        }
        floats.extend((0..shares.any).map(|_| random.bits() & all_ones(self.float.width())));
        floats
    }

    /// Whether to ask for a negative float: rarely if the form has no negative numbers.
    fn any_sign(self, random: &mut Random) -> bool {
        let choices = if self.form.signed { 2 } else { 5 };
        random.below(choices) == 0
    }

    /// The last float, sign aside, not above `size` over 2^`scale`, and the
    /// floats next to it.
    fn near(self, size: u64, scale: i32) -> Vec<u64> {
        let load = Load {
            negative: false,
            size,
            scale,
        };
        let (float, _) = self.float.toward_zero(load);
        vec![float.saturating_sub(1), float, float + 1]
    }

    /// A float, sign aside, that is a number of the form.
    fn whole_float(self, random: &mut Random) -> u64 {
        let load = self.form.load(self.short_number(random));
        let (float, _) = self.float.toward_zero(load);
        float
    }

    /// Floats, sign aside, half-way and a quarter of the way between numbers
    /// of the form, of which the smaller is even or odd, and next to these.
    fn between_floats(self, random: &mut Random) -> Vec<u64> {
        let longest = self.form.width.min(self.float.precision()) - 2;
        let length = 1 + random.below(longest.into()) as u32;
        let even = random.bits() & all_ones(length) & !1;
        let mut floats = Vec::new();
        for whole in [0, 1, even, even | 1] {
            // Half-way comes up as often as the quarters together.
            for quarters in [2, 2, 1, 3] {
                floats.extend(self.near(4 * whole + quarters, self.scale() + 2));
            }
        }
        floats
    }

    /// Floats around the edges of the form: the number furthest from zero on
    /// either side, the points one half unit to both sides of it, and the
    /// first number beyond.
    fn edge_floats(self) -> Vec<u64> {
        let form = self.form;
        let mut floats = Vec::new();
        for (negative, edge) in [(false, form.largest()), (true, form.smallest())] {
            let halves = 2 * u128::from(form.load(edge).size);
            for halves in [halves.saturating_sub(1), halves, halves + 1, halves + 2] {
                let Some((size, less)) = narrowed(halves) else {
                    continue;
                };
                let near = self.near(size, self.scale() + 1 - less);
                floats.extend(
                    near.into_iter()
                        .map(|size| self.float.signed(negative, size)),
                );
            }
        }
        floats
    }

    /// Floats of both signs around one half and one quarter of the form's unit
    /// and around the smallest normal number.
    fn small_floats(self) -> Vec<u64> {
        let mut sizes = vec![
            self.float.smallest_normal() - 1,
            self.float.smallest_normal(),
        ];
        for more in [1, 2] {
            sizes.extend(self.near(1, self.scale() + more));
        }
        sizes
            .into_iter()
            .flat_map(|size| [size, self.float.negated(size)])
            .collect()
    }

    /// A float, sign aside, too large for the form by so little that some of
    /// its bits are left after it wraps around.
    fn beyond_float(self, random: &mut Random) -> Option<u64> {
        let whole_bits = self.form.width as i32 - self.scale();
        let more = random.below(self.float.precision().into()) as i32;
        self.any_float(whole_bits + more, random)
    }

    /// A float, sign aside, between a quarter of the form's unit and its edge.
    fn inside_float(self, random: &mut Random) -> Option<u64> {
        let exponents = self.form.width + 2;
        let exponent = random.below(exponents.into()) as i32 - self.scale() - 2;
        self.any_float(exponent, random)
    }

    /// A pseudo-random float, sign aside, with that exponent, if there is one.
    fn any_float(self, exponent: i32, random: &mut Random) -> Option<u64> {
        let least = self.float.least_significand();
        let significand = least | random.bits() & (least - 1);
        let scale = self.float.precision() as i32 - 1 - exponent;
        self.float.normal(significand, scale)
    }

    /// Floats, sign aside, that the crate shifts left by about the width of
    /// the form, by about 64 or 128 places, or by far more.
    fn long_shift_floats(self) -> Vec<u64> {
        let width = self.form.width as i32;
        [
            width - 1,
            width,
            width + 1,
            63,
            64,
            65,
            126,
            127,
            128,
            129,
            500,
        ]
        .into_iter()
        .flat_map(|left| self.normals(self.scale() - left))
        .map(|(_, float)| float)
        .collect()
    }
}

/// A number with as many zeros taken from its end as make it fit 64 bits, and
/// how many these are; `None` if it has too few.
fn narrowed(number: u128) -> Option<(u64, i32)> {
    let zeros = 64u32.saturating_sub(number.leading_zeros());
    let kept = u64::try_from(number >> zeros).ok()?;
    (number.trailing_zeros() >= zeros).then_some((kept, zeros as i32))
}
