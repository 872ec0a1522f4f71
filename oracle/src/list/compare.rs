//! Questions of a fixed number against a float.
//!
//! Both sides are chosen to matter for each other. The crate brings both to
//! one scale by shifting one of them left within an integer as wide as the
//! wider side, so beside close numbers the shifts themselves are asked for:
//! those that just fit, those that just do not, and long ones.

use super::random::Random;
use super::sides::Sides;
use crate::line::hex;

const SEED: u64 = 3;

/// A fixed number and a float by their bits.
#[derive(Clone, Copy)]
struct Pair {
    fixed: u64,
    float: u64,
}

/// How many pairs of each sort a form and a float get, beside one no number.
struct Shares {
    /// Fixed numbers, each with two floats close to it.
    close: usize,
    special: usize,
    edge: usize,
    float_fit: usize,
    fixed_fit: usize,
    long_shift: usize,
}

/// The shares of 8-bit forms, of which every fraction is asked for.
const NARROW: Shares = Shares {
    close: 5,
    special: 2,
    edge: 2,
    float_fit: 2,
    fixed_fit: 1,
    long_shift: 1,
};

/// The shares of wider forms.
const WIDE: Shares = Shares {
    close: 7,
    special: 3,
    edge: 3,
    float_fit: 3,
    fixed_fit: 2,
    long_shift: 3,
};

pub fn questions() -> Vec<String> {
    let mut random = Random::with_seed(SEED);
    let mut questions = known_questions();
    for sides in Sides::all() {
        let pairs = sides.pairs(&mut random);
        questions.extend(pairs.into_iter().map(|pair| question(sides, pair)));
    }
    questions
}

/// Questions that are asked whatever else is chosen.
fn known_questions() -> Vec<String> {
    [
        "compare i 64 0 7fffffffffffffff f64 43f0000000000000",
        "compare u 8 0 00 f16 8000",
        "compare u 8 0 00 f16 7e00",
    ]
    .map(String::from)
    .to_vec()
}

fn question(sides: Sides, pair: Pair) -> String {
    let Sides { form, float } = sides;
    format!(
        "compare {} {} {} {}",
        sides.form_words(),
        hex(pair.fixed, form.width),
        float.name(),
        hex(pair.float, float.width()),
    )
}

impl Sides {
    /// The pairs asked for.
    fn pairs(self, random: &mut Random) -> Vec<Pair> {
        let shares = if self.form.width == 8 { NARROW } else { WIDE };
        let numbers = self.fixed_numbers(random);
        let mut pairs = Vec::new();
        for fixed in random.some_of(numbers.clone(), shares.close) {
            pairs.extend(self.close(fixed, random));
        }
        let mut specials = random.some_of(self.special_floats(), shares.special);
        specials.push(self.no_number(random));
        pairs.extend(specials.into_iter().map(|float| Pair {
            fixed: random.one_of(&numbers),
            float,
        }));
        pairs.extend(random.some_of(self.edges(), shares.edge));
        pairs.extend(random.some_of(self.float_fits(), shares.float_fit));
        pairs.extend(random.some_of(self.fixed_fits(&numbers), shares.fixed_fit));
        for float in random.some_of(self.long_shifts(), shares.long_shift) {
            pairs.push(self.with_sign_of(random.one_of(&numbers), float));
        }
        pairs
    }

    /// Fixed numbers that matter in the form, and some pseudo-random ones.
    fn fixed_numbers(self, random: &mut Random) -> Vec<u64> {
        let form = self.form;
        let mut numbers = vec![0, 1, 2, form.ones() - 1, form.ones()];
        numbers.extend([-1, 0, 1].map(|step| form.stepped(form.top(), step)));
        let one_and_half = [0, -1].map(|exponent| form.power_of_two(exponent));
        for number in one_and_half.into_iter().flatten() {
            numbers.extend([number, form.negated(number)]);
        }
        numbers.extend([(); 2].map(|()| random.bits() & form.ones()));
        numbers.extend([(); 2].map(|()| self.short_number(random)));
        numbers.sort_unstable();
        numbers.dedup();
        numbers
    }

    /// A fixed number with the float equal to it and one of the floats around
    /// that, or, if no float is equal, with the two floats around it.
    fn close(self, fixed: u64, random: &mut Random) -> [Pair; 2] {
        let load = self.form.load(fixed);
        let (size, exact) = self.float.toward_zero(load);
        let other = if exact {
            random.one_of(&self.around(size))
        } else {
            size + 1
        };
        [size, other].map(|size| Pair {
            fixed,
            float: self.float.signed(load.negative, size),
        })
    }

    /// The floats next to a float, and its negation.
    fn around(self, float: u64) -> [u64; 3] {
        let down = if float == 0 {
            self.float.negated(1)
        } else {
            float - 1
        };
        [float + 1, down, self.float.negated(float)]
    }

    /// The fixed numbers furthest from zero with floats about as large as the
    /// first power of two beyond the form, and half as large.
    fn edges(self) -> Vec<Pair> {
        let form = self.form;
        let beyond = (form.width - form.fraction) as i32;
        let powers = [beyond, beyond - 1].map(|exponent| self.float.power_of_two(exponent));
        let mut pairs = Vec::new();
        for power in powers.into_iter().flatten() {
            for &negative in self.signs() {
                let fixed = form.closest(negative, u128::MAX);
                pairs.extend([power - 1, power, power + 1].map(|size| Pair {
                    fixed,
                    float: self.float.signed(negative, size),
                }));
            }
        }
        pairs
    }

    /// Floats that, shifted left to the scale of the form, just fit a width
    /// that matters or just do not, with fixed numbers as close as can be.
    fn float_fits(self) -> Vec<Pair> {
        let mut pairs = Vec::new();
        for length in self.tight_lengths() {
            let left = length - self.float.precision();
            for (significand, float) in self.normals(self.scale() - left as i32) {
                let size = u128::from(significand) << left;
                for &negative in self.signs() {
                    let closest = self.form.closest(negative, size);
                    pairs.extend([-1, 0, 1].map(|step| Pair {
                        fixed: self.form.stepped(closest, step),
                        float: self.float.signed(negative, float),
                    }));
                }
            }
        }
        pairs
    }

    /// Fixed numbers that, shifted left to the scale of a float, just fit a
    /// width that matters or just do not, with such floats.
    fn fixed_fits(self, numbers: &[u64]) -> Vec<Pair> {
        let mut pairs = Vec::new();
        for length in self.tight_lengths() {
            for &fixed in numbers.iter().filter(|&&number| number != 0) {
                let left = length - (self.form.load(fixed).size.ilog2() + 1);
                for (_, float) in self.normals(self.scale() + left as i32) {
                    pairs.push(self.with_sign_of(fixed, float));
                }
            }
        }
        pairs
    }

    /// Floats, sign aside, for which the float or the fixed number is shifted
    /// left by about a width that matters, and by far more.
    fn long_shifts(self) -> Vec<u64> {
        let mut shifts = vec![128, 500];
        for limit in self.limits() {
            shifts.extend([limit - 1, limit, limit + 1]);
        }
        shifts
            .into_iter()
            .map(|shift| shift as i32)
            .flat_map(|shift| [self.scale() - shift, self.scale() + shift])
            .flat_map(|scale| self.normals(scale))
            .map(|(_, float)| float)
            .collect()
    }

    /// The widths that matter: the one in which the crate compares, and 64 bits.
    fn limits(self) -> Vec<u32> {
        let mut limits = vec![self.form.width.max(self.float.width()), 64];
        limits.dedup();
        limits
    }

    /// The lengths that just fit a width that matters, and that just do not.
    fn tight_lengths(self) -> impl Iterator<Item = u32> {
        self.limits()
            .into_iter()
            .flat_map(|limit| [limit, limit + 1])
    }

    /// A fixed number with a float of that size and the sign of the fixed number.
    fn with_sign_of(self, fixed: u64, size: u64) -> Pair {
        let negative = self.form.load(fixed).negative;
        Pair {
            fixed,
            float: self.float.signed(negative, size),
        }
    }
}
