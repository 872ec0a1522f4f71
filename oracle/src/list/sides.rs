//! The forms and the floats that meet, and numbers of either that matter for
//! the other, for more than one kind of question.

use super::WIDTHS;
use super::random::Random;
use crate::float::Float;
use crate::form::{Form, all_ones};
use crate::line::signedness;

/// A form and a float that meet.
#[derive(Clone, Copy)]
pub struct Sides {
    pub form: Form,
    pub float: Float,
}

/// The forms asked for: every 8-bit one, and the others at the fractions that matter.
fn forms() -> Vec<Form> {
    let mut forms = Vec::new();
    for width in WIDTHS {
        for signed in [true, false] {
            forms.extend(fractions(width).into_iter().map(|fraction| Form {
                signed,
                width,
                fraction,
            }));
        }
    }
    forms
}

fn fractions(width: u32) -> Vec<u32> {
    if width == 8 {
        (0..=width).collect()
    } else {
        vec![0, 1, width / 2 - 1, width / 2, width - 1, width]
    }
}

impl Sides {
    /// Every form asked for with every float.
    pub fn all() -> impl Iterator<Item = Sides> {
        forms()
            .into_iter()
            .flat_map(|form| Float::ALL.map(|float| Sides { form, float }))
    }

    /// The form as lines show it.
    pub fn form_words(self) -> String {
        let Form {
            signed,
            width,
            fraction,
        } = self.form;
        format!("{} {width} {fraction}", signedness(signed))
    }

    /// A pseudo-random fixed number with no more bits in use than the float has.
    pub fn short_number(self, random: &mut Random) -> u64 {
        let places = self.form.width - 1;
        let longest = self.float.precision().min(places);
        let length = 1 + random.below(longest.into()) as u32;
        let size = random.bits() & all_ones(length);
        let number = size << random.below(u64::from(places - length) + 1);
        if self.form.signed && random.below(2) == 1 {
            self.form.negated(number)
        } else {
            number
        }
    }

    /// Zeros, infinities, the smallest subnormals and the largest finite numbers.
    pub fn special_floats(self) -> Vec<u64> {
        let float = self.float;
        [0, float.infinity(), 1, float.largest_finite()]
            .into_iter()
            .flat_map(|bits| [bits, float.negated(bits)])
            .collect()
    }

    /// Some no number.
    pub fn no_number(self, random: &mut Random) -> u64 {
        let payload = 1 + random.below(self.float.greatest_payload());
        let bits = random.one_of(&[
            self.float.quiet(0),
            self.float.quiet(payload),
            self.float.signalling(1),
            self.float.signalling(payload),
        ]);
        self.float.signed(random.below(2) == 1, bits)
    }

    /// The scale of the form's loads.
    pub fn scale(self) -> i32 {
        self.form.fraction as i32
    }

    /// The least and the greatest significand, each with the bits, sign aside,
    /// of the normal float that has it at that scale, as far as there is one.
    pub fn normals(self, scale: i32) -> impl Iterator<Item = (u64, u64)> {
        [
            self.float.least_significand(),
            self.float.greatest_significand(),
        ]
        .into_iter()
        .filter_map(move |significand| Some((significand, self.float.normal(significand, scale)?)))
    }

    /// The signs that numbers of the form may have: whether they are negative.
    pub fn signs(self) -> &'static [bool] {
        if self.form.signed {
            &[false, true]
        } else {
            &[false]
        }
    }
}
