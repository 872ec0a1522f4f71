//! Questions of the sign and the size of an integer.

use super::WIDTHS;
use super::random::Random;
use crate::form::Form;
use crate::line::{hex, signedness};

const SEED: u64 = 2;

/// How many pseudo-random integers of each width and signedness are asked for.
const RANDOM_COUNT: usize = 20;

pub fn questions() -> Vec<String> {
    let mut random = Random::with_seed(SEED);
    let mut questions = Vec::new();
    for width in WIDTHS {
        for signed in [true, false] {
            let form = Form {
                signed,
                width,
                fraction: 0,
            };
            let integers = integers(form, &mut random);
            questions.extend(integers.into_iter().map(|bits| question(form, bits)));
        }
    }
    questions
}

fn question(form: Form, bits: u64) -> String {
    let width = form.width;
    format!(
        "neg_abs {} {width} {}",
        signedness(form.signed),
        hex(bits, width)
    )
}

/// The bits asked for: around zero, around the edges, and pseudo-random ones.
fn integers(form: Form, random: &mut Random) -> Vec<u64> {
    let mut integers = Vec::new();
    for joint in [0, form.top()] {
        integers.extend((-3..=3).map(|step| form.stepped(joint, step)));
    }
    integers.extend((0..RANDOM_COUNT).map(|_| random.bits() & form.ones()));
    integers
}
