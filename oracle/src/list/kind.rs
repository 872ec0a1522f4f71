//! Questions of what a float is.

use super::random::Random;
use crate::float::Float;
use crate::form::all_ones;
use crate::line::hex;

const SEED: u64 = 1;

/// How many pseudo-random bits are asked for, for each float.
const RANDOM_COUNT: usize = 60;

/// How many exponent fields of each float show their last number.
const LAST_COUNT: usize = 32;

pub fn questions() -> Vec<String> {
    let mut random = Random::with_seed(SEED);
    Float::ALL
        .into_iter()
        .flat_map(|float| {
            floats(float, &mut random)
                .into_iter()
                .map(move |bits| question(float, bits))
        })
        .collect()
}

fn question(float: Float, bits: u64) -> String {
    format!("kind {} {}", float.name(), hex(bits, float.width()))
}

/// The bits asked for.
fn floats(float: Float, random: &mut Random) -> Vec<u64> {
    let mut floats = Vec::new();
    for bits in landmarks(float)
        .into_iter()
        .chain(no_numbers(float, random))
    {
        floats.extend([bits, float.negated(bits)]);
    }
    floats.extend(subnormal_powers(float));
    floats.extend(exponent_edges(float));
    floats.extend((0..RANDOM_COUNT).map(|_| random.bits() & all_ones(float.width())));
    floats
}

/// Numbers at the joints of the float, sign aside.
fn landmarks(float: Float) -> Vec<u64> {
    let mut landmarks = vec![0, 1, 2, float.largest_finite() - 1];
    let joints = [float.smallest_normal(), float.infinity()];
    let small_powers = [-1, 0, 1].map(|exponent| float.power_of_two(exponent));
    // The scale of these powers is 1, 0, -1 and -2.
    let whole = float.precision() as i32 - 1;
    let whole_powers = [-1, 0, 1, 2].map(|more| float.power_of_two(whole + more));
    let powers = small_powers.into_iter().chain(whole_powers).flatten();
    for bits in joints.into_iter().chain(powers) {
        landmarks.extend([bits - 1, bits, bits + 1]);
    }
    landmarks
}

/// Quiet and signalling no numbers, sign aside.
fn no_numbers(float: Float, random: &mut Random) -> Vec<u64> {
    let greatest = float.greatest_payload();
    let any = 1 + random.below(greatest);
    let quiet = [0, 1, any, greatest].map(|payload| float.quiet(payload));
    let signalling = [1, 2, any, greatest].map(|payload| float.signalling(payload));
    quiet.into_iter().chain(signalling).collect()
}

/// Subnormals of which only one bit is set, with signs in turn.
fn subnormal_powers(float: Float) -> impl Iterator<Item = u64> {
    (0..float.precision() - 1).map(move |place| float.signed(place % 2 == 1, 1 << place))
}

/// The first number of every exponent field, that is every power of two, and
/// the last number of some fields spread evenly, with signs in turn.
fn exponent_edges(float: Float) -> impl Iterator<Item = u64> {
    let fields = float.exponent_fields();
    let firsts = (0..fields).map(move |field| float.first_with_field(field));
    let lasts = (0..fields)
        .step_by(fields as usize / LAST_COUNT)
        .map(move |field| float.last_with_field(field));
    firsts
        .chain(lasts)
        .zip([false, true].into_iter().cycle())
        .map(move |(bits, negative)| float.signed(negative, bits))
}
