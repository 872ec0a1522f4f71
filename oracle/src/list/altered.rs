//! Lines with one part of the answer altered, which whoever does what the
//! crate does must refuse.
//!
//! They show that a replay of the list looks at the answers at all, and at
//! each of their parts.

use super::random::Random;
use crate::answer::{Answer, flag};
use crate::drive::{Comparison, FromFloat, Kind, Rounded};
use crate::form::Load;
use crate::line::Line;
use core::cmp::Ordering;
use std::collections::BTreeMap;

const SEED: u64 = 4;

/// What stands before an altered line.
const MARK: &str = "not";

/// Altered lines out of right ones of one kind, some from each group. In a
/// group the parts of the answers are altered in turn.
pub fn lines(right: &[Line]) -> Vec<String> {
    let mut random = Random::with_seed(SEED);
    let mut lines = Vec::new();
    for (group, members) in groups(right) {
        let chosen = random.some_of(members, group.share());
        for (turn, line) in chosen.into_iter().enumerate() {
            let alterations = alterations(line.answer, &mut random);
            let answer = alterations[turn % alterations.len()];
            let question = line.question.clone();
            lines.push(format!("{MARK} {}", Line { question, answer }));
        }
    }
    lines
}

/// What lines of one group have in common.
#[derive(PartialEq, Eq, PartialOrd, Ord)]
struct Group {
    /// A word of the question: its float, or the width of its integer or of
    /// the fixed number that a float becomes.
    form: String,
    /// The word for the answer.
    word: String,
}

impl Group {
    fn of(line: &Line) -> Self {
        let words_behind = match line.answer {
            Answer::ToFloat { .. } => 0,
            _ => 1,
        };
        let form = line.question.rsplit(' ').nth(words_behind);
        Self {
            form: form.unwrap_or_default().to_string(),
            word: word(line.answer),
        }
    }

    /// How many of its lines are altered: a multiple of the number of parts,
    /// so that each part has the same share.
    fn share(&self) -> usize {
        match self.word.as_str() {
            "finite" | "fits" | "over" => 20,
            "less" | "equal" | "more" => 12,
            "bits" => 10,
            "none" | "+" | "-" => 4,
            _ => 2,
        }
    }
}

/// The word for an answer: its first one; if that is bits, their flag, or just
/// `bits` where there is none.
fn word(answer: Answer) -> String {
    match answer {
        Answer::ToFloat { .. } => "bits".to_string(),
        Answer::FromFloat {
            fixed: FromFloat::Finite(rounded),
            ..
        } => flag(rounded.over).to_string(),
        _ => {
            let answer = answer.to_string();
            answer.split(' ').next().unwrap_or_default().to_string()
        }
    }
}

/// The lines by groups, in a settled order.
fn groups(lines: &[Line]) -> BTreeMap<Group, Vec<&Line>> {
    let mut groups = BTreeMap::<_, Vec<_>>::new();
    for line in lines {
        groups.entry(Group::of(line)).or_default().push(line);
    }
    groups
}

/// For each part of an answer, the answer with just that part altered.
fn alterations(answer: Answer, random: &mut Random) -> Vec<Answer> {
    match answer {
        Answer::Kind(kind) => kinds(kind, random).into_iter().map(Answer::Kind).collect(),
        Answer::NegAbs { negative, size } => integers(negative, size, random).to_vec(),
        Answer::Compare(comparison) => comparisons(comparison, random)
            .map(Answer::Compare)
            .to_vec(),
        Answer::ToFloat { bits, width } => vec![Answer::ToFloat {
            bits: other_bits(bits, width, random),
            width,
        }],
        Answer::FromFloat { fixed, width } => fixed_numbers(fixed, width, random)
            .into_iter()
            .map(|fixed| Answer::FromFloat { fixed, width })
            .collect(),
    }
}

/// The word for what a float is altered, and the sign, size and scale as far
/// as there are any. With the word, what stands behind it comes or goes.
fn kinds(kind: Kind, random: &mut Random) -> Vec<Kind> {
    match kind {
        Kind::Nan => {
            let negative = random.one_of(&[false, true]);
            vec![random.one_of(&[Kind::Infinite { negative }, one(negative)])]
        }
        Kind::Infinite { negative } => vec![
            random.one_of(&[Kind::Nan, one(negative)]),
            Kind::Infinite {
                negative: !negative,
            },
        ],
        Kind::Finite(load) => {
            let negative = load.negative;
            let word = random.one_of(&[Kind::Nan, Kind::Infinite { negative }]);
            let loads = loads(load, random).map(Kind::Finite);
            [word].into_iter().chain(loads).collect()
        }
    }
}

/// Plus or minus one.
fn one(negative: bool) -> Kind {
    Kind::Finite(Load {
        negative,
        size: 1,
        scale: 0,
    })
}

/// The sign, the size or the scale of a load altered.
fn loads(load: Load, random: &mut Random) -> [Load; 3] {
    [
        Load {
            negative: !load.negative,
            ..load
        },
        Load {
            size: other_size(load.size, random),
            ..load
        },
        Load {
            scale: load.scale + random.one_of(&[-1, 1]),
            ..load
        },
    ]
}

/// The sign or the size of an integer altered.
fn integers(negative: bool, size: u64, random: &mut Random) -> [Answer; 2] {
    [
        Answer::NegAbs {
            negative: !negative,
            size,
        },
        Answer::NegAbs {
            negative,
            size: other_size(size, random),
        },
    ]
}

/// One of the orders or of the equalities altered.
fn comparisons(comparison: Comparison, random: &mut Random) -> [Comparison; 4] {
    [
        Comparison {
            fixed_to_float: other_order(comparison.fixed_to_float, random),
            ..comparison
        },
        Comparison {
            float_to_fixed: other_order(comparison.float_to_fixed, random),
            ..comparison
        },
        Comparison {
            fixed_equals_float: !comparison.fixed_equals_float,
            ..comparison
        },
        Comparison {
            float_equals_fixed: !comparison.float_equals_fixed,
            ..comparison
        },
    ]
}

/// The word for what a float is altered, which comes or goes with what stands
/// behind it, and the bits, the direction, the flag and the clamped bits as far
/// as there are any.
fn fixed_numbers(fixed: FromFloat, width: u32, random: &mut Random) -> Vec<FromFloat> {
    match fixed {
        FromFloat::Nan => vec![random.one_of(&[FromFloat::Infinite { clamped: 0 }, exact(0)])],
        FromFloat::Infinite { clamped } => vec![
            random.one_of(&[FromFloat::Nan, exact(clamped)]),
            FromFloat::Infinite {
                clamped: other_bits(clamped, width, random),
            },
        ],
        FromFloat::Finite(rounded) => {
            let clamped = rounded.clamped;
            let word = random.one_of(&[FromFloat::Nan, FromFloat::Infinite { clamped }]);
            let parts = rounded_numbers(rounded, width, random).map(FromFloat::Finite);
            [word].into_iter().chain(parts).collect()
        }
    }
}

/// Bits that stand for a float exactly.
fn exact(bits: u64) -> FromFloat {
    FromFloat::Finite(Rounded {
        bits,
        direction: Ordering::Equal,
        over: false,
        clamped: bits,
    })
}

/// The bits, the direction, the flag or the clamped bits altered.
fn rounded_numbers(rounded: Rounded, width: u32, random: &mut Random) -> [Rounded; 4] {
    [
        Rounded {
            bits: other_bits(rounded.bits, width, random),
            ..rounded
        },
        Rounded {
            direction: other_direction(rounded.direction, random),
            ..rounded
        },
        Rounded {
            over: !rounded.over,
            ..rounded
        },
        Rounded {
            clamped: other_bits(rounded.clamped, width, random),
            ..rounded
        },
    ]
}

/// Bits with the lowest one or any one of that width flipped.
fn other_bits(bits: u64, width: u32, random: &mut Random) -> u64 {
    let any = 1 << random.below(width.into());
    bits ^ random.one_of(&[1, any])
}

/// One of the two other directions.
fn other_direction(direction: Ordering, random: &mut Random) -> Ordering {
    let mut others = vec![Ordering::Less, Ordering::Equal, Ordering::Greater];
    others.retain(|&other| other != direction);
    random.one_of(&others)
}

/// A size with its lowest bit or any one bit flipped.
fn other_size(size: u64, random: &mut Random) -> u64 {
    let any = 1 << random.below(64);
    size ^ random.one_of(&[1, any])
}

/// One of the three other orders.
fn other_order(order: Option<Ordering>, random: &mut Random) -> Option<Ordering> {
    let mut others = vec![
        Some(Ordering::Less),
        Some(Ordering::Equal),
        Some(Ordering::Greater),
        None,
    ];
    others.retain(|&other| other != order);
    random.one_of(&others)
}
