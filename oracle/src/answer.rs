//! Answers to questions, as lines show them.

use crate::drive::{Comparison, FromFloat, Kind, Rounded};
use crate::line::hex;
use core::cmp::Ordering;
use core::fmt;

/// An answer to a question of each kind.
#[derive(Clone, Copy)]
pub enum Answer {
    Kind(Kind),
    NegAbs {
        negative: bool,
        size: u64,
    },
    Compare(Comparison),
    /// The bits of a float, and their width.
    ToFloat {
        bits: u64,
        width: u32,
    },
    /// What a float is in a fixed form of that width.
    FromFloat {
        fixed: FromFloat,
        width: u32,
    },
}

impl fmt::Display for Answer {
    fn fmt(&self, f: &mut fmt::Formatter) -> fmt::Result {
        match *self {
            Self::Kind(kind) => kind.fmt(f),
            Self::NegAbs { negative, size } => write!(f, "{} {size:x}", sign(negative)),
            Self::Compare(comparison) => comparison.fmt(f),
            Self::ToFloat { bits, width } => write!(f, "{}", hex(bits, width)),
            Self::FromFloat { fixed, width } => from_float(fixed, width, f),
        }
    }
}

impl fmt::Display for Kind {
    fn fmt(&self, f: &mut fmt::Formatter) -> fmt::Result {
        match *self {
            Self::Nan => write!(f, "nan"),
            Self::Infinite { negative } => write!(f, "infinite {}", sign(negative)),
            Self::Finite(load) => {
                let sign = sign(load.negative);
                write!(f, "finite {sign} {:x} {}", load.size, load.scale)
            }
        }
    }
}

impl fmt::Display for Comparison {
    fn fmt(&self, f: &mut fmt::Formatter) -> fmt::Result {
        write!(
            f,
            "{} {} {} {}",
            order(self.fixed_to_float),
            order(self.float_to_fixed),
            equality(self.fixed_equals_float),
            equality(self.float_equals_fixed),
        )
    }
}

fn from_float(fixed: FromFloat, width: u32, f: &mut fmt::Formatter) -> fmt::Result {
    match fixed {
        FromFloat::Nan => write!(f, "nan"),
        FromFloat::Infinite { clamped } => write!(f, "infinite {}", hex(clamped, width)),
        FromFloat::Finite(rounded) => {
            let Rounded { bits, clamped, .. } = rounded;
            let direction = direction(rounded.direction);
            let flag = flag(rounded.over);
            let [bits, clamped] = [bits, clamped].map(|bits| hex(bits, width));
            write!(f, "{bits} {direction} {flag} {clamped}")
        }
    }
}

fn sign(negative: bool) -> char {
    if negative { '-' } else { '+' }
}

fn order(order: Option<Ordering>) -> &'static str {
    match order {
        Some(Ordering::Less) => "less",
        Some(Ordering::Equal) => "equal",
        Some(Ordering::Greater) => "more",
        None => "none",
    }
}

fn equality(equal: bool) -> &'static str {
    if equal { "eq" } else { "ne" }
}

/// The word for an answer against what it stands for.
fn direction(direction: Ordering) -> &'static str {
    match direction {
        Ordering::Less => "below",
        Ordering::Equal => "equal",
        Ordering::Greater => "above",
    }
}

/// The word for whether a number is too large for its form.
pub fn flag(over: bool) -> &'static str {
    if over { "over" } else { "fits" }
}
