//! The lines of the list, always the same ones in the same order.
//!
//! Each kind of line has one module here that chooses its questions. It draws
//! its pseudo-random numbers from a seed of its own, so that the kinds do not
//! disturb each other; `sides` has what several of them need. `altered` then
//! alters some of the answers.

mod altered;
mod compare;
mod from_float;
mod kind;
mod neg_abs;
mod random;
mod sides;
mod to_float;

use crate::line::{Line, complete};
use std::collections::HashSet;

/// The widths of fixed numbers.
const WIDTHS: [u32; 4] = [8, 16, 32, 64];

/// All lines: of each kind those with the crate's answers, then altered ones.
pub fn lines() -> Result<Vec<String>, String> {
    let mut lines = Vec::new();
    for questions in [
        kind::questions(),
        neg_abs::questions(),
        compare::questions(),
        to_float::questions(),
        from_float::questions(),
    ] {
        let right = complete_each(questions)?;
        lines.extend(right.iter().map(Line::to_string));
        lines.extend(altered::lines(&right));
    }
    Ok(lines)
}

/// The lines to the questions, each question taken once.
fn complete_each(mut questions: Vec<String>) -> Result<Vec<Line>, String> {
    let mut seen = HashSet::new();
    questions.retain(|question| seen.insert(question.clone()));
    questions.into_iter().map(complete).collect()
}
