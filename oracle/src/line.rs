//! Lines of the list: a question, and the crate's answer behind it.
//!
//! Each kind of line has one function here, named after its first word, that
//! reads the words of the question and asks the crate.

use crate::answer::Answer;
use crate::drive;
use crate::float::Float;
use crate::form::Form;
use core::fmt;
use std::panic::catch_unwind;
use std::str::Split;

/// A question and an answer to it.
pub struct Line {
    pub question: String,
    pub answer: Answer,
}

impl fmt::Display for Line {
    fn fmt(&self, f: &mut fmt::Formatter) -> fmt::Result {
        write!(f, "{} {}", self.question, self.answer)
    }
}

/// The line to a question: the question with the crate's answer.
pub fn complete(question: String) -> Result<Line, String> {
    let answer =
        catch_unwind(|| answer(&question)).unwrap_or_else(|_| Err("the crate panics".to_string()));
    match answer {
        Ok(answer) => Ok(Line { question, answer }),
        Err(problem) => Err(format!("`{question}`: {problem}")),
    }
}

/// Bits of that width as lines show them.
pub fn hex(bits: u64, width: u32) -> String {
    let digits = width as usize / 4;
    format!("{bits:0digits$x}")
}

/// The word for a signedness.
pub fn signedness(signed: bool) -> char {
    if signed { 'i' } else { 'u' }
}

fn answer(question: &str) -> Result<Answer, String> {
    let mut words = Words(question.split(' '));
    match words.next()? {
        "kind" => kind(words),
        "neg_abs" => neg_abs(words),
        "compare" => compare(words),
        "to_float" => to_float(words),
        "from_float" => from_float(words),
        other => Err(format!("no kind of line is called `{other}`")),
    }
}

/// `kind FLOAT BITS`
fn kind(mut words: Words) -> Result<Answer, String> {
    let float = words.float()?;
    let bits = words.bits(float.width())?;
    words.end()?;
    Ok(Answer::Kind(drive::kind(float, bits)))
}

/// `neg_abs i|u WIDTH BITS`
fn neg_abs(mut words: Words) -> Result<Answer, String> {
    let signed = words.signedness()?;
    let width = words.number()?;
    let bits = words.bits(width)?;
    words.end()?;
    let (negative, size) = drive::neg_abs(signed, width, bits).ok_or("no such width")?;
    Ok(Answer::NegAbs { negative, size })
}

/// `compare i|u WIDTH FRACTION BITS FLOAT BITS`
fn compare(mut words: Words) -> Result<Answer, String> {
    let form = words.form()?;
    let fixed = words.bits(form.width)?;
    let float = words.float()?;
    let bits = words.bits(float.width())?;
    words.end()?;
    let calls = drive::calls(form, float).ok_or("no such form")?;
    Ok(Answer::Compare((calls.compare)(fixed, bits)))
}

/// `to_float i|u WIDTH FRACTION BITS FLOAT`
fn to_float(mut words: Words) -> Result<Answer, String> {
    let form = words.form()?;
    let fixed = words.bits(form.width)?;
    let float = words.float()?;
    words.end()?;
    let calls = drive::calls(form, float).ok_or("no such form")?;
    Ok(Answer::ToFloat {
        bits: (calls.to_float)(fixed),
        width: float.width(),
    })
}

/// `from_float FLOAT BITS i|u WIDTH FRACTION`
fn from_float(mut words: Words) -> Result<Answer, String> {
    let float = words.float()?;
    let bits = words.bits(float.width())?;
    let form = words.form()?;
    words.end()?;
    let calls = drive::calls(form, float).ok_or("no such form")?;
    Ok(Answer::FromFloat {
        fixed: (calls.from_float)(bits),
        width: form.width,
    })
}

/// The words of a question that are not read yet.
struct Words<'a>(Split<'a, char>);

impl<'a> Words<'a> {
    fn next(&mut self) -> Result<&'a str, String> {
        self.0.next().ok_or_else(|| "words are missing".to_string())
    }

    fn end(&mut self) -> Result<(), String> {
        match self.0.next() {
            None => Ok(()),
            Some(word) => Err(format!("`{word}` is too much")),
        }
    }

    fn signedness(&mut self) -> Result<bool, String> {
        match self.next()? {
            "i" => Ok(true),
            "u" => Ok(false),
            other => Err(format!("`{other}` is neither i nor u")),
        }
    }

    fn number(&mut self) -> Result<u32, String> {
        let word = self.next()?;
        word.parse()
            .ok()
            .filter(|number: &u32| number.to_string() == word)
            .ok_or_else(|| format!("`{word}` is no number"))
    }

    fn form(&mut self) -> Result<Form, String> {
        Ok(Form {
            signed: self.signedness()?,
            width: self.number()?,
            fraction: self.number()?,
        })
    }

    fn float(&mut self) -> Result<Float, String> {
        let word = self.next()?;
        Float::ALL
            .into_iter()
            .find(|float| float.name() == word)
            .ok_or_else(|| format!("`{word}` is no float"))
    }

    /// Bits of that width, written just as [`hex`] writes them.
    fn bits(&mut self, width: u32) -> Result<u64, String> {
        let word = self.next()?;
        u64::from_str_radix(word, 16)
            .ok()
            .filter(|&bits| hex(bits, width) == word && word.len() == width as usize / 4)
            .ok_or_else(|| format!("`{word}` is not {width} bits in hex"))
    }
}
