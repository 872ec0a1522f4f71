//! `oracle list` prints the list of test vectors; `oracle answer` completes
//! the questions on standard input.

use oracle::{line, list};
use std::io::{self, BufWriter, Write};
use std::process::ExitCode;

fn main() -> ExitCode {
    match run() {
        Ok(()) => ExitCode::SUCCESS,
        Err(problem) => {
            eprintln!("oracle: {problem}");
            ExitCode::FAILURE
        }
    }
}

fn run() -> Result<(), String> {
    let commands: Vec<String> = std::env::args().skip(1).collect();
    let [command] = commands.as_slice() else {
        return Err("call me with one word, list or answer".to_string());
    };
    match command.as_str() {
        "list" => print_all(list::lines()?.into_iter().map(Ok)),
        "answer" => print_all(io::stdin().lines().map(completed)),
        other => Err(format!("`{other}` is neither list nor answer")),
    }
}

/// The line to a question that was read.
fn completed(question: io::Result<String>) -> Result<String, String> {
    let question = question.map_err(|problem| problem.to_string())?;
    Ok(line::complete(question)?.to_string())
}

/// Prints each line, and stops at the first problem.
fn print_all(lines: impl Iterator<Item = Result<String, String>>) -> Result<(), String> {
    let mut out = BufWriter::new(io::stdout().lock());
    for line in lines {
        writeln!(out, "{}", line?).map_err(|problem| problem.to_string())?;
    }
    out.flush().map_err(|problem| problem.to_string())
}
