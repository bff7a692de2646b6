//! The solver's exported calls, `sat_ask`, `sat_ask_under` and `sat_first`, on DIMACS files,
//! and held to trying all assignments.
//!
//! Build the library first, in the repository: `tools/staticlib sat`. Then, here:
//!
//!     cargo run --release -- [--words N] FILE
//!     cargo run --release -- random COUNT
//!
//! The first prints the answer as the SAT competition asks: `s SATISFIABLE` with the
//! model, or `s UNSATISFIABLE`, and ends with 10 or 20; before it stand lines with c about
//! sizes, times and what the solver counted. It checks each model itself. N is how many
//! words of memory are lent above the floor, 100,000,000 if it is not given.
//! The second asks COUNT small random questions, each with much memory and with exactly
//! the floor, and ends with 1 after the first that is answered wrong.

mod ask;
mod formula;
mod random;

use ask::{Answer, ask_under, floor};
use formula::Formula;
use std::io::{self, BufWriter, Write};
use std::process::ExitCode;
use std::time::Instant;

const USAGE: &str = "usage: dimacs [--words N] FILE | dimacs random COUNT";
const WORDS: usize = 100_000_000;

/// The longest line of a printed model.
const WIDTH: usize = 78;

fn main() -> ExitCode {
    let words: Vec<String> = std::env::args().skip(1).collect();
    let words: Vec<&str> = words.iter().map(String::as_str).collect();
    let result = match words[..] {
        ["random", count] => number(count).and_then(random::run),
        ["--words", above, path] => number(above).and_then(|above| solve(path, above)),
        [path] if !path.starts_with('-') => solve(path, WORDS),
        _ => Err(USAGE.to_string()),
    };
    result.unwrap_or_else(|what| {
        eprintln!("dimacs: {what}");
        ExitCode::from(1)
    })
}

fn number(word: &str) -> Result<usize, String> {
    word.parse().map_err(|_| format!("'{word}' is no number; {USAGE}"))
}

/// Solves a file, and prints the answer.
fn solve(path: &str, above: usize) -> Result<ExitCode, String> {
    let start = Instant::now();
    let bytes = std::fs::read(path).map_err(|error| format!("{path}: {error}"))?;
    let formula = Formula::read(&String::from_utf8_lossy(&bytes))
        .map_err(|what| format!("{path}: {what}"))?;
    let read = start.elapsed();
    // Zeroed pages that nobody touches take neither time nor memory.
    let mut work = vec![0; floor(&formula) + above];
    let (answer, counts) =
        ask_under(&formula, &[], &mut work).map_err(|what| format!("{path}: {what}"))?;
    let solved = start.elapsed() - read;
    let mut out = BufWriter::new(io::stdout().lock());
    writeln!(out, "c variables {}", formula.variables)
        .and_then(|()| writeln!(out, "c clauses {}", formula.spans.len() / 2))
        .and_then(|()| writeln!(out, "c words lent {}", work.len()))
        .and_then(|()| writeln!(out, "c seconds reading {:.6}", read.as_secs_f64()))
        .and_then(|()| writeln!(out, "c seconds solving {:.6}", solved.as_secs_f64()))
        .and_then(|()| writeln!(out, "c conflicts {}", counts.conflicts))
        .and_then(|()| writeln!(out, "c decisions {}", counts.decisions))
        .and_then(|()| writeln!(out, "c restarts {}", counts.restarts))
        .and_then(|()| writeln!(out, "c reductions {}", counts.reductions))
        .and_then(|()| writeln!(out, "c refusals {}", counts.refusals))
        .and_then(|()| writeln!(out, "c unkept {}", counts.unkept))
        .and_then(|()| print(&mut out, &answer))
        .and_then(|()| out.flush())
        .map_err(|error| format!("the answer cannot be written: {error}"))?;
    Ok(ExitCode::from(match answer {
        Answer::Model(_) => 10,
        Answer::None => 20,
    }))
}

fn print(out: &mut impl Write, answer: &Answer) -> io::Result<()> {
    let Answer::Model(model) = answer else {
        return writeln!(out, "s UNSATISFIABLE");
    };
    writeln!(out, "s SATISFIABLE")?;
    let literal = |(variable, holds): (usize, &bool)| {
        format!(" {}{}", if *holds { "" } else { "-" }, variable + 1)
    };
    let mut line = String::from("v");
    for word in model.iter().enumerate().map(literal).chain([String::from(" 0")]) {
        if line.len() + word.len() > WIDTH {
            writeln!(out, "{line}")?;
            line.truncate(1);
        }
        line.push_str(&word);
    }
    writeln!(out, "{line}")
}
