//! A second opinion on the library's one exported call, `pictures_find`.
//!
//! This program was written from what the call promises and not from the library's code.
//! It reads descriptions with a reader of its own, decides what they say with truth
//! tables, and finds first pictures by trying all of them in order; then it asks the
//! call the same and compares answers, bits, and what the call leaves of the memory that
//! it was lent.
//!
//! Build the library first, in the repository: `tools/staticlib pictures`. Then, here:
//!
//!     cargo run --release -- [--seed N] [--trace] [PART...]
//!
//!     reading COUNT        which byte strings are descriptions
//!     finding COUNT MOST   which picture is first, of at most MOST things (up to 3)
//!     limits               floors, room, empty slices and the order of refusals
//!     mistakes             named cases, one for each way to go wrong
//!     rings LENGTH         rings of up to LENGTH things (up to 8), for an engine that
//!                          does not try all pictures
//!
//! Without a part it runs `reading 40000 finding 2000 2 limits mistakes`. Each part
//! prints one line that ends in how many cases differ, `finding` also how the answers
//! were spread, and the first case that differs, made small: its bytes in decimal, what
//! was expected and what was got. It ends with 1 after the first part in which a case
//! differs, and with 2 if the command line is not understood. The same seed makes the
//! same cases. `--trace` prints each case to the standard error before the call, for a
//! call that does not come back.

mod brute;
mod call;
mod damage;
mod description;
mod finding;
mod limits;
mod meaning;
mod mistakes;
mod promise;
mod random;
mod reading;
mod rings;
mod sample;
mod shrink;
mod tally;

use call::Caller;
use std::process::ExitCode;

const USAGE: &str = "usage: compare [--seed N] [--trace] [reading COUNT] [finding COUNT MOST] \
                     [limits] [mistakes] [rings LENGTH]";

enum Part {
    Reading { count: usize },
    Finding { count: usize, most: usize },
    Limits,
    Mistakes,
    Rings { longest: usize },
}

struct Options {
    seed: u64,
    trace: bool,
    parts: Vec<Part>,
}

fn main() -> ExitCode {
    let options = match options(std::env::args().skip(1)) {
        Ok(options) => options,
        Err(what) => {
            eprintln!("compare: {what}\n{USAGE}");
            return ExitCode::from(2);
        }
    };
    let mut caller = Caller::new(options.trace);
    let mut parts = options.parts.iter();
    let differs = parts.any(|part| !part.run(&mut caller, options.seed));
    if differs && parts.len() > 0 {
        println!("the parts after it were not run");
    }
    ExitCode::from(u8::from(differs))
}

impl Part {
    /// Runs the part; whether nothing differs.
    fn run(&self, caller: &mut Caller, seed: u64) -> bool {
        match *self {
            Part::Reading { count } => reading::run(caller, seed, count),
            Part::Finding { count, most } => finding::run(caller, seed, count, most),
            Part::Limits => limits::run(caller),
            Part::Mistakes => mistakes::run(caller),
            Part::Rings { longest } => rings::run(caller, longest),
        }
    }
}

fn options(mut words: impl Iterator<Item = String>) -> Result<Options, String> {
    let mut options = Options { seed: 1, trace: false, parts: Vec::new() };
    while let Some(word) = words.next() {
        let mut number = |what: &str, most: u64| number(words.next(), &word, what, most);
        match word.as_str() {
            "--seed" => options.seed = number("N", u64::MAX)?,
            "--trace" => options.trace = true,
            "reading" => {
                let count = number("COUNT", u32::MAX.into())? as usize;
                options.parts.push(Part::Reading { count });
            }
            "finding" => {
                let count = number("COUNT", u32::MAX.into())? as usize;
                let most = number("MOST", finding::MOST as u64)? as usize;
                options.parts.push(Part::Finding { count, most });
            }
            "limits" => options.parts.push(Part::Limits),
            "mistakes" => options.parts.push(Part::Mistakes),
            "rings" => {
                let longest = number("LENGTH", rings::LONGEST as u64)? as usize;
                options.parts.push(Part::Rings { longest });
            }
            _ => return Err(format!("'{word}' is not a part")),
        }
    }
    if options.parts.is_empty() {
        let (count, most) = (2_000, 2);
        let random = [Part::Reading { count: 40_000 }, Part::Finding { count, most }];
        options.parts.extend(random.into_iter().chain([Part::Limits, Part::Mistakes]));
    }
    Ok(options)
}

/// The number that a word of the command line is, of at most `most`.
fn number(word: Option<String>, after: &str, what: &str, most: u64) -> Result<u64, String> {
    let number = word.and_then(|word| word.parse().ok()).filter(|number| *number <= most);
    number.ok_or_else(|| format!("after '{after}', {what} must be a number up to {most}"))
}
