//! What the call owes for a case: which answer, by the order of refusals and then by
//! trying all pictures.
//!
//! No description comes before anything else; then *few*, for more than eight things or
//! fewer work words than the floor; then *out full*; and only then is a picture sought,
//! so that a short `out` is refused even where the answer would need none of it.

use crate::brute::{self, Found};
use crate::description::Description;
use crate::meaning::MOST_THINGS;
use std::fmt;

/// One call: the description's bytes, how many things at most, and how long `out` (in
/// bytes) and the work area (in words) are.
#[derive(Clone, Debug)]
pub struct Case {
    pub bytes: Vec<u8>,
    pub most: u32,
    pub out: usize,
    pub work: usize,
}

#[derive(Clone, Debug, PartialEq, Eq)]
pub enum Answer {
    First(Found),
    None,
    NoDescription,
    OutFull,
    Few,
    /// The call broke a promise that no answer can mend; never expected.
    Broken(String),
}

/// A case whose answer was another one than expected.
#[derive(Clone, Debug)]
pub struct Difference {
    pub name: String,
    pub case: Case,
    pub expected: Answer,
    pub got: Answer,
}

impl Case {
    /// A case with just as much work and out as the call asks for, if it is a description.
    pub fn tight(bytes: Vec<u8>, most: u32) -> Case {
        let (work, out) = match Description::read(&bytes) {
            Some(description) => (floor(&description, bytes.len(), most), room(&description, most)),
            None => (0, 0),
        };
        Case { bytes, most, out, work }
    }

    pub fn expected(&self) -> Answer {
        let Some(description) = Description::read(&self.bytes) else {
            return Answer::NoDescription;
        };
        let most = self.most as usize;
        if most > MOST_THINGS || self.work < floor(&description, self.bytes.len(), self.most) {
            return Answer::Few;
        }
        if self.out < room(&description, self.most) {
            return Answer::OutFull;
        }
        brute::first(&description, most).map_or(Answer::None, Answer::First)
    }
}

/// The least number of work words with which a description is answered.
fn floor(description: &Description, bytes: usize, most: u32) -> usize {
    let power = (u128::from(most) + 1).saturating_pow(3 + description.depth());
    let words = (64 * bytes as u128).saturating_mul(power).saturating_add(65_536);
    usize::try_from(words).unwrap_or(usize::MAX)
}

/// The least number of bytes of `out` with which a description is answered.
fn room(description: &Description, most: u32) -> usize {
    let most = most as usize;
    usize::from(description.relations).saturating_mul(most).saturating_mul(most)
}

impl fmt::Display for Answer {
    fn fmt(&self, f: &mut fmt::Formatter<'_>) -> fmt::Result {
        match self {
            Answer::First(Found { things: 0, .. }) => write!(f, "first picture, of no things"),
            Answer::First(Found { things, bits }) => {
                write!(f, "first picture, number of things {things}, bits {}", decimal(bits))
            }
            Answer::None => write!(f, "none"),
            Answer::NoDescription => write!(f, "no description"),
            Answer::OutFull => write!(f, "out full"),
            Answer::Few => write!(f, "few"),
            Answer::Broken(how) => write!(f, "a broken promise: {how}"),
        }
    }
}

impl fmt::Display for Difference {
    fn fmt(&self, f: &mut fmt::Formatter<'_>) -> fmt::Result {
        let Case { bytes, most, out, work } = &self.case;
        writeln!(f, "  case:     {}", self.name)?;
        writeln!(f, "  bytes:    {} ({} of them)", decimal(bytes), bytes.len())?;
        writeln!(f, "  asked:    most {most}, out of {out} bytes, work of {work} words")?;
        writeln!(f, "  expected: {}", self.expected)?;
        write!(f, "  got:      {}", self.got)
    }
}

pub fn decimal(bytes: &[u8]) -> String {
    bytes.iter().map(u8::to_string).collect::<Vec<_>>().join(" ")
}
