//! Counts the cases of a part and those that differ, and keeps the first difference.

use crate::call::Caller;
use crate::promise::{Answer, Case, Difference};

#[derive(Default)]
pub struct Tally {
    pub cases: usize,
    pub differ: usize,
    pub first: Option<Difference>,
}

impl Tally {
    pub fn count(&mut self, difference: Option<Difference>) {
        self.cases += 1;
        if let Some(difference) = difference {
            self.differ += 1;
            self.first.get_or_insert(difference);
        }
    }

    /// Prints the first difference, if there is one; whether there is none.
    pub fn conclude(&self) -> bool {
        if let Some(difference) = &self.first {
            println!("{difference}");
        }
        self.differ == 0
    }
}

/// Asks the call and compares with what is expected.
pub fn compare(
    caller: &mut Caller,
    name: &str,
    case: &Case,
    expected: Answer,
) -> Option<Difference> {
    let got = caller.ask(case);
    (got != expected).then(|| Difference {
        name: name.to_string(),
        case: case.clone(),
        expected,
        got,
    })
}
