//! Small random formulas, held to trying all assignments.

use crate::ask::{Answer, ask, ask_under, floor, holds};
use crate::formula::Formula;
use std::process::ExitCode;

/// Numbers that look random (xorshift64*), the same in every run.
struct Random(u64);

impl Random {
    fn below(&mut self, bound: usize) -> usize {
        self.0 ^= self.0 >> 12;
        self.0 ^= self.0 << 25;
        self.0 ^= self.0 >> 27;
        (self.0.wrapping_mul(0x2545_f491_4f6c_dd1d) >> 33) as usize % bound
    }
}

/// A formula of up to 12 variables: clauses of up to 5 literals, some empty, with literals
/// twice and opposite ones.
fn formula(random: &mut Random) -> Formula {
    let variables = 1 + random.below(12);
    let longest = 2 + random.below(4);
    let mut formula = Formula::new(variables);
    for _ in 0..random.below(5 * variables + 2) {
        let length = match random.below(400) {
            0 => 0,
            1..20 => 1,
            _ => 2 + random.below(longest - 1),
        };
        formula.words.extend((0..length).map(|_| random.below(2 * variables) as u32));
        formula.end_clause();
    }
    formula
}

/// All assignments in order, the first variable first, false before true.
fn assignments(variables: usize) -> impl Iterator<Item = Vec<bool>> {
    (0..1_u32 << variables)
        .map(move |bits| (0..variables).map(|x| bits >> (variables - 1 - x) & 1 == 1).collect())
}

/// Some literals that are to hold: none, one or a few, now and then opposite ones.
fn assumptions(random: &mut Random, variables: usize) -> Vec<u32> {
    let count = random.below(4) * random.below(2);
    (0..count).map(|_| random.below(2 * variables) as u32).collect()
}

/// Asks so many, each with exactly the floor of memory, with a little and with much, in words
/// that hold no zeros: without assumptions, under some, and for the first model by some of the
/// variables.
pub fn run(count: usize) -> Result<ExitCode, String> {
    let mut random = Random(0x9e37_79b9_7f4a_7c15);
    let mut questions = Random(0x2545_f491_4f6c_dd1d);
    let (mut models, mut assumed, mut firsts) = (0, 0, 0);
    for number in 0..count {
        let formula = formula(&mut random);
        let all: Vec<Vec<bool>> =
            assignments(formula.variables).filter(|model| formula.is_model(model)).collect();
        let literals = assumptions(&mut questions, formula.variables);
        let with = all.iter().any(|model| literals.iter().all(|literal| holds(model, *literal)));
        let low = questions.below(formula.variables);
        let high = low + questions.below(formula.variables - low + 1);
        let first = all.iter().map(|model| &model[low..high]).min();
        models += usize::from(!all.is_empty());
        assumed += usize::from(with && !literals.is_empty());
        firsts += usize::from(first.is_some() && low < high);
        for above in [0, 40, 100_000] {
            let mut work = vec![0xa5a5_a5a5; floor(&formula) + above];
            let wrong = differs(ask(&formula, &mut work), !all.is_empty())
                .or_else(|| {
                    let found = ask_under(&formula, &literals, &mut work);
                    differs(found.map(|(answer, _)| answer), with)
                })
                .or_else(|| {
                    let found = crate::ask::first(&formula, low, high, &mut work);
                    first_differs(found, low, high, first)
                });
            if let Some(what) = wrong {
                let clauses: Vec<&[u32]> = formula.clauses().collect();
                return Err(format!(
                    "formula {number}, {above} words, assumptions {literals:?}, \
                     variables {low} to {high}: {what}: {clauses:?}"
                ));
            }
        }
    }
    println!(
        "random: {count} formulas, {models} with a model, {assumed} with one under assumptions, \
         {firsts} with a first, 0 differ"
    );
    Ok(ExitCode::SUCCESS)
}

/// What is wrong with an answer, if it is.
fn differs(answer: Result<Answer, String>, expected: bool) -> Option<String> {
    match answer {
        Ok(Answer::None) if expected => Some("no model was found".into()),
        Ok(Answer::Model(_)) if !expected => Some("a model was found".into()),
        Ok(_) => None,
        Err(what) => Some(what),
    }
}

/// What is wrong with a first model, if something is.
fn first_differs(
    found: Result<Option<(Vec<bool>, u64)>, String>,
    low: usize,
    high: usize,
    expected: Option<&[bool]>,
) -> Option<String> {
    match (found, expected) {
        (Err(what), _) => Some(what),
        (Ok(None), None) => None,
        (Ok(None), Some(_)) => Some("no first model was found".into()),
        (Ok(Some(_)), None) => Some("a first model was found".into()),
        (Ok(Some((model, questions))), Some(first)) => {
            if model[low..high] != *first {
                Some(format!("{model:?} is not the first"))
            } else if low < high && questions > (high - low) as u64 {
                Some(format!("{questions} questions are too many"))
            } else {
                None
            }
        }
    }
}
