//! The exported call, and all that is known here of what it takes and gives.

use crate::formula::Formula;

pub enum Answer {
    Model(Vec<bool>),
    None,
}

/// What the solver did, by its own count.
#[derive(Clone, Copy)]
pub struct Counts {
    pub conflicts: u64,
    pub decisions: u64,
    pub restarts: u64,
    pub reductions: u64,
    /// How often analysis found no clause, so that all decisions were refused by one.
    pub refusals: u64,
    /// How many learned clauses found no room.
    pub unkept: u64,
}

unsafe extern "C" {
    fn sat_ask(
        spans: *mut u32,
        spans_length: usize,
        words: *mut u32,
        words_length: usize,
        values: *mut u32,
        values_length: usize,
        decided: usize,
        work: *mut u32,
        work_length: usize,
    ) -> u32;

    fn sat_ask_under(
        spans: *mut u32,
        spans_length: usize,
        words: *mut u32,
        words_length: usize,
        values: *mut u32,
        values_length: usize,
        decided: usize,
        assumptions: *const u32,
        assumptions_length: usize,
        counts: *mut u64,
        counts_length: usize,
        work: *mut u32,
        work_length: usize,
    ) -> u32;

    fn sat_first(
        spans: *mut u32,
        spans_length: usize,
        words: *mut u32,
        words_length: usize,
        count: usize,
        used: usize,
        values: *mut u32,
        values_length: usize,
        decided: usize,
        low: usize,
        high: usize,
        counts: *mut u64,
        counts_length: usize,
        work: *mut u32,
        work_length: usize,
    ) -> u64;
}

const NONE: u32 = 0;
const MODEL: u32 = 1;
const BAD: u32 = 2;
const FEW: u32 = 3;

/// What the values hold before a call, and still hold after one that finds no model.
const UNTOUCHED: u32 = 7;

/// The words of memory that have to be lent for a formula.
pub fn floor(formula: &Formula) -> usize {
    15 * formula.variables + 4 * (formula.spans.len() / 2)
}

/// Asks whether a formula has a model, with lent memory that may hold anything. An error is
/// an answer that breaks the promise.
pub fn ask(formula: &Formula, work: &mut [u32]) -> Result<Answer, String> {
    // SAFETY: each pointer is of a slice of that length, which nothing else reads or writes.
    asked(formula, &[], |spans, words, values| unsafe {
        sat_ask(
            spans.as_mut_ptr(),
            spans.len(),
            words.as_mut_ptr(),
            words.len(),
            values.as_mut_ptr(),
            values.len(),
            formula.variables,
            work.as_mut_ptr(),
            work.len(),
        )
    })
}

/// The same under assumptions, with what the solver counted.
pub fn ask_under(
    formula: &Formula,
    assumptions: &[u32],
    work: &mut [u32],
) -> Result<(Answer, Counts), String> {
    let mut counts = [0; 6];
    // SAFETY: each pointer is of a slice of that length, which nothing else reads or writes.
    let answer = asked(formula, assumptions, |spans, words, values| unsafe {
        sat_ask_under(
            spans.as_mut_ptr(),
            spans.len(),
            words.as_mut_ptr(),
            words.len(),
            values.as_mut_ptr(),
            values.len(),
            formula.variables,
            assumptions.as_ptr(),
            assumptions.len(),
            counts.as_mut_ptr(),
            counts.len(),
            work.as_mut_ptr(),
            work.len(),
        )
    })?;
    let [conflicts, decisions, restarts, reductions, refusals, unkept] = counts;
    Ok((answer, Counts { conflicts, decisions, restarts, reductions, refusals, unkept }))
}

/// What a call answers that is given the spans, words and values of a formula: the clauses are
/// to stay as they were, and but for a model so are the values.
fn asked(
    formula: &Formula,
    assumptions: &[u32],
    call: impl FnOnce(&mut [u32], &mut [u32], &mut [u32]) -> u32,
) -> Result<Answer, String> {
    let mut spans = formula.spans.clone();
    let mut words = formula.words.clone();
    let mut values = vec![UNTOUCHED; formula.variables];
    let code = call(&mut spans, &mut words, &mut values);
    if spans != formula.spans || words != formula.words {
        return Err(format!("the call answered {code} and changed the clauses"));
    }
    if code != MODEL && values.iter().any(|value| *value != UNTOUCHED) {
        return Err(format!("the call answered {code}, which is no model, and changed the values"));
    }
    match code {
        NONE => Ok(Answer::None),
        MODEL => {
            let model = model(formula, &values)?;
            if assumptions.iter().all(|literal| holds(&model, *literal)) {
                Ok(Answer::Model(model))
            } else {
                Err("an assumption is false in the call's model".into())
            }
        }
        BAD => Err("the call says that the clauses are none".into()),
        FEW => Err("the call says that the words lent are too few".into()),
        code => Err(format!("the call answered {code}, which is no answer")),
    }
}

/// Asks for the first model by the variables of a range, with how many questions.
pub fn first(
    formula: &Formula,
    low: usize,
    high: usize,
    work: &mut [u32],
) -> Result<Option<(Vec<bool>, u64)>, String> {
    let count = formula.spans.len() / 2;
    let used = formula.words.len();
    let more = high.saturating_sub(low);
    let mut spans = formula.spans.clone();
    let mut words = formula.words.clone();
    spans.resize(2 * (count + more), UNTOUCHED);
    words.resize(used + more, UNTOUCHED);
    let mut values = vec![UNTOUCHED; formula.variables];
    // SAFETY: each pointer is of a slice of that length, which nothing else reads or writes.
    let code = unsafe {
        sat_first(
            spans.as_mut_ptr(),
            spans.len(),
            words.as_mut_ptr(),
            words.len(),
            count,
            used,
            values.as_mut_ptr(),
            values.len(),
            high,
            low,
            high,
            std::ptr::dangling_mut(),
            0,
            work.as_mut_ptr(),
            work.len(),
        )
    };
    if spans[..2 * count] != formula.spans || words[..used] != formula.words {
        return Err(format!("the call answered {code} and changed the clauses"));
    }
    match code {
        0 if values.iter().all(|value| *value == UNTOUCHED) => Ok(None),
        0 => Err("the call found no model and changed the values".into()),
        1 => Err("the call says that the clauses are none".into()),
        2 => Err(format!("the call says that {} words are too few", work.len())),
        code => {
            let model = model(formula, &values)?;
            if !are_units(&model, low, &spans[2 * count..], &words[used..], used) {
                return Err("what stands behind the clauses is not the model's units".into());
            }
            Ok(Some((model, code - 2)))
        }
    }
}

/// Whether spans and words behind so many words are a clause of one literal for each variable
/// from one on, as it is in a model.
fn are_units(model: &[bool], low: usize, spans: &[u32], words: &[u32], used: usize) -> bool {
    words.iter().enumerate().all(|(place, literal)| {
        let begin = (used + place) as u32;
        (literal / 2) as usize == low + place
            && holds(model, *literal)
            && spans[2 * place..2 * place + 2] == [begin, begin + 1]
    })
}

/// Whether a literal is true in a model.
pub fn holds(model: &[bool], literal: u32) -> bool {
    model[(literal / 2) as usize] == literal.is_multiple_of(2)
}

/// The assignment that the values are, if it is a model.
fn model(formula: &Formula, values: &[u32]) -> Result<Vec<bool>, String> {
    if values.iter().any(|value| *value != 1 && *value != 2) {
        return Err("the call left a variable of the model without a value".into());
    }
    let model: Vec<bool> = values.iter().map(|value| *value == 1).collect();
    if formula.is_model(&model) { Ok(model) } else { Err("the call's model is none".into()) }
}
