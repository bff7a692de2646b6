//! Makes a case that differs as small as can be had by small steps, since a description
//! of four words says more than one of forty: byte strings by leaving bytes out, and
//! descriptions by putting smaller trees in the place of trees.
//!
//! Each step is kept if the case still differs. Tries and time are bounded, so a
//! difference that is slow to see is shown half-shrunk rather than never.

use crate::description::{Description, Relation, Sentence};
use std::time::{Duration, Instant};

const MOST_TRIES: usize = 20_000;
const MOST_TIME: Duration = Duration::from_secs(60);

struct Budget {
    tries: usize,
    start: Instant,
}

impl Budget {
    fn new() -> Budget {
        Budget { tries: 0, start: Instant::now() }
    }

    fn spend(&mut self) -> bool {
        self.tries += 1;
        self.tries <= MOST_TRIES && self.start.elapsed() < MOST_TIME
    }
}

/// Goes from a seed to smaller and smaller ones, for as long as one still differs.
fn descend<T, D>(
    seed: T,
    found: D,
    smaller: impl Fn(&T) -> Vec<T>,
    mut differs: impl FnMut(&T) -> Option<D>,
) -> (T, D) {
    let (mut best, mut found) = (seed, found);
    let mut budget = Budget::new();
    'shrinking: loop {
        for candidate in smaller(&best) {
            if !budget.spend() {
                return (best, found);
            }
            if let Some(difference) = differs(&candidate) {
                (best, found) = (candidate, difference);
                continue 'shrinking;
            }
        }
        return (best, found);
    }
}

pub fn bytes<D>(
    seed: Vec<u8>,
    found: D,
    mut differs: impl FnMut(&[u8]) -> Option<D>,
) -> (Vec<u8>, D) {
    descend(seed, found, |bytes| fewer_bytes(bytes), |bytes| differs(bytes))
}

pub fn tree<D>(
    seed: Description,
    found: D,
    differs: impl FnMut(&Description) -> Option<D>,
) -> (Description, D) {
    descend(seed, found, smaller_descriptions, differs)
}

/// The bytes with a stretch left out, long stretches first, or with one byte lowered.
fn fewer_bytes(bytes: &[u8]) -> Vec<Vec<u8>> {
    let mut candidates = Vec::new();
    let mut length = bytes.len();
    while length > 0 {
        let step = if length > 8 { length / 2 } else { 1 };
        for start in (0..=bytes.len() - length).step_by(step) {
            let mut candidate = bytes.to_vec();
            candidate.drain(start..start + length);
            candidates.push(candidate);
        }
        length = if length > 8 { length / 2 } else { length - 1 };
    }
    for (at, &byte) in bytes.iter().enumerate() {
        for lower in [0, byte / 2, byte.saturating_sub(1)] {
            if lower < byte {
                let mut candidate = bytes.to_vec();
                candidate[at] = lower;
                candidates.push(candidate);
            }
        }
    }
    candidates
}

/// The descriptions one step smaller; only such as the reader takes.
fn smaller_descriptions(description: &Description) -> Vec<Description> {
    let relations = description.relations;
    let fewer = (1..relations).map(|fewer| Description::new(fewer, description.sentence.clone()));
    let sentences = smaller_sentences(&description.sentence);
    let simpler = sentences.into_iter().map(|sentence| Description::new(relations, sentence));
    fewer.chain(simpler).filter(|d| Description::read(&d.write()).is_some()).collect()
}

fn smaller_sentences(sentence: &Sentence) -> Vec<Sentence> {
    match sentence {
        Sentence::Within(inner, outer) => {
            let inners = smaller_relations(inner).into_iter();
            let outers = smaller_relations(outer).into_iter();
            let inners = inners.map(|inner| inner.within(outer.clone()));
            let outers = outers.map(|outer| inner.clone().within(outer));
            let singles = [inner.clone().some(), outer.clone().some()].into_iter();
            singles.chain(inners).chain(outers).collect()
        }
        Sentence::SomePair(relation) => {
            smaller_relations(relation).into_iter().map(Relation::some).collect()
        }
        Sentence::Not(part) => match &**part {
            Sentence::Not(inner) => {
                [vec![Sentence::clone(inner)], around(part, Sentence::not)].concat()
            }
            _ => around(part, Sentence::not),
        },
        Sentence::ForEvery(part) => around(part, Sentence::for_every),
        Sentence::Both(first, second) => {
            let firsts = smaller_sentences(first).into_iter();
            let seconds = smaller_sentences(second).into_iter();
            let firsts = firsts.map(|first| first.both(Sentence::clone(second)));
            let seconds = seconds.map(|second| Sentence::clone(first).both(second));
            let parts = [Sentence::clone(first), Sentence::clone(second)].into_iter();
            parts.chain(firsts).chain(seconds).collect()
        }
    }
}

/// The part alone, and what is made around each smaller part.
fn around(part: &Sentence, make: fn(Sentence) -> Sentence) -> Vec<Sentence> {
    let inside = smaller_sentences(part).into_iter().map(make);
    std::iter::once(part.clone()).chain(inside).collect()
}

fn smaller_relations(relation: &Relation) -> Vec<Relation> {
    let leaves = [Relation::Nothing, Relation::All, Relation::Named(0)];
    let unary = |part: &Relation, make: fn(Relation) -> Relation| {
        let inside = smaller_relations(part).into_iter().map(make);
        leaves.iter().cloned().chain([part.clone()]).chain(inside).collect()
    };
    let binary = |a: &Relation, b: &Relation, make: fn(Relation, Relation) -> Relation| {
        let first = smaller_relations(a).into_iter().map(|a| make(a, b.clone()));
        let second = smaller_relations(b).into_iter().map(|b| make(a.clone(), b));
        let parts = leaves.iter().cloned().chain([a.clone(), b.clone()]);
        parts.chain(first).chain(second).collect()
    };
    match relation {
        Relation::Nothing => Vec::new(),
        Relation::All => vec![Relation::Nothing],
        Relation::Named(number) => lower(*number, Relation::Named),
        Relation::Thing(number) => lower(*number, Relation::Thing),
        Relation::Or(a, b) => binary(a, b, Relation::or),
        Relation::And(a, b) => binary(a, b, Relation::and),
        Relation::ButNot(a, b) => binary(a, b, Relation::but_not),
        Relation::After(a, b) => binary(a, b, Relation::after),
        Relation::Turned(a) => unary(a, Relation::turned),
        Relation::OnceOrMore(a) => unary(a, Relation::once_or_more),
        Relation::Firsts(a) => unary(a, Relation::firsts),
    }
}

fn lower(number: u8, make: fn(u8) -> Relation) -> Vec<Relation> {
    let numbers = (0..number).map(make);
    [Relation::Nothing, Relation::All].into_iter().chain(numbers).collect()
}
