//! Descriptions that only a ring of a given length fits first, so that 'once or more
//! often' is needed for as many steps as there are things. The first picture is known
//! without trying all: of fewer things there is none, and of so many it is the least of
//! the rings, which are few. So rings can be asked about that are out of reach of trying
//! all pictures, of an engine that is up to it.

use crate::brute::Found;
use crate::call::Caller;
use crate::description::{Description, Relation, Sentence};
use crate::meaning::{MOST_THINGS, Picture};
use crate::promise::{Answer, Case};
use crate::tally::{Tally, compare};

pub const LONGEST: usize = MOST_THINGS;

pub fn run(caller: &mut Caller, longest: usize) -> bool {
    let mut tally = Tally::default();
    for length in 2..=longest {
        let case = Case::tight(description(length).write(), length as u32);
        tally.count(compare(
            caller,
            &format!("a ring of {length}"),
            &case,
            Answer::First(first(length)),
        ));
    }
    println!("rings: {} lengths, up to {longest}, {} differ", tally.cases, tally.differ);
    tally.conclude()
}

/// There are things; each leads to one and is led to by one; none leads back to itself
/// in fewer steps than `length`, but each does in some number of steps. So every thing
/// is on a ring of `length` things at least.
pub fn description(length: usize) -> Description {
    let step = || Relation::Named(0);
    let one_each = step().turned().after(step()).within(Relation::All);
    let from_one = step().after(step().turned()).within(Relation::All);
    let back = Relation::All.within(step().once_or_more());
    let sentence = Relation::All.some().both(one_each).both(from_one).both(back);
    let short = (1..length).map(|steps| steps_of(steps).and(Relation::All).none());
    Description::new(1, short.fold(sentence, Sentence::both))
}

/// Just so many steps of the relation, one after the other.
pub fn steps_of(steps: usize) -> Relation {
    (1..steps).fold(Relation::Named(0), |before, _| before.after(Relation::Named(0)))
}

/// The least picture of a ring of so many things.
pub fn first(length: usize) -> Found {
    let mut rings = Vec::new();
    arrange(&mut vec![0], length, &mut rings);
    let bits = rings.into_iter().min().unwrap_or_default();
    let picture = Picture::new(1, length, &bits.iter().map(|&bit| bit == 1).collect::<Vec<_>>());
    assert!(picture.is_of(&description(length)), "the least ring of {length} is a ring");
    Found { things: length, bits }
}

/// Adds every way to go round from the things in `round` over all the others and back.
fn arrange(round: &mut Vec<usize>, length: usize, rings: &mut Vec<Vec<u8>>) {
    if round.len() == length {
        let mut bits = vec![0; length * length];
        for (at, thing) in round.iter().enumerate() {
            bits[thing * length + round[(at + 1) % length]] = 1;
        }
        rings.push(bits);
        return;
    }
    for thing in 1..length {
        if !round.contains(&thing) {
            round.push(thing);
            arrange(round, length, rings);
            round.pop();
        }
    }
}
