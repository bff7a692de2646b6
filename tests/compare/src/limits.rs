//! The edges of the call: work of just the floor and one word less, `out` of just the
//! room and one byte less, eight things and more, empty slices, and which refusal comes
//! first where several would do. That `out` is left as it was is watched on every call.
//!
//! The work areas stay modest, and no case makes an engine that tries all pictures
//! exhaust more than three things of one relation or two of two.

use crate::call::Caller;
use crate::description::{Description, MOST_BYTES, Relation, Sentence};
use crate::promise::{Answer, Case};
use crate::tally::{Tally, compare};

/// Cases with a floor above this many words are left out.
const MODEST: usize = 24_000_000;

struct Subject {
    name: &'static str,
    description: Description,
    /// Up to how many things it may be asked about, as trying all pictures is quick.
    most: u32,
}

pub fn run(caller: &mut Caller) -> bool {
    let mut tally = Tally::default();
    for subject in subjects().into_iter().chain(deep_subjects()) {
        for most in (0..=subject.most).filter(|most| *most < 4 || *most == 8) {
            edges(caller, &mut tally, &subject, most);
        }
        if subject.most == 8 {
            too_many(caller, &mut tally, &subject);
        }
    }
    for (name, bytes) in strangers() {
        no_description(caller, &mut tally, name, &bytes);
    }
    wrapped(caller, &mut tally);
    println!("limits: {} calls, {} differ", tally.cases, tally.differ);
    tally.conclude()
}

fn check(caller: &mut Caller, tally: &mut Tally, name: &str, case: &Case, expected: Answer) {
    tally.count(compare(caller, name, case, expected));
}

/// Just enough, more than enough, and one too few of work, of out and of both.
fn edges(caller: &mut Caller, tally: &mut Tally, subject: &Subject, most: u32) {
    let enough = Case::tight(subject.description.write(), most);
    let (out, work) = (enough.out, enough.work);
    if work > MODEST {
        return;
    }
    let answer = enough.expected();
    let mut edges = vec![
        ("just enough", out, work, answer.clone()),
        ("more than enough", out + 1000, work + 1000, answer),
        ("one word less", out, work - 1, Answer::Few),
        ("no work", out + 1000, 0, Answer::Few),
    ];
    if out > 0 {
        edges.extend([
            ("one byte less", out - 1, work + 1000, Answer::OutFull),
            ("no out", 0, work, Answer::OutFull),
            ("one word and one byte less", out - 1, work - 1, Answer::Few),
            ("no work and no out", 0, 0, Answer::Few),
        ]);
    }
    for (edge, out, work, expected) in edges {
        let case = Case { out, work, ..enough.clone() };
        check(caller, tally, &format!("{}: {edge}", subject.name), &case, expected);
    }
}

/// More than eight things are few whatever the work, and before out is looked at.
fn too_many(caller: &mut Caller, tally: &mut Tally, subject: &Subject) {
    let bytes = subject.description.write();
    for most in [9, 10, 255, 256, 65_535, 0x1_0000, 0x8000_0000, u32::MAX - 1, u32::MAX] {
        for out in [0, 4096] {
            let case = Case { bytes: bytes.clone(), most, out, work: 2_000_000 };
            check(caller, tally, &format!("{}: too many things", subject.name), &case, Answer::Few);
        }
    }
}

/// No description is said before anything else, whatever else would be refused.
fn no_description(caller: &mut Caller, tally: &mut Tally, name: &str, bytes: &[u8]) {
    for most in [0, 1, 8, 9, u32::MAX] {
        for (out, work) in [(0, 0), (0, 2_000_000), (512, 0), (512, 65_535), (512, 2_000_000)] {
            let case = Case { bytes: bytes.to_vec(), most, out, work };
            check(caller, tally, name, &case, Answer::NoDescription);
        }
    }
}

/// Floors that are larger than a 32-bit word but leave little in it: so little work is
/// few all the same. The sentences hold of every picture, whatever their length.
fn wrapped(caller: &mut Caller, tally: &mut Tally) {
    for depth in [3, 4] {
        let mut outer = Relation::All;
        loop {
            let sentence = deep(depth, Relation::Nothing.within(outer.clone()));
            let description = Description::new(1, sentence);
            let case = Case::tight(description.write(), 8);
            if case.bytes.len() > MOST_BYTES {
                break;
            }
            let remainder = case.work & 0xFFFF_FFFF;
            if case.work > remainder && remainder <= MODEST {
                let case = Case { work: remainder, ..case };
                check(caller, tally, "a floor above 32 bits", &case, Answer::Few);
            }
            outer = outer.turned();
        }
    }
}

/// 'For every', so many deep.
fn deep(times: u8, sentence: Sentence) -> Sentence {
    (0..times).fold(sentence, |sentence, _| sentence.for_every())
}

fn subject(name: &'static str, relations: u8, sentence: Sentence, most: u32) -> Subject {
    Subject { name, description: Description::new(relations, sentence), most }
}

fn subjects() -> Vec<Subject> {
    let named = Relation::Named;
    let thing = || Relation::All.some();
    let pair_of_two = named(0).but_not(named(1)).but_not(Relation::All).some();
    vec![
        subject("true of no things", 1, Relation::Nothing.within(Relation::Nothing), 8),
        subject("some thing", 1, thing(), 8),
        subject("none at all", 1, Relation::Nothing.some(), 3),
        subject("none of two relations", 2, named(1).and(Relation::Nothing).some(), 2),
        subject("two things", 2, pair_of_two, 3),
        subject("the last of eight relations", 8, named(7).some(), 8),
        subject("eight relations of no things", 8, thing().not(), 1),
        subject("the longest", 1, longest(), 8),
    ]
}

/// How deep 'for every' stands is part of the floor, and is not how many there are.
fn deep_subjects() -> Vec<Subject> {
    let leads = |thing: u8| Relation::Thing(thing).after(Relation::Named(0)).some();
    let (one, two) = (|| deep(1, leads(0)), || deep(2, leads(1)));
    let one_thing = |depth: u8| {
        let same = Relation::Thing(depth - 1).within(Relation::Thing(0));
        Relation::All.some().both(deep(depth, same))
    };
    vec![
        subject("for every", 1, Relation::All.some().both(one()), 8),
        subject("for every, side by side", 1, one().both(one()), 8),
        subject("for every, deep on the left", 1, two().both(one()), 8),
        subject("for every, deep on the right", 1, one().both(two()), 8),
        subject("for every, two deep", 1, one_thing(2), 8),
        subject("for every, three deep", 1, one_thing(3), 3),
        subject("for every, four deep", 1, one_thing(4), 3),
        subject("for every, of no things", 1, deep(4, Relation::Nothing.some()), 3),
    ]
}

/// A sentence that makes a description just 512 bytes long, and that always holds.
fn longest() -> Sentence {
    (0..508).fold(Relation::Nothing.within(Relation::All), |sentence, _| sentence.not())
}

/// Byte strings that are no descriptions.
fn strangers() -> Vec<(&'static str, Vec<u8>)> {
    let too_long = Description::new(1, longest().not()).write();
    let too_deep = Description::new(1, deep(5, Relation::All.some())).write();
    vec![
        ("no bytes", Vec::new()),
        ("a number only", vec![1]),
        ("no relations", vec![0, 21, 2]),
        ("nine relations", vec![9, 21, 2]),
        ("cut off", vec![1, 20, 2]),
        ("a byte too many", vec![1, 21, 2, 2]),
        ("a thing not spoken of", vec![1, 21, 1, 0]),
        ("a relation too many", vec![1, 21, 0, 1]),
        ("513 bytes", too_long),
        ("five deep", too_deep),
    ]
}
