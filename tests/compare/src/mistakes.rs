//! Named cases, one for each way in which such an engine goes wrong: no things at all
//! forgotten; once or more often cut off too soon; two things that are the same one; the
//! number of a thing spoken of further out not moved by 'for every'; an order broken by
//! leaving out pictures that look alike; firsts taken for seconds. Then the worked ones.
//!
//! What is expected is written down by hand, with what the mistake would give. It is
//! held to trying all pictures too, so that a slip of the hand shows as a slip.

use crate::brute::Found;
use crate::call::Caller;
use crate::description::{Description, Relation, Sentence};
use crate::promise::{Answer, Case, Difference};
use crate::rings;
use crate::tally::{Tally, compare};

struct Mistake {
    name: &'static str,
    relations: u8,
    sentence: Sentence,
    most: u32,
    expected: Answer,
}

pub fn run(caller: &mut Caller) -> bool {
    let wrong = [no_things(), steps(), same_one(), numbers(), firsts()].into_iter().flatten();
    let order = order_of_one().into_iter().chain(order_of_two());
    let right = worked().into_iter().chain(pairs());
    let mut tally = Tally::default();
    for mistake in wrong.chain(order).chain(right) {
        tally.count(differs(caller, mistake));
    }
    println!("mistakes: {} cases, {} differ", tally.cases, tally.differ);
    tally.conclude()
}

fn differs(caller: &mut Caller, mistake: Mistake) -> Option<Difference> {
    let Mistake { name, relations, sentence, most, expected } = mistake;
    let case = Case::tight(Description::new(relations, sentence).write(), most);
    let tried = case.expected();
    if tried != expected {
        let name = format!("{name} (by trying all pictures, not by the call)");
        return Some(Difference { name, case, expected, got: tried });
    }
    compare(caller, name, &case, expected)
}

fn mistake(name: &'static str, sentence: Sentence, most: u32, expected: Answer) -> Mistake {
    Mistake { name, relations: 1, sentence, most, expected }
}

fn mistake_of_two(name: &'static str, sentence: Sentence, most: u32, expected: Answer) -> Mistake {
    Mistake { name, relations: 2, sentence, most, expected }
}

/// A first picture, its bits written as a string of 0 and 1 with spaces anywhere.
fn first(things: usize, bits: &str) -> Answer {
    let bits = bits.bytes().filter(|byte| *byte != b' ').map(|byte| byte - b'0').collect();
    Answer::First(Found { things, bits })
}

fn r() -> Relation {
    Relation::Named(0)
}

fn q() -> Relation {
    Relation::Named(1)
}

fn all() -> Relation {
    Relation::All
}

fn thing(number: u8) -> Relation {
    Relation::Thing(number)
}

fn there_is() -> Sentence {
    all().some()
}

fn two_at_least() -> Sentence {
    Sentence::two_at_least()
}

fn three_at_least() -> Sentence {
    Sentence::three_at_least()
}

/// The one thing spoken of stands to the other, by `relation`.
fn stands(from: u8, relation: Relation, to: u8) -> Sentence {
    thing(from).after(relation).after(thing(to)).some()
}

/// For some of so many things, one spoken of after the other.
fn for_some(things: usize, sentence: Sentence) -> Sentence {
    (0..things).fold(sentence, |sentence, _| sentence.for_some())
}

fn same(relation: Relation, other: Relation) -> Sentence {
    relation.clone().within(other.clone()).both(other.within(relation))
}

fn no_loops() -> Sentence {
    r().and(all()).none()
}

fn every_is_first() -> Sentence {
    all().within(r().firsts())
}

fn no_things() -> Vec<Mistake> {
    let nonsense = || Relation::Nothing.some();
    vec![
        mistake("no things: all within nothing", all().within(Relation::Nothing), 3, first(0, "")),
        mistake("no things: for every thing nonsense", nonsense().for_every(), 3, first(0, "")),
        mistake("no things: not some pair in all", there_is().not(), 2, first(0, "")),
        mistake("no things: asked for no more", there_is().not(), 0, first(0, "")),
        mistake("no things: some pair in all is asked", there_is(), 0, Answer::None),
        mistake("no things: some pair in all is found", there_is(), 2, first(1, "0")),
        mistake("no things: for some thing sense", nonsense().not().for_some(), 2, first(1, "0")),
    ]
}

fn steps() -> Vec<Mistake> {
    let closed = || r().once_or_more();
    let later = |steps: usize| {
        let sooner = (2..steps).fold(r(), |before, steps| before.or(rings::steps_of(steps)));
        closed().but_not(sooner).some()
    };
    let ring = |length: usize| rings::description(length).sentence;
    let (three, four) = (|| first(3, "001 100 010"), || first(4, "0001 0010 1000 0100"));
    let none = closed().none().both(there_is());
    let more = closed().after(closed()).within(closed()).not();
    vec![
        mistake("steps: a ring of two", ring(2), 2, first(2, "01 10")),
        mistake("steps: a ring of three", ring(3), 3, three()),
        mistake("steps: a ring of four", ring(4), 4, four()),
        mistake("steps: a pair in two and no sooner", later(2), 3, first(2, "01 10")),
        mistake("steps: a pair in three and no sooner", later(3), 3, three()),
        mistake("steps: a pair in four and no sooner", later(4), 4, four()),
        mistake("steps: no step at all is not once", none, 2, first(1, "0")),
        mistake("steps: more often leads no further", more, 3, Answer::None),
    ]
}

fn same_one() -> Vec<Mistake> {
    let one_to_other = || stands(1, r(), 0);
    // If the two were always two, one thing that leads nowhere would do.
    let every = there_is().both(one_to_other().for_every().for_every());
    let one = for_some(2, one_to_other()).both(r().within(all()));
    let other = for_some(2, thing(0).and(thing(1)).none());
    let back = no_loops().both(for_some(3, stands(2, r(), 1).both(stands(1, r(), 0))));
    let four = for_some(4, stands(3, r(), 0).both(stands(2, r(), 1)));
    vec![
        mistake("same one: every two, also a thing and itself", every, 2, first(1, "1")),
        mistake("same one: some two may be one", one, 2, first(1, "1")),
        mistake("same one: some two that are not one", other, 2, first(2, "00 00")),
        mistake("same one: there and back to where one was", back, 3, first(2, "01 10")),
        mistake("same one: four spoken of, all of them one", four, 2, first(1, "1")),
    ]
}

fn numbers() -> Vec<Mistake> {
    // With the two numbers exchanged these two would have each other's first picture.
    let out_of = two_at_least().both(stands(1, r(), 0).for_every().for_some());
    let into = two_at_least().both(stands(0, r(), 1).for_every().for_some());
    let fourth = stands(3, r(), 2).for_every().for_every().for_every().for_some();
    // The outer thing is 0, then 1 inside the inner 'for every', then 0 again.
    let led_to = stands(0, r(), 1).for_every();
    let around = stands(0, q(), 0).both(led_to).both(thing(0).after(q()).some()).for_some();
    // A way of two steps that ends; the first two are 2 and 1 inside, then 1 and 0.
    let ends = stands(2, r(), 1).both(stands(1, r(), 0)).both(thing(0).after(r()).none());
    let way = for_some(2, ends.for_some().both(stands(0, r(), 1).not()));
    let again = two_at_least().both(around);
    vec![
        mistake("numbers: one that leads to all", out_of, 2, first(2, "00 11")),
        mistake("numbers: one that all lead to", into, 2, first(2, "01 01")),
        mistake("numbers: the fourth out", two_at_least().both(fourth), 2, first(2, "00 11")),
        mistake_of_two("numbers: in and out again", again, 2, first(2, "01 01  00 01")),
        mistake(
            "numbers: three in and out again",
            no_loops().both(way),
            3,
            first(3, "000 001 100"),
        ),
    ]
}

/// First pictures that would be other ones if the order were another, or if of pictures
/// that look alike another one than the least were kept.
fn order_of_one() -> Vec<Mistake> {
    let loops = || r().within(all()).both(r().some());
    let not_all = loops().both(all().within(r()).not());
    let way = no_loops().both(r().after(r()).but_not(r().or(all())).some());
    // All pairs but one thing's to itself: three pairs, of two things.
    let all_but_one = || {
        let others = stands(1, r(), 0).either(thing(0).and(thing(1)).some());
        let one_free = all().within(r()).not().both(all().within(r().or(thing(0))).for_some());
        two_at_least().both(one_free).both(others.for_every().for_every())
    };
    // Fewer pairs are not less: all and no more would be two pairs and not three.
    let or_fewer = all_but_one().either(two_at_least().both(same(r(), all())));
    let or_more = r().some().either(two_at_least());
    let of_three = three_at_least().both(loops());
    let two_of_three = three_at_least().both(loops()).both(r().within(thing(0)).not().for_every());
    vec![
        mistake("order: one of two to itself", not_all, 2, first(2, "00 01")),
        mistake("order: some of three to itself", of_three, 3, first(3, "000 000 001")),
        mistake("order: two of three to themselves", two_of_three, 3, first(3, "000 010 001")),
        mistake("order: two steps, rows before columns", way, 3, first(3, "000 001 100")),
        mistake("order: all pairs but one", all_but_one(), 2, first(2, "01 11")),
        mistake("order: the first bit and not the fewest", or_fewer, 2, first(2, "01 11")),
        mistake("order: fewer things before fewer pairs", or_more, 2, first(1, "1")),
    ]
}

fn order_of_two() -> Vec<Mistake> {
    let loops = |relation: Relation| relation.clone().within(all()).both(relation.some());
    let apart = || loops(r()).both(loops(q())).both(r().and(q()).none());
    let of_three = apart().both(three_at_least());
    let swapped = two_at_least().both(no_loops()).both(every_is_first());
    // Pair by pair instead of relation by relation, the swapped one would be first.
    let or_swapped = apart().either(swapped.both(q().none()));
    let any = r().or(q()).but_not(all()).some();
    let three = first(3, "000 000 001  000 010 000");
    vec![
        mistake_of_two("order: the less in the first relation", apart(), 2, first(2, "0001 1000")),
        mistake_of_two("order: the same of three things", of_three, 3, three),
        mistake_of_two("order: relation by relation", or_swapped, 2, first(2, "0001 1000")),
        mistake_of_two("order: any of two relations", any, 2, first(2, "0000 0010")),
    ]
}

fn firsts() -> Vec<Mistake> {
    let every_is_second = || all().within(r().turned().firsts());
    // Seconds would exchange these two.
    let only_firsts = every_is_first().both(every_is_second().not());
    let only_seconds = every_is_second().both(every_is_first().not());
    let beyond = r().firsts().but_not(all()).some();
    let changed = same(r().firsts().after(r()), r()).not();
    vec![
        mistake("firsts: all are, not all are seconds", only_firsts, 2, first(2, "01 01")),
        mistake("firsts: not all are, all are seconds", only_seconds, 2, first(2, "00 11")),
        mistake("firsts: each to itself only", beyond, 3, Answer::None),
        mistake("firsts: before a step they change nothing", changed, 3, Answer::None),
    ]
}

fn worked() -> Vec<Mistake> {
    let goes_round = || every_is_first().both(no_loops().both(all().within(r().once_or_more())));
    let of_some = || goes_round().both(there_is());
    let leads_on = || thing(0).after(r()).some().for_every();
    let differ =
        leads_on().both(every_is_first().not()).either(every_is_first().both(leads_on().not()));
    vec![
        mistake("worked: leading on and round", goes_round(), 2, first(0, "")),
        mistake("worked: the same of some thing, of one", of_some(), 1, Answer::None),
        mistake("worked: the same of some thing", of_some(), 2, first(2, "01 10")),
        mistake("worked: some pair in nothing", Relation::Nothing.some(), 3, Answer::None),
        mistake("worked: firsts, said by 'for every'", differ, 3, Answer::None),
    ]
}

/// Things in pairs: a relation that is its own turning, never to itself, never twice
/// from one thing, and that leaves none out.
fn pairs() -> Vec<Mistake> {
    let paired = || {
        let never_twice = r().turned().after(r()).within(all());
        same(r(), r().turned()).both(no_loops()).both(never_twice).both(every_is_first())
    };
    let at_most_three = for_some(3, all().within(thing(0).or(thing(1)).or(thing(2))));
    let of_two = paired().both(two_at_least());
    let of_three = paired().both(three_at_least()).both(at_most_three);
    let of_four = paired().both(three_at_least());
    let four = first(4, "0001 0010 0100 1000");
    vec![
        mistake("pairs: of two things", of_two, 3, first(2, "01 10")),
        mistake("pairs: of three things", of_three, 3, Answer::None),
        mistake("pairs: of four things", of_four, 4, four),
    ]
}
