//! Which picture is first: on random descriptions of one or two relations the call must
//! give the answer, and the bits, that trying all pictures gives. The work area has just
//! as many words as the call asks for, and `out` sometimes a few bytes to spare.

use crate::call::Caller;
use crate::description::Description;
use crate::promise::{Answer, Case, Difference};
use crate::random::Random;
use crate::sample;
use crate::shrink;
use crate::tally::{Tally, compare};

const RELATIONS: u8 = 2;

/// Above this, trying all pictures of two relations would outlast everyone.
pub const MOST: usize = 3;

/// How many descriptions had which answer.
#[derive(Default)]
struct Spread {
    none: usize,
    first: [usize; MOST + 1],
}

impl Spread {
    fn count(&mut self, answer: &Answer) {
        match answer {
            Answer::First(found) => self.first[found.things] += 1,
            _ => self.none += 1,
        }
    }

    fn print(&self, most: usize) {
        let of = |(things, count): (usize, &usize)| format!("{count} of {things}");
        let firsts: Vec<String> = self.first.iter().enumerate().take(most + 1).map(of).collect();
        println!("  spread: none {}, first {} things", self.none, firsts.join(", "));
    }
}

pub fn run(caller: &mut Caller, seed: u64, count: usize, most: usize) -> bool {
    let mut random = Random::new(seed ^ 0x6669_6E64);
    let mut tally = Tally::default();
    let mut spread = Spread::default();
    for _ in 0..count {
        let description = sample::telling(&mut random, RELATIONS, most);
        let spare = if random.chance(1, 2) { 0 } else { random.between(1, 9) };
        let case = case(&description, most as u32, spare);
        let expected = case.expected();
        spread.count(&expected);
        tally.count(compare(caller, "finding", &case, expected));
    }
    if let Some(difference) = tally.first.take() {
        tally.first = Some(shrunk(caller, difference));
    }
    let (cases, differ) = (tally.cases, tally.differ);
    println!("finding: {cases} descriptions, at most {most} things, {differ} differ");
    spread.print(most);
    tally.conclude()
}

fn case(description: &Description, most: u32, spare: usize) -> Case {
    let mut case = Case::tight(description.write(), most);
    case.out += spare;
    case
}

/// Fewer things first, since that makes every further try cheaper; then a smaller tree.
fn shrunk(caller: &mut Caller, difference: Difference) -> Difference {
    let Some(tree) = Description::read(&difference.case.bytes) else {
        return difference;
    };
    let mut differs = |tree: &Description, most: u32| {
        let case = case(tree, most, 0);
        compare(caller, "finding", &case, case.expected())
    };
    let fewer = (0..difference.case.most).find_map(|most| differs(&tree, most));
    let difference = fewer.unwrap_or(difference);
    let most = difference.case.most;
    shrink::tree(tree, difference, |tree| differs(tree, most)).1
}
