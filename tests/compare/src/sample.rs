//! Random descriptions: *plain* ones, of any shape and size, for the reader; and *telling*
//! ones for the search, put together of wishes that pull against each other, so that the
//! first picture is seldom the empty one and often there is none.

use crate::description::{DEEPEST, Description, MOST_RELATIONS, Relation, Sentence};
use crate::random::Random;

struct Sampler<'a> {
    random: &'a mut Random,
    relations: u8,
    /// How deep 'for every' may stand.
    deepest: u8,
}

/// A description of any shape, of up to about `size` words.
pub fn plain(random: &mut Random, size: usize) -> Description {
    let relations = random.between(1, usize::from(MOST_RELATIONS)) as u8;
    let sentence = Sampler { random, relations, deepest: DEEPEST }.sentence(size, 0);
    Description::new(relations, sentence)
}

/// A description of just `length` bytes or, if that is more than a description may have,
/// what would be one but for its length.
pub fn of_length(random: &mut Random, length: usize) -> Vec<u8> {
    let mut description = plain(random, 8);
    while description.write().len() < length {
        let before = description.clone();
        let size = random.between(1, 60);
        let relations = description.relations;
        let more = Sampler { random, relations, deepest: DEEPEST }.sentence(size, 0);
        description.sentence = description.sentence.both(more);
        if description.write().len() > length {
            description = before;
            description.sentence = description.sentence.not();
        }
    }
    description.write()
}

/// The longest description for the search: the work area grows with the length too.
const LONGEST: usize = 120;

/// A description for the search, of at most `relations` relations, in which what the
/// wishes ask for is near the edge of what `most` things can do. For three things 'for
/// every' stands three deep at most, since the work area grows with the depth.
pub fn telling(random: &mut Random, relations: u8, most: usize) -> Description {
    loop {
        let relations = random.between(1, usize::from(relations)) as u8;
        let deepest = if most > 2 { DEEPEST - 1 } else { DEEPEST };
        let sentence = Sampler { random, relations, deepest }.wishes(most);
        let description = Description::new(relations, sentence);
        if description.write().len() <= LONGEST {
            return description;
        }
    }
}

impl Sampler<'_> {
    fn named(&mut self) -> Relation {
        Relation::Named(self.random.below(usize::from(self.relations)) as u8)
    }

    fn leaf(&mut self, spoken: u8) -> Relation {
        match self.random.below(12) {
            0 => Relation::Nothing,
            1 | 2 => Relation::All,
            3..=6 if spoken > 0 => Relation::Thing(self.random.below(usize::from(spoken)) as u8),
            _ => self.named(),
        }
    }

    /// A relation of about `size` words, in which `spoken` things may be spoken of.
    fn relation(&mut self, size: usize, spoken: u8) -> Relation {
        if size < 2 {
            return self.leaf(spoken);
        }
        if size == 2 || self.random.chance(1, 3) {
            let part = self.relation(size - 1, spoken);
            return match self.random.below(3) {
                0 => part.turned(),
                1 => part.once_or_more(),
                _ => part.firsts(),
            };
        }
        let left = self.random.between(1, size - 2);
        let (first, second) = (self.relation(left, spoken), self.relation(size - 1 - left, spoken));
        match self.random.below(5) {
            0 => first.or(second),
            1 => first.and(second),
            2 => first.but_not(second),
            _ => first.after(second),
        }
    }

    fn sentence(&mut self, size: usize, spoken: u8) -> Sentence {
        let size = size.max(2);
        match self.random.below(10) {
            0 | 1 if size > 2 => self.sentence(size - 1, spoken).not(),
            2..=4 if size > 4 => {
                let left = self.random.between(2, size - 2);
                let first = self.sentence(left, spoken);
                first.both(self.sentence(size - left, spoken))
            }
            5 | 6 if size > 2 && spoken < self.deepest => {
                self.sentence(size - 1, spoken + 1).for_every()
            }
            7 | 8 if size > 2 => {
                let left = self.random.between(1, size - 1);
                let inner = self.relation(left, spoken);
                inner.within(self.relation(size - left, spoken))
            }
            _ => self.relation(size - 1, spoken).some(),
        }
    }

    /// One wish to three, and nearly always a demand.
    fn wishes(&mut self, most: usize) -> Sentence {
        let mut sentence = self.wish(0);
        for _ in 0..self.random.between(0, 2) {
            let wish = self.wish(0);
            sentence = self.join(sentence, wish);
        }
        if self.random.chance(19, 20) {
            let demand = self.demand(most);
            sentence = self.join(sentence, demand);
        }
        sentence
    }

    /// Both, in either order.
    fn join(&mut self, sentence: Sentence, other: Sentence) -> Sentence {
        if self.random.chance(1, 2) { sentence.both(other) } else { other.both(sentence) }
    }

    /// A sentence that asks for some things to be there: one, two, or as many as can be had.
    fn demand(&mut self, most: usize) -> Sentence {
        let size = self.random.between(1, 4);
        let part = self.relation(size, 0);
        let steps = self.named();
        let two_steps = steps.clone().after(steps.clone());
        match self.random.below(if most > 2 { 18 } else { 10 }) {
            0 => Relation::All.some(),
            1 => steps.some(),
            2 => part.some(),
            3 | 4 => steps.but_not(Relation::All).some(),
            5 => part.but_not(Relation::All).some(),
            6 => Sentence::two_at_least(),
            7 => steps.clone().once_or_more().but_not(steps).some(),
            8 => Relation::All.within(steps.firsts()).not(),
            9 => steps.clone().and(Relation::All).some().both(Relation::All.within(steps).not()),
            10 => two_steps.but_not(steps.or(Relation::All)).some(),
            11 | 12 => steps.clone().once_or_more().but_not(steps.or(two_steps)).some(),
            13 | 14 => Sentence::three_at_least(),
            15 => Sentence::three_at_least().both(part.some()),
            _ => self.two_and_not_all(steps),
        }
    }

    /// Two things at least are of some kind, and not all are, so that there are three and
    /// the order has to say which of them come first.
    fn two_and_not_all(&mut self, steps: Relation) -> Sentence {
        let kind = match self.random.below(3) {
            0 => steps.firsts(),
            1 => steps.turned().firsts(),
            _ => steps.and(Relation::All),
        };
        let two = kind.clone().within(Relation::Thing(0)).not().for_every();
        Sentence::two_at_least().both(two).both(Relation::All.within(kind).not())
    }

    /// A sentence that binds: the laws that people ask of relations, or anything at all.
    fn wish(&mut self, spoken: u8) -> Sentence {
        let size = self.random.between(1, 4);
        let part = self.relation(size, spoken);
        match self.random.below(19) {
            0 => Relation::All.within(part.firsts()),
            1 => part.and(Relation::All).none(),
            2 => part.once_or_more().and(Relation::All).none(),
            3 => Relation::All.within(part.once_or_more()),
            4 => part.clone().after(part.clone()).within(part),
            5 => part.clone().within(part.turned()),
            6 => part.clone().and(part.turned()).within(Relation::All),
            7 => part.clone().turned().after(part).within(Relation::All),
            8 => part.within(self.named()),
            9 => self.wish(spoken).either(self.wish(spoken)),
            10 if spoken < 2 => self.wish(spoken + 1).for_every(),
            11 if spoken < 2 => self.of_each(spoken + 1).for_every(),
            12 if spoken < 2 => self.of_each(spoken + 1).for_some(),
            13..=15 if spoken == 0 => self.of_several(),
            16 if spoken == 0 => {
                let size = self.random.between(3, 9);
                self.sentence(size, 1).for_every()
            }
            _ => {
                let size = self.random.between(3, 9);
                self.sentence(size, spoken)
            }
        }
    }

    /// A sentence about the thing spoken of last: where it leads, or what leads to it.
    fn of_each(&mut self, spoken: u8) -> Sentence {
        let size = self.random.between(1, 4);
        let part = self.relation(size, spoken);
        let thing = Relation::Thing(0);
        match self.random.below(4) {
            0 => thing.after(part).some(),
            1 => part.after(thing).some(),
            2 => thing.clone().after(part).after(thing).none(),
            _ => Relation::All.within(thing.or(part.firsts())).not(),
        }
    }

    /// A sentence about which of several things spoken of lead to which.
    fn of_several(&mut self) -> Sentence {
        let deep = self.random.between(2, usize::from(self.deepest)) as u8;
        let mut sentence = self.link(deep);
        for _ in 0..self.random.below(3) {
            let link = self.link(deep);
            let either = self.random.chance(1, 3);
            sentence = if either { sentence.either(link) } else { sentence.both(link) };
        }
        for _ in 0..deep {
            let every = self.random.chance(1, 2);
            sentence = if every { sentence.for_every() } else { sentence.for_some() };
        }
        sentence
    }

    /// That one thing spoken of leads to another by some relation, or does not.
    fn link(&mut self, spoken: u8) -> Sentence {
        let size = self.random.between(1, 3);
        let part = self.relation(size, 0);
        let mut thing = || Relation::Thing(self.random.below(usize::from(spoken)) as u8);
        let link = thing().after(part).after(thing());
        if self.random.chance(1, 4) { link.none() } else { link.some() }
    }
}
