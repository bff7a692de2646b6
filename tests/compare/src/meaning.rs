//! What a description says of a picture, straight from the meaning of each word.
//!
//! A relation is a square table of truth values that is filled in cell by cell; no bits
//! of words are shifted anywhere. 'Once or more often' is what a depth-first walk from
//! each thing reaches, so that no number of steps has to be guessed.

use crate::description::{Description, Relation, Sentence};

pub const MOST_THINGS: usize = 8;

/// Which of some things stands to which.
#[derive(Clone, Copy)]
pub struct Pairs {
    things: usize,
    stand: [[bool; MOST_THINGS]; MOST_THINGS],
}

impl Pairs {
    pub fn new(things: usize, stands: impl Fn(usize, usize) -> bool) -> Pairs {
        let mut stand = [[false; MOST_THINGS]; MOST_THINGS];
        for (first, row) in stand.iter_mut().enumerate().take(things) {
            for (second, cell) in row.iter_mut().enumerate().take(things) {
                *cell = stands(first, second);
            }
        }
        Pairs { things, stand }
    }

    fn has(&self, first: usize, second: usize) -> bool {
        self.stand[first][second]
    }

    fn is_first(&self, thing: usize) -> bool {
        (0..self.things).any(|second| self.has(thing, second))
    }

    fn is_empty(&self) -> bool {
        !(0..self.things).any(|thing| self.is_first(thing))
    }

    fn once_or_more(&self) -> Pairs {
        let mut reached = [[false; MOST_THINGS]; MOST_THINGS];
        for (start, row) in reached.iter_mut().enumerate().take(self.things) {
            self.walk(start, row);
        }
        Pairs { things: self.things, stand: reached }
    }

    /// Marks what is reached from `thing`; `thing` itself only if some way leads to it.
    fn walk(&self, thing: usize, reached: &mut [bool; MOST_THINGS]) {
        for next in 0..self.things {
            if self.has(thing, next) && !reached[next] {
                reached[next] = true;
                self.walk(next, reached);
            }
        }
    }
}

/// A picture: one table for each relation, all over the same things.
pub struct Picture {
    things: usize,
    relations: Vec<Pairs>,
}

impl Picture {
    /// The picture that the bits write, relation by relation, first thing by first thing.
    pub fn new(relations: u8, things: usize, bits: &[bool]) -> Picture {
        let size = things * things;
        let table = |relation: usize| {
            Pairs::new(things, |first, second| bits[relation * size + first * things + second])
        };
        Picture { things, relations: (0..usize::from(relations)).map(table).collect() }
    }

    pub fn is_of(&self, description: &Description) -> bool {
        self.holds(&description.sentence, &mut Vec::new())
    }

    /// Whether the sentence holds, where `spoken` are the things spoken of, the last one last.
    fn holds(&self, sentence: &Sentence, spoken: &mut Vec<usize>) -> bool {
        match sentence {
            Sentence::Within(inner, outer) => {
                let (inner, outer) = (self.pairs(inner, spoken), self.pairs(outer, spoken));
                Pairs::new(self.things, |i, j| inner.has(i, j) && !outer.has(i, j)).is_empty()
            }
            Sentence::SomePair(relation) => !self.pairs(relation, spoken).is_empty(),
            Sentence::Not(sentence) => !self.holds(sentence, spoken),
            Sentence::Both(first, second) => {
                self.holds(first, spoken) && self.holds(second, spoken)
            }
            Sentence::ForEvery(sentence) => (0..self.things).all(|thing| {
                spoken.push(thing);
                let holds = self.holds(sentence, spoken);
                spoken.pop();
                holds
            }),
        }
    }

    fn pairs(&self, relation: &Relation, spoken: &[usize]) -> Pairs {
        let things = self.things;
        let of = |part: &Relation| self.pairs(part, spoken);
        match relation {
            Relation::Named(number) => self.relations[usize::from(*number)],
            Relation::Thing(number) => {
                let thing = spoken[spoken.len() - 1 - usize::from(*number)];
                Pairs::new(things, |i, j| i == thing && j == thing)
            }
            Relation::All => Pairs::new(things, |i, j| i == j),
            Relation::Nothing => Pairs::new(things, |_, _| false),
            Relation::Or(a, b) => {
                let (a, b) = (of(a), of(b));
                Pairs::new(things, |i, j| a.has(i, j) || b.has(i, j))
            }
            Relation::And(a, b) => {
                let (a, b) = (of(a), of(b));
                Pairs::new(things, |i, j| a.has(i, j) && b.has(i, j))
            }
            Relation::ButNot(a, b) => {
                let (a, b) = (of(a), of(b));
                Pairs::new(things, |i, j| a.has(i, j) && !b.has(i, j))
            }
            Relation::After(a, b) => {
                let (a, b) = (of(a), of(b));
                Pairs::new(things, |i, j| (0..things).any(|k| a.has(i, k) && b.has(k, j)))
            }
            Relation::Turned(a) => {
                let a = of(a);
                Pairs::new(things, |i, j| a.has(j, i))
            }
            Relation::OnceOrMore(a) => of(a).once_or_more(),
            Relation::Firsts(a) => {
                let a = of(a);
                Pairs::new(things, |i, j| i == j && a.is_first(i))
            }
        }
    }
}

#[cfg(test)]
mod tests {
    use super::*;

    /// Whether the sentence holds of three things that lead from 0 to 1 to 2 and no further.
    fn holds_of_a_way(sentence: Sentence) -> bool {
        let bits = [0, 1, 0, 0, 0, 1, 0, 0, 0].map(|bit| bit == 1);
        Picture::new(1, 3, &bits).is_of(&Description::new(1, sentence))
    }

    #[test]
    fn once_or_more_is_every_number_of_steps_but_none() {
        let step = || Relation::Named(0);
        let two = || step().after(step());
        assert!(holds_of_a_way(step().or(two()).within(step().once_or_more())));
        assert!(holds_of_a_way(step().once_or_more().within(step().or(two()))));
        assert!(holds_of_a_way(two().some().both(two().after(step()).none())));
    }

    #[test]
    fn the_thing_spoken_of_last_is_nought() {
        let leads = |from, to| {
            let step = Relation::Thing(from).after(Relation::Named(0));
            step.after(Relation::Thing(to)).some().for_every().for_some()
        };
        let from_one_to_all = Picture::new(1, 2, &[false, false, true, true]);
        assert!(from_one_to_all.is_of(&Description::new(1, leads(1, 0))));
        assert!(!from_one_to_all.is_of(&Description::new(1, leads(0, 1))));
    }

    #[test]
    fn firsts_are_not_seconds() {
        let ends = || Relation::Thing(0).after(Relation::Named(0)).none();
        let first = || Relation::Thing(0).within(Relation::Named(0).firsts());
        assert!(holds_of_a_way(ends().both(first().not()).for_some()));
        assert!(holds_of_a_way(ends().both(first()).for_some().not()));
    }
}
