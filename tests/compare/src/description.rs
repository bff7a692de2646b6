//! Descriptions as owned trees: one enum for relations and one for sentences, a strict
//! reader from bytes, a writer back to bytes, and short words to build trees by hand.
//!
//! The reader is plain recursive descent into boxes and refuses by `None`. It is the
//! program's own opinion of which bytes are a description: a number of relations from 1
//! to 8, then exactly one sentence in prefix order and nothing behind it, at most 512
//! bytes in all, every relation named being one of the number given, every thing being
//! spoken of by a 'for every' around it, and 'for every' at most four deep.

pub const MOST_BYTES: usize = 512;
pub const MOST_RELATIONS: u8 = 8;
pub const DEEPEST: u8 = 4;

#[derive(Clone, Debug, PartialEq, Eq)]
pub enum Relation {
    Named(u8),
    /// A thing spoken of, standing to itself; 0 is the one spoken of last.
    Thing(u8),
    /// All things, each to itself.
    All,
    Nothing,
    Or(Box<Relation>, Box<Relation>),
    And(Box<Relation>, Box<Relation>),
    ButNot(Box<Relation>, Box<Relation>),
    After(Box<Relation>, Box<Relation>),
    Turned(Box<Relation>),
    OnceOrMore(Box<Relation>),
    Firsts(Box<Relation>),
}

#[derive(Clone, Debug, PartialEq, Eq)]
pub enum Sentence {
    Within(Relation, Relation),
    SomePair(Relation),
    Not(Box<Sentence>),
    Both(Box<Sentence>, Box<Sentence>),
    ForEvery(Box<Sentence>),
}

#[derive(Clone, Debug, PartialEq, Eq)]
pub struct Description {
    pub relations: u8,
    pub sentence: Sentence,
}

impl Description {
    pub fn new(relations: u8, sentence: Sentence) -> Description {
        Description { relations, sentence }
    }

    /// The description that the bytes are the writing of, if they are of one.
    pub fn read(bytes: &[u8]) -> Option<Description> {
        if bytes.len() > MOST_BYTES {
            return None;
        }
        let (&relations, rest) = bytes.split_first()?;
        if relations == 0 || relations > MOST_RELATIONS {
            return None;
        }
        let mut reader = Reader { rest, relations };
        let sentence = reader.sentence(0)?;
        reader.rest.is_empty().then_some(Description { relations, sentence })
    }

    pub fn write(&self) -> Vec<u8> {
        let mut bytes = vec![self.relations];
        self.sentence.write(&mut bytes);
        bytes
    }

    /// How deep 'for every' stands in it.
    pub fn depth(&self) -> u32 {
        self.sentence.depth()
    }
}

struct Reader<'a> {
    rest: &'a [u8],
    relations: u8,
}

impl Reader<'_> {
    fn byte(&mut self) -> Option<u8> {
        let (&byte, rest) = self.rest.split_first()?;
        self.rest = rest;
        Some(byte)
    }

    /// A byte that is a number less than `bound`.
    fn number(&mut self, bound: u8) -> Option<u8> {
        self.byte().filter(|&number| number < bound)
    }

    /// A sentence in which `spoken` things may be spoken of.
    fn sentence(&mut self, spoken: u8) -> Option<Sentence> {
        Some(match self.byte()? {
            20 => {
                let inner = self.relation(spoken)?;
                Sentence::Within(inner, self.relation(spoken)?)
            }
            21 => Sentence::SomePair(self.relation(spoken)?),
            22 => Sentence::Not(Box::new(self.sentence(spoken)?)),
            23 => {
                let first = self.sentence(spoken)?;
                Sentence::Both(Box::new(first), Box::new(self.sentence(spoken)?))
            }
            24 if spoken < DEEPEST => Sentence::ForEvery(Box::new(self.sentence(spoken + 1)?)),
            _ => return None,
        })
    }

    fn relation(&mut self, spoken: u8) -> Option<Relation> {
        Some(match self.byte()? {
            0 => Relation::Named(self.number(self.relations)?),
            1 => Relation::Thing(self.number(spoken)?),
            2 => Relation::All,
            3 => Relation::Nothing,
            4 => self.two(spoken, Relation::or)?,
            5 => self.two(spoken, Relation::and)?,
            6 => self.two(spoken, Relation::but_not)?,
            7 => self.two(spoken, Relation::after)?,
            8 => self.relation(spoken)?.turned(),
            9 => self.relation(spoken)?.once_or_more(),
            10 => self.relation(spoken)?.firsts(),
            _ => return None,
        })
    }

    fn two(&mut self, spoken: u8, make: fn(Relation, Relation) -> Relation) -> Option<Relation> {
        let first = self.relation(spoken)?;
        Some(make(first, self.relation(spoken)?))
    }
}

impl Relation {
    fn write(&self, bytes: &mut Vec<u8>) {
        let (head, parts): (u8, [Option<&Relation>; 2]) = match self {
            Relation::Named(number) => return bytes.extend([0, *number]),
            Relation::Thing(number) => return bytes.extend([1, *number]),
            Relation::All => (2, [None, None]),
            Relation::Nothing => (3, [None, None]),
            Relation::Or(a, b) => (4, [Some(a), Some(b)]),
            Relation::And(a, b) => (5, [Some(a), Some(b)]),
            Relation::ButNot(a, b) => (6, [Some(a), Some(b)]),
            Relation::After(a, b) => (7, [Some(a), Some(b)]),
            Relation::Turned(a) => (8, [Some(a), None]),
            Relation::OnceOrMore(a) => (9, [Some(a), None]),
            Relation::Firsts(a) => (10, [Some(a), None]),
        };
        bytes.push(head);
        for part in parts.into_iter().flatten() {
            part.write(bytes);
        }
    }

    pub fn or(self, other: Relation) -> Relation {
        Relation::Or(Box::new(self), Box::new(other))
    }

    pub fn and(self, other: Relation) -> Relation {
        Relation::And(Box::new(self), Box::new(other))
    }

    pub fn but_not(self, other: Relation) -> Relation {
        Relation::ButNot(Box::new(self), Box::new(other))
    }

    /// One after the other: `self` is the first step and `other` the second.
    pub fn after(self, other: Relation) -> Relation {
        Relation::After(Box::new(self), Box::new(other))
    }

    pub fn turned(self) -> Relation {
        Relation::Turned(Box::new(self))
    }

    pub fn once_or_more(self) -> Relation {
        Relation::OnceOrMore(Box::new(self))
    }

    pub fn firsts(self) -> Relation {
        Relation::Firsts(Box::new(self))
    }

    pub fn within(self, other: Relation) -> Sentence {
        Sentence::Within(self, other)
    }

    pub fn some(self) -> Sentence {
        Sentence::SomePair(self)
    }

    /// No pair stands in it.
    pub fn none(self) -> Sentence {
        self.some().not()
    }
}

impl Sentence {
    fn write(&self, bytes: &mut Vec<u8>) {
        match self {
            Sentence::Within(inner, outer) => {
                bytes.push(20);
                inner.write(bytes);
                outer.write(bytes);
            }
            Sentence::SomePair(relation) => {
                bytes.push(21);
                relation.write(bytes);
            }
            Sentence::Not(sentence) => {
                bytes.push(22);
                sentence.write(bytes);
            }
            Sentence::Both(first, second) => {
                bytes.push(23);
                first.write(bytes);
                second.write(bytes);
            }
            Sentence::ForEvery(sentence) => {
                bytes.push(24);
                sentence.write(bytes);
            }
        }
    }

    fn depth(&self) -> u32 {
        match self {
            Sentence::Within(..) | Sentence::SomePair(_) => 0,
            Sentence::Not(sentence) => sentence.depth(),
            Sentence::Both(first, second) => first.depth().max(second.depth()),
            Sentence::ForEvery(sentence) => 1 + sentence.depth(),
        }
    }

    /// The negation, by one more 'not'.
    #[allow(clippy::should_implement_trait)]
    pub fn not(self) -> Sentence {
        Sentence::Not(Box::new(self))
    }

    pub fn both(self, other: Sentence) -> Sentence {
        Sentence::Both(Box::new(self), Box::new(other))
    }

    /// One of the two at least, as a 'not' of 'both'.
    pub fn either(self, other: Sentence) -> Sentence {
        self.not().both(other.not()).not()
    }

    pub fn for_every(self) -> Sentence {
        Sentence::ForEvery(Box::new(self))
    }

    /// For some thing, as a 'not' of 'for every'.
    pub fn for_some(self) -> Sentence {
        self.not().for_every().not()
    }

    /// There are two things or more: some thing is not all there is.
    pub fn two_at_least() -> Sentence {
        Relation::All.within(Relation::Thing(0)).not().for_some()
    }

    /// There are three things or more: there is one, and no two are all there is.
    pub fn three_at_least() -> Sentence {
        let two = Relation::Thing(0).or(Relation::Thing(1));
        let more = Relation::All.within(two).not();
        Relation::All.some().both(more.for_every().for_every())
    }
}

#[cfg(test)]
mod tests {
    use super::*;

    /// Every thing leads somewhere, none to itself, each to itself in some number of steps.
    const WORKED: [u8; 19] = [1, 23, 20, 2, 10, 0, 0, 23, 22, 21, 5, 0, 0, 2, 20, 2, 9, 0, 0];

    #[test]
    fn a_description_is_read_and_written_back() {
        let step = || Relation::Named(0);
        let somewhere = Relation::All.within(step().firsts());
        let round = Relation::All.within(step().once_or_more());
        let sentence = somewhere.both(step().and(Relation::All).none().both(round));
        let description = Description::new(1, sentence);
        assert_eq!(description.write(), WORKED);
        assert_eq!(Description::read(&WORKED), Some(description));
    }

    #[test]
    fn no_beginning_and_no_continuation_of_a_description_is_one() {
        for length in 0..WORKED.len() {
            assert_eq!(Description::read(&WORKED[..length]), None);
        }
        for byte in 0..=255 {
            assert_eq!(Description::read(&[&WORKED[..], &[byte]].concat()), None);
        }
    }
}
