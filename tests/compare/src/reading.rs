//! Which byte strings are descriptions: asked of no things at all, with ample work and
//! out, the call must refuse just what the reader here refuses. What it takes it must
//! also answer rightly for the empty picture.
//!
//! First come strings made by rule, at every edge of what a description may be, however
//! few are asked for; then random ones up to the count, half of them damaged descriptions.

use crate::call::Caller;
use crate::damage::{damage, word};
use crate::description::Description;
use crate::promise::{Case, Difference};
use crate::random::Random;
use crate::sample;
use crate::shrink;
use crate::tally::{Tally, compare};

const OUT: usize = 64;
const WORK: usize = 131_072;

pub fn run(caller: &mut Caller, seed: u64, count: usize) -> bool {
    let mut random = Random::new(seed ^ 0x7265_6164);
    let mut strings = heads();
    strings.extend(numbers());
    strings.extend(nested());
    let made = strings.len();
    strings.extend((made..count).map(|_| string(&mut random)));

    let mut tally = Tally::default();
    let mut descriptions = 0;
    for bytes in &strings {
        descriptions += usize::from(Description::read(bytes).is_some());
        tally.count(differs(caller, bytes));
    }
    if let Some(difference) = tally.first.take() {
        tally.first = Some(shrunk(caller, difference));
    }
    let (cases, differ) = (tally.cases, tally.differ);
    println!("reading: {cases} byte strings, {descriptions} descriptions, {differ} differ");
    tally.conclude()
}

fn differs(caller: &mut Caller, bytes: &[u8]) -> Option<Difference> {
    let case = Case { bytes: bytes.to_vec(), most: 0, out: OUT, work: WORK };
    compare(caller, "reading", &case, case.expected())
}

fn shrunk(caller: &mut Caller, difference: Difference) -> Difference {
    let seed = difference.case.bytes.clone();
    let (bytes, difference) = shrink::bytes(seed, difference, |bytes| differs(caller, bytes));
    match Description::read(&bytes) {
        Some(tree) => shrink::tree(tree, difference, |tree| differs(caller, &tree.write())).1,
        None => difference,
    }
}

fn string(random: &mut Random) -> Vec<u8> {
    let size = if random.chance(1, 8) { 150 } else { 25 };
    let size = random.between(1, size);
    match random.below(16) {
        0..=6 => damaged(random, size),
        7 => {
            let length = random.between(100, 520);
            let mut bytes = sample::of_length(random, length);
            damage(random, &mut bytes);
            bytes
        }
        8..=10 => sample::plain(random, size).write(),
        11 => {
            let length = [511, 512, 513, random.between(100, 520)][random.below(4)];
            sample::of_length(random, length)
        }
        12..=14 => {
            let relations = random.below(10) as u8;
            let words = (0..random.between(0, 12)).map(|_| word(random)).collect::<Vec<_>>();
            [vec![relations], words].concat()
        }
        _ => (0..random.below(520)).map(|_| random.byte()).collect(),
    }
}

fn damaged(random: &mut Random, size: usize) -> Vec<u8> {
    let mut bytes = sample::plain(random, size).write();
    damage(random, &mut bytes);
    bytes
}

/// Every byte as the head of a sentence and of a relation, with each number of parts.
fn heads() -> Vec<Vec<u8>> {
    let frames: [(&[u8], &[u8]); 10] = [
        (&[], &[]),
        (&[1], &[]),
        (&[1], &[2]),
        (&[1], &[2, 2]),
        (&[1], &[21, 2]),
        (&[1], &[21, 2, 21, 2]),
        (&[1, 21], &[]),
        (&[1, 21], &[2]),
        (&[1, 21], &[2, 2]),
        (&[1, 24, 21], &[0]),
    ];
    let fill = |head: u8| frames.map(|(before, behind)| [before, &[head], behind].concat());
    (0..=255).flat_map(fill).chain([Vec::new()]).collect()
}

/// Every number at its edge: of relations, of named ones, of things, of 'for every'.
fn numbers() -> Vec<Vec<u8>> {
    let mut strings = Vec::new();
    for relations in (0..=10).chain([254, 255]) {
        strings.push(vec![relations, 21, 2]);
        for number in (0..=10).chain([255]) {
            strings.push(vec![relations, 21, 0, number]);
            strings.push(vec![relations, 20, 2, 0, number]);
        }
    }
    for deep in 0..=7 {
        for thing in (0..=8).chain([255]) {
            let every = vec![24; deep];
            strings.push([&[1], &every[..], &[21, 1, thing]].concat());
            // Leaving a 'for every' ends its thing, and gives its depth back.
            strings.push([&[1, 23], &every[..], &[21, 2, 21, 1, thing]].concat());
            strings.push([&[1, 23], &every[..], &[21, 2], &every[..], &[21, 1, thing]].concat());
            strings.push([&[1, 24, 23], &every[..], &[21, 2, 21, 1, thing]].concat());
        }
    }
    strings
}

/// Deep nesting on every side, about as long as a description may be and beyond.
fn nested() -> Vec<Vec<u8>> {
    let mut strings = Vec::new();
    for length in (498..=502).chain(508..=516).chain([600, 2000]) {
        for unary in [8, 9, 10] {
            strings.push([&[1, 21], &vec![unary; length - 3][..], &[2]].concat());
        }
        strings.push([&[1], &vec![22; length - 3][..], &[21, 2]].concat());
        for binary in [4, 5, 6, 7] {
            let deep = (length - 3) / 2;
            let (heads, leaves) = (vec![binary; deep], vec![2; deep + 1]);
            let pairs = [binary, 3].repeat(deep);
            strings.push([&[1, 21], &heads[..], &leaves[..]].concat());
            strings.push([&[1, 21], &pairs[..], &[2]].concat());
            strings.push([&[1, 21], &heads[..], &leaves[1..]].concat());
        }
        let deep = (length - 3) / 3;
        strings.push([&[1], &vec![23; deep][..], &[21, 2].repeat(deep + 1)[..]].concat());
        strings.push([&[1], &[23, 21, 2].repeat(deep)[..], &[21, 2]].concat());
        strings.push([&[1], &[23, 21, 2].repeat(deep)[..], &[21]].concat());
    }
    strings
}
