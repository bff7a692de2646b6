//! Damage to descriptions: bytes flipped, exchanged for their like, cut, doubled and put
//! in. Half of the kinds keep the shape, so that the damaged bytes are often still a
//! description, only another one, or fail by one number that is too large.

use crate::random::Random;

/// Damages the bytes once or twice.
pub fn damage(random: &mut Random, bytes: &mut Vec<u8>) {
    for _ in 0..random.between(1, 2) {
        if bytes.is_empty() {
            bytes.push(random.byte());
        }
        once(random, bytes);
    }
}

fn once(random: &mut Random, bytes: &mut Vec<u8>) {
    let at = random.below(bytes.len());
    let length = random.between(1, 6).min(bytes.len() - at);
    match random.below(14) {
        0..=5 => bytes[at] = alike(random, bytes[at]),
        6 => bytes[at] ^= 1 << random.below(8),
        7 => bytes[at] = bytes[at].wrapping_add(if random.chance(1, 2) { 1 } else { 255 }),
        8 => bytes[at] = word(random),
        9 => bytes.truncate(at),
        10 => drop(bytes.drain(at..at + length)),
        11 => {
            let again = bytes[at..at + length].to_vec();
            bytes.splice(at..at, again);
        }
        12 => bytes.insert(at, [8, 9, 10, 22][random.below(4)]),
        _ => bytes.insert(at, word(random)),
    }
}

/// Another byte that takes as many parts as the one given, where there is one.
fn alike(random: &mut Random, byte: u8) -> u8 {
    let another = |random: &mut Random, least: u8, count: u8| {
        let further = random.between(1, usize::from(count) - 1) as u8;
        least + (byte - least + further) % count
    };
    match byte {
        0 | 1 => another(random, 0, 2),
        2 | 3 => another(random, 2, 2),
        4..=7 => another(random, 4, 4),
        8..=10 => another(random, 8, 3),
        22 => 24,
        24 => 22,
        _ => word(random),
    }
}

/// A byte that means something, mostly.
pub fn word(random: &mut Random) -> u8 {
    match random.below(8) {
        0..=3 => random.below(11) as u8,
        4..=6 => random.between(20, 24) as u8,
        _ => random.byte(),
    }
}
