//! The first picture by trying all of them, in order: no things, one thing, two, and of
//! as many things the bits counted up with the first bit the weightiest. Nothing is left
//! out and nothing is learnt, so that there is nothing to get wrong but the order itself.

use crate::description::Description;
use crate::meaning::Picture;

/// A picture as its number of things and its bits, one a byte.
#[derive(Clone, Debug, PartialEq, Eq)]
pub struct Found {
    pub things: usize,
    pub bits: Vec<u8>,
}

/// The first picture of at most `most` things that is of the description.
pub fn first(description: &Description, most: usize) -> Option<Found> {
    (0..=most).find_map(|things| first_of(description, things))
}

fn first_of(description: &Description, things: usize) -> Option<Found> {
    let mut bits = vec![false; usize::from(description.relations) * things * things];
    loop {
        if Picture::new(description.relations, things, &bits).is_of(description) {
            return Some(Found { things, bits: bits.into_iter().map(u8::from).collect() });
        }
        if !advance(&mut bits) {
            return None;
        }
    }
}

/// Goes to the next bits in order; false if there are none.
fn advance(bits: &mut [bool]) -> bool {
    for bit in bits.iter_mut().rev() {
        *bit = !*bit;
        if *bit {
            return true;
        }
    }
    false
}
