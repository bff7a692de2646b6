//! The exported call behind a safe wrapper, which also watches what the call leaves.
//!
//! `out` and the work area stand between guards, and `out` is filled with bytes that are
//! no bits, so that a byte written too many, or a bit not written, shows. The work area
//! keeps whatever the last call left in it, since the call may not count on what it
//! finds there. Behind the description stand bytes that would complete one that is cut
//! off, so that reading past its end shows too.

use crate::brute::Found;
use crate::promise::{Answer, Case, decimal};

unsafe extern "C" {
    fn pictures_find(
        description: *const u8,
        description_len: usize,
        most: u32,
        out: *mut u8,
        out_len: usize,
        work: *mut u32,
        work_len: usize,
    ) -> u32;
}

const NONE: u32 = 0x100;
const NO_DESCRIPTION: u32 = 0x101;
const OUT_FULL: u32 = 0x102;
const FEW: u32 = 0x103;

/// Guards on both sides; an odd number of bytes, so that `out` starts at no round address.
const GUARD: usize = 13;
const GUARD_WORD: u32 = 0xA5C3_965A;
const COMPLETION: [u8; 16] = [2; 16];

/// The byte that `out` and its guards hold at a place before the call: never a bit.
fn filling(place: usize) -> u8 {
    0x80 | (place.wrapping_mul(29) & 0x7F) as u8
}

pub struct Caller {
    work: Vec<u32>,
    /// Whether each case is printed before the call, for calls that never come back.
    trace: bool,
}

impl Caller {
    pub fn new(trace: bool) -> Caller {
        Caller { work: Vec::new(), trace }
    }

    /// The call's answer, or `Broken` if it left something other than promised.
    pub fn ask(&mut self, case: &Case) -> Answer {
        if self.trace {
            let Case { bytes, most, out, work } = case;
            eprintln!("most {most}, out {out}, work {work}, bytes {}", decimal(bytes));
        }
        let mut description = case.bytes.clone();
        description.extend(COMPLETION);
        let mut out: Vec<u8> = (0..case.out + 2 * GUARD).map(filling).collect();
        self.prepare(case.work);
        let code = call(
            &description[..case.bytes.len()],
            case.most,
            &mut out[GUARD..GUARD + case.out],
            &mut self.work[GUARD..GUARD + case.work],
        );
        if !description.starts_with(&case.bytes) {
            return Answer::Broken(format!("answered {code:#x} and changed the description"));
        }
        if !self.guarded(case.work) {
            return Answer::Broken(format!("answered {code:#x} and wrote beside the work area"));
        }
        judge(case, code, &out)
    }

    /// Makes the work area long enough and sets the guards on both sides of it.
    fn prepare(&mut self, words: usize) {
        let length = words + 2 * GUARD;
        if self.work.len() < length {
            self.work.resize(length, 0xDEAD_BEEF);
        }
        self.work[..GUARD].fill(GUARD_WORD);
        self.work[GUARD + words..length].fill(GUARD_WORD);
    }

    fn guarded(&self, words: usize) -> bool {
        let behind = GUARD + words..words + 2 * GUARD;
        let mut guards = self.work[..GUARD].iter().chain(&self.work[behind]);
        guards.all(|&word| word == GUARD_WORD)
    }
}

fn call(description: &[u8], most: u32, out: &mut [u8], work: &mut [u32]) -> u32 {
    // SAFETY: each pointer and length come from one slice that outlives the call, those
    // that are written through from slices lent for writing, and none overlap. That the
    // call keeps to them is what is being compared.
    unsafe {
        pictures_find(
            description.as_ptr(),
            description.len(),
            most,
            out.as_mut_ptr(),
            out.len(),
            work.as_mut_ptr(),
            work.len(),
        )
    }
}

/// The answer that the code stands for, if `out` with its guards was left as it asks.
fn judge(case: &Case, code: u32, out: &[u8]) -> Answer {
    let answer = match code {
        NONE => Answer::None,
        NO_DESCRIPTION => Answer::NoDescription,
        OUT_FULL => Answer::OutFull,
        FEW => Answer::Few,
        things if things <= case.most => {
            let relations = case.bytes.first().map_or(0, |&byte| usize::from(byte));
            let size = relations.saturating_mul(things as usize).saturating_mul(things as usize);
            let Some(bits) = out[GUARD..GUARD + case.out].get(..size) else {
                return Answer::Broken(format!("{things} things, whose bits out has no room for"));
            };
            Answer::First(Found { things: things as usize, bits: bits.to_vec() })
        }
        code => return Answer::Broken(format!("answered {code:#x}, which is no answer")),
    };
    let written = match &answer {
        Answer::First(found) => GUARD..GUARD + found.bits.len(),
        _ => 0..0,
    };
    let changed = (0..out.len()).find(|at| !written.contains(at) && out[*at] != filling(*at));
    match changed {
        Some(at) => {
            let place = at as i64 - GUARD as i64;
            Answer::Broken(format!("answered {code:#x} and changed byte {place} of out"))
        }
        None => answer,
    }
}
