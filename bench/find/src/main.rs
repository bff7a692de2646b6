//! The library's one exported call, `pictures_find`, on a description, with what it took.
//!
//! Build the library first, in the repository: `tools/staticlib pictures`. Then, here:
//!
//!     cargo run --release -- MOST < DESCRIPTION
//!
//! A description is its bytes as numbers with blanks between. The answer is on a line that
//! begins with `answer`: `first` and the number of things, and then a line with the bits;
//! `none`; or `no description`, `out full` or `few`. Lines with what it took follow: seconds
//! in the call, the words that were lent, and the most memory that was resident.

mod lent;

use lent::Lent;
use std::io::Read;
use std::process::ExitCode;
use std::time::Instant;

unsafe extern "C" {
    fn pictures_find(
        description: *const u8,
        description_length: usize,
        most: u32,
        out: *mut u8,
        out_length: usize,
        work: *mut u32,
        work_length: usize,
    ) -> u32;
}

const NONE: u32 = 0x100;
const NO_DESCRIPTION: u32 = 0x101;
const OUT_FULL: u32 = 0x102;
const FEW: u32 = 0x103;

const USAGE: &str = "usage: find MOST < DESCRIPTION, its bytes as numbers";

fn main() -> ExitCode {
    match run() {
        Ok(()) => ExitCode::SUCCESS,
        Err(what) => {
            eprintln!("find: {what}");
            ExitCode::from(1)
        }
    }
}

fn run() -> Result<(), String> {
    let arguments: Vec<String> = std::env::args().skip(1).collect();
    let [most] = &arguments[..] else {
        return Err(USAGE.into());
    };
    let most: u32 = most.parse().map_err(|_| format!("'{most}' is no number; {USAGE}"))?;
    let description = read()?;
    let mut out = vec![7; 8 * (most as usize).pow(2)];
    let mut work = Lent::new(floor(&description, most as usize)?)?;
    let start = Instant::now();
    let code = find(&description, most, &mut out, work.words());
    let seconds = start.elapsed().as_secs_f64();
    match code {
        NONE => println!("answer none"),
        NO_DESCRIPTION => println!("answer no description"),
        OUT_FULL => println!("answer out full"),
        FEW => println!("answer few"),
        things if things <= most => {
            let size = usize::from(description[0]) * (things as usize).pow(2);
            let bits: String = out[..size].iter().map(u8::to_string).collect();
            println!("answer first {things}");
            println!("bits {bits}");
        }
        code => return Err(format!("the call answered {code:#x}, which is no answer")),
    }
    println!("seconds {seconds:.6}");
    println!("words lent {}", work.words().len());
    println!("kilobytes resident {}", resident()?);
    Ok(())
}

/// The bytes of the description, from numbers with blanks between.
fn read() -> Result<Vec<u8>, String> {
    let mut text = String::new();
    std::io::stdin().read_to_string(&mut text).map_err(|error| error.to_string())?;
    let byte = |word: &str| word.parse().map_err(|_| format!("'{word}' is no byte"));
    text.split_whitespace().map(byte).collect()
}

/// The words that have to be lent: 65,536 + 64 × s × (n + 1)^(3 + q), for s bytes with 'for
/// every' q deep.
fn floor(description: &[u8], most: usize) -> Result<usize, String> {
    let power = (most + 1).checked_pow(3 + depth(description));
    let words = power.and_then(|power| power.checked_mul(64 * description.len()));
    words.and_then(|words| words.checked_add(65_536)).ok_or("the floor is too large".into())
}

/// How deep 'for every' stands in a description; of other bytes, anything up to four.
fn depth(description: &[u8]) -> u32 {
    let (mut deepest, mut at) = (0, 1);
    // How deep each sentence stands that is still to be read, the next one last.
    let mut sentences = vec![0];
    // How many relations are still to be read before it.
    let mut relations = 0;
    while let Some(byte) = description.get(at) {
        at += 1;
        if relations > 0 {
            relations -= 1;
            match byte {
                0 | 1 => at += 1,
                4..=7 => relations += 2,
                8..=10 => relations += 1,
                _ => {}
            }
            continue;
        }
        let Some(here) = sentences.pop() else { break };
        match byte {
            20 => relations = 2,
            21 => relations = 1,
            22 => sentences.push(here),
            23 => sentences.extend([here, here]),
            24 => {
                deepest = deepest.max(here + 1);
                sentences.push(here + 1);
            }
            _ => break,
        }
    }
    deepest.min(4)
}

fn find(description: &[u8], most: u32, out: &mut [u8], work: &mut [u32]) -> u32 {
    // SAFETY: each pointer and length come from one slice that outlives the call, those that
    // are written through from slices lent for writing, and none overlap.
    unsafe {
        pictures_find(
            description.as_ptr(),
            description.len(),
            most,
            out.as_mut_ptr(),
            out.len(),
            work.as_mut_ptr(),
            work.len(),
        )
    }
}

/// The most memory that this process had resident, in kilobytes.
fn resident() -> Result<u64, String> {
    let status = std::fs::read_to_string("/proc/self/status").map_err(|error| error.to_string())?;
    let peak = status.lines().find_map(|line| line.strip_prefix("VmHWM:"));
    let kilobytes = peak.and_then(|peak| peak.split_whitespace().next()?.parse().ok());
    kilobytes.ok_or("/proc/self/status has no VmHWM".into())
}
