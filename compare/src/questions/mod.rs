//! The sample that the program `cases` replays: questions to the proved calls, as bytes of its input, and the lines that it must print. Archives
//! and builds have pointers of the bits that rkyv is built for.

pub mod archives;
mod asked;
mod build;
pub mod builds;
mod limits;
mod packed;
pub mod parts;

use crate::model::Packing;
use crate::rkyv_map::BITS;
use crate::trees::Random;

/// The width of pointers, as the input has it.
const WIDTH: u8 = BITS as u8;

/// The entries a node of generated archives and builds: each number that a layout has, 3 and 15 more often, 5 most; and those at the ends of what
/// 24 refuses.
fn entries(random: &mut Random) -> usize {
    match random.below(16) {
        0..=5 => 5,
        6..=8 => 3,
        9..=11 => 15,
        12..=14 => 3 + random.below(13),
        _ => random.pick(&[0, 1, 2, 16, 17, 255]),
    }
}

/// A question's bytes, its kind first, and the lines of its answer.
pub struct Question {
    pub bytes: Vec<u8>,
    pub lines: Vec<String>,
}

/// A list's length, as the input has it.
fn length(length: usize) -> [u8; 4] {
    u32::try_from(length).expect("a short list").to_le_bytes()
}

/// A packing, as the input has it.
fn number(packing: Packing) -> u8 {
    match packing {
        Packing::TwosComplement => 0,
        Packing::Plus128 => 1,
    }
}

/// A line that begins with the call's name and has its answer, or the refusal.
fn line<T>(call: &str, answer: Result<T, u8>, text: impl FnOnce(T) -> String) -> String {
    match answer {
        Ok(answer) => format!("{call} {}", text(answer)),
        Err(number) => format!("{call} refused {number}"),
    }
}
