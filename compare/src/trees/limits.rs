//! Limits to read an archive under.

use super::Random;
use crate::model::{Limits, SERVER, VIEWER};

/// Limits for an archive of so many bytes: once in four the viewer's, else a length at an end or about the archive's own, and a depth from 0 to
/// 17 or at an end. Some of the numbers that count as the server's are small in their lower 8 or 32 bits.
pub fn limits(length: usize, random: &mut Random) -> Limits {
    if random.one_in(4) {
        return VIEWER;
    }
    let depth = random.below(18);
    Limits {
        longest: random.pick(&[
            0,
            length.saturating_sub(1),
            length,
            length,
            length + 1,
            VIEWER.longest,
            SERVER.longest,
            SERVER.longest,
            SERVER.longest + 1,
            1 << 32,
            usize::MAX,
            usize::MAX,
        ]),
        depth: random.pick(&[
            depth,
            depth,
            depth,
            depth,
            SERVER.depth,
            1 << 8 | depth,
            1 << 32 | depth,
            usize::MAX,
        ]),
    }
}

/// Limits that these are within, for the same archive: the server's, or drawn ones that are as large.
pub fn larger(smaller: Limits, length: usize, random: &mut Random) -> Limits {
    match random.one_in(2) {
        true => SERVER.and(smaller),
        false => limits(length, random).and(smaller),
    }
}
