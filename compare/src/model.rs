//! Document 01's text without rkyv: the check, the list of an accepted archive, certification and ranges, read off the bytes; what refuses
//! a build and an alignment step; key packing and column queries, also by document 02's second packing.
//!
//! What is read off the bytes is read at any layout (`Layout`), and the check takes any limits (`Limits`). The functions
//! and sizes without them are those of the layout with 5 entries a node that rkyv is built for here, `OWN`, and of
//! document 01's limits, `SERVER`.
//!
//! rkyv has no counterpart to refusals 1, 8 to 14, 17, 18 and 24 nor to key packing, and answers crossed ranges
//! otherwise; there this module is the reference. Where rkyv has one, the program `compare` holds this module to it.

mod keys;
mod layout;
mod limits;
mod ranges;
mod tree;

pub use keys::{pack, seen, threshold, unpack, KeyFields, Packing, PACKINGS};
pub use layout::{Layout, COMMON, KEYS, OUTSIDE, OWN, RANGE};
pub use limits::{Limits, SERVER, VIEWER};
pub use ranges::{column, crosses, in_column, range, Column};
pub use tree::{Entry, Node};

/// Refusals 11 and 13: "More than 40,000 entries are given." "The header is longer than 4,096 bytes."
pub const MOST_GIVEN: usize = 40_000;
pub const LONGEST_HEADER: u64 = 4_096;

/// Sizes of rkyv's layout here.
pub const ENTRIES: usize = OWN.entries;
pub const NODE: usize = OWN.head();
pub const LEAF: usize = OWN.leaf();
pub const INNER: usize = OWN.inner();
pub const RECORD: usize = OWN.record();

/// The offset field of a child: 0 to 4 are the lesser ones, 5 is the greater one.
pub fn child(node: usize, index: usize) -> usize {
    OWN.child(node, index)
}

/// The check, 1 to 7, and the recorded count.
pub fn check(bytes: &[u8]) -> Result<u32, u8> {
    OWN.check(SERVER, bytes).map(narrow)
}

/// The reachable nodes of an accepted archive, each before its children.
pub fn nodes(bytes: &[u8]) -> Vec<Node> {
    OWN.nodes(bytes)
}

/// The list of an accepted archive.
pub fn list(bytes: &[u8]) -> Vec<Entry> {
    OWN.list(bytes)
}

/// What keeps an accepted archive from being certified: 8, else 9, else nothing.
pub fn fault(bytes: &[u8]) -> Option<u8> {
    OWN.fault(bytes)
}

/// Certification, 1 to 9, and the recorded count.
pub fn certify(bytes: &[u8]) -> Result<u32, u8> {
    OWN.certify(SERVER, bytes).map(narrow)
}

/// A number that an answer has, as the comparison has it. What 32 bits do not hold becomes the largest that they hold,
/// which is no right answer.
pub fn narrow(number: u64) -> u32 {
    number.try_into().unwrap_or(u32::MAX)
}

/// What stands before a build of these lists, behind a header of this length, and in an output of this length, which the archive and what
/// is before it fill up to `end`: 10 to 14, the first of them, or nothing.
pub fn build_fault(
    keys: &[u64],
    values: &[u64],
    header: u64,
    end: impl FnOnce() -> usize,
    output: usize,
) -> Option<u8> {
    if keys.len() != values.len() {
        Some(10)
    } else if keys.len() > MOST_GIVEN {
        Some(11)
    } else if keys.windows(2).any(|pair| pair[1] <= pair[0]) {
        Some(12)
    } else if header > LONGEST_HEADER {
        Some(13)
    } else if end() > output {
        Some(14)
    } else {
        None
    }
}

/// Whether 17 lets an alignment step through: "Alignment is not 1, 2, 4, 8, 16 or 32, or the padded position passes the largest u64."
pub fn aligns(position: u64, alignment: u64) -> bool {
    matches!(alignment, 1 | 2 | 4 | 8 | 16 | 32)
        && position.checked_next_multiple_of(alignment).is_some()
}
