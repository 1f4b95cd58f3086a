//! The layout of an archive as a value: where the parts of its nodes stand, and the numbers in its fields.

use std::ops::RangeInclusive;

use crate::rkyv_map::WIDTH;

/// How many bytes an offset or a count has, 2, 4 or 8, and how many entries a node has.
#[derive(Clone, Copy, Debug, PartialEq, Eq)]
pub struct Layout {
    pub width: usize,
    pub entries: usize,
}

/// Document 01's own: "32-bit pointers, E = 5 entries a node".
pub const COMMON: Layout = Layout {
    width: 4,
    entries: 5,
};

/// The layout of rkyv's map as it is by default: 5 entries a node, and pointers of the bits that rkyv is built for here.
pub const OWN: Layout = Layout::with(5);

/// The numbers of entries a node that a layout has.
pub const RANGE: RangeInclusive<usize> = 3..=15;

/// Numbers that are none: 24 refuses each call that names one of them, before every other refusal.
pub const OUTSIDE: [usize; 6] = [0, 1, 2, 16, 17, usize::MAX];

/// Where the keys of a node stand, behind its kind.
pub const KEYS: usize = 8;

impl Layout {
    /// The layout with so many entries a node and pointers of the bits that rkyv is built for here.
    pub const fn with(entries: usize) -> Self {
        Self {
            width: WIDTH,
            entries,
        }
    }

    /// Where the values of a node stand.
    pub const fn values(self) -> usize {
        KEYS + 8 * self.entries
    }

    /// The size of what nodes of both kinds have: a leaf's count and an inner node's offsets stand behind it.
    pub const fn head(self) -> usize {
        KEYS + 16 * self.entries
    }

    pub const fn leaf(self) -> usize {
        (self.head() + self.width).next_multiple_of(8)
    }

    pub const fn inner(self) -> usize {
        (self.head() + self.width * (self.entries + 1)).next_multiple_of(8)
    }

    /// The size of the record, whose count stands in its second half.
    pub const fn record(self) -> usize {
        2 * self.width
    }

    /// The offset field of a child: those below `entries` are the lesser ones, the last is the greater one.
    pub const fn child(self, node: usize, index: usize) -> usize {
        node + self.head() + self.width * index
    }

    /// The number in a field, without a sign.
    pub fn number(self, bytes: &[u8], field: usize) -> u64 {
        let mut number = [0; 8];
        number[..self.width].copy_from_slice(&bytes[field..field + self.width]);
        u64::from_le_bytes(number)
    }

    /// Stores in a field what fits it of a number; a negative one is given as its two's complement.
    pub fn put(self, bytes: &mut [u8], field: usize, number: u64) {
        let number = number.to_le_bytes();
        bytes[field..field + self.width].copy_from_slice(&number[..self.width]);
    }

    /// "An offset is a signed 32-bit number counted from its own field, not from the node." Here its bits are those of
    /// the width.
    pub(super) fn target(self, bytes: &[u8], field: usize) -> i128 {
        let unused = 64 - 8 * self.width as u32;
        let offset = (self.number(bytes, field) << unused) as i64 >> unused;
        field as i128 + i128::from(offset)
    }

    /// "Offset 1 means absent; 0 does not."
    pub(super) fn absent(self, bytes: &[u8], field: usize) -> bool {
        self.number(bytes, field) == 1
    }
}
