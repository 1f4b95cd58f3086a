//! The refusals, and the coding of answers.

use core::fmt;

/// Why a call is refused, in checking order, but for 24, which comes before every other: where several hold, a call gives the first that it
/// meets.
#[derive(Clone, Copy, Debug, PartialEq, Eq, PartialOrd, Ord, Hash)]
#[repr(u8)]
pub enum Refusal {
    /// 1: the archive is longer than the limit.
    ArchiveTooLong = 1,
    /// 2: the record or a node leaves the range in which it must lie.
    InvalidSubtreePointer,
    /// 3: the record or a node is not on its alignment.
    UnalignedPointer,
    /// 4: a node's kind byte is neither 0 nor 1.
    InvalidKind,
    /// 5: more nodes are nested than the depth limit allows.
    ExceededMaximumSubtreeDepth,
    /// 6: a leaf's count is above the layout's entries a node.
    InvalidLength,
    /// 7: the entries are not as many as the recorded count.
    EntriesLengthMismatch,
    /// 8: a leaf is empty or an inner node has no first child.
    HollowNode,
    /// 9: a key is not above the one before.
    KeysNotAscending,
    /// 10: the lists of keys and values given to the builder differ in length.
    IteratorLengthMismatch,
    /// 11: more than 40,000 entries are given to the builder.
    TooManyEntries,
    /// 12: the keys given to the builder do not strictly ascend.
    GivenKeysNotAscending,
    /// 13: the header is longer than 4,096 bytes.
    HeaderTooLong,
    /// 14: header, padding and archive are longer than the output.
    OutputTooShort,
    /// 15: a distance does not fit 64 bits signed.
    IsizeOverflow,
    /// 16: an offset does not fit its width, of 16 or 32 bits signed.
    OffsetOverflow,
    /// 17: the alignment is not 1, 2, 4, 8, 16 or 32, or the next position passes the largest `u64`.
    InvalidAlignment,
    /// 18: an examination, an eye or a presentation does not fit its field of the key.
    KeyFieldOverflow,
    /// 24: the entries a node are not 3 to 15. [`Layout::new`](crate::Layout::new) gives it, and a value of that type is never refused by it.
    EntriesOutOfRange = 24,
}

impl Refusal {
    /// All refusals, in the order of their numbers.
    pub const ALL: [Refusal; 19] = [
        Refusal::ArchiveTooLong,
        Refusal::InvalidSubtreePointer,
        Refusal::UnalignedPointer,
        Refusal::InvalidKind,
        Refusal::ExceededMaximumSubtreeDepth,
        Refusal::InvalidLength,
        Refusal::EntriesLengthMismatch,
        Refusal::HollowNode,
        Refusal::KeysNotAscending,
        Refusal::IteratorLengthMismatch,
        Refusal::TooManyEntries,
        Refusal::GivenKeysNotAscending,
        Refusal::HeaderTooLong,
        Refusal::OutputTooShort,
        Refusal::IsizeOverflow,
        Refusal::OffsetOverflow,
        Refusal::InvalidAlignment,
        Refusal::KeyFieldOverflow,
        Refusal::EntriesOutOfRange,
    ];

    /// The number, 1 to 18 or 24.
    ///
    /// ```
    /// assert_eq!(fieldmap::Refusal::HollowNode.number(), 8);
    /// ```
    #[must_use]
    pub const fn number(self) -> u8 {
        self as u8
    }

    /// What it says in English, without the number.
    ///
    /// ```
    /// assert_eq!(fieldmap::Refusal::KeysNotAscending.text(), "a key is not above the one before");
    /// ```
    #[must_use]
    pub const fn text(self) -> &'static str {
        match self {
            Refusal::ArchiveTooLong => "the archive is too long",
            Refusal::InvalidSubtreePointer => "the record or a node leaves its range",
            Refusal::UnalignedPointer => "the record or a node is not on its alignment",
            Refusal::InvalidKind => "a node is neither a leaf nor an inner node",
            Refusal::ExceededMaximumSubtreeDepth => "the nodes are nested too deep",
            Refusal::InvalidLength => "a leaf counts more entries than a node may have",
            Refusal::EntriesLengthMismatch => "the entries are not as many as recorded",
            Refusal::HollowNode => "a leaf is empty, or an inner node has no first child",
            Refusal::KeysNotAscending => "a key is not above the one before",
            Refusal::IteratorLengthMismatch => "there are not as many values as keys",
            Refusal::TooManyEntries => "there are more than 40,000 entries",
            Refusal::GivenKeysNotAscending => "a given key is not above the one before",
            Refusal::HeaderTooLong => "the header is longer than 4,096 bytes",
            Refusal::OutputTooShort => "the output is shorter than header, padding and archive",
            Refusal::IsizeOverflow => "a distance does not fit 64 bits",
            Refusal::OffsetOverflow => "an offset does not fit its width",
            Refusal::InvalidAlignment => {
                "the alignment is none of 1, 2, 4, 8, 16 and 32, or the next position is too large"
            }
            Refusal::KeyFieldOverflow => {
                "an examination, an eye or a presentation does not fit its field"
            }
            Refusal::EntriesOutOfRange => "the entries a node are not 3 to 15",
        }
    }
}

impl fmt::Display for Refusal {
    /// The number, and what it says: `refused 9: a key is not above the one before`.
    fn fmt(&self, f: &mut fmt::Formatter<'_>) -> fmt::Result {
        write!(f, "refused {}: {}", self.number(), self.text())
    }
}

impl core::error::Error for Refusal {}

impl From<Refusal> for u8 {
    /// The number, 1 to 18 or 24.
    fn from(refusal: Refusal) -> Self {
        refusal.number()
    }
}

impl TryFrom<u8> for Refusal {
    type Error = NoSuchRefusal;

    /// The refusal with a number.
    ///
    /// ```
    /// use fieldmap::{NoSuchRefusal, Refusal};
    ///
    /// assert_eq!(Refusal::try_from(8), Ok(Refusal::HollowNode));
    /// assert_eq!(Refusal::try_from(19), Err(NoSuchRefusal(19)));
    /// ```
    fn try_from(number: u8) -> Result<Self, NoSuchRefusal> {
        let refusal = Refusal::ALL.into_iter().find(|why| why.number() == number);
        refusal.ok_or(NoSuchRefusal(number))
    }
}

/// A number that no refusal has.
#[derive(Clone, Copy, Debug, PartialEq, Eq, Hash)]
pub struct NoSuchRefusal(pub u8);

impl fmt::Display for NoSuchRefusal {
    fn fmt(&self, f: &mut fmt::Formatter<'_>) -> fmt::Result {
        write!(f, "no refusal has the number {}", self.0)
    }
}

impl core::error::Error for NoSuchRefusal {}

/// An answer as the library codes it: a number from 0 on, or minus the refusal's number, -1 to -18 or -24.
#[inline]
pub(crate) fn answer(code: i64) -> Result<usize, Refusal> {
    if code >= 0 {
        return Ok(code as usize);
    }
    Err(coded(code))
}

/// The refusal of an answer below 0.
#[cold]
fn coded(code: i64) -> Refusal {
    let refusal = Refusal::ALL
        .into_iter()
        .find(|why| -i64::from(why.number()) == code);
    refusal.expect("the library answers by a refusal's number")
}
