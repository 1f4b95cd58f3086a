//! The parts: differences and offsets of positions, and the alignment step.

use crate::ffi;
use crate::refusal::{answer, Refusal};

/// A position on an alignment.
#[derive(Clone, Copy, Debug, Default, PartialEq, Eq, Hash)]
pub struct Aligned {
    /// The next position that the alignment divides.
    pub next: u64,
    /// How many zeros stand before it.
    pub zeros: u64,
}

/// The signed difference of two positions.
///
/// # Errors
///
/// 15, where it does not fit 64 bits signed.
///
/// ```
/// assert_eq!(fieldmap::signed_offset(1 << 63, 0), Ok(i64::MIN));
/// ```
pub fn signed_offset(from: u64, to: u64) -> Result<i64, Refusal> {
    let mut offset = 0;
    answer(ffi::signed_offset(from, to, &mut offset)).map(|_| offset)
}

/// The 32-bit offset from a field to a position.
///
/// # Errors
///
/// 15, then 16, where it does not fit 32 bits signed.
///
/// ```
/// assert_eq!(fieldmap::offset32(96, 0), Ok(-96));
/// ```
pub fn offset32(from: u64, to: u64) -> Result<i32, Refusal> {
    let mut offset = 0;
    answer(ffi::offset32(from, to, &mut offset)).map(|_| offset)
}

/// The offset that marks an absent pointer at a position.
///
/// # Errors
///
/// 15, at the largest position.
///
/// ```
/// assert_eq!(fieldmap::absent_offset(88), Ok(1));
/// ```
pub fn absent_offset(at: u64) -> Result<i32, Refusal> {
    let mut offset = 0;
    answer(ffi::absent_offset(at, &mut offset)).map(|_| offset)
}

/// The next position on an alignment of 1, 2, 4, 8, 16 or 32, and the zeros before it.
///
/// # Errors
///
/// 17, at another alignment, or where the next position passes the largest `u64`.
///
/// ```
/// let aligned = fieldmap::align(5, 8)?;
/// assert_eq!((aligned.next, aligned.zeros), (8, 3));
/// # Ok::<(), fieldmap::Refusal>(())
/// ```
pub fn align(pos: u64, alignment: u64) -> Result<Aligned, Refusal> {
    let (mut next, mut zeros) = (0, 0);
    answer(ffi::align(pos, alignment, &mut next, &mut zeros)).map(|_| Aligned { next, zeros })
}
