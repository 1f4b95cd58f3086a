//! The three widths of an archive's offsets and counts.

/// How many bits an archive's offsets and counts have: rkyv's `pointer_width_16`, its default of 32, or its `pointer_width_64`. An archive does
/// not say which it is, so the caller names it.
///
/// A width is a part of a [`Layout`](crate::Layout), which has 32 bits by default. As a number, by `as u8`, a width is what `include/fieldmap.h`
/// has for it. With five entries a node:
///
/// | | `Bits16` | `Bits32` | `Bits64` |
/// |---|---|---|---|
/// | record, in bytes | 4, at a multiple of 2 | 8, at a multiple of 4 | 16, at a multiple of 8 |
/// | leaf, in bytes | 96 | 96 | 96 |
/// | inner node, in bytes | 104 | 112 | 136 |
///
/// # Reading by another width
///
/// What [`build_at`](crate::build_at()) writes of one entry or more is refused by a width above its own. By one below it passes, also
/// certification, as an archive without entries: the upper bits of its count are then read as the whole count. So where the width is not
/// known, a count of 0 says nothing.
///
/// ```
/// use fieldmap::{certify_at, Limits, Refusal, Width};
///
/// let (mut archive, wide, limits) = ([0; 112], Width::Bits64.into(), Limits::SERVER);
/// assert_eq!(fieldmap::build_at(wide, &mut archive, 0, &[1, 5, 9], &[10, 50, 90]), Ok(112));
/// assert_eq!(certify_at(wide, limits, &archive), Ok(3));
/// assert_eq!(fieldmap::certify(&archive), Ok(0));
///
/// assert_eq!(fieldmap::build(&mut archive, 0, &[1, 5, 9], &[10, 50, 90]), Ok(104));
/// assert_eq!(certify_at(wide, limits, &archive[..104]), Err(Refusal::InvalidSubtreePointer));
/// # assert_eq!(Width::default(), Width::Bits32);
/// ```
#[derive(Clone, Copy, Debug, Default, PartialEq, Eq, Hash)]
#[repr(u8)]
pub enum Width {
    /// 16 bits. With five entries a node [`build_at`](crate::build_at()) takes up to 2,970 entries.
    Bits16 = 16,
    /// 32 bits, as rkyv has at its defaults.
    #[default]
    Bits32 = 32,
    /// 64 bits.
    Bits64 = 64,
}
