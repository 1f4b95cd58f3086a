//! The layout of an archive: its width and its entries a node.

use crate::{Refusal, Width, FEWEST_IN_NODE, MOST_IN_NODE};

/// How an archive is laid out: the [`Width`] of its offsets and counts, and the entries a node, 3 to 15, which are the `E` of rkyv's
/// `ArchivedBTreeMap`. An archive does not say which layout it has, so the caller names it.
///
/// A call without a layout reads and writes archives of [`Layout::COMMON`], rkyv's own at its defaults: 32 bits and 5 entries a node. The call of
/// the same name and `_at` takes the layout first and, if it reads an archive, [`Limits`](crate::Limits) behind it. A value of this type is a layout
/// that every call takes: what a call would refuse by [`EntriesOutOfRange`](Refusal::EntriesOutOfRange) before every other refusal,
/// [`new`](Self::new) refuses.
///
/// ```
/// use fieldmap::{Certified, Layout, Limits, Width};
///
/// let wide = Layout::new(Width::Bits64, 15)?;
/// let mut archive = vec![0; fieldmap::build_length_at(wide, 3, 0)?];
/// fieldmap::build_at(wide, &mut archive, 0, &[1, 5, 9], &[10, 50, 90])?;
/// let certified = Certified::certify_at(wide, Limits::SERVER, &archive)?;
/// assert_eq!(certified.get(5).map(|entry| entry.value), Some(50));
/// # Ok::<(), fieldmap::Refusal>(())
/// ```
///
/// # Sizes
///
/// With e entries a node, and p bytes in an offset or a count, 2, 4 or 8:
///
/// | | bytes | at a multiple of |
/// |---|---|---|
/// | record | 2p | p |
/// | leaf | 16 + 16e | 8 |
/// | inner node | 8 + 16e + p(e + 1), rounded up to a multiple of 8 | 8 |
///
/// # Reading by another layout
///
/// [`Width`] says what becomes of an archive that is read by another width. What [`build_at`](crate::build_at()) writes of one entry or more
/// is refused by more entries a node than its own. By fewer it is refused or passes, which its values decide; where it passes, also
/// certification, it can show values that it does not have:
///
/// ```
/// use fieldmap::{certify_at, lookup_at, Layout, Limits, Refusal, Width};
///
/// let limits = Limits::SERVER;
/// let (three, six) = (Layout::new(Width::Bits32, 3)?, Layout::new(Width::Bits32, 6)?);
/// let mut archive = [0; 104];
/// fieldmap::build(&mut archive, 0, &[1, 5], &[10, 50])?;
/// assert_eq!(certify_at(six, limits, &archive), Err(Refusal::InvalidSubtreePointer));
/// assert_eq!(certify_at(three, limits, &archive), Err(Refusal::InvalidLength));
///
/// // With three entries a node, the second value stands where the leaf's count is.
/// fieldmap::build(&mut archive, 0, &[1, 5], &[10, 2])?;
/// assert_eq!(certify_at(three, limits, &archive), Ok(2));
/// assert_eq!(lookup_at(three, limits, &archive, 1)?.map(|entry| entry.value), Some(0));
/// # Ok::<(), Refusal>(())
/// ```
///
/// Of no entries the archive is the same bytes by all entries a node.
#[derive(Clone, Copy, Debug, PartialEq, Eq, Hash)]
pub struct Layout {
    width: Width,
    entries: usize,
}

impl Layout {
    /// The layout that rkyv has at its defaults: 32 bits and 5 entries a node.
    pub const COMMON: Self = Self::of(Width::Bits32);

    /// The layout of a width and entries a node.
    ///
    /// # Errors
    ///
    /// 24, where the entries a node are not 3 to 15.
    ///
    /// ```
    /// use fieldmap::{Layout, Refusal, Width};
    ///
    /// assert_eq!(Layout::new(Width::Bits32, 5), Ok(Layout::COMMON));
    /// assert_eq!(Layout::new(Width::Bits32, 2), Err(Refusal::EntriesOutOfRange));
    /// assert_eq!(Layout::new(Width::Bits32, 16), Err(Refusal::EntriesOutOfRange));
    /// ```
    pub const fn new(width: Width, entries: usize) -> Result<Self, Refusal> {
        if entries < FEWEST_IN_NODE || MOST_IN_NODE < entries {
            return Err(Refusal::EntriesOutOfRange);
        }
        Ok(Self { width, entries })
    }

    /// The layout of a width with five entries a node.
    const fn of(width: Width) -> Self {
        Self { width, entries: 5 }
    }

    /// The width of its offsets and counts.
    ///
    /// ```
    /// assert_eq!(fieldmap::Layout::COMMON.width(), fieldmap::Width::Bits32);
    /// ```
    #[must_use]
    #[inline]
    pub const fn width(self) -> Width {
        self.width
    }

    /// The entries a node, 3 to 15.
    ///
    /// ```
    /// assert_eq!(fieldmap::Layout::COMMON.entries(), 5);
    /// ```
    #[must_use]
    #[inline]
    pub const fn entries(self) -> usize {
        self.entries
    }
}

impl Default for Layout {
    /// [`Layout::COMMON`].
    fn default() -> Self {
        Self::COMMON
    }
}

impl From<Width> for Layout {
    /// The layout of a width with five entries a node, as rkyv has by default.
    ///
    /// ```
    /// use fieldmap::{Layout, Width};
    ///
    /// assert_eq!(Ok(Layout::from(Width::Bits64)), Layout::new(Width::Bits64, 5));
    /// ```
    fn from(width: Width) -> Self {
        Self::of(width)
    }
}
