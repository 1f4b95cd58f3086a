//! The limits of a caller: the longest archive and the depth.

/// How much a caller reads: the longest archive in bytes, and the depth that the check starts with.
///
/// A call without limits reads by [`Limits::SERVER`]. The call of the same name and `_at` takes the limits behind the layout. The viewer takes
/// [`Limits::VIEWER`], and any other two numbers may be named:
///
/// - An archive that is longer than `longest` is refused by [`ArchiveTooLong`](crate::Refusal::ArchiveTooLong).
/// - `depth` counts the record too: with depth d up to d - 2 nested nodes pass, and one more is refused by
///   [`ExceededMaximumSubtreeDepth`](crate::Refusal::ExceededMaximumSubtreeDepth). A depth of 0 counts as 1, by which the record itself is too
///   deep: what is not refused by 1, 2 or 3 is refused by 5, also an archive without entries.
/// - Each of the two that is above the server's counts as the server's.
///
/// | | bytes | depth | nested nodes |
/// |---|---|---|---|
/// | [`Limits::VIEWER`] | 4,096 | 5 | 3 |
/// | [`Limits::SERVER`] | 1,048,576 | 16 | 14 |
///
/// The limits decide what is refused by 1 and 5, and nothing else: two callers to whom a call gives neither get the same answer.
///
/// ```
/// use fieldmap::{check_at, Layout, Limits, Refusal};
///
/// // A leaf below an inner node: two nested nodes.
/// let mut archive = vec![0; fieldmap::build_length(6, 0)?];
/// fieldmap::build(&mut archive, 0, &[1, 2, 3, 4, 5, 6], &[0; 6])?;
/// let by = |longest, depth| check_at(Layout::COMMON, Limits { longest, depth }, &archive);
///
/// assert_eq!(archive.len(), 216);
/// assert_eq!(by(216, 4), Ok(6));
/// assert_eq!(by(215, 4), Err(Refusal::ArchiveTooLong));
/// assert_eq!(by(216, 3), Err(Refusal::ExceededMaximumSubtreeDepth));
/// assert_eq!(by(usize::MAX, usize::MAX), by(1_048_576, 16));
/// # Ok::<(), Refusal>(())
/// ```
#[derive(Clone, Copy, Debug, PartialEq, Eq, Hash)]
pub struct Limits {
    /// The longest archive in bytes.
    pub longest: usize,
    /// The depth that the check starts with, two above the most nested nodes.
    pub depth: usize,
}

impl Limits {
    /// The viewer's: 4,096 bytes and depth 5, so three nested nodes.
    pub const VIEWER: Self = Self {
        longest: 4_096,
        depth: 5,
    };

    /// The server's: 1,048,576 bytes and depth 16, so 14 nested nodes. No larger limits have an effect.
    pub const SERVER: Self = Self {
        longest: 1_048_576,
        depth: 16,
    };
}

impl Default for Limits {
    /// [`Limits::SERVER`].
    fn default() -> Self {
        Self::SERVER
    }
}
