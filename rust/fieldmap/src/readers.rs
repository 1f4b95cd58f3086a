//! The check, certification and the walk.

use crate::ffi;
use crate::refusal::{answer, Refusal};
use crate::{Layout, Limits};

/// What a walk answers.
#[must_use]
#[derive(Clone, Copy, Debug, Default, PartialEq, Eq, Hash)]
pub struct Walked {
    /// How many entries were written: all, or as many as the shorter list has room for.
    pub written: usize,
    /// How many entries the archive has, as it records.
    pub count: usize,
}

/// The recorded count of an archive that rkyv's check accepts.
///
/// # Errors
///
/// The first fault of 1 to 7.
///
/// ```
/// assert_eq!(fieldmap::check(&[1, 0, 0, 0, 0, 0, 0, 0]), Ok(0));
/// assert_eq!(fieldmap::check(&[0; 7]), Err(fieldmap::Refusal::InvalidSubtreePointer));
/// ```
#[inline]
pub fn check(archive: &[u8]) -> Result<usize, Refusal> {
    check_at(Layout::COMMON, Limits::SERVER, archive)
}

/// As [`check`], of an archive of a layout and with limits.
///
/// # Errors
///
/// The first fault of 1 to 7.
///
/// ```
/// use fieldmap::{check_at, Layout, Limits, Refusal, Width};
///
/// let (archive, viewer) = ([1, 0, 0, 0], Limits::VIEWER);
/// assert_eq!(check_at(Width::Bits16.into(), viewer, &archive), Ok(0));
/// assert_eq!(check_at(Layout::COMMON, viewer, &archive), Err(Refusal::InvalidSubtreePointer));
/// assert_eq!(check_at(Layout::COMMON, viewer, &[0; 4_097]), Err(Refusal::ArchiveTooLong));
/// ```
#[inline]
pub fn check_at(layout: Layout, limits: Limits, archive: &[u8]) -> Result<usize, Refusal> {
    answer(ffi::check(layout, limits, archive))
}

/// The recorded count of an archive that is accepted, whose keys strictly ascend, and that has no hollow node.
///
/// # Errors
///
/// The first fault of 1 to 9.
///
/// ```
/// use fieldmap::Refusal;
///
/// let mut archive = [0; 104];
/// fieldmap::build(&mut archive, 0, &[1, 5, 9], &[10, 50, 90])?;
/// assert_eq!(fieldmap::certify(&archive), Ok(3));
///
/// // The first key, in bytes 8 to 15, becomes 6: the check accepts that.
/// archive[8] = 6;
/// assert_eq!(fieldmap::check(&archive), Ok(3));
/// assert_eq!(fieldmap::certify(&archive), Err(Refusal::KeysNotAscending));
/// # Ok::<(), Refusal>(())
/// ```
#[inline]
pub fn certify(archive: &[u8]) -> Result<usize, Refusal> {
    certify_at(Layout::COMMON, Limits::SERVER, archive)
}

/// As [`certify`], of an archive of a layout and with limits.
///
/// # Errors
///
/// The first fault of 1 to 9.
///
/// ```
/// use fieldmap::{certify_at, Layout, Limits, Width};
///
/// let layout = Layout::new(Width::Bits16, 3)?;
/// let mut archive = [0; 68];
/// fieldmap::build_at(layout, &mut archive, 0, &[1, 5, 9], &[10, 50, 90])?;
/// assert_eq!(certify_at(layout, Limits::VIEWER, &archive), Ok(3));
/// # Ok::<(), fieldmap::Refusal>(())
/// ```
#[inline]
pub fn certify_at(layout: Layout, limits: Limits, archive: &[u8]) -> Result<usize, Refusal> {
    answer(ffi::certify(layout, limits, archive))
}

/// Writes keys and values of an accepted archive in the order of the walk until the shorter list is full. Places not written keep their
/// content.
///
/// # Errors
///
/// The first fault of 1 to 7.
///
/// ```
/// let mut archive = [0; 104];
/// fieldmap::build(&mut archive, 0, &[1, 5, 9], &[10, 50, 90])?;
/// let (mut keys, mut values) = ([0; 2], [0; 4]);
/// let walked = fieldmap::walk(&archive, &mut keys, &mut values)?;
/// assert_eq!((walked.written, walked.count), (2, 3));
/// assert_eq!((keys, values), ([1, 5], [10, 50, 0, 0]));
/// # Ok::<(), fieldmap::Refusal>(())
/// ```
#[inline]
pub fn walk(archive: &[u8], keys: &mut [u64], values: &mut [u64]) -> Result<Walked, Refusal> {
    walk_at(Layout::COMMON, Limits::SERVER, archive, keys, values)
}

/// As [`walk`], of an archive of a layout and with limits.
///
/// # Errors
///
/// The first fault of 1 to 7.
///
/// ```
/// use fieldmap::{walk_at, Layout, Limits, Width};
///
/// let layout = Layout::new(Width::Bits16, 3)?;
/// let (mut archive, mut keys, mut values) = ([0; 68], [0; 2], [0; 2]);
/// fieldmap::build_at(layout, &mut archive, 0, &[1, 5, 9], &[10, 50, 90])?;
/// let walked = walk_at(layout, Limits::VIEWER, &archive, &mut keys, &mut values)?;
/// assert_eq!((walked.written, walked.count, keys), (2, 3, [1, 5]));
/// # Ok::<(), fieldmap::Refusal>(())
/// ```
#[inline]
pub fn walk_at(
    layout: Layout,
    limits: Limits,
    archive: &[u8],
    keys: &mut [u64],
    values: &mut [u64],
) -> Result<Walked, Refusal> {
    let mut count = 0;
    let written = answer(ffi::walk(layout, limits, archive, keys, values, &mut count))?;
    let count = count as usize;
    Ok(Walked { written, count })
}
