//! Lookups of one key, in two forms, and of many after one check.

use crate::ffi;
use crate::refusal::{answer, Refusal};
use crate::{Layout, Limits};

/// An entry, and the position in the archive of its value's first byte.
#[derive(Clone, Copy, Debug, Default, PartialEq, Eq, Hash)]
pub struct Entry {
    /// The key.
    pub key: u64,
    /// The value.
    pub value: u64,
    /// The position of the value's first byte.
    pub position: usize,
}

/// Looks up a key in an accepted archive.
///
/// On a certified archive that is the entry of the walk with that key, or that there is none. On an archive that is only accepted it is what
/// rkyv's search finds, which can miss an entry that the walk shows.
///
/// # Errors
///
/// The first fault of 1 to 7.
///
/// ```
/// let mut archive = [0; 104];
/// fieldmap::build(&mut archive, 0, &[7], &[9])?;
/// let entry = fieldmap::Entry { key: 7, value: 9, position: 48 };
/// assert_eq!(fieldmap::lookup(&archive, 7)?, Some(entry));
/// assert_eq!(fieldmap::lookup(&archive, 8)?, None);
/// # Ok::<(), fieldmap::Refusal>(())
/// ```
#[inline]
pub fn lookup(archive: &[u8], key: u64) -> Result<Option<Entry>, Refusal> {
    lookup_at(Layout::COMMON, Limits::SERVER, archive, key)
}

/// As [`lookup`], in an archive of a layout and with limits.
///
/// # Errors
///
/// The first fault of 1 to 7.
///
/// ```
/// use fieldmap::{lookup_at, Layout, Limits, Width};
///
/// let layout = Layout::new(Width::Bits64, 15)?;
/// let mut archive = [0; 272];
/// fieldmap::build_at(layout, &mut archive, 0, &[7], &[9])?;
/// let found = lookup_at(layout, Limits::VIEWER, &archive, 7)?;
/// assert_eq!(found.map(|entry| entry.value), Some(9));
/// # Ok::<(), fieldmap::Refusal>(())
/// ```
#[inline]
pub fn lookup_at(
    layout: Layout,
    limits: Limits,
    archive: &[u8],
    key: u64,
) -> Result<Option<Entry>, Refusal> {
    let (mut value, mut position) = (0, 0);
    let code = ffi::lookup(layout, limits, archive, key, &mut value, &mut position);
    let found = answer(code)?;
    let position = position as usize;
    Ok((found == 1).then_some(Entry {
        key,
        value,
        position,
    }))
}

/// The eight bytes of the value that [`lookup`] finds, as a part of the archive; the empty part where it finds none or the archive is refused.
///
/// It finds and misses what [`lookup`] does. Where a refusal matters, [`check`](crate::check()) tells it.
///
/// ```
/// let mut archive = [0; 104];
/// fieldmap::build(&mut archive, 0, &[7], &[9])?;
/// assert_eq!(fieldmap::lookup_bytes(&archive, 7), 9_u64.to_le_bytes());
/// assert!(fieldmap::lookup_bytes(&archive, 8).is_empty());
/// assert!(fieldmap::lookup_bytes(&archive[1..], 7).is_empty());
/// # Ok::<(), fieldmap::Refusal>(())
/// ```
#[must_use]
#[inline]
pub fn lookup_bytes(archive: &[u8], key: u64) -> &[u8] {
    lookup_bytes_at(Layout::COMMON, Limits::SERVER, archive, key)
}

/// As [`lookup_bytes`], of an archive of a layout and with limits.
///
/// ```
/// use fieldmap::{lookup_bytes_at, Layout, Limits, Width};
///
/// let layout = Layout::new(Width::Bits64, 15)?;
/// let mut archive = [0; 272];
/// fieldmap::build_at(layout, &mut archive, 0, &[7], &[9])?;
/// assert_eq!(lookup_bytes_at(layout, Limits::VIEWER, &archive, 7), 9_u64.to_le_bytes());
/// # Ok::<(), fieldmap::Refusal>(())
/// ```
#[must_use]
#[inline]
pub fn lookup_bytes_at(layout: Layout, limits: Limits, archive: &[u8], key: u64) -> &[u8] {
    let mut start = 0;
    match answer(ffi::lookup_bytes(layout, limits, archive, key, &mut start)) {
        Ok(length) => &archive[start as usize..][..length],
        Err(_) => &archive[..0],
    }
}

/// Looks up keys after one check, each as [`lookup`] does, and stores each value that is found at the place of its key. The number of keys
/// found.
///
/// It finds and misses what [`lookup`] does. Keys beyond the values' places are not looked up. The place of a key that is not found keeps its
/// content.
///
/// # Errors
///
/// The first fault of 1 to 7.
///
/// ```
/// let mut archive = [0; 104];
/// fieldmap::build(&mut archive, 0, &[1, 5, 9], &[10, 50, 90])?;
/// let mut values = [0; 3];
/// assert_eq!(fieldmap::lookup_many(&archive, &[9, 2, 1], &mut values), Ok(2));
/// assert_eq!(values, [90, 0, 10]);
/// # Ok::<(), fieldmap::Refusal>(())
/// ```
#[inline]
pub fn lookup_many(archive: &[u8], keys: &[u64], values: &mut [u64]) -> Result<usize, Refusal> {
    lookup_many_at(Layout::COMMON, Limits::SERVER, archive, keys, values)
}

/// As [`lookup_many`], in an archive of a layout and with limits.
///
/// # Errors
///
/// The first fault of 1 to 7.
///
/// ```
/// use fieldmap::{lookup_many_at, Layout, Limits, Width};
///
/// let layout = Layout::new(Width::Bits64, 15)?;
/// let (mut archive, mut values) = ([0; 272], [0; 3]);
/// fieldmap::build_at(layout, &mut archive, 0, &[1, 5, 9], &[10, 50, 90])?;
/// assert_eq!(lookup_many_at(layout, Limits::VIEWER, &archive, &[9, 2, 1], &mut values), Ok(2));
/// assert_eq!(values, [90, 0, 10]);
/// # Ok::<(), fieldmap::Refusal>(())
/// ```
#[inline]
pub fn lookup_many_at(
    layout: Layout,
    limits: Limits,
    archive: &[u8],
    keys: &[u64],
    values: &mut [u64],
) -> Result<usize, Refusal> {
    answer(ffi::lookup_many(layout, limits, archive, keys, values))
}
