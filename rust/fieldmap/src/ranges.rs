//! Ranges of keys, and columns of one eye.

use core::ops::Bound::{Excluded, Included, Unbounded};
use core::ops::{Bound, RangeBounds};

use crate::ffi;
use crate::refusal::{answer, Refusal};
use crate::{Layout, Limits, Packing};

/// What a range answers.
#[must_use]
#[derive(Clone, Copy, Debug, Default, PartialEq, Eq, Hash)]
pub struct Matched {
    /// How many entries were written: all that match, or as many as the shorter list has room for.
    pub written: usize,
    /// How many entries match.
    pub matching: usize,
}

/// Writes keys and values of the entries of a certified archive that meet both bounds, until the shorter list is full, and counts them all.
/// Where the bounds cross, nothing matches. Places not written keep their content.
///
/// # Errors
///
/// The first fault of 1 to 9.
///
/// ```
/// let mut archive = [0; 104];
/// fieldmap::build(&mut archive, 0, &[1, 5, 9], &[10, 50, 90])?;
/// let (mut keys, mut values) = ([0; 2], [0; 2]);
/// let matched = fieldmap::range(&archive, 2..=9, &mut keys, &mut values)?;
/// assert_eq!((matched.written, matched.matching), (2, 2));
/// assert_eq!(keys, [5, 9]);
/// assert_eq!(fieldmap::range(&archive, .., &mut keys, &mut values)?.matching, 3);
/// # Ok::<(), fieldmap::Refusal>(())
/// ```
#[inline]
pub fn range(
    archive: &[u8],
    bounds: impl RangeBounds<u64>,
    keys: &mut [u64],
    values: &mut [u64],
) -> Result<Matched, Refusal> {
    range_at(
        Layout::COMMON,
        Limits::SERVER,
        archive,
        bounds,
        keys,
        values,
    )
}

/// As [`range`], of an archive of a layout and with limits.
///
/// # Errors
///
/// The first fault of 1 to 9.
///
/// ```
/// use fieldmap::{range_at, Layout, Limits, Width};
///
/// let layout = Layout::new(Width::Bits16, 3)?;
/// let (mut archive, mut keys, mut values) = ([0; 68], [0; 2], [0; 2]);
/// fieldmap::build_at(layout, &mut archive, 0, &[1, 5, 9], &[10, 50, 90])?;
/// let matched = range_at(layout, Limits::VIEWER, &archive, 2..=9, &mut keys, &mut values)?;
/// assert_eq!((matched.matching, keys), (2, [5, 9]));
/// # Ok::<(), fieldmap::Refusal>(())
/// ```
#[inline]
pub fn range_at(
    layout: Layout,
    limits: Limits,
    archive: &[u8],
    bounds: impl RangeBounds<u64>,
    keys: &mut [u64],
    values: &mut [u64],
) -> Result<Matched, Refusal> {
    let lower = passed(bounds.start_bound());
    let upper = passed(bounds.end_bound());
    let mut matching = 0;
    let code = ffi::range(
        layout,
        limits,
        archive,
        lower,
        upper,
        keys,
        values,
        &mut matching,
    );
    matched(code, matching)
}

/// The range of a column query: the points of one eye of one examination with x in a range of degrees, in an archive whose keys are of the
/// named packing. It writes and answers as [`range`] does.
///
/// By [`Packing::Plus128`] keys are ordered by x as a number, and any range of `i8` gives exactly the points whose x is in it: `-9..=9` those
/// from -9 to 9, `-9..` those from -9 on, `..` all points of the eye. Where no x is in the range, as in `3..3` or where a is above b in
/// `a..=b`, nothing matches.
///
/// By [`Packing::TwosComplement`] they are ordered by the bits of x, in which -128 to -1 come after 0 to 127. So `a..=b` gives:
///
/// | a and b | entries |
/// |---|---|
/// | both from 0 on, or both below 0 | the points with x from a to b, both included |
/// | a below 0, b from 0 on | nothing; ask from a to -1 and from 0 to b |
/// | a from 0 on, b below 0 | the points with x from a on and those with x up to b |
///
/// There a range with an end that is excluded or open gives what `a..=b` does, a and b being the first and the last x in it: `-9..0` is
/// `-9..=-1`, `5..` is `5..=127`, and `-9..` is `-9..=127`, which gives nothing. Where no x is in such a range, as in `3..3`, `0..0` or past
/// 127, nothing matches, nor does anything in a range `a..=b`, a up to b, that has been iterated to its end. `a..=b` with a from 0 on and b
/// below 0 holds no x either, but is the last row of the table. `..` gives all points of the eye.
///
/// # Errors
///
/// The first fault of 1 to 9, then 18, where the examination or the eye does not fit its field.
///
/// ```
/// use fieldmap::{column, Key, Packing::{Plus128, TwosComplement}};
///
/// let at = |x, packing| Key { examination: 1, eye: Key::RIGHT, x, y: 3, presentation: 0 }.pack(packing);
/// let (mut archive, mut keys, mut values) = ([0; 104], [0; 4], [0; 4]);
///
/// // New keys ascend from left to right.
/// let new = [at(-9, Plus128)?, at(-3, Plus128)?, at(3, Plus128)?, at(9, Plus128)?];
/// fieldmap::build(&mut archive, 0, &new, &[1, 2, 3, 4])?;
/// let matched = column(&archive, Plus128, 1, Key::RIGHT, -3..=3, &mut keys, &mut values)?;
/// assert_eq!((matched.matching, values), (2, [2, 3, 0, 0]));
///
/// // Of old keys one query across 0 gives nothing, and `..` gives all.
/// let old = [at(3, TwosComplement)?, at(9, TwosComplement)?, at(-9, TwosComplement)?, at(-3, TwosComplement)?];
/// fieldmap::build(&mut archive, 0, &old, &[3, 4, 1, 2])?;
/// let matched = column(&archive, TwosComplement, 1, Key::RIGHT, -3..=3, &mut keys, &mut values)?;
/// assert_eq!(matched.matching, 0);
/// let matched = column(&archive, TwosComplement, 1, Key::RIGHT, .., &mut keys, &mut values)?;
/// assert_eq!((matched.matching, values), (4, [3, 4, 1, 2]));
/// # Ok::<(), fieldmap::Refusal>(())
/// ```
#[inline]
pub fn column(
    archive: &[u8],
    packing: Packing,
    examination: u32,
    eye: u8,
    x: impl RangeBounds<i8>,
    keys: &mut [u64],
    values: &mut [u64],
) -> Result<Matched, Refusal> {
    let (layout, limits) = (Layout::COMMON, Limits::SERVER);
    column_at(
        layout,
        limits,
        archive,
        packing,
        examination,
        eye,
        x,
        keys,
        values,
    )
}

/// As [`column`](column()), of an archive of a layout and with limits.
///
/// # Errors
///
/// The first fault of 1 to 9, then 18, where the examination or the eye does not fit its field.
///
/// ```
/// use fieldmap::{column_at, Key, Layout, Limits, Packing::Plus128, Width::Bits64};
///
/// let (layout, limits) = (Layout::new(Bits64, 15)?, Limits::VIEWER);
/// let key = Key { examination: 1, eye: Key::LEFT, x: -15, y: 3, presentation: 0 };
/// let (mut archive, mut keys, mut values) = ([0; 272], [0; 1], [0; 1]);
/// fieldmap::build_at(layout, &mut archive, 0, &[key.pack(Plus128)?], &[9])?;
/// let matched = column_at(layout, limits, &archive, Plus128, 1, Key::LEFT, -20..=20, &mut keys, &mut values)?;
/// assert_eq!((matched.matching, values), (1, [9]));
/// # Ok::<(), fieldmap::Refusal>(())
/// ```
#[allow(clippy::too_many_arguments)]
#[inline]
pub fn column_at(
    layout: Layout,
    limits: Limits,
    archive: &[u8],
    packing: Packing,
    examination: u32,
    eye: u8,
    x: impl RangeBounds<i8>,
    keys: &mut [u64],
    values: &mut [u64],
) -> Result<Matched, Refusal> {
    let ends = ends(packing, x.start_bound(), x.end_bound());
    let mut matching = 0;
    let code = ffi::column(
        layout,
        limits,
        archive,
        (packing as u8, examination, eye),
        ends,
        keys,
        values,
        &mut matching,
    );
    matched(code, matching)
}

/// Ends between which the library finds nothing. A query that can match nothing passes them, and is refused as any other.
fn nothing(packing: Packing) -> (i8, i8) {
    match packing {
        Packing::TwosComplement => (-1, 0),
        Packing::Plus128 => (0, -1),
    }
}

/// Ends between which the library finds every x.
fn everything(packing: Packing) -> (i8, i8) {
    match packing {
        Packing::TwosComplement => (0, -1),
        Packing::Plus128 => (i8::MIN, i8::MAX),
    }
}

/// The ends that pass to the library, which takes both as included.
fn ends(packing: Packing, start: Bound<&i8>, end: Bound<&i8>) -> (i8, i8) {
    let a = match start {
        Included(&a) => i16::from(a),
        Excluded(&a) => i16::from(a) + 1,
        Unbounded => i16::from(i8::MIN),
    };
    let b = match end {
        Included(&b) => i16::from(b),
        Excluded(&b) => i16::from(b) - 1,
        Unbounded => i16::from(i8::MAX),
    };
    match (start, end) {
        (Included(&a), Included(&b)) => (a, b),
        (Unbounded, Unbounded) => everything(packing),
        _ if a > b => nothing(packing),
        _ => (a as i8, b as i8),
    }
}

/// A bound as the library takes it: its kind and its key. The key of an open bound is not read.
fn passed(bound: Bound<&u64>) -> (u8, u64) {
    match bound {
        Included(&key) => (0, key),
        Excluded(&key) => (1, key),
        Unbounded => (2, 0),
    }
}

/// A range's answer.
fn matched(code: i64, matching: u64) -> Result<Matched, Refusal> {
    let written = answer(code)?;
    let matching = matching as usize;
    Ok(Matched { written, matching })
}
