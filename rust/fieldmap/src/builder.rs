//! The build of an archive, and its length.

use crate::ffi;
use crate::refusal::{answer, Refusal};
use crate::Layout;

/// Writes the given entries as an archive behind the first `header` bytes of the output, which stay, and gives the archive's end. Bytes past
/// the end stay as well.
///
/// A reader takes `&out[..end]`, the header included. [`build_length`] tells the end beforehand.
///
/// # Errors
///
/// The first of 10 to 14.
///
/// ```
/// let mut out = [0xff; 120];
/// assert_eq!(fieldmap::build(&mut out, 5, &[7], &[9]), Ok(112));
/// assert_eq!(out[..5], [0xff; 5]);
/// assert_eq!(fieldmap::certify(&out[..112]), Ok(1));
/// ```
#[inline]
pub fn build(
    out: &mut [u8],
    header: usize,
    keys: &[u64],
    values: &[u64],
) -> Result<usize, Refusal> {
    build_at(Layout::COMMON, out, header, keys, values)
}

/// As [`build`], an archive of a layout.
///
/// # Errors
///
/// The first of 10 to 14. Then 16, where an offset does not fit its width, which can be at [`Width::Bits16`](crate::Width::Bits16) only: with five
/// entries a node from 2,971 entries on.
///
/// ```
/// use fieldmap::{build_at, Layout, Width};
///
/// let mut out = [0; 120];
/// assert_eq!(build_at(Width::Bits16.into(), &mut out, 5, &[7], &[9]), Ok(108));
/// assert_eq!(build_at(Width::Bits32.into(), &mut out, 5, &[7], &[9]), Ok(112));
/// assert_eq!(build_at(Layout::new(Width::Bits32, 3)?, &mut out, 5, &[7], &[9]), Ok(80));
/// # Ok::<(), fieldmap::Refusal>(())
/// ```
#[inline]
pub fn build_at(
    layout: Layout,
    out: &mut [u8],
    header: usize,
    keys: &[u64],
    values: &[u64],
) -> Result<usize, Refusal> {
    answer(ffi::build(layout, out, header, keys, values))
}

/// How long an output has to be for a build of so many entries behind a header: the end that [`build`] will answer.
///
/// # Errors
///
/// 11 or 13, as of the build.
///
/// ```
/// use fieldmap::Refusal;
///
/// assert_eq!(fieldmap::build_length(1, 5), Ok(112));
/// assert_eq!(fieldmap::build_length(40_001, 0), Err(Refusal::TooManyEntries));
/// assert_eq!(fieldmap::build_length(1, 4_097), Err(Refusal::HeaderTooLong));
/// ```
#[inline]
pub fn build_length(count: usize, header: usize) -> Result<usize, Refusal> {
    build_length_at(Layout::COMMON, count, header)
}

/// As [`build_length`], of an archive of a layout: the end that [`build_at`] will answer.
///
/// # Errors
///
/// 11 or 13, then 16, as of the build.
///
/// ```
/// use fieldmap::{build_length_at, Layout, Refusal, Width};
///
/// assert_eq!(build_length_at(Width::Bits16.into(), 6, 0), Ok(204));
/// assert_eq!(build_length_at(Width::Bits64.into(), 6, 0), Ok(248));
/// assert_eq!(build_length_at(Layout::new(Width::Bits64, 15)?, 6, 0), Ok(272));
/// assert_eq!(build_length_at(Width::Bits16.into(), 2_971, 0), Err(Refusal::OffsetOverflow));
/// # Ok::<(), Refusal>(())
/// ```
#[inline]
pub fn build_length_at(layout: Layout, count: usize, header: usize) -> Result<usize, Refusal> {
    answer(ffi::build_length(layout, count, header))
}
