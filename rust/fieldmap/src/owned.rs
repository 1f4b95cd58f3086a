//! Entries as vectors and maps: the calls of the feature `alloc`.

use alloc::collections::BTreeMap;
use alloc::vec;
use alloc::vec::Vec;
use core::ops::RangeBounds;

use crate::{Archive, Certified, Layout, Refusal};

/// The archive of a map's entries.
///
/// # Errors
///
/// 11, where the map has more than 40,000 entries.
///
/// ```
/// use std::collections::BTreeMap;
///
/// let map = BTreeMap::from([(1, 10), (5, 50), (9, 90)]);
/// let bytes = fieldmap::archive_of(&map)?;
/// assert_eq!(fieldmap::Certified::certify(&bytes)?.to_map(), map);
/// # Ok::<(), fieldmap::Refusal>(())
/// ```
pub fn archive_of(map: &BTreeMap<u64, u64>) -> Result<Vec<u8>, Refusal> {
    archive_of_at(Layout::COMMON, map)
}

/// As [`archive_of`], an archive of a layout.
///
/// # Errors
///
/// 11, where the map has more than 40,000 entries, then 16, as [`build_at`](crate::build_at()).
///
/// ```
/// use std::collections::BTreeMap;
/// use fieldmap::{archive_of_at, Certified, Layout, Limits, Width};
///
/// let map = BTreeMap::from([(1, 10), (5, 50), (9, 90)]);
/// let layout = Layout::new(Width::Bits16, 3)?;
/// let bytes = archive_of_at(layout, &map)?;
/// assert_eq!(Certified::certify_at(layout, Limits::SERVER, &bytes)?.to_map(), map);
/// # Ok::<(), fieldmap::Refusal>(())
/// ```
pub fn archive_of_at(layout: Layout, map: &BTreeMap<u64, u64>) -> Result<Vec<u8>, Refusal> {
    let mut out = vec![0; crate::build_length_at(layout, map.len(), 0)?];
    let keys: Vec<u64> = map.keys().copied().collect();
    let values: Vec<u64> = map.values().copied().collect();
    let end = crate::build_at(layout, &mut out, 0, &keys, &values)?;
    out.truncate(end);
    Ok(out)
}

/// The pairs of the first places of two lists.
fn pairs(written: usize, keys: Vec<u64>, values: Vec<u64>) -> Vec<(u64, u64)> {
    keys.into_iter().zip(values).take(written).collect()
}

impl Archive<'_> {
    /// Keys and values in the order of the walk. Where the archive is not certified, keys need not ascend and may repeat.
    ///
    /// # Panics
    ///
    /// As [`get`](Self::get).
    ///
    /// ```
    /// let mut bytes = [0; 104];
    /// fieldmap::build(&mut bytes, 0, &[1, 5], &[10, 50])?;
    /// // The first key, in bytes 8 to 15, becomes 6: the check accepts that.
    /// bytes[8] = 6;
    /// assert_eq!(fieldmap::Archive::check(&bytes)?.entries(), [(6, 10), (5, 50)]);
    /// # Ok::<(), fieldmap::Refusal>(())
    /// ```
    #[must_use]
    pub fn entries(self) -> Vec<(u64, u64)> {
        let (mut keys, mut values) = (vec![0; self.count()], vec![0; self.count()]);
        let walked = self.walk(&mut keys, &mut values);
        pairs(walked.written, keys, values)
    }
}

impl Certified<'_> {
    /// Keys and values in ascending order of the keys.
    ///
    /// # Panics
    ///
    /// As [`get`](Self::get).
    ///
    /// ```
    /// let mut bytes = [0; 104];
    /// fieldmap::build(&mut bytes, 0, &[1, 5], &[10, 50])?;
    /// assert_eq!(fieldmap::Certified::certify(&bytes)?.entries(), [(1, 10), (5, 50)]);
    /// # Ok::<(), fieldmap::Refusal>(())
    /// ```
    #[must_use]
    pub fn entries(self) -> Vec<(u64, u64)> {
        self.archive().entries()
    }

    /// The entries as a map, which has as many: no key repeats.
    ///
    /// # Panics
    ///
    /// As [`get`](Self::get).
    ///
    /// ```
    /// let mut bytes = [0; 104];
    /// fieldmap::build(&mut bytes, 0, &[1, 5], &[10, 50])?;
    /// let map = fieldmap::Certified::certify(&bytes)?.to_map();
    /// assert_eq!(map.get(&5), Some(&50));
    /// # Ok::<(), fieldmap::Refusal>(())
    /// ```
    #[must_use]
    pub fn to_map(self) -> BTreeMap<u64, u64> {
        self.entries().into_iter().collect()
    }

    /// Keys and values of the entries that meet both bounds, in ascending order of the keys. Where the bounds cross, there are none.
    ///
    /// # Panics
    ///
    /// As [`get`](Self::get).
    ///
    /// ```
    /// let mut bytes = [0; 104];
    /// fieldmap::build(&mut bytes, 0, &[1, 5, 9], &[10, 50, 90])?;
    /// let certified = fieldmap::Certified::certify(&bytes)?;
    /// assert_eq!(certified.entries_in(2..), [(5, 50), (9, 90)]);
    /// assert!(certified.entries_in(5..5).is_empty());
    /// # Ok::<(), fieldmap::Refusal>(())
    /// ```
    #[must_use]
    pub fn entries_in(self, bounds: impl RangeBounds<u64>) -> Vec<(u64, u64)> {
        let (mut keys, mut values) = (vec![0; self.count()], vec![0; self.count()]);
        let matched = self.range(bounds, &mut keys, &mut values);
        pairs(matched.written, keys, values)
    }
}
