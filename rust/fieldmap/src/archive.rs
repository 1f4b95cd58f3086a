//! Bytes that have passed the check, as a type.

use crate::{Certified, Entry, Layout, Limits, Refusal, Walked, Width};

/// Why a reader does not refuse bytes that passed before.
pub(crate) const PASSED: &str = "the same bytes passed before";

/// An accepted archive: its readers are not refused.
///
/// The library's readers check on every call; this type only says that the check has passed, and each of its readers runs it again.
/// [`get_many`](Self::get_many) looks up many keys after one check.
///
/// The archive need not be certified. Its lookups give what rkyv's search finds, which can miss an entry that the walk shows; those of
/// [`Certified`] miss nothing.
///
/// ```
/// let mut bytes = [0; 104];
/// fieldmap::build(&mut bytes, 0, &[1, 5, 9], &[10, 50, 90])?;
/// let archive = fieldmap::Archive::check(&bytes)?;
/// assert_eq!(archive.count(), 3);
/// assert_eq!(archive.get(9).map(|entry| entry.value), Some(90));
/// # Ok::<(), fieldmap::Refusal>(())
/// ```
#[must_use]
#[derive(Clone, Copy, Debug, PartialEq, Eq, Hash)]
pub struct Archive<'a> {
    layout: Layout,
    limits: Limits,
    bytes: &'a [u8],
    count: usize,
}

impl<'a> Archive<'a> {
    /// The archive, if [`check`](crate::check()) accepts it.
    ///
    /// # Errors
    ///
    /// The first fault of 1 to 7.
    ///
    /// ```
    /// use fieldmap::{Archive, Refusal};
    ///
    /// assert_eq!(Archive::check(&[1, 0, 0, 0, 0, 0, 0, 0])?.count(), 0);
    /// assert_eq!(Archive::check(&[]), Err(Refusal::InvalidSubtreePointer));
    /// # Ok::<(), Refusal>(())
    /// ```
    pub fn check(bytes: &'a [u8]) -> Result<Self, Refusal> {
        Self::check_at(Layout::COMMON, Limits::SERVER, bytes)
    }

    /// The archive of a layout, if [`check_at`](crate::check_at()) accepts it with the limits. Its readers read by both.
    ///
    /// # Errors
    ///
    /// The first fault of 1 to 7.
    ///
    /// ```
    /// use fieldmap::{Archive, Layout, Limits, Width};
    ///
    /// let (mut bytes, layout) = ([0; 68], Layout::new(Width::Bits16, 3)?);
    /// fieldmap::build_at(layout, &mut bytes, 0, &[1, 5, 9], &[10, 50, 90])?;
    /// let archive = Archive::check_at(layout, Limits::VIEWER, &bytes)?;
    /// assert_eq!(archive.get(9).map(|entry| entry.value), Some(90));
    /// # Ok::<(), fieldmap::Refusal>(())
    /// ```
    pub fn check_at(layout: Layout, limits: Limits, bytes: &'a [u8]) -> Result<Self, Refusal> {
        let count = crate::check_at(layout, limits, bytes)?;
        Ok(Self::passed(layout, limits, bytes, count))
    }

    /// The archive whose recorded count the check or certification has just given.
    pub(crate) fn passed(layout: Layout, limits: Limits, bytes: &'a [u8], count: usize) -> Self {
        Self {
            layout,
            limits,
            bytes,
            count,
        }
    }

    /// The layout that it was checked by, and is read by.
    ///
    /// ```
    /// use fieldmap::{Archive, Layout, Limits, Width};
    ///
    /// let layout = Layout::new(Width::Bits16, 15)?;
    /// assert_eq!(Archive::check(&[1, 0, 0, 0, 0, 0, 0, 0])?.layout(), Layout::COMMON);
    /// assert_eq!(Archive::check_at(layout, Limits::SERVER, &[1, 0, 0, 0])?.layout(), layout);
    /// # Ok::<(), fieldmap::Refusal>(())
    /// ```
    #[must_use]
    pub fn layout(self) -> Layout {
        self.layout
    }

    /// The width of its [`layout`](Self::layout).
    ///
    /// ```
    /// use fieldmap::{Archive, Width};
    ///
    /// assert_eq!(Archive::check(&[1, 0, 0, 0, 0, 0, 0, 0])?.width(), Width::Bits32);
    /// # Ok::<(), fieldmap::Refusal>(())
    /// ```
    #[must_use]
    pub fn width(self) -> Width {
        self.layout.width()
    }

    /// The limits that it was checked with, and is read with.
    ///
    /// ```
    /// use fieldmap::{Archive, Layout, Limits};
    ///
    /// let bytes = [1, 0, 0, 0, 0, 0, 0, 0];
    /// assert_eq!(Archive::check(&bytes)?.limits(), Limits::SERVER);
    /// let viewed = Archive::check_at(Layout::COMMON, Limits::VIEWER, &bytes)?;
    /// assert_eq!(viewed.limits(), Limits::VIEWER);
    /// # Ok::<(), fieldmap::Refusal>(())
    /// ```
    #[must_use]
    pub fn limits(self) -> Limits {
        self.limits
    }

    /// The archive's bytes.
    ///
    /// ```
    /// let bytes = [1, 0, 0, 0, 0, 0, 0, 0];
    /// assert_eq!(fieldmap::Archive::check(&bytes)?.bytes(), bytes);
    /// # Ok::<(), fieldmap::Refusal>(())
    /// ```
    #[must_use]
    pub fn bytes(self) -> &'a [u8] {
        self.bytes
    }

    /// How many entries the walk shows, which is the recorded count.
    ///
    /// ```
    /// # let mut bytes = [0; 104];
    /// # fieldmap::build(&mut bytes, 0, &[1, 5, 9], &[10, 50, 90])?;
    /// assert_eq!(fieldmap::Archive::check(&bytes)?.count(), 3);
    /// # Ok::<(), fieldmap::Refusal>(())
    /// ```
    #[must_use]
    pub fn count(self) -> usize {
        self.count
    }

    /// The same as [`count`](Self::count).
    ///
    /// ```
    /// # let mut bytes = [0; 104];
    /// # fieldmap::build(&mut bytes, 0, &[1, 5, 9], &[10, 50, 90])?;
    /// assert_eq!(fieldmap::Archive::check(&bytes)?.len(), 3);
    /// # Ok::<(), fieldmap::Refusal>(())
    /// ```
    #[must_use]
    pub fn len(self) -> usize {
        self.count
    }

    /// Whether it has no entry.
    ///
    /// ```
    /// assert!(fieldmap::Archive::check(&[1, 0, 0, 0, 0, 0, 0, 0])?.is_empty());
    /// # Ok::<(), fieldmap::Refusal>(())
    /// ```
    #[must_use]
    pub fn is_empty(self) -> bool {
        self.count == 0
    }

    /// What rkyv's search finds for a key. Where the archive is not certified, that can miss an entry that the walk shows.
    ///
    /// # Panics
    ///
    /// Only if the linked library refuses bytes that it has accepted, which it is proved not to do.
    ///
    /// ```
    /// let mut bytes = [0; 104];
    /// fieldmap::build(&mut bytes, 0, &[1, 5, 9], &[10, 50, 90])?;
    /// // The first key, in bytes 8 to 15, becomes 6: the check accepts that, and the search for 5 stops there.
    /// bytes[8] = 6;
    /// let archive = fieldmap::Archive::check(&bytes)?;
    /// assert_eq!(archive.get(9).map(|entry| entry.value), Some(90));
    /// assert_eq!(archive.get(5), None);
    /// # Ok::<(), fieldmap::Refusal>(())
    /// ```
    #[must_use]
    pub fn get(self, key: u64) -> Option<Entry> {
        crate::lookup_at(self.layout, self.limits, self.bytes, key).expect(PASSED)
    }

    /// The eight bytes of the value that [`get`](Self::get) finds, as a part of the archive, or the empty part. It misses what `get` misses.
    ///
    /// ```
    /// # let mut bytes = [0; 104];
    /// # fieldmap::build(&mut bytes, 0, &[1, 5, 9], &[10, 50, 90])?;
    /// let archive = fieldmap::Archive::check(&bytes)?;
    /// assert_eq!(archive.get_bytes(9), 90_u64.to_le_bytes());
    /// assert!(archive.get_bytes(8).is_empty());
    /// # Ok::<(), fieldmap::Refusal>(())
    /// ```
    #[must_use]
    pub fn get_bytes(self, key: u64) -> &'a [u8] {
        crate::lookup_bytes_at(self.layout, self.limits, self.bytes, key)
    }

    /// Looks up keys after one check, as [`lookup_many`](crate::lookup_many()) does, and gives the number found. It misses what
    /// [`get`](Self::get) misses.
    ///
    /// # Panics
    ///
    /// As [`get`](Self::get).
    ///
    /// ```
    /// # let mut bytes = [0; 104];
    /// # fieldmap::build(&mut bytes, 0, &[1, 5, 9], &[10, 50, 90])?;
    /// let mut values = [0; 2];
    /// assert_eq!(fieldmap::Archive::check(&bytes)?.get_many(&[9, 8], &mut values), 1);
    /// assert_eq!(values, [90, 0]);
    /// # Ok::<(), fieldmap::Refusal>(())
    /// ```
    pub fn get_many(self, keys: &[u64], values: &mut [u64]) -> usize {
        crate::lookup_many_at(self.layout, self.limits, self.bytes, keys, values).expect(PASSED)
    }

    /// Whether [`get`](Self::get) finds an entry. It misses what `get` misses.
    ///
    /// # Panics
    ///
    /// As [`get`](Self::get).
    ///
    /// ```
    /// # let mut bytes = [0; 104];
    /// # fieldmap::build(&mut bytes, 0, &[1, 5, 9], &[10, 50, 90])?;
    /// assert!(fieldmap::Archive::check(&bytes)?.contains_key(9));
    /// # Ok::<(), fieldmap::Refusal>(())
    /// ```
    #[must_use]
    pub fn contains_key(self, key: u64) -> bool {
        self.get(key).is_some()
    }

    /// Writes keys and values in the order of the walk until the shorter list is full.
    ///
    /// # Panics
    ///
    /// As [`get`](Self::get).
    ///
    /// ```
    /// # let mut bytes = [0; 104];
    /// # fieldmap::build(&mut bytes, 0, &[1, 5, 9], &[10, 50, 90])?;
    /// let (mut keys, mut values) = ([0; 3], [0; 3]);
    /// let walked = fieldmap::Archive::check(&bytes)?.walk(&mut keys, &mut values);
    /// assert_eq!((walked.written, keys, values), (3, [1, 5, 9], [10, 50, 90]));
    /// # Ok::<(), fieldmap::Refusal>(())
    /// ```
    pub fn walk(self, keys: &mut [u64], values: &mut [u64]) -> Walked {
        crate::walk_at(self.layout, self.limits, self.bytes, keys, values).expect(PASSED)
    }

    /// The same archive, if [`certify_at`](crate::certify_at()) accepts it by its layout and with its limits. That checks again;
    /// [`Certified::certify_at`] takes bytes and checks once.
    ///
    /// # Errors
    ///
    /// 8 or 9.
    ///
    /// ```
    /// # let mut bytes = [0; 104];
    /// # fieldmap::build(&mut bytes, 0, &[1, 5, 9], &[10, 50, 90])?;
    /// assert!(fieldmap::Archive::check(&bytes)?.certify().is_ok());
    /// # Ok::<(), fieldmap::Refusal>(())
    /// ```
    pub fn certify(self) -> Result<Certified<'a>, Refusal> {
        Certified::certify_at(self.layout, self.limits, self.bytes)
    }
}
