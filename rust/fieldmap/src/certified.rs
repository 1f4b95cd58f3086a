//! Bytes that have passed certification, as a type.

mod ranges;

use crate::{Archive, Entry, Layout, Limits, Refusal, Walked, Width};

/// A certified archive: its keys strictly ascend and no node is hollow.
///
/// Here nothing is missed: a lookup gives the entry of the walk with that key, and none exactly where the walk shows none.
///
/// The library's readers check on every call, `range` and `column` certify; this type only says that certification has passed.
/// [`get_many`](Self::get_many) looks up many keys after one check.
///
/// ```
/// let mut bytes = [0; 104];
/// fieldmap::build(&mut bytes, 0, &[1, 5, 9], &[10, 50, 90])?;
/// let certified = fieldmap::Certified::certify(&bytes)?;
/// assert_eq!(certified.count(), 3);
/// assert_eq!(certified.get(5).map(|entry| entry.value), Some(50));
/// let (mut keys, mut values) = ([0; 3], [0; 3]);
/// assert_eq!(certified.range(..9, &mut keys, &mut values).matching, 2);
/// # Ok::<(), fieldmap::Refusal>(())
/// ```
#[must_use]
#[derive(Clone, Copy, Debug, PartialEq, Eq, Hash)]
pub struct Certified<'a> {
    archive: Archive<'a>,
}

impl<'a> Certified<'a> {
    /// The archive, if [`certify`](crate::certify()) accepts it.
    ///
    /// # Errors
    ///
    /// The first fault of 1 to 9.
    ///
    /// ```
    /// use fieldmap::{Certified, Refusal};
    ///
    /// assert_eq!(Certified::certify(&[1, 0, 0, 0, 0, 0, 0, 0])?.count(), 0);
    /// assert_eq!(Certified::certify(&[0; 9]), Err(Refusal::UnalignedPointer));
    /// # Ok::<(), Refusal>(())
    /// ```
    pub fn certify(bytes: &'a [u8]) -> Result<Self, Refusal> {
        Self::certify_at(Layout::COMMON, Limits::SERVER, bytes)
    }

    /// The archive of a layout, if [`certify_at`](crate::certify_at()) accepts it with the limits. Its readers read by both.
    ///
    /// # Errors
    ///
    /// The first fault of 1 to 9.
    ///
    /// ```
    /// use fieldmap::{Certified, Layout, Limits, Width};
    ///
    /// let (mut bytes, layout) = ([0; 272], Layout::new(Width::Bits64, 15)?);
    /// fieldmap::build_at(layout, &mut bytes, 0, &[1, 5, 9], &[10, 50, 90])?;
    /// let certified = Certified::certify_at(layout, Limits::VIEWER, &bytes)?;
    /// assert_eq!(certified.get(5).map(|entry| entry.value), Some(50));
    /// # Ok::<(), fieldmap::Refusal>(())
    /// ```
    pub fn certify_at(layout: Layout, limits: Limits, bytes: &'a [u8]) -> Result<Self, Refusal> {
        let count = crate::certify_at(layout, limits, bytes)?;
        let archive = Archive::passed(layout, limits, bytes, count);
        Ok(Self { archive })
    }

    /// The layout that it was certified by, and is read by.
    ///
    /// ```
    /// use fieldmap::{Certified, Layout, Limits, Width};
    ///
    /// let layout = Layout::new(Width::Bits16, 15)?;
    /// assert_eq!(Certified::certify_at(layout, Limits::SERVER, &[1, 0, 0, 0])?.layout(), layout);
    /// # Ok::<(), fieldmap::Refusal>(())
    /// ```
    #[must_use]
    pub fn layout(self) -> Layout {
        self.archive.layout()
    }

    /// The width of its [`layout`](Self::layout).
    ///
    /// ```
    /// use fieldmap::{Certified, Limits, Width};
    ///
    /// let certified = Certified::certify_at(Width::Bits16.into(), Limits::SERVER, &[1, 0, 0, 0])?;
    /// assert_eq!(certified.width(), Width::Bits16);
    /// # Ok::<(), fieldmap::Refusal>(())
    /// ```
    #[must_use]
    pub fn width(self) -> Width {
        self.archive.width()
    }

    /// The limits that it was certified with, and is read with.
    ///
    /// ```
    /// use fieldmap::{Certified, Layout, Limits};
    ///
    /// let bytes = [1, 0, 0, 0, 0, 0, 0, 0];
    /// let viewed = Certified::certify_at(Layout::COMMON, Limits::VIEWER, &bytes)?;
    /// assert_eq!(viewed.limits(), Limits::VIEWER);
    /// # Ok::<(), fieldmap::Refusal>(())
    /// ```
    #[must_use]
    pub fn limits(self) -> Limits {
        self.archive.limits()
    }

    /// The same archive as an accepted one.
    ///
    /// ```
    /// let bytes = [1, 0, 0, 0, 0, 0, 0, 0];
    /// let certified = fieldmap::Certified::certify(&bytes)?;
    /// assert_eq!(certified.archive(), fieldmap::Archive::check(&bytes)?);
    /// # Ok::<(), fieldmap::Refusal>(())
    /// ```
    pub fn archive(self) -> Archive<'a> {
        self.archive
    }

    /// The archive's bytes.
    ///
    /// ```
    /// let bytes = [1, 0, 0, 0, 0, 0, 0, 0];
    /// assert_eq!(fieldmap::Certified::certify(&bytes)?.bytes(), bytes);
    /// # Ok::<(), fieldmap::Refusal>(())
    /// ```
    #[must_use]
    pub fn bytes(self) -> &'a [u8] {
        self.archive.bytes()
    }

    /// How many entries it has.
    ///
    /// ```
    /// # let mut bytes = [0; 104];
    /// # fieldmap::build(&mut bytes, 0, &[1, 5, 9], &[10, 50, 90])?;
    /// assert_eq!(fieldmap::Certified::certify(&bytes)?.count(), 3);
    /// # Ok::<(), fieldmap::Refusal>(())
    /// ```
    #[must_use]
    pub fn count(self) -> usize {
        self.archive.count()
    }

    /// The same as [`count`](Self::count).
    ///
    /// ```
    /// # let mut bytes = [0; 104];
    /// # fieldmap::build(&mut bytes, 0, &[1, 5, 9], &[10, 50, 90])?;
    /// assert_eq!(fieldmap::Certified::certify(&bytes)?.len(), 3);
    /// # Ok::<(), fieldmap::Refusal>(())
    /// ```
    #[must_use]
    pub fn len(self) -> usize {
        self.archive.count()
    }

    /// Whether it has no entry.
    ///
    /// ```
    /// assert!(fieldmap::Certified::certify(&[1, 0, 0, 0, 0, 0, 0, 0])?.is_empty());
    /// # Ok::<(), fieldmap::Refusal>(())
    /// ```
    #[must_use]
    pub fn is_empty(self) -> bool {
        self.archive.is_empty()
    }

    /// The entry with a key, or that there is none. Nothing that the walk shows is missed.
    ///
    /// # Panics
    ///
    /// Only if the linked library refuses bytes that it has accepted, which it is proved not to do.
    ///
    /// ```
    /// # let mut bytes = [0; 104];
    /// # fieldmap::build(&mut bytes, 0, &[1, 5, 9], &[10, 50, 90])?;
    /// let certified = fieldmap::Certified::certify(&bytes)?;
    /// assert_eq!(certified.get(5).map(|entry| entry.value), Some(50));
    /// assert_eq!(certified.get(6), None);
    /// # Ok::<(), fieldmap::Refusal>(())
    /// ```
    #[must_use]
    pub fn get(self, key: u64) -> Option<Entry> {
        self.archive.get(key)
    }

    /// The eight bytes of a key's value, as a part of the archive, or the empty part where no entry has the key. Nothing is missed.
    ///
    /// ```
    /// # let mut bytes = [0; 104];
    /// # fieldmap::build(&mut bytes, 0, &[1, 5, 9], &[10, 50, 90])?;
    /// let certified = fieldmap::Certified::certify(&bytes)?;
    /// assert_eq!(certified.get_bytes(5), 50_u64.to_le_bytes());
    /// # Ok::<(), fieldmap::Refusal>(())
    /// ```
    #[must_use]
    pub fn get_bytes(self, key: u64) -> &'a [u8] {
        self.archive.get_bytes(key)
    }

    /// Looks up keys after one check, as [`lookup_many`](crate::lookup_many()) does, and gives the number found. Nothing is missed.
    ///
    /// # Panics
    ///
    /// As [`get`](Self::get).
    ///
    /// ```
    /// # let mut bytes = [0; 104];
    /// # fieldmap::build(&mut bytes, 0, &[1, 5, 9], &[10, 50, 90])?;
    /// let mut values = [0; 2];
    /// assert_eq!(fieldmap::Certified::certify(&bytes)?.get_many(&[9, 8], &mut values), 1);
    /// assert_eq!(values, [90, 0]);
    /// # Ok::<(), fieldmap::Refusal>(())
    /// ```
    pub fn get_many(self, keys: &[u64], values: &mut [u64]) -> usize {
        self.archive.get_many(keys, values)
    }

    /// Whether an entry has the key. Nothing is missed.
    ///
    /// # Panics
    ///
    /// As [`get`](Self::get).
    ///
    /// ```
    /// # let mut bytes = [0; 104];
    /// # fieldmap::build(&mut bytes, 0, &[1, 5, 9], &[10, 50, 90])?;
    /// assert!(!fieldmap::Certified::certify(&bytes)?.contains_key(8));
    /// # Ok::<(), fieldmap::Refusal>(())
    /// ```
    #[must_use]
    pub fn contains_key(self, key: u64) -> bool {
        self.archive.contains_key(key)
    }

    /// Writes keys and values in ascending order of the keys until the shorter list is full.
    ///
    /// # Panics
    ///
    /// As [`get`](Self::get).
    ///
    /// ```
    /// # let mut bytes = [0; 104];
    /// # fieldmap::build(&mut bytes, 0, &[1, 5, 9], &[10, 50, 90])?;
    /// let (mut keys, mut values) = ([0; 2], [0; 2]);
    /// let walked = fieldmap::Certified::certify(&bytes)?.walk(&mut keys, &mut values);
    /// assert_eq!((walked.written, walked.count, keys), (2, 3, [1, 5]));
    /// # Ok::<(), fieldmap::Refusal>(())
    /// ```
    pub fn walk(self, keys: &mut [u64], values: &mut [u64]) -> Walked {
        self.archive.walk(keys, values)
    }
}
