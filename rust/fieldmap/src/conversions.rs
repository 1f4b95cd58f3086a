//! Bytes as archives, archives as certified ones, and both as bytes.

use crate::{Archive, Certified, Refusal};

impl<'a> TryFrom<&'a [u8]> for Archive<'a> {
    type Error = Refusal;

    /// As [`Archive::check`], by [`Layout::COMMON`](crate::Layout::COMMON) and [`Limits::SERVER`](crate::Limits::SERVER).
    ///
    /// ```
    /// let bytes: &[u8] = &[1, 0, 0, 0, 0, 0, 0, 0];
    /// let archive: fieldmap::Archive = bytes.try_into()?;
    /// assert!(archive.is_empty());
    /// # Ok::<(), fieldmap::Refusal>(())
    /// ```
    fn try_from(bytes: &'a [u8]) -> Result<Self, Refusal> {
        Self::check(bytes)
    }
}

impl<'a> From<Certified<'a>> for Archive<'a> {
    /// As [`Certified::archive`].
    fn from(certified: Certified<'a>) -> Self {
        certified.archive()
    }
}

impl AsRef<[u8]> for Archive<'_> {
    fn as_ref(&self) -> &[u8] {
        self.bytes()
    }
}

impl<'a> TryFrom<&'a [u8]> for Certified<'a> {
    type Error = Refusal;

    /// As [`Certified::certify`], by [`Layout::COMMON`](crate::Layout::COMMON) and [`Limits::SERVER`](crate::Limits::SERVER).
    ///
    /// ```
    /// let bytes: &[u8] = &[1, 0, 0, 0, 0, 0, 0, 0];
    /// let certified: fieldmap::Certified = bytes.try_into()?;
    /// assert!(certified.is_empty());
    /// # Ok::<(), fieldmap::Refusal>(())
    /// ```
    fn try_from(bytes: &'a [u8]) -> Result<Self, Refusal> {
        Self::certify(bytes)
    }
}

impl<'a> TryFrom<Archive<'a>> for Certified<'a> {
    type Error = Refusal;

    /// As [`Archive::certify`].
    fn try_from(archive: Archive<'a>) -> Result<Self, Refusal> {
        archive.certify()
    }
}

impl AsRef<[u8]> for Certified<'_> {
    fn as_ref(&self) -> &[u8] {
        self.bytes()
    }
}
