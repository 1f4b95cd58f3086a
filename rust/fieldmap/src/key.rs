//! The fields of a key.

use core::fmt;

use crate::ffi;
use crate::refusal::{answer, Refusal};
use crate::Packing;

/// The fields of a key, most significant first.
///
/// How x and y stand in a key is its [`Packing`], which the caller names. Keys are ordered by [`Packing::compare`].
///
/// ```
/// use fieldmap::{Key, Packing};
///
/// let key = Key { examination: 1, eye: Key::RIGHT, x: -3, y: 3, presentation: 2 };
/// assert_eq!(key.pack(Packing::Plus128), Ok(1_369_045_991_426));
/// assert_eq!(Key::unpack(1_369_045_991_426, Packing::Plus128), key);
/// ```
#[derive(Clone, Copy, Debug, Default, PartialEq, Eq, Hash)]
pub struct Key {
    /// The examination, of 24 bits.
    pub examination: u32,
    /// The eye, 0 for the right one and 1 for the left.
    pub eye: u8,
    /// x in degrees.
    pub x: i8,
    /// y in degrees.
    pub y: i8,
    /// The presentation, of 23 bits.
    pub presentation: u32,
}

impl Key {
    /// The right eye.
    pub const RIGHT: u8 = 0;

    /// The left eye.
    pub const LEFT: u8 = 1;

    /// The key of these fields by a packing.
    ///
    /// # Errors
    ///
    /// 18, where the examination, the eye or the presentation does not fit its field.
    ///
    /// ```
    /// use fieldmap::{Key, Packing, Refusal};
    ///
    /// let key = Key { examination: 1, ..Key::default() };
    /// assert_eq!(key.pack(Packing::TwosComplement), Ok(1 << 40));
    /// assert_eq!(key.pack(Packing::Plus128), Ok(1 << 40 | 128 << 31 | 128 << 23));
    /// assert_eq!(Key { eye: 2, ..key }.pack(Packing::Plus128), Err(Refusal::KeyFieldOverflow));
    /// ```
    pub fn pack(self, packing: Packing) -> Result<u64, Refusal> {
        let mut key = 0;
        let code = ffi::pack(
            packing as u8,
            (self.examination, self.eye),
            (self.x, self.y),
            self.presentation,
            &mut key,
        );
        answer(code).map(|_| key)
    }

    /// The fields of a key, read by a packing. Every key has them by each.
    ///
    /// ```
    /// use fieldmap::{Key, Packing};
    ///
    /// let key = Key::unpack(u64::MAX, Packing::Plus128);
    /// assert_eq!((key.examination, key.eye, key.presentation), (0xff_ffff, 1, 0x7f_ffff));
    /// assert_eq!((key.x, key.y), (127, 127));
    /// assert_eq!(Key::unpack(u64::MAX, Packing::TwosComplement), Key { x: -1, y: -1, ..key });
    /// ```
    #[must_use]
    pub fn unpack(key: u64, packing: Packing) -> Self {
        let mut fields = Self::default();
        // The library answers 0 for every key.
        ffi::unpack(
            key,
            packing as u8,
            (&mut fields.examination, &mut fields.eye),
            (&mut fields.x, &mut fields.y),
            &mut fields.presentation,
        );
        fields
    }
}

impl fmt::Display for Key {
    /// The fields in words: `examination 1, right eye, x -3, y 3, presentation 2`.
    fn fmt(&self, f: &mut fmt::Formatter<'_>) -> fmt::Result {
        write!(f, "examination {}, ", self.examination)?;
        match self.eye {
            Self::RIGHT => write!(f, "right eye")?,
            Self::LEFT => write!(f, "left eye")?,
            eye => write!(f, "eye {eye}")?,
        }
        let Self { x, y, .. } = self;
        write!(f, ", x {x}, y {y}, presentation {}", self.presentation)
    }
}
