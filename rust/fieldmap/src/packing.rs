//! The two ways in which x and y stand in a key.

use core::cmp::Ordering;

use crate::Key;

/// How x and y stand in their eight bits of a key. Neither a key nor an archive says which it is, so the caller names it.
///
/// The other fields stand alike in both, and the two keys of a point differ in the highest bit of x and in that of y only. As a number, by
/// `as u8`, a packing is what `include/fieldmap.h` has for it.
///
/// ```
/// use fieldmap::{Key, Packing};
///
/// let key = Key { examination: 1, eye: Key::RIGHT, x: -3, y: 3, presentation: 2 };
/// assert_eq!(key.pack(Packing::TwosComplement), Ok(1_642_850_156_546));
/// assert_eq!(key.pack(Packing::Plus128), Ok(1_369_045_991_426));
/// assert_eq!(1_642_850_156_546_u64 ^ 1_369_045_991_426, 1 << 38 | 1 << 30);
/// ```
#[derive(Clone, Copy, Debug, PartialEq, Eq, Hash)]
#[repr(u8)]
pub enum Packing {
    /// In two's complement, as old archives have them: -128 to -1 come after 0 to 127.
    TwosComplement = 0,
    /// As the degrees plus 128, as new examinations have them: columns come from left to right.
    Plus128 = 1,
}

impl Packing {
    /// The order of two keys that this packing gives, which is that of the packed numbers and so the archive's: by examination, eye, x, y and
    /// presentation, where of x and y the bits count. `Plus128` orders x and y as numbers, `TwosComplement` puts -128 to -1 after 0 to 127.
    /// Fields that do not fit a key have their place in the same order.
    ///
    /// ```
    /// use fieldmap::{Key, Packing};
    ///
    /// let at = |x| Key { examination: 1, eye: Key::RIGHT, x, y: 3, presentation: 0 };
    /// let mut keys = [at(3), at(-3), at(9), at(-9)];
    /// keys.sort_unstable_by(|a, b| Packing::Plus128.compare(a, b));
    /// assert_eq!(keys, [at(-9), at(-3), at(3), at(9)]);
    /// keys.sort_unstable_by(|a, b| Packing::TwosComplement.compare(a, b));
    /// assert_eq!(keys, [at(3), at(9), at(-9), at(-3)]);
    /// ```
    #[must_use]
    pub fn compare(self, a: &Key, b: &Key) -> Ordering {
        let fields = |key: &Key| {
            let (x, y) = (self.bits(key.x), self.bits(key.y));
            (key.examination, key.eye, x, y, key.presentation)
        };
        fields(a).cmp(&fields(b))
    }

    /// The eight bits of degrees.
    fn bits(self, degrees: i8) -> u8 {
        match self {
            Packing::TwosComplement => degrees as u8,
            Packing::Plus128 => (degrees as u8).wrapping_add(128),
        }
    }
}
