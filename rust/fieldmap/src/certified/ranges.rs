//! Ranges and columns of a certified archive.

use core::ops::RangeBounds;

use super::Certified;
use crate::archive::PASSED;
use crate::{Matched, Packing, Refusal};

impl Certified<'_> {
    /// Writes keys and values of the entries that meet both bounds until the shorter list is full, and counts them all. Where the bounds cross,
    /// nothing matches.
    ///
    /// # Panics
    ///
    /// As [`get`](Self::get).
    ///
    /// ```
    /// # let mut bytes = [0; 104];
    /// # fieldmap::build(&mut bytes, 0, &[1, 5, 9], &[10, 50, 90])?;
    /// let (mut keys, mut values) = ([0; 1], [0; 1]);
    /// let matched = fieldmap::Certified::certify(&bytes)?.range(5.., &mut keys, &mut values);
    /// assert_eq!((matched.written, matched.matching, values), (1, 2, [50]));
    /// # Ok::<(), fieldmap::Refusal>(())
    /// ```
    pub fn range(
        self,
        bounds: impl RangeBounds<u64>,
        keys: &mut [u64],
        values: &mut [u64],
    ) -> Matched {
        let (layout, limits, bytes) = (self.layout(), self.limits(), self.bytes());
        crate::range_at(layout, limits, bytes, bounds, keys, values).expect(PASSED)
    }

    /// The points of one eye of one examination with x in a range of degrees, the keys being of the named packing. [`column`](crate::column())
    /// says what a range on both sides of 0 gives by [`Packing::TwosComplement`].
    ///
    /// # Errors
    ///
    /// 18, where the examination or the eye does not fit its field.
    ///
    /// ```
    /// use fieldmap::{Certified, Key, Packing::Plus128};
    ///
    /// let key = Key { examination: 1, eye: Key::LEFT, x: -15, y: 3, presentation: 0 };
    /// let mut bytes = [0; 104];
    /// fieldmap::build(&mut bytes, 0, &[key.pack(Plus128)?], &[9])?;
    /// let certified = Certified::certify(&bytes)?;
    /// let (mut keys, mut values) = ([0; 1], [0; 1]);
    /// let matched = certified.column(Plus128, 1, Key::LEFT, -20..=20, &mut keys, &mut values)?;
    /// assert_eq!((matched.written, Key::unpack(keys[0], Plus128)), (1, key));
    /// # Ok::<(), fieldmap::Refusal>(())
    /// ```
    pub fn column(
        self,
        packing: Packing,
        examination: u32,
        eye: u8,
        x: impl RangeBounds<i8>,
        keys: &mut [u64],
        values: &mut [u64],
    ) -> Result<Matched, Refusal> {
        let (layout, limits, bytes) = (self.layout(), self.limits(), self.bytes());
        crate::column_at(
            layout,
            limits,
            bytes,
            packing,
            examination,
            eye,
            x,
            keys,
            values,
        )
    }
}
