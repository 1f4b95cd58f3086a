//! The bits of a value.

use core::fmt;

use crate::ffi;

/// A value, by its bits: the highest says whether the stimulus was seen, the ten below are the threshold in tenths of a decibel. The lowest 53
/// are free.
///
/// ```
/// let value = fieldmap::Value((1 << 63) | (255 << 53));
/// assert!(value.is_seen());
/// assert_eq!(value.threshold(), 255);
/// assert_eq!(value.to_string(), "seen, 25.5 dB");
/// ```
#[derive(Clone, Copy, Debug, Default, PartialEq, Eq, Hash)]
pub struct Value(pub u64);

impl Value {
    /// The highest threshold that a value holds, in tenths of a decibel.
    pub const HIGHEST_THRESHOLD: u16 = 1_023;

    /// The value of a response, its free bits 0; nothing where the threshold, in tenths of a decibel, is above 1023.
    ///
    /// ```
    /// use fieldmap::Value;
    ///
    /// let value = Value::new(true, 285).expect("the threshold fits");
    /// assert_eq!((value.is_seen(), value.threshold()), (true, 285));
    /// assert_eq!(Value::new(true, 1_024), None);
    /// ```
    #[must_use]
    pub const fn new(seen: bool, threshold: u16) -> Option<Self> {
        if threshold > Self::HIGHEST_THRESHOLD {
            return None;
        }
        Some(Self(((seen as u64) << 63) | ((threshold as u64) << 53)))
    }

    /// Whether the stimulus was seen.
    ///
    /// ```
    /// assert!(fieldmap::Value(1 << 63).is_seen());
    /// assert!(!fieldmap::Value(u64::MAX >> 1).is_seen());
    /// ```
    #[must_use]
    pub fn is_seen(self) -> bool {
        ffi::seen(self.0) == 1
    }

    /// The threshold in tenths of a decibel, 0 to 1023.
    ///
    /// ```
    /// assert_eq!(fieldmap::Value(255 << 53).threshold(), 255);
    /// ```
    #[must_use]
    pub fn threshold(self) -> u16 {
        ffi::threshold(self.0) as u16
    }
}

impl From<u64> for Value {
    /// ```
    /// assert_eq!(fieldmap::Value::from(1 << 53).threshold(), 1);
    /// ```
    fn from(value: u64) -> Self {
        Self(value)
    }
}

impl From<Value> for u64 {
    fn from(value: Value) -> Self {
        value.0
    }
}

impl fmt::Display for Value {
    /// The response and the threshold: `seen, 28.5 dB`, or `not seen, 0.0 dB`. The free bits are not shown.
    fn fmt(&self, f: &mut fmt::Formatter<'_>) -> fmt::Result {
        let seen = if self.is_seen() { "seen" } else { "not seen" };
        let tenths = self.threshold();
        write!(f, "{seen}, {}.{} dB", tenths / 10, tenths % 10)
    }
}
