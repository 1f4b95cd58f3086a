//! Ranges of keys and column queries.

use std::ops::Bound;

use super::keys::{key, unpack, Packing};
use super::layout::{Layout, OWN};
use super::Entry;

/// "they cross if the lower is above the upper, or both are equal and excluded"
pub fn crosses(lower: Bound<u64>, upper: Bound<u64>) -> bool {
    use Bound::{Excluded, Included};
    match (lower, upper) {
        (Excluded(lower), Excluded(upper)) => lower >= upper,
        (Included(lower) | Excluded(lower), Included(upper) | Excluded(upper)) => lower > upper,
        _ => false,
    }
}

impl Layout {
    /// The entries of an accepted archive that meet both bounds, in order.
    pub fn range(self, bytes: &[u8], lower: Bound<u64>, upper: Bound<u64>) -> Vec<Entry> {
        let meets_lower = |key: u64| match lower {
            Bound::Included(bound) => key >= bound,
            Bound::Excluded(bound) => key > bound,
            Bound::Unbounded => true,
        };
        let meets_upper = |key: u64| match upper {
            Bound::Included(bound) => key <= bound,
            Bound::Excluded(bound) => key < bound,
            Bound::Unbounded => true,
        };
        let mut entries = self.list(bytes);
        entries.retain(|entry| meets_lower(entry.key) && meets_upper(entry.key));
        entries
    }
}

/// The entries of an accepted archive of rkyv's layout here that meet both bounds, in order.
pub fn range(bytes: &[u8], lower: Bound<u64>, upper: Bound<u64>) -> Vec<Entry> {
    OWN.range(bytes, lower, upper)
}

/// A column query: "takes x from a to b".
#[derive(Clone, Copy, Debug)]
pub struct Column {
    pub packing: Packing,
    pub examination: u32,
    pub eye: u8,
    pub a: i8,
    pub b: i8,
}

/// "the range of keys from (a, y bits zero, presentation 0) to (b, y bits all ones, largest presentation), both included", or 18.
pub fn column(column: Column) -> Result<(Bound<u64>, Bound<u64>), u8> {
    let (examination, eye) = (column.examination, column.eye);
    let [a, b] = [column.a, column.b].map(|x| column.packing.stored(x));
    let lower = key(examination, eye, a, 0, 0)?;
    let upper = key(examination, eye, b, 0xff, (1 << 23) - 1)?;
    Ok((Bound::Included(lower), Bound::Included(upper)))
}

/// Whether a key belongs to a column query, by its fields and not by the query's bounds. On new keys: "exactly the entries of that examination
/// and eye with x from a to b, and none if a is above b". On old keys x counts by its bits, "because two's complement puts −3 above 3".
pub fn in_column(column: Column, key: u64) -> bool {
    let fields = unpack(column.packing, key);
    let of_eye = (fields.examination, fields.eye) == (column.examination, column.eye);
    let (a, x, b) = (column.a, fields.x, column.b);
    of_eye
        && match column.packing {
            Packing::TwosComplement => a as u8 <= x as u8 && x as u8 <= b as u8,
            Packing::Plus128 => a <= x && x <= b,
        }
}
