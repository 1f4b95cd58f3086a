//! Lists that are lent to a call, and what a call leaves in them.

use crate::trees::Random;

/// What a place of a lent list holds before a call.
pub const BEFORE: u64 = 0x5555_5555_5555_5555;

/// Two lent lists, of keys and of values, whose lengths differ as a rule.
pub fn lent(entries: &[(u64, u64)], random: &mut Random) -> (Vec<u64>, Vec<u64>) {
    let mut list = || vec![BEFORE; room(entries, random)];
    (list(), list())
}

/// The number of entries written to lent lists, and the lists after it: the shorter decides, and later places keep
/// their content.
pub fn written(
    entries: &[(u64, u64)],
    keys: &[u64],
    values: &[u64],
) -> (u32, (Vec<u64>, Vec<u64>)) {
    let written = entries.len().min(keys.len()).min(values.len());
    let (mut keys, mut values) = (keys.to_vec(), values.to_vec());
    for (index, &(key, value)) in entries.iter().take(written).enumerate() {
        (keys[index], values[index]) = (key, value);
    }
    (written as u32, (keys, values))
}

/// A length for a lent list: too short, right, or longer than the entries need.
fn room(entries: &[(u64, u64)], random: &mut Random) -> usize {
    random.below(2 * entries.len() + 3)
}
