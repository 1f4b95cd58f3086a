//! Lists to build archives of.

use crate::trees::Random;

/// As many ascending keys and values: gaps of any size, in every other list the largest key and in every third the smallest; of eight values
/// one is the smallest and one the largest.
pub fn entries(number: usize, random: &mut Random) -> (Vec<u64>, Vec<u64>) {
    let widest = u64::MAX / (number as u64 + 1);
    let mut below = 0;
    let mut keys: Vec<u64> = (0..number)
        .map(|_| {
            let key = below + random.number() % widest;
            below = key + 1;
            key
        })
        .collect();
    if number.is_multiple_of(2) {
        if let Some(last) = keys.last_mut() {
            *last = u64::MAX;
        }
    }
    if number.is_multiple_of(3) {
        if let Some(first) = keys.first_mut().filter(|_| number > 1) {
            *first = 0;
        }
    }
    let mut value = || match random.below(8) {
        0 => 0,
        1 => u64::MAX,
        _ => random.number(),
    };
    let values = (0..number).map(|_| value()).collect();
    (keys, values)
}
