//! The bits of a value, by the static library, as document 01 gives them.
#![cfg(feature = "ours")]

use compare::trees::Random;
use compare::{model, ours};

#[test]
fn bits_of_values() {
    let mut random = Random::new(0);
    let ends = (0..64).flat_map(|bit| [1 << bit, !(1 << bit), (1 << bit) - 1]);
    let any = (0..10_000).map(|_| random.number());
    for value in ends.chain(any).chain([0, u64::MAX]) {
        assert_eq!(ours::seen(value), model::seen(value), "{value}");
        assert_eq!(ours::threshold(value), model::threshold(value), "{value}");
    }
}
