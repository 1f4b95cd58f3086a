//! The keys of generated archives, and keys and bounds to ask of them.

use std::ops::Bound;

use super::Random;

/// How the keys of a tree follow each other in the order of a walk.
#[derive(Clone, Copy)]
pub enum Style {
    Ascending,
    /// Ascending but for a rare step back.
    Slipping,
    /// Ascending with equal neighbours.
    Repeating,
    /// A few small numbers, in no order.
    Small,
    /// Any numbers.
    Any,
}

pub struct Keys {
    style: Style,
    step: u64,
    last: Option<u64>,
}

impl Keys {
    pub fn new(style: Style, random: &mut Random) -> Self {
        // Five thousand of the largest steps stay below 2^64.
        let step = random.pick(&[1, 2, 10, 1 << 20, 1 << 50]);
        let last = None;
        Self { style, step, last }
    }

    pub fn next(&mut self, random: &mut Random) -> u64 {
        let key = match (self.style, self.last) {
            (Style::Small, _) => random.number() % 12,
            (Style::Any, _) => random.number(),
            (_, None) => random.number() % self.step,
            (Style::Slipping, Some(last)) if random.one_in(12) => last / 2,
            (Style::Repeating, Some(last)) if random.one_in(6) => last,
            (_, Some(last)) => last + 1 + random.number() % self.step,
        };
        self.last = Some(key);
        key
    }
}

/// Keys to look up in an archive with these keys: its own, their neighbours, and any others.
pub fn sought(keys: &[u64], number: usize, random: &mut Random) -> Vec<u64> {
    (0..number).map(|_| near(keys, random)).collect()
}

fn near(keys: &[u64], random: &mut Random) -> u64 {
    if keys.is_empty() || random.one_in(8) {
        let any = random.number();
        random.pick(&[0, 1, u64::MAX, any])
    } else {
        random
            .pick(keys)
            .wrapping_add(random.pick(&[0, 0, 0, 1, u64::MAX]))
    }
}

/// Two bounds to ask an archive with these keys for; once in a while they cross.
pub fn bounds(keys: &[u64], random: &mut Random) -> (Bound<u64>, Bound<u64>) {
    let (lower, upper) = ends(keys, random);
    (bound(lower, random), bound(upper, random))
}

/// The keys of two such bounds.
fn ends(keys: &[u64], random: &mut Random) -> (u64, u64) {
    let (mut lower, mut upper) = (near(keys, random), near(keys, random));
    if lower > upper && !random.one_in(4) {
        (lower, upper) = (upper, lower);
    }
    if random.one_in(6) {
        upper = lower;
    }
    (lower, upper)
}

fn bound(key: u64, random: &mut Random) -> Bound<u64> {
    match random.below(7) {
        0..=2 => Bound::Included(key),
        3..=5 => Bound::Excluded(key),
        _ => Bound::Unbounded,
    }
}
