//! Column queries, against a filter of what was built: here of keys in two's complement.

mod every_pair;
mod plus_128;

use std::ops::Bound::{Excluded, Included, Unbounded};
use std::ops::RangeBounds;

use crate::given::BEFORE;
use crate::repository;
use fieldmap::Packing::TwosComplement;
use fieldmap::{Certified, Key, Packing, Refusal};

/// Points of two eyes at x from -2 to 2 and y from -1 to 1, and at the ends of x.
fn points(packing: Packing) -> Vec<u64> {
    let mut keys = Vec::new();
    for eye in [Key::RIGHT, Key::LEFT] {
        for x in [-128, -2, -1, 0, 1, 2, 127] {
            for y in -1..=1 {
                let key = Key {
                    examination: 9,
                    eye,
                    x,
                    y,
                    presentation: 4,
                };
                keys.push(key.pack(packing).unwrap());
            }
        }
    }
    keys.sort_unstable();
    keys
}

fn archive_of(keys: &[u64], values: &[u64]) -> Vec<u8> {
    let mut bytes = vec![0; fieldmap::build_length(keys.len(), 0).unwrap()];
    let end = fieldmap::build(&mut bytes, 0, keys, values).unwrap();
    assert_eq!(end, bytes.len());
    bytes
}

/// The archive of these keys, each its own value.
fn archive(keys: &[u64]) -> Vec<u8> {
    archive_of(keys, keys)
}

/// The keys that a column query of the right eye of examination 9 gives.
fn column_by(packing: Packing, bytes: &[u8], x: impl RangeBounds<i8>) -> Vec<u64> {
    let (mut keys, mut values) = ([BEFORE; 60], [BEFORE; 60]);
    let certified = Certified::certify(bytes).unwrap();
    let matched = certified.column(packing, 9, Key::RIGHT, x, &mut keys, &mut values);
    let written = matched.unwrap().written;
    assert_eq!(matched.unwrap().matching, written);
    assert_eq!(keys, values);
    assert!(keys[written..].iter().all(|&key| key == BEFORE));
    keys[..written].to_vec()
}

/// The keys of the right eye whose x is chosen, in the order of the archive.
fn chosen_by(packing: Packing, keys: &[u64], choose: impl Fn(i8) -> bool) -> Vec<u64> {
    let right = |key: &Key| key.eye == Key::RIGHT && choose(key.x);
    let chosen = keys
        .iter()
        .filter(|&&key| right(&Key::unpack(key, packing)));
    chosen.copied().collect()
}

/// How many points match in a range with an x, and in one without.
fn answers_by(
    packing: Packing,
    bytes: &[u8],
    examination: u32,
    eye: u8,
) -> [Result<usize, Refusal>; 2] {
    [(Included(0), Included(1)), (Included(3), Excluded(3))].map(|x| {
        let answer = fieldmap::column(bytes, packing, examination, eye, x, &mut [], &mut []);
        answer.map(|matched| matched.matching)
    })
}

fn column(bytes: &[u8], x: impl RangeBounds<i8>) -> Vec<u64> {
    column_by(TwosComplement, bytes, x)
}

fn chosen(keys: &[u64], choose: impl Fn(i8) -> bool) -> Vec<u64> {
    chosen_by(TwosComplement, keys, choose)
}

#[test]
fn ends_on_every_side_of_0() {
    let keys = points(TwosComplement);
    let bytes = archive(&keys);
    for a in [-128, -127, -3, -2, -1, 0, 1, 2, 3, 126, 127] {
        for b in [-128, -127, -3, -2, -1, 0, 1, 2, 3, 126, 127] {
            let expected = match (a < 0, b < 0) {
                (true, false) => vec![],
                (false, true) => chosen(&keys, |x| x >= a || x <= b),
                _ => chosen(&keys, |x| a <= x && x <= b),
            };
            assert_eq!(column(&bytes, a..=b), expected, "{a} to {b}");
            if a < 0 && b >= 0 {
                let (below, above) = (column(&bytes, a..=-1), column(&bytes, 0..=b));
                let both = [above, below].concat();
                assert_eq!(both, chosen(&keys, |x| a <= x && x <= b), "{a} to {b}");
            }
        }
    }
}

#[test]
fn the_examination_across_0() {
    let bytes = repository::bytes("examples/examination.fieldmap");
    let certified = Certified::certify(&bytes).unwrap();
    let matching = |x: (i8, i8)| {
        let x = x.0..=x.1;
        let matched = certified.column(TwosComplement, 1, Key::RIGHT, x, &mut [], &mut []);
        matched.unwrap().matching
    };
    assert_eq!(matching((-27, 27)), 0);
    assert_eq!(matching((0, -1)), 76);
    assert_eq!(matching((-27, -1)) + matching((0, 27)), 76);
}

#[test]
fn ends_excluded_and_open() {
    let keys = points(TwosComplement);
    let bytes = archive(&keys);
    assert_eq!(column(&bytes, 0..2), chosen(&keys, |x| x == 0 || x == 1));
    assert_eq!(column(&bytes, -2..0), chosen(&keys, |x| x == -2 || x == -1));
    assert_eq!(column(&bytes, 1..), chosen(&keys, |x| x >= 1));
    assert_eq!(column(&bytes, ..0), chosen(&keys, |x| x < 0));
    assert_eq!(column(&bytes, ..=-2), chosen(&keys, |x| x <= -2));
    let excluded = (Excluded(0), Included(2));
    assert_eq!(
        column(&bytes, excluded),
        chosen(&keys, |x| x == 1 || x == 2)
    );
    let excluded = (Excluded(-1), Unbounded);
    assert_eq!(column(&bytes, excluded), chosen(&keys, |x| x >= 0));
    assert_eq!(column(&bytes, ..), chosen(&keys, |_| true));
    // From below 0 to 0 or above.
    assert_eq!(column(&bytes, -2..), []);
    assert_eq!(column(&bytes, ..1), []);
}

#[test]
fn ranges_without_an_x() {
    let keys = points(TwosComplement);
    let bytes = archive(&keys);
    for x in [-128, -2, -1, 0, 1, 127] {
        assert_eq!(column(&bytes, x..x), []);
        let mut exhausted = x..=x;
        assert_eq!(exhausted.next(), Some(x));
        assert_eq!(column(&bytes, exhausted), []);
        assert_eq!(column(&bytes, (Excluded(x), Included(x))), []);
        assert_eq!(column(&bytes, (Excluded(x), Excluded(x))), []);
    }
    for (a, b) in [(2, 1), (2, 0), (2, -1), (0, -2), (-1, -2)] {
        assert_eq!(column(&bytes, a..b), []);
    }
    assert_eq!(column(&bytes, (Excluded(-1), Excluded(0))), []);
    assert_eq!(column(&bytes, (Excluded(127), Unbounded)), []);
    assert_eq!(column(&bytes, (Unbounded, Excluded(-128))), []);
}

/// A range from a down to b below 0 holds no x and cannot be iterated, but is a column that runs around.
#[test]
fn inclusive_ranges_that_run_around() {
    let keys = points(TwosComplement);
    let bytes = archive(&keys);
    for (a, b) in [(0, -1), (1, -2), (127, -128)] {
        let wanted = chosen(&keys, |x| x >= a || x <= b);
        assert_eq!(column(&bytes, a..=b), wanted);
        let mut iterated = a..=b;
        assert_eq!(iterated.next(), None);
        assert_eq!(column(&bytes, iterated), wanted);
    }
}

#[test]
fn refused_whatever_the_range() {
    for packing in [TwosComplement, Packing::Plus128] {
        let bytes = archive(&points(packing));
        let query = |bytes, examination, eye| answers_by(packing, bytes, examination, eye);
        assert_eq!(query(&bytes, 9, Key::LEFT), [Ok(6), Ok(0)]);
        assert_eq!(query(&bytes, 8, Key::LEFT), [Ok(0), Ok(0)]);
        let refused = Err(Refusal::KeyFieldOverflow);
        assert_eq!(query(&bytes, 1 << 24, Key::LEFT), [refused, refused]);
        assert_eq!(query(&bytes, 9, 2), [refused, refused]);
        let refused = Err(Refusal::UnalignedPointer);
        assert_eq!(query(&bytes[1..], 9, 2), [refused, refused]);
    }
}
