//! Column queries of keys whose x and y stand plus 128: any range gives the points whose x is in it, from left to right.

use std::ops::Bound::{Excluded, Included, Unbounded};
use std::ops::RangeBounds;

use super::{archive, chosen_by, column_by, points};
use fieldmap::Packing::{Plus128, TwosComplement};
use fieldmap::{Certified, Key};

use crate::repository;

fn column(bytes: &[u8], x: impl RangeBounds<i8>) -> Vec<u64> {
    column_by(Plus128, bytes, x)
}

fn chosen(keys: &[u64], choose: impl Fn(i8) -> bool) -> Vec<u64> {
    chosen_by(Plus128, keys, choose)
}

#[test]
fn ends_on_every_side_of_0() {
    let keys = points(Plus128);
    let bytes = archive(&keys);
    for a in [-128, -127, -3, -2, -1, 0, 1, 2, 3, 126, 127] {
        for b in [-128, -127, -3, -2, -1, 0, 1, 2, 3, 126, 127] {
            let expected = chosen(&keys, |x| a <= x && x <= b);
            assert_eq!(column(&bytes, a..=b), expected, "{a} to {b}");
        }
    }
}

#[test]
fn columns_come_from_left_to_right() {
    let bytes = archive(&points(Plus128));
    let across: Vec<Key> = column(&bytes, -2..=2)
        .into_iter()
        .map(|key| Key::unpack(key, Plus128))
        .collect();
    let places: Vec<(i8, i8)> = across.iter().map(|key| (key.x, key.y)).collect();
    let expected: Vec<(i8, i8)> = (-2..=2)
        .flat_map(|x| (-1..=1).map(move |y| (x, y)))
        .collect();
    assert_eq!(places, expected);
}

/// The example's points, packed anew: a query across 0 gives what takes two of the old keys.
#[test]
fn the_examination_across_0() {
    let bytes = repository::bytes("examples/examination.fieldmap");
    let old = Certified::certify(&bytes).unwrap();
    let (mut keys, mut values) = ([0; 76], [0; 76]);
    assert_eq!(old.walk(&mut keys, &mut values).written, 76);
    let mut keys = keys.map(|key| Key::unpack(key, TwosComplement).pack(Plus128).unwrap());
    keys.sort_unstable();
    let bytes = archive(&keys);
    let new = Certified::certify(&bytes).unwrap();
    let matching = |x: (i8, i8)| {
        let matched = new.column(Plus128, 1, Key::RIGHT, x.0..=x.1, &mut [], &mut []);
        matched.unwrap().matching
    };
    let of_old = |x: (i8, i8)| {
        let matched = old.column(TwosComplement, 1, Key::RIGHT, x.0..=x.1, &mut [], &mut []);
        matched.unwrap().matching
    };
    assert_eq!((matching((-3, 3)), of_old((-3, 3))), (20, 0));
    assert_eq!((matching((-27, 27)), matching((-128, 127))), (76, 76));
    for a in -28..0 {
        for b in 0..28 {
            assert_eq!(
                matching((a, b)),
                of_old((a, -1)) + of_old((0, b)),
                "{a} to {b}"
            );
            assert_eq!(matching((b, a)), 0);
        }
    }
}

#[test]
fn ends_excluded_and_open() {
    let keys = points(Plus128);
    let bytes = archive(&keys);
    assert_eq!(
        column(&bytes, -1..2),
        chosen(&keys, |x| (-1..2).contains(&x))
    );
    assert_eq!(column(&bytes, -2..0), chosen(&keys, |x| x == -2 || x == -1));
    assert_eq!(column(&bytes, -2..), chosen(&keys, |x| x >= -2));
    assert_eq!(column(&bytes, 1..), chosen(&keys, |x| x >= 1));
    assert_eq!(column(&bytes, ..1), chosen(&keys, |x| x < 1));
    assert_eq!(column(&bytes, ..=-2), chosen(&keys, |x| x <= -2));
    assert_eq!(column(&bytes, ..=127), chosen(&keys, |_| true));
    assert_eq!(column(&bytes, -128..), chosen(&keys, |_| true));
    assert_eq!(column(&bytes, ..), chosen(&keys, |_| true));
    for a in [-128, -2, -1, 0, 1, 126, 127] {
        let above = (Excluded(a), Unbounded);
        assert_eq!(column(&bytes, above), chosen(&keys, |x| x > a), "above {a}");
        assert_eq!(column(&bytes, ..a), chosen(&keys, |x| x < a), "below {a}");
        for b in [-128, -1, 0, 2, 127] {
            let between = (Excluded(a), Excluded(b));
            let expected = chosen(&keys, |x| a < x && x < b);
            assert_eq!(column(&bytes, between), expected, "between {a} and {b}");
            let up_to = (Excluded(a), Included(b));
            let expected = chosen(&keys, |x| a < x && x <= b);
            assert_eq!(column(&bytes, up_to), expected, "above {a} up to {b}");
        }
    }
}

#[test]
fn ranges_without_an_x() {
    let bytes = archive(&points(Plus128));
    for x in [-128, -2, -1, 0, 1, 127] {
        assert_eq!(column(&bytes, x..x), []);
        let mut exhausted = x..=x;
        assert_eq!(exhausted.next(), Some(x));
        assert_eq!(column(&bytes, exhausted), []);
        assert_eq!(column(&bytes, (Excluded(x), Included(x))), []);
        assert_eq!(column(&bytes, (Excluded(x), Excluded(x))), []);
    }
    for (a, b) in [
        (2, 1),
        (2, 0),
        (2, -1),
        (0, -1),
        (0, -2),
        (-1, -2),
        (127, -128),
    ] {
        assert_eq!(column(&bytes, a..b), []);
        let mut crossed = a..=b;
        assert_eq!(column(&bytes, crossed.clone()), []);
        assert_eq!(crossed.next(), None);
        assert_eq!(column(&bytes, crossed), []);
    }
    assert_eq!(column(&bytes, (Excluded(-1), Excluded(0))), []);
    assert_eq!(column(&bytes, (Excluded(127), Unbounded)), []);
    assert_eq!(column(&bytes, (Unbounded, Excluded(-128))), []);
}
