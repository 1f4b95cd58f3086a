//! The two packings of keys: the model gives what documents 01 and 02 say, and with the feature `ours` the static library gives the same.

use std::ops::Bound::Included;

use compare::model::{self, Column, KeyFields, Packing, PACKINGS};
#[cfg(feature = "ours")]
use compare::ours;
use compare::rkyv_map::{build, Archive};
use compare::trees::Random;
use Packing::{Plus128, TwosComplement};

fn fields(x: i8, y: i8) -> KeyFields {
    KeyFields {
        examination: 5,
        eye: 1,
        x,
        y,
        presentation: 9,
    }
}

/// Every a with every b.
fn pairs() -> impl Iterator<Item = (i8, i8)> {
    (i8::MIN..=i8::MAX).flat_map(|a| (i8::MIN..=i8::MAX).map(move |b| (a, b)))
}

#[test]
fn every_x_and_y() {
    for (x, y) in pairs() {
        let given = fields(x, y);
        let [old, new] = PACKINGS.map(|packing| model::pack(packing, &given).unwrap());
        assert_eq!(old ^ new, 1 << 38 | 1 << 30, "{x} and {y}");
        assert_eq!((new >> 31 & 0xff) as i16, i16::from(x) + 128);
        assert_eq!((new >> 23 & 0xff) as i16, i16::from(y) + 128);
        for (packing, key) in PACKINGS.into_iter().zip([old, new]) {
            assert_eq!(model::unpack(packing, key), given);
            #[cfg(feature = "ours")]
            assert_eq!(ours::pack(packing, &given), Ok(key));
        }
    }
}

#[test]
fn any_key() {
    let mut random = Random::new(0);
    let ends = (0..64).flat_map(|bit| [1 << bit, !(1 << bit), (1 << bit) - 1]);
    let any = (0..10_000).map(|_| random.number());
    for key in ends.chain(any).chain([0, u64::MAX]) {
        for packing in PACKINGS {
            let fields = model::unpack(packing, key);
            assert_eq!(model::pack(packing, &fields), Ok(key));
            #[cfg(feature = "ours")]
            assert_eq!(ours::unpack(packing, key), fields);
        }
    }
}

/// "A span from x = −3 to 3 comes back empty"; "answers exactly the entries of that examination and eye with x from a to b".
#[test]
fn a_span_across_the_middle() {
    let all = [-9, -3, 0, 3, 9];
    for (packing, expected) in [(TwosComplement, 0), (Plus128, 3)] {
        let mut keys = all.map(|x| model::pack(packing, &fields(x, 0)).unwrap());
        keys.sort_unstable();
        let archive = Archive::copy(&build(&[], &keys, &keys));
        let column = Column {
            packing,
            examination: 5,
            eye: 1,
            a: -3,
            b: 3,
        };
        let (lower, upper) = model::column(column).unwrap();
        assert_eq!(model::crosses(lower, upper), expected == 0);
        let matching = model::range(archive.bytes(), lower, upper).len();
        assert_eq!(matching, expected);
        #[cfg(feature = "ours")]
        {
            let matched = ours::column(archive.bytes(), column, &mut [], &mut []);
            assert_eq!(matched, Ok((0, expected as u64)));
        }
    }
}

/// A column query takes every y and presentation of its columns, and those only.
#[test]
fn bounds_of_columns() {
    const LAST: u32 = (1 << 23) - 1;
    // The y whose bits are all 0, and the one whose bits are all 1.
    for (packing, first, last) in [(TwosComplement, 0, -1), (Plus128, -128, 127)] {
        let column = |examination, eye, a, b| {
            model::column(Column {
                packing,
                examination,
                eye,
                a,
                b,
            })
        };
        let key = |x, y, presentation| {
            let fields = KeyFields {
                presentation,
                ..fields(x, y)
            };
            model::pack(packing, &fields).unwrap()
        };
        let bounds = (Included(key(3, first, 0)), Included(key(9, last, LAST)));
        assert_eq!(column(5, 1, 3, 9), Ok(bounds));
        assert_eq!(key(10, first, 0) - key(9, last, LAST), 1);
        assert_eq!(column(1 << 24, 1, 3, 9), Err(18));
        assert_eq!(column(5, 2, 3, 9), Err(18));
    }
}

/// The bounds of a query hold exactly the keys that its fields choose: the first and the last key of every column, and their neighbours.
#[test]
fn bounds_and_fields() {
    let of_eye = 5 << 40 | 1 << 39;
    let columns = (0..256).flat_map(|bits| [bits << 31, bits << 31 | 0x7fff_ffff]);
    let ends = columns.map(|place| of_eye | place);
    let mut keys: Vec<u64> = ends.collect();
    keys.extend([of_eye - 1, of_eye + (1 << 39)]);
    keys.sort_unstable();
    let archive = Archive::copy(&build(&[], &keys, &keys));
    let accepted = archive.check().unwrap();
    for packing in PACKINGS {
        for (a, b) in pairs().step_by(7) {
            let column = Column {
                packing,
                examination: 5,
                eye: 1,
                a,
                b,
            };
            let (lower, upper) = model::column(column).unwrap();
            let chosen = keys.iter().filter(|&&key| model::in_column(column, key));
            let expected: Vec<(u64, u64)> = chosen.map(|&key| (key, key)).collect();
            match model::crosses(lower, upper) {
                true => assert_eq!(expected, [], "{column:?}"),
                false => assert_eq!(accepted.range(lower, upper), expected, "{column:?}"),
            }
        }
    }
}
