//! Column queries by every pair of ends, against a filter of the fields from which the keys were made.

use super::archive_of;
use crate::given::BEFORE;
use fieldmap::{Key, Packing};

/// The largest presentation.
const LAST: u32 = (1 << 23) - 1;

/// The examination that is asked for, between two others.
const ASKED: u32 = 9;

/// Where a point was made, its key, and its value.
struct Point {
    fields: Key,
    key: u64,
    value: u64,
}

/// The ends of the columns of an archive: at every x of each of four eyes that follow each other in the order of keys, the first key or the last
/// that a column can have, of the asked ones both; and at a few x every y and presentation at an end.
fn ends(packing: Packing) -> Vec<Key> {
    let (first, last) = match packing {
        Packing::TwosComplement => ((0, 0), (-1, LAST)),
        Packing::Plus128 => ((-128, 0), (127, LAST)),
    };
    let many = [-128, -1, 0, 127].map(|y| [(y, 0), (y, LAST)]).concat();
    let eyes = [
        (ASKED - 1, Key::LEFT, vec![last]),
        (ASKED, Key::RIGHT, vec![first, last]),
        (ASKED, Key::LEFT, vec![first, last]),
        (ASKED + 1, Key::RIGHT, vec![first]),
    ];
    let mut ends = Vec::new();
    for (examination, eye, few) in &eyes {
        for x in i8::MIN..=i8::MAX {
            let several = [-128, -1, 0, 127].contains(&x);
            for &(y, presentation) in if several { &many } else { few } {
                ends.push(Key {
                    examination: *examination,
                    eye: *eye,
                    x,
                    y,
                    presentation,
                });
            }
        }
    }
    ends
}

/// The points in the order of their keys, the values in the order in which they are made.
fn points(packing: Packing) -> Vec<Point> {
    let numbered = ends(packing).into_iter().zip(1..);
    let mut points: Vec<Point> = numbered
        .map(|(fields, value)| Point {
            fields,
            key: fields.pack(packing).unwrap(),
            value,
        })
        .collect();
    points.sort_unstable_by_key(|point| point.key);
    points
}

/// Asks for both eyes by every pair of ends. `chosen` says of x, a and b whether a point at x belongs to the columns from a to b.
fn ask(packing: Packing, chosen: impl Fn(i8, i8, i8) -> bool) {
    let points = points(packing);
    let (given_keys, given_values): (Vec<u64>, Vec<u64>) =
        points.iter().map(|point| (point.key, point.value)).unzip();
    let bytes = archive_of(&given_keys, &given_values);
    // The right eye's lists take all that matches, the left eye's do not.
    for (eye, room) in [(Key::RIGHT, [points.len(); 2]), (Key::LEFT, [200, 90])] {
        let of_eye = |point: &&Point| (point.fields.examination, point.fields.eye) == (ASKED, eye);
        let asked: Vec<&Point> = points.iter().filter(of_eye).collect();
        let before = room.map(|room| vec![BEFORE; room]);
        let [mut keys, mut values] = before.clone();
        for (a, b) in pairs() {
            let answer =
                fieldmap::column(&bytes, packing, ASKED, eye, a..=b, &mut keys, &mut values);
            let answer = answer.unwrap();
            let expected = asked.iter().filter(|point| chosen(point.fields.x, a, b));
            let (all_keys, all_values): (Vec<u64>, Vec<u64>) =
                expected.map(|point| (point.key, point.value)).unzip();
            let written = all_keys.len().min(room[0]).min(room[1]);
            assert_eq!(answer.matching, all_keys.len(), "{a} to {b}");
            assert_eq!(answer.written, written, "{a} to {b}");
            assert_eq!(keys[..written], all_keys[..written], "{a} to {b}");
            assert_eq!(values[..written], all_values[..written], "{a} to {b}");
            assert!(keys[written..] == before[0][written..], "{a} to {b}");
            assert!(values[written..] == before[1][written..], "{a} to {b}");
            keys[..written].copy_from_slice(&before[0][..written]);
            values[..written].copy_from_slice(&before[1][..written]);
        }
    }
}

/// Every a with every b.
fn pairs() -> impl Iterator<Item = (i8, i8)> {
    (i8::MIN..=i8::MAX).flat_map(|a| (i8::MIN..=i8::MAX).map(move |b| (a, b)))
}

#[test]
fn every_pair_of_columns() {
    ask(Packing::Plus128, |x, a, b| a <= x && x <= b);
}

#[test]
fn every_pair_of_columns_in_twos_complement() {
    ask(Packing::TwosComplement, |x, a, b| match (a < 0, b < 0) {
        (true, false) => false,
        (false, true) => x >= a || x <= b,
        _ => a <= x && x <= b,
    });
}

/// What the two tests are asked of: 256 columns of an eye, the first key of each next to the last of the one before.
#[test]
fn columns_without_a_gap() {
    for packing in [Packing::TwosComplement, Packing::Plus128] {
        let points = points(packing);
        assert_eq!(points.len(), 4 * 4 * 8 + 252 * (1 + 2 + 2 + 1));
        assert!(points.windows(2).all(|pair| pair[0].key < pair[1].key));
        let next = |pair: &&[Point]| pair[0].key + 1 == pair[1].key;
        assert!(points.windows(2).filter(next).count() >= 2 * 256);
    }
}
