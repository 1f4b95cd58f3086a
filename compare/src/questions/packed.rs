//! Archives of packed keys, by each packing, and column queries of them by the same.

use std::ops::Bound;

use super::asked::Case;
use crate::model::{self, Column, KeyFields, Packing, OWN, PACKINGS, SERVER};
use crate::rkyv_map;

/// The ends of x and y, and the two sides of 0.
const ENDS: [i8; 4] = [-128, -1, 0, 127];
/// The largest presentation.
const LAST: u32 = (1 << 23) - 1;

pub fn all() -> Vec<Case> {
    let examinations = PACKINGS.map(examinations);
    let ends = PACKINGS.map(ends);
    examinations.into_iter().chain(ends).collect()
}

/// Points of three examinations, and column queries of them: of one column and of several, over the sign, crossed, and refused.
fn examinations(packing: Packing) -> Case {
    let mut points = Vec::new();
    for examination in [0, 1, (1 << 24) - 1] {
        for (eye, x) in [(0, -27), (0, -3), (0, 3), (0, 9), (1, -9), (1, 0), (1, 27)] {
            for (y, presentation) in [(-3, 0), (3, 0), (3, 2), (21, LAST)] {
                points.push(KeyFields {
                    examination,
                    eye,
                    x,
                    y,
                    presentation,
                });
            }
        }
    }
    let named = [
        (-27, -3),
        (3, 9),
        (0, 127),
        (3, -3),
        (-3, 3),
        (0, 0),
        (3, 3),
        (-128, 127),
    ];
    let mut columns = Vec::new();
    for examination in [0, 1, 2, (1 << 24) - 1, 1 << 24] {
        for eye in [0, 1, 2] {
            columns.extend(queries(packing, examination, eye, named));
        }
    }
    columns.extend(
        [0, 1]
            .into_iter()
            .flat_map(|eye| queries(packing, 1, eye, pairs())),
    );
    case(packing, points, columns)
}

/// Points at every end of x and y in both eyes of an examination, beside those of the examinations before and after it, and columns between all
/// ends.
fn ends(packing: Packing) -> Case {
    let mut points = Vec::new();
    for (examination, eye, presentations) in [
        (0, 1, &[LAST][..]),
        (1, 0, &[0, LAST]),
        (1, 1, &[0, LAST]),
        (2, 0, &[0]),
    ] {
        for x in ENDS {
            for y in ENDS {
                points.extend(presentations.iter().map(|&presentation| KeyFields {
                    examination,
                    eye,
                    x,
                    y,
                    presentation,
                }));
            }
        }
    }
    let columns = [0, 1]
        .into_iter()
        .flat_map(|eye| queries(packing, 1, eye, pairs()));
    case(packing, points, columns.collect())
}

/// Every a with every b.
fn pairs() -> impl Iterator<Item = (i8, i8)> {
    ENDS.into_iter().flat_map(|a| ENDS.map(|b| (a, b)))
}

/// The queries of an eye between these ends.
fn queries(
    packing: Packing,
    examination: u32,
    eye: u8,
    ends: impl IntoIterator<Item = (i8, i8)>,
) -> impl Iterator<Item = Column> {
    ends.into_iter().map(move |(a, b)| Column {
        packing,
        examination,
        eye,
        a,
        b,
    })
}

/// The archive of these points, with these queries.
fn case(packing: Packing, points: Vec<KeyFields>, columns: Vec<Column>) -> Case {
    let packed = points.iter().map(|fields| model::pack(packing, fields));
    let mut keys: Vec<u64> = packed.map(|key| key.expect("fields that fit")).collect();
    keys.sort_unstable();
    let values: Vec<u64> = (0..keys.len() as u64)
        .map(|index| 1 << 63 | index << 53)
        .collect();
    Case {
        entries: OWN.entries,
        limits: SERVER,
        archive: rkyv_map::build(&[], &keys, &values),
        keys: vec![keys[0], keys[40]],
        ranges: vec![(Bound::Included(keys[3]), Bound::Excluded(keys[60]))],
        columns,
    }
}
