//! The calls of the feature `alloc`, against each other and against the calls that write into lists.

use std::collections::BTreeMap;
use std::ops::Bound::{Excluded, Included};

use crate::by_hand::root_leaf;
use crate::given::{Sizes, LAYOUTS};
use fieldmap::{archive_of, archive_of_at, Archive, Certified, Limits, Refusal, Width};

/// A map of so many entries.
fn map(count: u64) -> BTreeMap<u64, u64> {
    (0..count).map(|index| (7 * index, !index)).collect()
}

#[test]
fn maps_come_back() {
    for count in [0, 1, 5, 6, 36, 216, 40_000] {
        let map = map(count);
        let bytes = archive_of(&map).unwrap();
        assert_eq!(Ok(bytes.len()), fieldmap::build_length(map.len(), 0));
        let certified = Certified::certify(&bytes).unwrap();
        assert_eq!(certified.to_map(), map);
        let entries: Vec<(u64, u64)> = map.into_iter().collect();
        assert_eq!(certified.entries(), entries);
        assert_eq!(certified.archive().entries(), entries);
        assert_eq!(certified.entries_in(..), entries);
    }
}

#[test]
fn maps_come_back_by_each_layout() {
    for Sizes { layout, .. } in LAYOUTS {
        for count in [0, 1, 5, 6, 36, 216, 2_000] {
            let map = map(count);
            let bytes = archive_of_at(layout, &map).unwrap();
            let length = fieldmap::build_length_at(layout, map.len(), 0);
            assert_eq!(Ok(bytes.len()), length);
            let certified = Certified::certify_at(layout, Limits::SERVER, &bytes).unwrap();
            assert_eq!(certified.to_map(), map);
            let entries: Vec<(u64, u64)> = map.into_iter().collect();
            assert_eq!(certified.archive().entries(), entries);
            assert_eq!(certified.entries_in(..), entries);
        }
    }
}

#[test]
fn too_large_a_map() {
    assert_eq!(archive_of(&map(40_001)), Err(Refusal::TooManyEntries));
    for Sizes { layout, .. } in LAYOUTS {
        let answer = archive_of_at(layout, &map(40_001));
        assert_eq!(answer, Err(Refusal::TooManyEntries));
    }
    let answer = archive_of_at(Width::Bits16.into(), &map(2_971));
    assert_eq!(answer, Err(Refusal::OffsetOverflow));
}

#[test]
fn bytes_are_those_of_build() {
    let map = map(100);
    let keys: Vec<u64> = map.keys().copied().collect();
    let values: Vec<u64> = map.values().copied().collect();
    let mut out = vec![0; 5_000];
    let end = fieldmap::build(&mut out, 0, &keys, &values).unwrap();
    assert_eq!(archive_of(&map).unwrap(), out[..end]);
}

#[test]
fn entries_in_ranges() {
    let map = map(50);
    let bytes = archive_of(&map).unwrap();
    let certified = Certified::certify(&bytes).unwrap();
    let ranges = [
        (Included(0), Included(u64::MAX)),
        (Included(7), Excluded(70)),
        (Excluded(7), Included(70)),
        (Excluded(7), Excluded(14)),
        (Included(8), Included(13)),
    ];
    for range in ranges {
        let theirs: Vec<(u64, u64)> = map.range(range).map(|(&k, &v)| (k, v)).collect();
        assert_eq!(certified.entries_in(range), theirs, "{range:?}");
    }
}

#[test]
fn ranges_without_a_key() {
    let bytes = archive_of(&map(50)).unwrap();
    let certified = Certified::certify(&bytes).unwrap();
    let mut exhausted = 7..=7;
    assert_eq!(exhausted.next(), Some(7));
    assert_eq!(certified.entries_in(exhausted), []);
    assert_eq!(certified.entries_in(7..7), []);
    assert_eq!(certified.entries_in(0..0), []);
    assert_eq!(certified.entries_in((Included(14), Included(7))), []);
}

#[test]
fn entries_of_an_open_archive() {
    let bytes = root_leaf(&[3, 1, 3]);
    let archive = Archive::check(&bytes).unwrap();
    assert_eq!(archive.entries(), [(3, 30), (1, 10), (3, 30)]);
    assert_eq!(archive.certify().err(), Some(Refusal::KeysNotAscending));
}
