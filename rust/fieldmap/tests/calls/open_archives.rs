//! What the walk shows and what lookups find, in archives that are accepted and not certified.

use crate::by_hand::root_leaf;
use crate::repository;
use fieldmap::{Archive, Certified, Packing, Refusal};

const BEFORE: u64 = 0x5555_5555_5555_5555;

/// Keys and values in the order of the walk.
fn walked(archive: Archive) -> (Vec<u64>, Vec<u64>) {
    let (mut keys, mut values) = (vec![0; archive.len()], vec![0; archive.len()]);
    let walked = archive.walk(&mut keys, &mut values);
    assert_eq!((walked.written, walked.count), (keys.len(), keys.len()));
    (keys, values)
}

/// How many of the walk's entries each form of lookup finds; all forms find the same ones, with the walk's values.
fn found(bytes: &[u8]) -> usize {
    let archive = Archive::check(bytes).unwrap();
    let (keys, values) = walked(archive);
    let mut stored = vec![BEFORE; keys.len()];
    let found = archive.get_many(&keys, &mut stored);
    let many = fieldmap::lookup_many(bytes, &keys, &mut vec![0; keys.len()]);
    assert_eq!(many, Ok(found));
    let mut one_by_one = 0;
    for (index, &key) in keys.iter().enumerate() {
        let entry = archive.get(key);
        assert_eq!(fieldmap::lookup(bytes, key), Ok(entry));
        assert_eq!(archive.contains_key(key), entry.is_some());
        let value = entry.map(|entry| entry.value);
        let part = value.map_or(vec![], |value| value.to_le_bytes().to_vec());
        assert_eq!(archive.get_bytes(key), part);
        assert_eq!(stored[index], value.unwrap_or(BEFORE));
        assert_eq!(value.unwrap_or(values[index]), values[index]);
        one_by_one += usize::from(entry.is_some());
    }
    assert_eq!(one_by_one, found);
    found
}

#[test]
fn lookups_miss_entries_where_keys_are_exchanged() {
    let bytes = repository::bytes("examples/keys-exchanged.fieldmap");
    assert_eq!(fieldmap::check(&bytes), Ok(76));
    assert_eq!(found(&bytes), 72);
    assert_eq!(Certified::certify(&bytes), Err(Refusal::KeysNotAscending));
}

#[test]
fn lookups_find_what_the_walk_shows_on_certified_archives() {
    let bytes = repository::bytes("examples/examination.fieldmap");
    assert_eq!(found(&bytes), 76);
    let certified = Certified::certify(&bytes).unwrap();
    let (keys, values) = walked(certified.archive());
    for (&key, &value) in keys.iter().zip(&values) {
        let entry = certified.get(key).unwrap();
        assert_eq!((entry.key, entry.value), (key, value));
        assert_eq!(certified.get_bytes(key), value.to_le_bytes());
        assert!(certified.contains_key(key));
        assert_eq!(certified.contains_key(key + 1), keys.contains(&(key + 1)));
    }
    let mut stored = vec![BEFORE; keys.len()];
    assert_eq!(certified.get_many(&keys, &mut stored), keys.len());
    assert_eq!(stored, values);
}

#[test]
fn certified_readers_answer_as_the_archive_does() {
    let bytes = repository::bytes("examples/examination.fieldmap");
    let certified = Certified::certify(&bytes).unwrap();
    let archive = Archive::check(&bytes).unwrap();
    assert_eq!(certified.archive(), archive);
    assert_eq!((certified.count(), certified.len()), (76, 76));
    assert_eq!((archive.count(), archive.len()), (76, 76));
    assert!(!certified.is_empty() && !archive.is_empty());
    assert_eq!(certified.bytes(), bytes);
    let (mut keys, mut values) = (vec![0; 80], vec![0; 76]);
    let walked_here = certified.walk(&mut keys, &mut values);
    assert_eq!((walked_here.written, walked_here.count), (76, 76));
    assert_eq!(keys[76..], [0; 4]);
    keys.truncate(76);
    assert_eq!((keys, values), walked(archive));
}

#[test]
fn conversions() {
    let certified = root_leaf(&[1, 2]);
    let open = root_leaf(&[2, 1]);
    let archive = Archive::try_from(&certified[..]).unwrap();
    assert_eq!(archive.as_ref(), certified);
    let passed = Certified::try_from(&certified[..]).unwrap();
    assert_eq!(passed.as_ref(), certified);
    assert_eq!(Certified::try_from(archive), Ok(passed));
    assert_eq!(Archive::from(passed), archive);

    let archive = Archive::try_from(&open[..]).unwrap();
    let refused = Err(Refusal::KeysNotAscending);
    assert_eq!(Certified::try_from(archive), refused);
    assert_eq!(Certified::try_from(&open[..]), refused);
    let refused = Err(Refusal::UnalignedPointer);
    assert_eq!(Archive::try_from(&open[1..]), refused);
}

#[test]
fn lists_of_no_places() {
    let bytes = root_leaf(&[1, 2]);
    let archive = Archive::check(&bytes).unwrap();
    let certified = Certified::certify(&bytes).unwrap();
    let walked = archive.walk(&mut [], &mut []);
    assert_eq!((walked.written, walked.count), (0, 2));
    assert_eq!(archive.get_many(&[], &mut []), 0);
    assert_eq!(archive.get_many(&[1], &mut []), 0);
    let matched = certified.range(.., &mut [], &mut []);
    assert_eq!((matched.written, matched.matching), (0, 2));
    let mut keys = [BEFORE; 2];
    assert_eq!(certified.range(2.., &mut keys, &mut []).matching, 1);
    assert_eq!(keys, [BEFORE; 2]);
    for packing in [Packing::TwosComplement, Packing::Plus128] {
        let matched = certified.column(packing, 0, 0, .., &mut [], &mut []);
        assert_eq!(matched.map(|matched| matched.matching), Ok(2));
        assert_eq!(matched.map(|matched| matched.written), Ok(0));
    }
    assert_eq!(
        fieldmap::build(&mut [], 0, &[], &[]),
        Err(Refusal::OutputTooShort)
    );
    assert_eq!(fieldmap::check(&[]), Err(Refusal::InvalidSubtreePointer));
}
