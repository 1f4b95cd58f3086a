//! Reading what was built, and what is accepted or certified.

use std::ops::Bound::{self, Excluded, Included, Unbounded};
use std::ops::RangeBounds;

use crate::by_hand::{root_leaf, Output};
use crate::given::{built, BEFORE};
use fieldmap::{Archive, Certified, Matched, Refusal, Walked};

#[test]
fn keys_that_do_not_ascend() {
    let archive = root_leaf(&[3, 1, 2]);
    assert_eq!(fieldmap::check(&archive), Ok(3));
    let mut keys = [BEFORE; 3];
    let mut values = [BEFORE; 4];
    let walked = Walked {
        written: 3,
        count: 3,
    };
    assert_eq!(fieldmap::walk(&archive, &mut keys, &mut values), Ok(walked));
    assert_eq!((keys, values), ([3, 1, 2], [30, 10, 20, BEFORE]));
    // The lookup stops at the first key above.
    assert_eq!(fieldmap::lookup(&archive, 1), Ok(None));
    assert_eq!(fieldmap::certify(&archive), Err(Refusal::KeysNotAscending));
}

#[test]
fn ranges() {
    let archive = built(100);
    let list = |bounds| {
        let (mut keys, mut values) = ([BEFORE; 100], [BEFORE; 100]);
        let answer = fieldmap::range(&archive, bounds, &mut keys, &mut values).unwrap();
        assert_eq!(answer.written, answer.matching);
        assert!(keys[answer.written..].iter().all(|&key| key == BEFORE));
        assert!((0..answer.written).all(|index| values[index] == 10 * keys[index]));
        keys[..answer.written].to_vec()
    };
    let numbers = |from, to| (from..=to).collect::<Vec<u64>>();
    assert_eq!(list((Unbounded, Unbounded)), numbers(1, 100));
    assert_eq!(list((Included(3), Included(5))), numbers(3, 5));
    assert_eq!(list((Excluded(3), Included(5))), numbers(4, 5));
    assert_eq!(list((Included(3), Excluded(5))), numbers(3, 4));
    assert_eq!(list((Excluded(99), Unbounded)), numbers(100, 100));
    assert_eq!(list((Unbounded, Excluded(2))), numbers(1, 1));

    let (mut keys, mut values) = ([BEFORE; 4], [BEFORE; 2]);
    let matched = Matched {
        written: 2,
        matching: 91,
    };
    let answer = fieldmap::range(&archive, 10.., &mut keys, &mut values);
    assert_eq!(answer, Ok(matched));
    assert_eq!(keys, [10, 11, BEFORE, BEFORE]);
    assert_eq!(values, [100, 110]);
}

/// Each pair of bounds at the least and the largest keys matches the keys that the standard library says it contains.
#[test]
fn ranges_at_the_least_and_the_largest_keys() {
    let most = u64::MAX;
    let ends = [0, 1, 2, 3, most - 3, most - 2, most - 1, most];
    let mut out = [0; 400];
    let end = fieldmap::build(&mut out, 0, &ends, &ends).unwrap();
    let kinds = |&key: &u64| [Included(key), Excluded(key)];
    let mut bounds: Vec<Bound<u64>> = ends.iter().flat_map(kinds).collect();
    bounds.push(Unbounded);
    for &lower in &bounds {
        for &upper in &bounds {
            let both = (lower, upper);
            let contained: Vec<u64> = ends.into_iter().filter(|key| both.contains(key)).collect();
            let (mut keys, mut values) = ([BEFORE; 8], [BEFORE; 8]);
            let answer = fieldmap::range(&out[..end], both, &mut keys, &mut values).unwrap();
            assert_eq!(
                (answer.written, answer.matching),
                (contained.len(), contained.len())
            );
            assert_eq!(keys[..answer.written], contained, "{both:?}");
        }
    }
}

#[test]
fn many_lookups() {
    let archive = built(50);
    let mut values = [BEFORE; 4];
    let answer = fieldmap::lookup_many(&archive, &[50, 0, 7], &mut values);
    assert_eq!(answer, Ok(2));
    assert_eq!(values, [500, BEFORE, 70, BEFORE]);
    let answer = fieldmap::lookup_many(&archive, &[1, 2, 3, 4, 5], &mut values);
    assert_eq!(answer, Ok(4));
    assert_eq!(values, [10, 20, 30, 40]);
}

#[test]
fn round_trips() {
    for count in [0, 1, 4, 5, 6, 35, 36, 215, 216, 1_295, 1_296, 40_000] {
        let keys: Vec<u64> = (0..count).map(|index| 3 * index + index % 2).collect();
        let values: Vec<u64> = keys.iter().map(|key| !key).collect();
        for header in [0, 3, 4_096] {
            let mut out = vec![0x33; header + 24 * count as usize + 200];
            let end = fieldmap::build(&mut out, header, &keys, &values).unwrap();
            assert!(out[..header].iter().all(|&byte| byte == 0x33));
            assert!(out[end..].iter().all(|&byte| byte == 0x33));
            let certified = Certified::certify(&out[..end]).unwrap();
            let archive = certified.archive();
            assert_eq!(archive.count(), keys.len());
            let (mut found, mut theirs) = (vec![0; keys.len()], vec![0; keys.len()]);
            let walked = archive.walk(&mut found, &mut theirs);
            assert_eq!((walked.written, walked.count), (keys.len(), keys.len()));
            assert_eq!((&found, &theirs), (&keys, &values));
            let matched = certified.range(.., &mut found, &mut theirs);
            assert_eq!(matched.matching, keys.len());
            for (&key, &value) in keys.iter().zip(&values).step_by(1 + keys.len() / 50) {
                let entry = archive.get(key).unwrap();
                assert_eq!((entry.key, entry.value), (key, value));
                assert_eq!(archive.get_bytes(key), value.to_le_bytes());
                assert_eq!(archive.bytes()[entry.position..][..8], value.to_le_bytes());
            }
        }
    }
}

#[test]
fn passed_archives() {
    let open = root_leaf(&[2, 1]);
    let archive = Archive::check(&open).unwrap();
    assert_eq!(archive.certify().err(), Some(Refusal::KeysNotAscending));
    let mut output = Output::default();
    let root = output.leaf(6, &[]);
    let bytes = output.record(root, 6);
    assert_eq!(Archive::check(&bytes).err(), Some(Refusal::InvalidLength));
}
