//! The oracle itself: rkyv and the model give what document 01 says, whose pointers have 32 bits.
#![cfg(not(any(feature = "pointer_width_16", feature = "pointer_width_64")))]

use std::ops::Bound;

use compare::model::{KeyFields, Packing::TwosComplement};
use compare::questions::builds::checksum;
use compare::rkyv_map::{build, by_key, Accepted, Archive};
use compare::{cases, model, rkyv_parts};

/// What rkyv builds of the keys 1 to `count`, each its own value, behind `header` bytes.
fn built(count: u64, header: usize) -> Vec<u8> {
    let keys: Vec<u64> = (1..=count).collect();
    build(&vec![0xff; header], &keys, &keys)
}

fn offset_at(bytes: &[u8], field: usize) -> i32 {
    i32::from_le_bytes(bytes[field..field + 4].try_into().unwrap())
}

#[test]
fn cases_1_and_2() {
    assert_eq!(rkyv_parts::distance(1 << 63, 0), Ok(i64::MIN));
    assert_eq!(rkyv_parts::distance(0, 1 << 63), Err(15));
    assert_eq!(rkyv_parts::offset(0, (1 << 31) - 1), Ok(i32::MAX));
    assert_eq!(rkyv_parts::offset(0, 1 << 31), Err(16));
    assert_eq!(rkyv_parts::offset(0, 1 << 63), Err(15));
}

/// What rkyv stores in fields is what its parts answer.
#[test]
fn stored_offsets() {
    for at in [0, 1, 96, 1 << 31, 1 << 62] {
        assert_eq!(rkyv_parts::emplaced(at, None), rkyv_parts::absent(at));
        for to in [0, 1, 96, 1 << 31, 1 << 62, 1 << 63] {
            let stored = rkyv_parts::emplaced(at, Some(to));
            assert_eq!(stored, rkyv_parts::offset(at, to));
        }
    }
}

#[test]
fn case_3() {
    assert_eq!(rkyv_parts::aligned(5, 8), (8, 3));
    assert_eq!(rkyv_parts::aligned(8, 8), (8, 0));
    assert_eq!(rkyv_parts::aligned(1, 32), (32, 31));
    for (position, alignment) in [(5, 8), (u64::MAX - 31, 32), (u64::MAX, 1)] {
        assert!(model::aligns(position, alignment));
    }
    for (position, alignment) in [(1, 64), (0, 64), (0, 0), (0, 3), (u64::MAX, 2)] {
        assert!(!model::aligns(position, alignment));
    }
}

/// Case *9, and each field past its end.
#[test]
fn case_9() {
    let fields = |examination, eye, presentation| KeyFields {
        examination,
        eye,
        x: -3,
        y: 3,
        presentation,
    };
    let pack = |fields| model::pack(TwosComplement, &fields);
    assert_eq!(pack(fields(1, 0, 2)), Ok(1_642_850_156_546));
    assert_eq!(pack(fields(1 << 24, 0, 2)), Err(18));
    assert_eq!(pack(fields(1, 2, 2)), Err(18));
    assert_eq!(pack(fields(1, 0, 1 << 23)), Err(18));
    let back = model::unpack(TwosComplement, 1_642_850_156_546);
    assert_eq!(back, fields(1, 0, 2));
}

/// rkyv runs on to the last entry where bounds cross; document 01 gives nothing.
#[test]
fn case_4() {
    let archive = Archive::copy(&built(6, 0));
    let crossed = (Bound::Excluded(3), Bound::Excluded(3));
    let range = archive.check().unwrap().map().range_with(crossed, by_key);
    let keys: Vec<u64> = range.map(|(key, _)| key.to_native()).collect();
    assert_eq!(keys, [4, 5, 6]);
    assert!(model::crosses(crossed.0, crossed.1));
    assert!(model::range(archive.bytes(), crossed.0, crossed.1).is_empty());
}

#[test]
fn case_5() {
    assert_eq!(built(0, 0), [1, 0, 0, 0, 0, 0, 0, 0]);
}

#[test]
fn case_6() {
    let archive = build(&[], &[7], &[9]);
    assert_eq!(archive.len(), 104);
    assert_eq!(
        (archive[0], archive[8], archive[48], archive[88]),
        (0, 7, 9, 1)
    );
    assert_eq!(offset_at(&archive, 96), -96);
    let archive = Archive::copy(&archive);
    let accepted = archive.check().unwrap();
    assert_eq!(accepted.get(7), Some((7, 9, 48)));
    assert_eq!(accepted.get(8), None);
}

#[test]
fn case_7() {
    let archive = built(6, 0);
    assert_eq!(archive.len(), 216);
    assert_eq!((archive[0], archive[88], archive[96]), (0, 1, 1));
    let offsets = [184, 188, 192, 196, 200, 204, 208].map(|field| offset_at(&archive, field));
    assert_eq!(offsets, [-184, 1, 1, 1, 1, 1, -112]);
}

#[test]
fn case_8() {
    let archive = built(36, 0);
    assert_eq!(archive.len(), 808);
    assert_eq!(archive[688], 1);
    assert_eq!(offset_at(&archive, 776), -680);
    assert_eq!(offset_at(&archive, 800), 688 - 800);
}

#[test]
fn sizes() {
    assert_eq!(built(5, 0).len(), 104);
    assert_eq!(built(35, 0).len(), 696);
    assert_eq!(built(0, 5).len(), 16);
    assert_eq!(built(1, 5).len(), 112);
}

/// The optician's printouts: on an archive that the check accepts, the walk shows an entry that the lookup does not find.
#[test]
fn walked_but_not_found() {
    let (mut keys, values) = cases::examination(76);
    keys.swap(20, 60);
    let archive = Archive::copy(&build(&[], &keys, &values));
    let accepted = archive.check().unwrap();
    let walked: Vec<u64> = accepted.visit().iter().map(|entry| entry.0).collect();
    assert_eq!(walked, keys);
    assert!(keys.iter().any(|&key| accepted.get(key).is_none()));
    assert_eq!(model::certify(archive.bytes()), Err(9));
}

/// What stands in the two ends of the longest list's archive.
#[test]
fn ends_of_40_000() {
    let archive = Archive::copy(&built(40_000, 0));
    let accepted: Accepted = archive.check().unwrap();
    assert_eq!(accepted.get(0), None);
    assert_eq!(accepted.get(1), Some((1, 1, 48)));
    assert_eq!(accepted.get(40_001), None);
    let last = (Bound::Excluded(39_998), Bound::Unbounded);
    assert_eq!(
        accepted.range(last.0, last.1),
        [(39_999, 39_999), (40_000, 40_000)]
    );
}

/// 10 to 14 of a build, each before the later ones, and what each lets through.
#[test]
fn build_faults() {
    let fault = |keys: &[u64], values: usize, header, output| {
        model::build_fault(keys, &vec![0; values], header, || 104, output)
    };
    let many: Vec<u64> = vec![7; 40_001];
    assert_eq!(fault(&many, 40_000, 4_097, 0), Some(10));
    assert_eq!(fault(&many, 40_001, 4_097, 0), Some(11));
    assert_eq!(fault(&many[1..], 40_000, 4_097, 0), Some(12));
    assert_eq!(fault(&[2, 1], 2, 4_097, 0), Some(12));
    assert_eq!(fault(&[1, 2], 2, 4_097, 0), Some(13));
    assert_eq!(fault(&[1, 2], 2, 4_096, 103), Some(14));
    assert_eq!(fault(&[1, 2], 2, 4_096, 104), None);
}

/// The checksum is the remainder of the bytes as a number, and every byte counts.
#[test]
fn checksums() {
    assert_eq!(checksum(&[]), 0);
    assert_eq!(checksum(&[7]), 7);
    assert_eq!(checksum(&[1, 2]), 1_000_005);
    assert_eq!(checksum(&[1, 0, 0]), 1_000_003_u64.pow(2) % 4_294_967_291);
    let archive = built(36, 0);
    for position in 0..archive.len() {
        let mut other = archive.clone();
        other[position] ^= 1;
        assert_ne!(checksum(&other), checksum(&archive), "byte {position}");
    }
}
