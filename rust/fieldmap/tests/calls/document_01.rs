//! The starred cases of document 01, by their numbers, and the bounds of what it accepts.

use std::ops::Bound::{Excluded, Included, Unbounded};

use crate::by_hand::{nested_at, root_leaf};
use crate::given::{built, Sizes, BEFORE, LAYOUTS};
use fieldmap::Packing::TwosComplement;
use fieldmap::{Aligned, Entry, Key, Limits, Matched, Refusal};

fn i32_at(bytes: &[u8], position: usize) -> i32 {
    i32::from_le_bytes(bytes[position..position + 4].try_into().unwrap())
}

#[test]
fn case_1_signed_offsets() {
    assert_eq!(fieldmap::signed_offset(1 << 63, 0), Ok(i64::MIN));
    assert_eq!(
        fieldmap::signed_offset(0, 1 << 63),
        Err(Refusal::IsizeOverflow)
    );
    assert_eq!(fieldmap::signed_offset(0, (1 << 63) - 1), Ok(i64::MAX));
    assert_eq!(fieldmap::signed_offset(7, 7), Ok(0));
    assert_eq!(fieldmap::signed_offset(9, 7), Ok(-2));
}

#[test]
fn case_2_offsets_of_32_bits() {
    assert_eq!(fieldmap::offset32(0, (1 << 31) - 1), Ok(i32::MAX));
    assert_eq!(fieldmap::offset32(0, 1 << 31), Err(Refusal::OffsetOverflow));
    assert_eq!(fieldmap::offset32(1 << 31, 0), Ok(i32::MIN));
    assert_eq!(
        fieldmap::offset32((1 << 31) + 1, 0),
        Err(Refusal::OffsetOverflow)
    );
    // 15 comes before 16.
    assert_eq!(fieldmap::offset32(0, 1 << 63), Err(Refusal::IsizeOverflow));
}

#[test]
fn absent_offsets() {
    assert_eq!(fieldmap::absent_offset(0), Ok(1));
    assert_eq!(fieldmap::absent_offset(u64::MAX - 1), Ok(1));
    assert_eq!(
        fieldmap::absent_offset(u64::MAX),
        Err(Refusal::IsizeOverflow)
    );
}

#[test]
fn case_3_alignment() {
    let aligned = |next, zeros| Ok(Aligned { next, zeros });
    assert_eq!(fieldmap::align(5, 8), aligned(8, 3));
    assert_eq!(fieldmap::align(8, 8), aligned(8, 0));
    assert_eq!(fieldmap::align(1, 32), aligned(32, 31));
    assert_eq!(fieldmap::align(u64::MAX, 1), aligned(u64::MAX, 0));
    for alignment in [64, 0, 3, 5, u64::MAX] {
        let refused = Err(Refusal::InvalidAlignment);
        assert_eq!(fieldmap::align(1, alignment), refused, "{alignment}");
    }
    assert_eq!(fieldmap::align(u64::MAX, 2), Err(Refusal::InvalidAlignment));
}

#[test]
fn case_4_crossed_range() {
    let archive = built(6);
    let (mut keys, mut values) = ([BEFORE; 6], [BEFORE; 6]);
    let nothing = Ok(Matched {
        written: 0,
        matching: 0,
    });
    for bounds in [
        (Excluded(3), Excluded(3)),
        (Included(4), Included(3)),
        (Excluded(u64::MAX), Unbounded),
    ] {
        let answer = fieldmap::range(&archive, bounds, &mut keys, &mut values);
        assert_eq!(answer, nothing, "{bounds:?}");
        assert_eq!((keys, values), ([BEFORE; 6], [BEFORE; 6]));
    }
}

#[test]
fn case_5_no_entries() {
    let mut out = [0xaa; 9];
    assert_eq!(fieldmap::build(&mut out, 0, &[], &[]), Ok(8));
    assert_eq!(out, [1, 0, 0, 0, 0, 0, 0, 0, 0xaa]);
    assert_eq!(fieldmap::certify(&out[..8]), Ok(0));
}

#[test]
fn case_6_one_entry() {
    let mut out = [0xaa; 104];
    assert_eq!(fieldmap::build(&mut out, 0, &[7], &[9]), Ok(104));
    assert_eq!(i32_at(&out, 96), -96);
    let entry = Entry {
        key: 7,
        value: 9,
        position: 48,
    };
    assert_eq!(fieldmap::lookup(&out, 7), Ok(Some(entry)));
    assert_eq!(out[48..56], 9_u64.to_le_bytes());
    assert_eq!(fieldmap::lookup_bytes(&out, 7), &out[48..56]);
    assert_eq!(fieldmap::lookup_bytes(&out, 7).as_ptr(), out[48..].as_ptr());
}

#[test]
fn case_7_six_entries() {
    let archive = built(6);
    assert_eq!(archive.len(), 216);
    assert_eq!((archive[0], archive[96]), (0, 1));
    assert_eq!(i32_at(&archive, 88), 1, "the leaf's count");
    assert_eq!(i32_at(&archive, 184), -184);
    for field in [188, 192, 196, 200, 204] {
        assert_eq!(i32_at(&archive, field), 1);
    }
    assert_eq!(i32_at(&archive, 208), -112);
}

#[test]
fn case_8_thirty_six_entries() {
    let archive = built(36);
    assert_eq!(archive.len(), 808);
    assert_eq!(archive[688], 1);
    assert_eq!(i32_at(&archive, 776), -680);
}

#[test]
fn lengths() {
    assert_eq!(built(5).len(), 104);
    assert_eq!(built(35).len(), 696);
    let mut out = [0xaa; 112];
    assert_eq!(fieldmap::build(&mut out, 5, &[], &[]), Ok(16));
    assert_eq!(out[..8], [0xaa, 0xaa, 0xaa, 0xaa, 0xaa, 0, 0, 0]);
    assert_eq!(fieldmap::build(&mut out, 5, &[1], &[2]), Ok(112));
    assert_eq!(fieldmap::certify(&out), Ok(1));
}

#[test]
fn case_9_packing() {
    let key = Key {
        examination: 1,
        eye: Key::RIGHT,
        x: -3,
        y: 3,
        presentation: 2,
    };
    assert_eq!(key.pack(TwosComplement), Ok(1_642_850_156_546));
    assert_eq!(Key::unpack(1_642_850_156_546, TwosComplement), key);
    for number in [0, 1, u64::MAX, 1 << 39, 0x0123_4567_89ab_cdef] {
        let fields = Key::unpack(number, TwosComplement);
        assert_eq!(fields.pack(TwosComplement), Ok(number));
    }
}

#[test]
fn count_of_0() {
    for root in [1_u32, 0, 0xffff_ffff] {
        let mut archive = root.to_le_bytes().to_vec();
        archive.extend([0; 4]);
        assert_eq!(fieldmap::check(&archive), Ok(0));
        assert_eq!(fieldmap::certify(&archive), Ok(0));
        assert_eq!(fieldmap::lookup(&archive, 0), Ok(None));
        assert!(fieldmap::lookup_bytes(&archive, 0).is_empty());
    }
}

#[test]
fn leaf_counts() {
    for count in 0..=5 {
        let archive = root_leaf(&[1, 2, 3, 4, 5][..count]);
        // A recorded count of 0 is accepted without a look at the root.
        assert_eq!(fieldmap::check(&archive), Ok(count));
    }
}

#[test]
fn depth() {
    for Sizes { layout, .. } in LAYOUTS {
        let archive = nested_at(layout, 14);
        let count = 13 * layout.entries() + 1;
        assert_eq!(
            fieldmap::check_at(layout, Limits::SERVER, &archive),
            Ok(count)
        );
        assert_eq!(
            fieldmap::certify_at(layout, Limits::SERVER, &archive),
            Ok(count)
        );
    }
}
