//! The parts at their ends: alignments, positions and offsets, and key packing.

use std::io::sink;
use std::mem::MaybeUninit;

use compare::model::{KeyFields, PACKINGS};
use compare::rkyv_parts::emplaced;
use rkyv::rancor::BoxedError;
use rkyv::rel_ptr::RawRelPtrI32;
use rkyv::ser::writer::IoWriter;
use rkyv::ser::WriterExt;
use rkyv::Place;

use crate::{here, unless_panic, DEBUG};

const LARGEST: u64 = u64::MAX;

/// Where rkyv's own writer stands after an alignment step, or nothing where it panics.
fn aligned(position: u64, alignment: u64) -> Option<u64> {
    let mut writer = IoWriter::with_pos(sink(), position as usize);
    let step = || WriterExt::<BoxedError>::align(&mut writer, alignment as usize).unwrap();
    unless_panic(step).map(|next| next as u64)
}

/// An answer that only a release build gives; a debug build panics.
fn in_release<T>(answer: T) -> Option<T> {
    (!DEBUG).then_some(answer)
}

/// A debug build panics at every position. A release build answers 0 at 0 and wraps to 0 from 2^64 - 32 on; between them it panics.
#[test]
fn alignment_0() {
    for position in [0, LARGEST - 31, LARGEST] {
        assert_eq!(aligned(position, 0), in_release(0));
        assert_eq!(here::align(position, 0), Err(17));
    }
    for position in [1, 1 << 63, LARGEST - 32] {
        assert_eq!(aligned(position, 0), None);
        assert_eq!(here::align(position, 0), Err(17));
    }
}

/// A debug build panics at every position. A release build answers positions that the alignment does not divide, or panics.
#[test]
fn alignments_that_are_no_power_of_two() {
    for (alignment, at_0, at_1) in [
        (3, Some(2), Some(3)),
        (5, Some(4), Some(5)),
        (6, Some(4), Some(6)),
        (7, Some(6), Some(7)),
        (12, Some(8), Some(12)),
        (24, Some(16), Some(24)),
        (33, Some(32), Some(33)),
        (48, Some(32), None),
        (65, None, None),
        (LARGEST, None, None),
    ] {
        for (position, next) in [(0, at_0), (1, at_1)] {
            assert_eq!(aligned(position, alignment), next.and_then(in_release));
            assert_eq!(here::align(position, alignment), Err(17));
        }
    }
}

/// Every build answers where no zeros are needed or at most 31, and panics where it takes more than 32. With 32 zeros a debug build panics.
/// The first position that panics is 1.
#[test]
fn alignments_from_64_on() {
    for alignment in [64, 128, 256, 4_096, 1 << 62, 1 << 63] {
        for (position, next) in [
            (0, Some(0)),
            (1, None),
            (alignment - 33, None),
            (alignment - 32, in_release(alignment)),
            (alignment - 31, Some(alignment)),
            (alignment - 1, Some(alignment)),
            (alignment, Some(alignment)),
            (alignment + 1, None),
        ] {
            assert_eq!(aligned(position, alignment), next);
            assert_eq!(here::align(position, alignment), Err(17));
        }
    }
    for position in 0..64 {
        let panics = (1..32).contains(&position) || DEBUG && position == 32;
        assert_eq!(aligned(position, 64).is_none(), panics);
    }
}

/// The sum of position and zeros is the writer's: rkyv's own wraps in a release build and panics in a debug build.
#[test]
fn padded_past_the_largest_position() {
    for (position, alignment) in [(LARGEST, 2), (LARGEST - 1, 4), (LARGEST - 30, 32)] {
        assert_eq!(aligned(position, alignment), in_release(0));
        assert_eq!(here::align(position, alignment), Err(17));
    }
    assert_eq!(aligned(LARGEST - 31, 32), Some(LARGEST - 31));
    assert_eq!(here::align(LARGEST - 31, 32), Ok((LARGEST - 31, 0)));
}

/// A debug build panics on the sum of the largest position and 1; a release build wraps, and the distance does not fit.
#[test]
fn absent_at_the_largest_position() {
    let stored = unless_panic(|| emplaced(LARGEST, None));
    assert_eq!(stored, in_release(Err(15)));
    assert_eq!(here::absent(LARGEST), Err(15));
}

/// A debug build panics wherever a field's end is past the largest position, absent mark or not; a release build stores the offset.
#[test]
fn field_past_the_largest_position() {
    for at in [LARGEST - 3, LARGEST - 2, LARGEST - 1] {
        let stored = unless_panic(|| emplaced(at, None));
        assert_eq!(stored, in_release(Ok(1)));
        assert_eq!(here::absent(at), Ok(1));
    }
    for at in [LARGEST - 3, LARGEST] {
        let stored = unless_panic(|| emplaced(at, Some(at - 8)));
        assert_eq!(stored, in_release(Ok(-8)));
        assert_eq!(here::offset(at, at - 8), Ok(-8));
    }
    assert_eq!(emplaced(LARGEST - 4, None), Ok(1));
}

/// `emplace`, which the builder calls, panics where `try_emplace` gives an error.
#[test]
fn emplaced_too_far() {
    let emplace = |to: u64| {
        let mut field = MaybeUninit::<RawRelPtrI32>::zeroed();
        // SAFETY: the pointer is to a local of the right type, all of whose bytes are set.
        let place = unsafe { Place::new_unchecked(0, field.as_mut_ptr()) };
        unless_panic(|| RawRelPtrI32::emplace(to as usize, place))
    };
    for (to, refusal) in [(1 << 31, 16), (1 << 63, 15)] {
        assert!(emplace(to).is_none());
        assert_eq!(emplaced(0, Some(to)), Err(refusal));
        assert_eq!(here::offset(0, to), Err(refusal));
    }
    assert!(emplace((1 << 31) - 1).is_some());
}

/// rkyv has no key packing; each field at its end and past it, by both packings.
#[test]
fn key_packing() {
    let last = (1 << 24) - 1;
    // Where x and y are 0, their fields are 0 or 128.
    for (packing, degrees) in PACKINGS.into_iter().zip([0, 128 << 31 | 128 << 23]) {
        let key = |examination, eye, presentation| {
            let fields = KeyFields {
                examination,
                eye,
                x: 0,
                y: 0,
                presentation,
            };
            here::pack(packing, &fields)
        };
        assert_eq!(key(last, 0, 0), Ok(u64::from(last) << 40 | degrees));
        assert_eq!(key(last + 1, 0, 0), Err(18));
        assert_eq!(key(0, 2, 0), Err(18));
        assert_eq!(key(0, 0, 1 << 23), Err(18));
    }
}
