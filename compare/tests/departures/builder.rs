//! What a builder is given: lists, iterators, headers, outputs, working memory, and the count of the record.

use compare::rkyv_map::{build, write, Archive};
use rkyv::rancor::BoxedError;
use rkyv::ser::allocator::{Arena, SubAllocator};
use rkyv::ser::writer::{Buffer, IoWriter};
use rkyv::ser::Allocator;
use rkyv::util::AlignedVec;

use crate::{here, unless_panic, DEBUG};

/// Whether rkyv's error carries this name.
fn is(error: &BoxedError, name: &str) -> bool {
    format!("{error:?}").contains(name)
}

/// rkyv's check of what it has built.
fn check(archive: &[u8]) -> Result<u32, u8> {
    let archive = Archive::copy(archive);
    let accepted = archive.check()?;
    Ok(accepted.count())
}

/// rkyv takes pairs, so that where keys and values are zipped the longer list's end is lost.
#[test]
fn lists_of_different_lengths() {
    let mut output = AlignedVec::<8>::new();
    let pairs = [1, 2].iter().zip(&[10]);
    write(&mut output, Arena::new().acquire(), pairs, 1).unwrap();
    assert_eq!(output.as_slice(), build(&[], &[1], &[10]));
    assert_eq!(here::build_refusal(104, 0, &[1, 2], &[10]), Some(10));
}

/// An iterator that gives the first of its keys, each its own value, and says that they are another number.
struct Miscounting {
    keys: std::slice::Iter<'static, u64>,
    length: usize,
}

impl Iterator for Miscounting {
    type Item = (&'static u64, &'static u64);

    fn next(&mut self) -> Option<Self::Item> {
        self.keys.next().map(|key| (key, key))
    }

    fn size_hint(&self) -> (usize, Option<usize>) {
        (self.length, Some(self.length))
    }
}

impl ExactSizeIterator for Miscounting {}

/// rkyv's build of the first `given` keys by an iterator that says that they are `length`, or nothing where it panics.
fn miscounted(length: usize, given: usize) -> Option<Result<Vec<u8>, BoxedError>> {
    const KEYS: [u64; 5] = [1, 2, 3, 4, 5];
    let keys = KEYS[..given].iter();
    unless_panic(|| {
        let mut output = AlignedVec::<8>::new();
        let pairs = Miscounting { keys, length };
        write(&mut output, Arena::new().acquire(), pairs, length)?;
        Ok(output.into_vec())
    })
}

/// rkyv relies on the length that an iterator states. Where it is wrong, rkyv refuses, panics, loses entries, or writes what its own check
/// refuses; a list's length is never wrong.
#[test]
fn iterators_that_miscount() {
    let error = miscounted(0, 1).unwrap().unwrap_err();
    assert!(is(&error, "IteratorLengthMismatch"));
    assert!(miscounted(1, 0).is_none());
    let lost = Archive::copy(&miscounted(1, 2).unwrap().unwrap());
    assert_eq!(lost.check().unwrap().visit(), [(2, 2)]);
    let short = miscounted(2, 1).unwrap().unwrap();
    assert_eq!(check(&short), Err(7));
    let unfilled = miscounted(6, 5).map(|built| check(&built.unwrap()));
    assert_eq!(unfilled, if DEBUG { None } else { Some(Err(2)) });
    assert_eq!(here::build_refusal(104, 0, &[1, 2], &[1, 2]), None);
}

/// rkyv builds of any number of entries.
#[test]
fn more_entries() {
    let keys: Vec<u64> = (0..40_001).collect();
    let archive = build(&[], &keys, &keys);
    assert_eq!(check(&archive), Ok(40_001));
    let refusal = here::build_refusal(archive.len(), 0, &keys, &keys);
    assert_eq!(refusal, Some(11));
    let refusal = here::build_refusal(archive.len(), 0, &keys[1..], &keys[1..]);
    assert_eq!(refusal, None);
}

/// rkyv compares no keys.
#[test]
fn keys_that_do_not_ascend() {
    for keys in [[1, 1], [2, 1]] {
        let archive = build(&[], &keys, &keys);
        assert_eq!(check(&archive), Ok(2));
        assert_eq!(here::certify(&archive), Err(9));
        assert_eq!(here::build_refusal(104, 0, &keys, &keys), Some(12));
    }
}

/// rkyv writes behind a header of any length.
#[test]
fn longer_headers() {
    let archive = build(&[0xff; 4_097], &[], &[]);
    assert_eq!(archive.len(), 4_108);
    assert_eq!(check(&archive), Ok(0));
    assert_eq!(here::build_refusal(4_108, 4_097, &[], &[]), Some(13));
    assert_eq!(here::build_refusal(4_108, 4_096, &[], &[]), None);
}

/// rkyv keeps the root's position in 32 bits: where the root stands at 2^32, the record would lead to 0, and rkyv panics.
#[test]
fn root_past_32_bits() {
    let written = |header| {
        let mut output = IoWriter::with_pos(Vec::new(), header);
        let pairs = [7].iter().zip(&[9]);
        unless_panic(|| write(&mut output, Arena::new().acquire(), pairs, 1).unwrap())?;
        Some(output.into_inner())
    };
    let limit = 1 << 32;
    let archive = written(limit - 8).unwrap();
    assert_eq!(archive, build(&[], &[7], &[9]));
    assert!(written(limit - 7).is_none());
    let refusal = here::build_refusal(0, limit as u64 - 7, &[7], &[9]);
    assert_eq!(refusal, Some(13));
}

/// rkyv finds an output too short after it has written to it.
#[test]
fn short_output() {
    let mut output = [0xff; 96];
    let pairs = [7].iter().zip(&[9]);
    let buffer = Buffer::from(&mut output);
    let error = write(buffer, Arena::new().acquire(), pairs, 1).unwrap_err();
    assert!(is(&error, "BufferOverflow"));
    assert_eq!(output[..], build(&[], &[7], &[9])[..96]);
    assert_eq!(here::build_refusal(96, 0, &[7], &[9]), Some(14));
}

/// rkyv keeps open inner nodes in working memory that the caller gives, from six entries on.
#[test]
fn working_memory() {
    fn built(memory: impl Allocator<BoxedError>, keys: &[u64]) -> Result<Vec<u8>, BoxedError> {
        let mut output = AlignedVec::<8>::new();
        write(&mut output, memory, keys.iter().zip(keys), keys.len())?;
        Ok(output.into_vec())
    }
    let keys = [1, 2, 3, 4, 5, 6];
    assert!(built(SubAllocator::empty(), &keys[..5]).is_ok());
    let error = built(SubAllocator::empty(), &keys).unwrap_err();
    assert!(is(&error, "OutOfSpaceError"));
    assert!(built(Arena::new().acquire(), &keys).is_ok());
    assert_eq!(here::build_refusal(216, 0, &keys, &keys), None);
}

/// rkyv records the count that `resolve_from_len` is given, its lowest 32 bits, whatever the number of entries; here the two are one.
#[test]
fn recorded_counts() {
    for (count, checked) in [(0, Ok(0)), (1, Ok(1)), (2, Err(7)), (1 << 32, Ok(0))] {
        let mut output = AlignedVec::<8>::new();
        let pairs = [7].iter().zip(&[9]);
        write(&mut output, Arena::new().acquire(), pairs, count).unwrap();
        assert_eq!(output[100..], (count as u32).to_le_bytes());
        assert_eq!(check(&output), checked);
    }
    assert_eq!(here::build_refusal(104, 0, &[7], &[9]), None);
}
